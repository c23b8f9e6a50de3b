/* The station picker for C.
 *
 * Link crates/panel/out/libpanel.a, which `rt lib` makes in crates/panel. Nothing is kept between calls, nothing is allocated,
 * and a call may run on any thread. Leave it 512 KB of stack:
 * picker_pick and picker_ask take less than 240 KB, picker_bind less than 160 KB, the others less than 80 KB (measured, not
 * proved).
 *
 * A slice is a pointer and then its length in bytes. The pointer is not NULL, also where the length is 0, and the bytes are
 * the caller's: inputs are only read, and no output may overlap another slice of the call.
 */
#ifndef PICKER_H
#define PICKER_H

#include <stddef.h>
#include <stdint.h>

#ifdef __cplusplus
extern "C" {
#endif

/* The most that is ever written: a book of 105 pages of 256 bytes; the lines of 512 stations and one closing line. */
#define PICKER_MOST_BOOK 26880
#define PICKER_MOST_PRINT 32768

/* What every call replies. The code is 0 where nothing is refused, and else one of these:
 *
 *   1  the text is longer than 65,536 bytes
 *   2  a line has the wrong number of fields, or a field is misspelled   line from 1; field from 1, or 0
 *   3  a number is out of range                                          line; field
 *   4  more than 1,152 stations                                          line
 *   5  a station number occurs twice                                     index of the second, from 0
 *   6  an output is too short; or a station stands behind a question
 *   7  a book's length is not a multiple of 256 from 256 to 65,536
 *   8  a page's header breaks the layout                                 page; 255
 *   9  a page's level is not one less than its namer's                   page; 255
 *  10  an entry names a page that it may not                             page; entry from 0
 *  11  a low of a box is above its high                                  page; entry
 *  12  a station number is 0 or occurred earlier                         page; entry
 *  13  an entry is not inside the box of its page                        page; entry
 *  14  k is not from 1 to 8
 *  15  a region's low is above its high
 *  18  the search came to a dead page                                    page
 *  19  more than 1,024 entries would wait                                page
 *  20  a 513th station would be listed                                   station number
 *
 * A place that the table does not name is 0.
 */
typedef struct picker_reply {
    uint32_t code;
    uint32_t first;  /* the first place of a refusal */
    uint32_t second; /* its second place */
    size_t length;   /* see each call */
} picker_reply;

/* Checks a log. length: how many stations it has; 0 where it is refused. */
picker_reply picker_check_log(const uint8_t *log, size_t log_length);

/* Checks a stored book. length: how many pages it has; 0 where it is refused. */
picker_reply picker_check_book(const uint8_t *book, size_t book_length);

/* Writes the stored book of a log's stations. length: the bytes of the book; bytes behind it keep their contents.
 * Where the log is refused, or the buffer is too short (6), length is 0 and the buffer is as it was. */
picker_reply picker_bind(const uint8_t *log, size_t log_length, uint8_t *book, size_t book_length);

/* Prints the answer to a log's question over the log's stations: a line for each station, and then `done,PAGES`.
 * length: the bytes printed; bytes behind them keep their contents.
 * Where the log is refused (1 to 5, 14, 15) or the search is halted (19, 20), the last line is `refused,CODE,PLACE,PLACE`,
 * the same as the reply's, and length counts it. Where the buffer is too short (6), length is 0 and the buffer is as it was. */
picker_reply picker_pick(const uint8_t *log, size_t log_length, uint8_t *print, size_t print_length);

/* Prints the answer to a question, the first line of a log, over a stored book; the rest as picker_pick.
 * The question is looked at first (1 to 6, 14, 15), then the book (7 to 13); then the search may be halted (18, 19, 20).
 * A 6 with a length other than 0 is a station behind the question, and is printed; with the length 0 the buffer is too short. */
picker_reply picker_ask(const uint8_t *book, size_t book_length, const uint8_t *question, size_t question_length,
                        uint8_t *print, size_t print_length);

#ifdef __cplusplus
}
#endif

#endif
