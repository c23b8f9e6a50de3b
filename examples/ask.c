/* Asks a question of a stored book: ask BOOK QUESTION
 *
 * Build it in the repository's root folder:
 *     (cd crates/panel && rt lib)
 *     mkdir -p target && cc -O2 -Iinclude examples/ask.c crates/panel/out/libpanel.a -o target/ask
 * and run it on the book that bind writes:
 *     (cd crates/bind && rt run < ../../examples/well.log > ../../target/well.book)
 *     target/ask target/well.book S,2,0,0,0,0,30000,65535,65535,65535,4,1,2,1
 */
#include <picker.h>
#include <stdio.h>
#include <string.h>

/* One byte more than the longest book and the longest question have, so that a longer one is seen to be longer. */
static uint8_t book[65537], question[65538], print[PICKER_MOST_PRINT];

int main(int argc, char **argv) {
    FILE *file = argc == 3 ? fopen(argv[1], "rb") : NULL;
    if (file == NULL) {
        fprintf(stderr, "ask BOOK QUESTION: a book's file and the line of a question\n");
        return 1;
    }
    size_t book_length = fread(book, 1, sizeof book, file);
    fclose(file);
    /* the line's end is not on the command line */
    size_t question_length = strnlen(argv[2], sizeof question - 1);
    memcpy(question, argv[2], question_length);
    question[question_length++] = '\n';
    picker_reply reply = picker_ask(book, book_length, question, question_length, print, sizeof print);
    fwrite(print, 1, reply.length, stdout);
    return reply.code != 0;
}
