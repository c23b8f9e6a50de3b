//! The proved library, by its C interface.

use crate::reply::Reply;

/// The most that is ever written, as `include/picker.h` has it.
pub const MOST_BOOK: usize = 26_880;
pub const MOST_PRINT: usize = 32_768;

mod c {
    use super::Reply;

    unsafe extern "C" {
        pub fn picker_check_log(log: *const u8, log_length: usize) -> Reply;
        pub fn picker_check_book(book: *const u8, book_length: usize) -> Reply;
        pub fn picker_bind(
            log: *const u8,
            log_length: usize,
            book: *mut u8,
            book_length: usize,
        ) -> Reply;
        pub fn picker_pick(
            log: *const u8,
            log_length: usize,
            print: *mut u8,
            print_length: usize,
        ) -> Reply;
        pub fn picker_ask(
            book: *const u8,
            book_length: usize,
            question: *const u8,
            question_length: usize,
            print: *mut u8,
            print_length: usize,
        ) -> Reply;
    }
}

// Each call asks only for slices that are valid while it runs, which references are.

pub fn check_log(log: &[u8]) -> Reply {
    unsafe { c::picker_check_log(log.as_ptr(), log.len()) }
}

pub fn check_book(book: &[u8]) -> Reply {
    unsafe { c::picker_check_book(book.as_ptr(), book.len()) }
}

pub fn bind(log: &[u8], book: &mut [u8]) -> Reply {
    unsafe { c::picker_bind(log.as_ptr(), log.len(), book.as_mut_ptr(), book.len()) }
}

pub fn pick(log: &[u8], print: &mut [u8]) -> Reply {
    unsafe { c::picker_pick(log.as_ptr(), log.len(), print.as_mut_ptr(), print.len()) }
}

pub fn ask(book: &[u8], question: &[u8], print: &mut [u8]) -> Reply {
    unsafe {
        c::picker_ask(
            book.as_ptr(),
            book.len(),
            question.as_ptr(),
            question.len(),
            print.as_mut_ptr(),
            print.len(),
        )
    }
}
