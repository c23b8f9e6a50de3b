//! The example in C, run as a program.

use std::io;
use std::path::Path;
use std::process::Command;

use crate::cases::asked::{Asked, log_text};
use crate::cases::random::Random;
use crate::cases::wells::{Numbering, Shape, stations};
use crate::plain::picker;
use crate::proved::{MOST_BOOK, MOST_PRINT};
use crate::tally::Tally;

const QUESTIONS: usize = 20;

/// Asks questions of a book in a file, and compares what is printed and the exit status.
pub fn run(program: &Path, tally: &mut Tally) -> io::Result<()> {
    let random = &mut Random::new(11);
    let file = std::env::temp_dir().join(format!("picker-bench-{}.book", std::process::id()));
    for i in 0..QUESTIONS {
        let row = stations(random, 60 * i, Shape::Independent, Numbering::InTurn, 1000);
        let mut asked = Asked::random(random, 1000);
        // one of them is refused
        if i == 7 {
            asked.k = 9;
        }
        let mut book = vec![0; MOST_BOOK];
        let bound = picker::bind(&log_text(&asked, &row), &mut book);
        let book = if bound.code == 0 {
            &book[..bound.length]
        } else {
            &book[..256]
        };
        std::fs::write(&file, book)?;

        let line = asked.line();
        let mut print = vec![0; MOST_PRINT];
        let reply = picker::ask(book, line.as_bytes(), &mut print);
        let ran = Command::new(program)
            .arg(&file)
            .arg(line.trim_end())
            .output()?;
        let same = ran.stdout == print[..reply.length]
            && ran.status.code() == Some(i32::from(reply.code != 0));
        tally.count(same, &format!("example {i}"), || {
            format!("{ran:?}, plain {reply:?}")
        });
    }
    std::fs::remove_file(file)
}
