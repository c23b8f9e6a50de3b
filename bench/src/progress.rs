use std::time::{Duration, Instant};

/// Says on standard error how far a long job is, every few seconds.
pub struct Progress {
    job: &'static str,
    all: u64,
    done: u64,
    told: Instant,
}

const EVERY: Duration = Duration::from_secs(5);

impl Progress {
    pub fn new(job: &'static str, all: u64) -> Progress {
        Progress {
            job,
            all,
            done: 0,
            told: Instant::now(),
        }
    }

    pub fn step(&mut self) {
        self.done += 1;
        if self.told.elapsed() >= EVERY {
            eprintln!("{}: {} of {}", self.job, self.done, self.all);
            self.told = Instant::now();
        }
    }
}
