//! A line now and then, while something takes long.
use std::time::{Duration, Instant};

const EVERY: Duration = Duration::from_secs(10);

pub struct Progress {
    started: Instant,
    told: Instant,
}

impl Default for Progress {
    fn default() -> Self {
        Progress { started: Instant::now(), told: Instant::now() }
    }
}

impl Progress {
    pub fn tell(&mut self, line: impl FnOnce() -> String) {
        if self.told.elapsed() >= EVERY {
            println!("{} s, {}", self.started.elapsed().as_secs(), line());
            self.told = Instant::now();
        }
    }
}
