//! The command `gantrysnip`; docs/USE.md and docs/TEXT.md describe it.
#![forbid(unsafe_code)]
#![deny(clippy::indexing_slicing, clippy::unwrap_used, clippy::expect_used, clippy::panic)]

mod command;

use std::io::{ErrorKind, Write};
use std::process::ExitCode;
use std::{env, io};

fn main() -> ExitCode {
    let (text, status) = match command::run(env::args_os().skip(1)) {
        Ok(outcome) => (outcome.text, outcome.status),
        Err(failure) => {
            command::tell(&format!("gantrysnip: {}", failure.message));
            (String::new(), failure.status)
        }
    };
    // a reader who has seen enough closes the pipe, and that is no failure
    match io::stdout().write_all(text.as_bytes()).and_then(|()| io::stdout().flush()) {
        Err(error) if error.kind() != ErrorKind::BrokenPipe => {
            command::tell(&format!("gantrysnip: the output cannot be written: {error}"));
            ExitCode::from(command::BAD)
        }
        _ => ExitCode::from(status),
    }
}
