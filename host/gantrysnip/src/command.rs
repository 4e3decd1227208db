//! What each command does with its arguments; nothing is printed here but progress.
mod arguments;
mod compare;
mod drawing;
mod example;
mod help;
mod input;
mod merge;
mod picture;
mod reason;
mod spot;
mod table;
mod tree;

use arguments::Arguments;
use std::ffi::OsString;
use std::io::Write;

/// Exit statuses: all well; a refusal or a difference; wrong use or bad input.
pub const FINE: u8 = 0;
pub const REFUSED: u8 = 1;
pub const BAD: u8 = 2;

/// For the output, and the exit status.
pub struct Outcome {
    pub text: String,
    pub status: u8,
}

/// For the error output, and the exit status.
pub struct Failure {
    pub message: String,
    pub status: u8,
}

impl Failure {
    fn usage(message: impl Into<String>, command: &str) -> Failure {
        let message = format!("{}\n{}", message.into(), help::usage(command));
        Failure { message, status: BAD }
    }
    fn input(message: impl Into<String>) -> Failure {
        Failure { message: message.into(), status: BAD }
    }
    fn refused(message: impl Into<String>) -> Failure {
        Failure { message: message.into(), status: REFUSED }
    }
}

fn fine(text: impl Into<String>) -> Result<Outcome, Failure> {
    Ok(Outcome { text: text.into(), status: FINE })
}

/// A line for the error output; nobody is told if that fails.
pub fn tell(line: &str) {
    let _ = writeln!(std::io::stderr(), "{line}");
}

pub fn run(arguments: impl Iterator<Item = OsString>) -> Result<Outcome, Failure> {
    let readable = |argument: OsString| argument.into_string().map_err(|odd| format!("{odd:?} is no UTF-8 text"));
    let mut words = arguments.map(readable).collect::<Result<Vec<String>, String>>().map_err(Failure::input)?;
    if words.is_empty() {
        return Err(Failure::usage("a command is missing", ""));
    }
    let command = words.remove(0);
    match command.as_str() {
        "--help" | "-h" => return fine(help::ALL),
        "help" => return help::asked(&words),
        "--version" | "-V" => return fine(concat!("gantrysnip ", env!("CARGO_PKG_VERSION"), "\n")),
        _ => (),
    }
    let Some((_, options)) = COMMANDS.iter().find(|(name, _)| *name == command) else {
        return Err(Failure::usage(format!("there is no command {command:?}"), ""));
    };
    let arguments = Arguments::parse(&command, words, options)?;
    if arguments.has("--help") {
        return help::asked(&[command]);
    }
    match command.as_str() {
        "merge" => merge::run(&arguments),
        "picture" => picture::run(&arguments),
        "spot" => spot::run(&arguments),
        "compare" => compare::run(&arguments),
        "explain" => help::explain(&arguments),
        _ => example::run(&arguments),
    }
}

/// The commands and their options; those that end in = take a value.
const COMMANDS: &[(&str, &[&str])] = &[
    ("merge", &["--rows"]),
    ("picture", &["--clock=", "--svg"]),
    ("spot", &["--clock=", "--list=", "--target="]),
    ("compare", &[]),
    ("explain", &[]),
    ("example", &[]),
];
