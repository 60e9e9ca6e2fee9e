//! The command line: commands, options, and what the exit status says.
mod args;
mod batch;
mod class;
mod files;
mod house;
mod next;
mod notes;
mod rank;
mod segments;
mod sheets;

pub use args::Args;
use std::ffi::OsString;
use std::io::{self, ErrorKind, Write};
use std::process::ExitCode;

/// Why a command did not do all it is for.
#[derive(Debug)]
pub enum Trouble {
    /// Something is refused or wrong: told on standard error.
    Refused(String),
    /// Something is refused, and standard output says what.
    Told,
    /// The arguments are wrong, or something cannot be read or written.
    Failed(String),
    /// What reads the output has closed its end.
    Closed,
}

impl From<io::Error> for Trouble {
    fn from(error: io::Error) -> Trouble {
        match error.kind() {
            ErrorKind::BrokenPipe => Trouble::Closed,
            _ => Trouble::Failed(format!("standard output: {error}")),
        }
    }
}

pub type Outcome = Result<(), Trouble>;

/// A command: its name, its options (`=` where a value follows), how it is written, what it does, and the function.
struct Command {
    name: &'static str,
    options: &'static [&'static str],
    usage: &'static [(&'static str, &'static str)],
    run: fn(Args, &mut dyn Write) -> Outcome,
}

const COMMANDS: &[&[Command]] = &[files::COMMANDS, house::COMMANDS, segments::COMMANDS, next::COMMANDS, rank::COMMANDS, sheets::COMMANDS, class::COMMANDS];

fn commands() -> impl Iterator<Item = &'static Command> {
    COMMANDS.iter().copied().flatten()
}

fn help() -> String {
    let mut text = String::from(
        "grammar: judges the grammars of the segment engine, turns them into tables, and runs segments (docs/GRAMMARS.md)\n\n",
    );
    for (usage, words) in commands().flat_map(|c| c.usage) {
        text += &format!("  {:58} {words}\n", written(usage));
    }
    text +=
        "\n  FILE is a grammar as text; `-` stands for standard input. TOKENS are names, `word=4` where one carries a value, or `-` for\n";
    text += "  a segment a line on standard input.\n";
    text += "  Exit status: 0 where all is well, 1 where something is refused or wrong, 2 where the arguments are wrong or something\n";
    text += "  cannot be read or written.\n";
    text
}

/// The lines of a command's usage.
fn usage(command: &Command) -> String {
    command.usage.iter().map(|(usage, words)| format!("usage: {:50} {words}\n", written(usage))).collect()
}

/// How a command is written; options on a line of their own follow the one before.
fn written(usage: &str) -> String {
    let lead = if usage.starts_with(' ') { "       " } else { "grammar" };
    format!("{lead} {usage}")
}

fn called(mut args: Vec<OsString>, out: &mut dyn Write) -> Outcome {
    if args.is_empty() {
        return Err(Trouble::Failed(help()));
    }
    let name = args.remove(0).to_string_lossy().into_owned();
    match name.as_str() {
        "help" | "--help" | "-h" => return Ok(write!(out, "{}", help())?),
        "--version" | "-V" | "version" => return Ok(writeln!(out, "grammar {}", env!("CARGO_PKG_VERSION"))?),
        _ => {}
    }
    let Some(command) = commands().find(|c| c.name == name) else {
        let hint = crate::suggest::hint(&name, commands().map(|c| c.name));
        return Err(Trouble::Failed(format!("grammar: there is no command `{name}`{hint}; `grammar help` lists them\n")));
    };
    if args.iter().any(|a| a == "--help" || a == "-h") {
        return Ok(write!(out, "{}", usage(command))?);
    }
    let args = Args::parse(args, command.options).and_then(|args| (command.run)(args, out));
    args.map_err(|trouble| match trouble {
        Trouble::Failed(words) if words.is_empty() => Trouble::Failed(usage(command)),
        other => other,
    })
}

/// The usage of the command at hand, with exit status 2.
pub fn misused<T>() -> Result<T, Trouble> {
    Err(Trouble::Failed(String::new()))
}

pub fn main(args: Vec<OsString>) -> ExitCode {
    let mut out = io::BufWriter::new(io::stdout().lock());
    let answer = called(args, &mut out).and_then(|()| Ok(out.flush()?));
    let (words, code) = match answer {
        Ok(()) | Err(Trouble::Closed) => return ExitCode::SUCCESS,
        Err(Trouble::Told) => (String::new(), 1),
        Err(Trouble::Refused(words)) => (words, 1),
        Err(Trouble::Failed(words)) => (words, 2),
    };
    if let Err(error) = out.flush() {
        eprintln!("grammar: standard output: {error}");
        return ExitCode::from(2);
    }
    if !words.is_empty() {
        eprintln!("{}", words.trim_end());
    }
    ExitCode::from(code)
}
