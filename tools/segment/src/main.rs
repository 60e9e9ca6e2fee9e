//! The program `segment`: answers commands, a line each. vectors/README.md lists them.
mod answers;
mod inner;
mod input;
mod preview;
mod rank;
mod runs;
mod session;
mod sheets;
mod tables;
mod trace;
mod window;
mod words;

use input::Lines;
use session::Session;
use std::fs::File;
use std::io::{self, BufWriter, Read, Write};
use std::process::ExitCode;
use words::Fault;

const HELP: &str = "\
segment [FILE | -c COMMAND]..

Answers commands, a line each, on standard output. They come from the files and the arguments of -c, one after the other; `-` and no
argument at all stand for standard input.

  -c COMMAND   answers this line
  --help       prints this text
  --version    prints the version

Bytes are hex digits, `-` for none; numbers are decimal. A line that begins with # is skipped.

  check TABLE                     the verdict on a table
  stretch TABLE P                 where production P stands in the table
  list TABLE                      the listing, then a line `.`
  house TABLE NOUT                the table in house order, into NOUT bytes
  open TABLE NREGS NPLACES NPROG  lends stacks and opens a run
  feed TABLE TOKENS NPROG         feeds tokens to the run, each with the value 0
  feedv TABLE KINDS VALUES NPROG  feeds tokens with their values
  feedr TABLE KINDS VALUES NPROG  the same, by the call that changes the record in place
  finish TABLE NPROG              ends its segment
  show                            the record and the stacks as they stand
  set STATE TOKENS MOVES RH PH [inner RB PB] | REGISTERS | PLACES
                                  replaces the record and the stacks
  inner OUTERTABLE INNERTABLE NPROG
                                  opens an inner run above the run, which then waits
  ifeed TABLE KINDS VALUES NPROG  feeds tokens with their values to the inner run
  ifinish TABLE NPROG             ends its segment
  giveup TABLE NPROG              ends it as it stands
  iset STATE TOKENS MOVES RH PH [inner RB PB]
                                  replaces the inner record
  preview TABLE KIND VALUE NSREGS NSPLACES NPROG
                                  what feeding one more token would give, tried on scratch stacks
  may TABLE VALUE NSREGS NSPLACES NPROG
                                  the tokens that may come next
  rank TABLE KINDS VALUES LENGTHS NREGS NPLACES NPROG NLIST
                                  evaluates candidate segments and lists them by value, into NLIST cells
  sheet TABLE KINDS VALUES NREGS NPLACES NSHEET
                                  writes the segment's tree sheet, into NSHEET bytes
  judge TABLE KINDS VALUES SHEET  judges a tree sheet that describes the segment
  trace TABLE TOKENS [NREGS NPLACES [FROM]]
                                  the run of a segment, move by move, from token FROM on
  tracev TABLE KINDS VALUES [NREGS NPLACES [FROM]]
                                  the same with the tokens' values
  table NAME FILE                 reads a table; NAME stands for it in the lines that follow

A line that is no command is answered `bad ..` and told on standard error. vectors/README.md has all answers.

Exit status: 0 all lines were answered; 1 some line was no command; 2 wrong arguments, or a file could not be read or written.
";

/// Where commands come from.
enum Source {
    Standard,
    File(String),
    Line(String),
}

/// What the arguments ask for.
enum Asked {
    Print(String),
    Answer(Vec<Source>),
}

fn arguments(words: Vec<String>) -> Result<Asked, String> {
    let mut words = words.into_iter();
    let mut sources = vec![];
    while let Some(word) = words.next() {
        match word.as_str() {
            "--help" | "-h" => return Ok(Asked::Print(HELP.into())),
            "--version" => return Ok(Asked::Print(concat!("segment ", env!("CARGO_PKG_VERSION"), "\n").into())),
            "-c" => sources.push(Source::Line(words.next().ok_or("-c: no command follows")?)),
            "-" => sources.push(Source::Standard),
            "--" => sources.extend(words.by_ref().map(Source::File)),
            _ if word.starts_with('-') => return Err(format!("{word}: no such option")),
            _ => sources.push(Source::File(word)),
        }
    }
    if sources.is_empty() {
        sources.push(Source::Standard);
    }
    Ok(Asked::Answer(sources))
}

/// Why no more lines are answered: what reads the answers has closed its end, or something cannot be read or written.
enum Stop {
    Closed,
    Failed(String),
}

impl From<io::Error> for Stop {
    fn from(error: io::Error) -> Stop {
        match error.kind() {
            io::ErrorKind::BrokenPipe => Stop::Closed,
            _ => Stop::Failed(format!("standard output: {error}")),
        }
    }
}

/// Says something on standard error, which may be closed.
fn complain(text: &str) {
    let _ = writeln!(io::stderr(), "segment: {text}");
}

/// Answers each line of a source that may have a name; gives whether each was a command.
fn answer(session: &mut Session, out: &mut impl Write, source: impl Read, name: Option<&str>) -> Result<bool, Stop> {
    let mut lines = Lines::new(source);
    let mut all = true;
    loop {
        if lines.waits() {
            out.flush()?;
        }
        let next = lines.next().map_err(|error| Stop::Failed(format!("{}: {error}", name.unwrap_or("standard input"))))?;
        let Some(line) = next else { break };
        match session.answer(line, out) {
            Ok(()) => {}
            Err(Fault::Io(error)) => return Err(error.into()),
            Err(Fault::Bad(bad)) => {
                all = false;
                writeln!(out, "{}", bad.answer)?;
                let name = name.map_or(String::new(), |name| format!("{name}, "));
                complain(&format!("{name}line {}: {bad}", lines.number));
            }
        }
    }
    Ok(all)
}

/// Answers the lines of all sources; gives whether each was a command.
fn answer_all(sources: &[Source]) -> Result<bool, Stop> {
    let mut session = Session::new();
    let mut out = BufWriter::with_capacity(1 << 16, io::stdout().lock());
    let mut all = true;
    for source in sources {
        all &= match source {
            Source::Standard => answer(&mut session, &mut out, io::stdin().lock(), None)?,
            Source::Line(line) => answer(&mut session, &mut out, line.as_bytes(), None)?,
            Source::File(name) => {
                let file = File::open(name).map_err(|error| Stop::Failed(format!("{name}: {error}")))?;
                answer(&mut session, &mut out, file, Some(name))?
            }
        };
    }
    out.flush()?;
    Ok(all)
}

/// The same on a thread with the stack that sheets need.
fn answer_apart(sources: Vec<Source>) -> Result<bool, Stop> {
    let thread = std::thread::Builder::new().stack_size(engine::lent::SHEET_STACK);
    let answers = thread.spawn(move || answer_all(&sources)).map_err(|error| Stop::Failed(format!("no thread: {error}")))?;
    answers.join().unwrap_or_else(|_| Err(Stop::Failed("the answers stopped short".into())))
}

fn print(text: &str) -> Result<bool, Stop> {
    io::stdout().write_all(text.as_bytes())?;
    Ok(true)
}

fn main() -> ExitCode {
    let words: Result<Vec<String>, _> = std::env::args_os().skip(1).map(|word| word.into_string()).collect();
    let asked = words.map_err(|word| format!("{}: not in UTF-8", word.to_string_lossy())).and_then(arguments);
    let done = match asked {
        Ok(Asked::Print(text)) => print(&text),
        Ok(Asked::Answer(sources)) => answer_apart(sources),
        Err(message) => Err(Stop::Failed(format!("{message}; `segment --help` says what is"))),
    };
    match done {
        Ok(true) | Err(Stop::Closed) => ExitCode::SUCCESS,
        Ok(false) => ExitCode::from(1),
        Err(Stop::Failed(message)) => {
            complain(&message);
            ExitCode::from(2)
        }
    }
}
