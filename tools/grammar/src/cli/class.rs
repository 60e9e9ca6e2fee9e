//! The commands for a class: `page` and `exercises`.
use super::files::{build, shown};
use super::segments::segment;
use super::{misused, Args, Command, Outcome, Trouble};
use crate::page::{lesson, page, Page};
use crate::{exercises, run, to_table};
use segment::lent::{PLACES, REGISTERS};
use std::io::Write;

pub const COMMANDS: &[Command] = &[
    Command {
        name: "page",
        options: &["--slip=", "--empty", "--registers=", "--places="],
        usage: &[
            ("page FILE TOKENS... > run.html", "writes a page to step through a run, for a browser"),
            ("     [--registers N] [--places N]", "with so many lent"),
            ("page --slip 1..5 > slip.html", "one of the five slips of docs/CLASSROOM.md"),
        ],
        run: page_of,
    },
    Command {
        name: "exercises",
        options: &["--seed=", "--count=", "--no-answers", "--html"],
        usage: &[
            ("exercises FILE --seed N [--count N]", "makes a sheet of exercises, with answers by the engine"),
            ("      [--no-answers] [--html]", "without the answers; as a page to print"),
        ],
        run: exercises_of,
    },
];

fn page_of(mut args: Args, out: &mut dyn Write) -> Outcome {
    if let Some(number) = args.number("--slip")? {
        args.end()?;
        return slip(number, out);
    }
    let file = args.take()?;
    let (_, built) = build(&file)?;
    let tokens = segment(&built, &mut args)?;
    let room = (args.number("--registers")?.unwrap_or(REGISTERS), args.number("--places")?.unwrap_or(PLACES));
    let name = std::path::Path::new(&file).file_name().map_or("a grammar".into(), shown);
    let lead = format!("A run under {name}, move by move.");
    let text = page(&Page { built: &built, tokens: &tokens, room, title: format!("A segment under {name}"), lead, slip: None });
    Ok(out.write_all(text.map_err(Trouble::Refused)?.as_bytes())?)
}

fn slip(number: usize, out: &mut dyn Write) -> Outcome {
    let Some(lesson) = lesson(number) else { return misused() };
    let built = to_table(lesson.grammar).map_err(|faults| Trouble::Refused(faults.show("the lesson", lesson.grammar)))?;
    let tokens = run::tokens(&built.grammar, lesson.tokens).map_err(Trouble::Refused)?;
    let (title, lead) = (lesson.title.into(), lesson.words.into());
    let text = page(&Page { built: &built, tokens: &tokens, room: lesson.room, title, lead, slip: Some(lesson.slip) });
    Ok(out.write_all(text.map_err(Trouble::Refused)?.as_bytes())?)
}

fn exercises_of(mut args: Args, out: &mut dyn Write) -> Outcome {
    let file = args.take()?;
    args.end()?;
    let Some(seed) = args.number("--seed")? else { return misused() };
    let (_, built) = build(&file)?;
    let made = exercises::make(&built, seed as u64, args.number("--count")?.unwrap_or(10).min(1000));
    if made.is_empty() {
        return Err(Trouble::Refused(format!("{}: no segment of 1 to 10 tokens was found", shown(&file))));
    }
    let name = std::path::Path::new(&file).file_name().map_or("a grammar".into(), shown);
    let form = if args.has("--html") { exercises::printable } else { exercises::sheet };
    Ok(out.write_all(form(&name, seed as u64, &made, !args.has("--no-answers")).as_bytes())?)
}
