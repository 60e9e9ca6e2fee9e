//! The commands about house order: `house` and `same`. They take tables as well as texts.
use super::files::{build_text, is_table, read, shown, text_of, write_table};
use super::{Args, Command, Outcome, Trouble};
use crate::same::{difference, House};
use crate::suggest::counted;
use std::ffi::OsStr;
use std::io::Write;

pub const COMMANDS: &[Command] = &[
    Command {
        name: "house",
        options: &["-o="],
        usage: &[("house FILE [-o OUT]", "writes the table of a text or table in house order")],
        run: house,
    },
    Command {
        name: "same",
        options: &[],
        usage: &[("same FILE FILE", "says whether two texts or tables are one grammar, or where they differ first")],
        run: same,
    },
];

/// A file in house order: a table, by its first bytes, or a text.
fn house_of(file: &OsStr) -> Result<House, Trouble> {
    let bytes = read(file)?;
    if is_table(&bytes) {
        return House::of_table(&bytes).map_err(|refusal| Trouble::Refused(format!("{}: {refusal}", shown(file))));
    }
    Ok(House::of_text(&build_text(file, &text_of(file, bytes)?)?))
}

fn house(args: Args, out: &mut dyn Write) -> Outcome {
    write_table(args, out, |file| Ok(house_of(file)?.table))
}

/// Exit status 1 says that they differ, so a file that is refused is told with 2.
fn same(mut args: Args, out: &mut dyn Write) -> Outcome {
    let files = (args.take()?, args.take()?);
    args.end()?;
    let open = |file: &OsStr| {
        house_of(file).map_err(|trouble| match trouble {
            Trouble::Refused(words) => Trouble::Failed(words),
            other => other,
        })
    };
    let (a, b) = (open(&files.0)?, open(&files.1)?);
    let Some(found) = difference(&a, &b) else {
        let length = counted(a.table.bytes().len(), "byte");
        return Ok(writeln!(out, "the same grammar: in house order a table of {length}, sum {:016x}", a.table.sum())?);
    };
    writeln!(out, "they differ first in {}", found.place)?;
    writeln!(out, "  {}: {}", shown(&files.0), found.one)?;
    writeln!(out, "  {}: {}", shown(&files.1), found.other)?;
    Err(Trouble::Told)
}
