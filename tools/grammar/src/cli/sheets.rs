//! The commands on tree sheets: `sheet`, `tree` and `judge`.
use super::files::{build, read, shown};
use super::segments::segment;
use super::{Args, Command, Outcome, Trouble};
use crate::draw::Drawing;
use crate::run::{self, Token};
use crate::{sheet, Built};
use segment::{Kind, Refusal};
use std::ffi::OsStr;
use std::io::Write;

pub const COMMANDS: &[Command] = &[
    Command {
        name: "tree",
        options: &["--sheet=", "--svg", "--empty"],
        usage: &[
            ("tree FILE TOKENS... [--svg]", "draws a segment's tree: as text, or as a picture"),
            ("tree FILE --sheet SHEET TOKENS... [--svg]", "the same for a tree sheet that another tool made, which is judged"),
        ],
        run: tree,
    },
    Command {
        name: "sheet",
        options: &["-o=", "--empty"],
        usage: &[("sheet FILE TOKENS... [-o OUT]", "writes a segment's tree sheet, to standard output without -o")],
        run: write_sheet,
    },
    Command {
        name: "judge",
        options: &["--empty"],
        usage: &[("judge FILE SHEET TOKENS...", "judges a tree sheet that another tool made of a segment: the value, or what is wrong")],
        run: judge,
    },
];

/// Why a sheet is not accepted: the segment has no tree, or the first thing that is not as in its tree.
fn told(built: &Built, tokens: &[Token], bytes: &[u8], refusal: Refusal) -> String {
    if refusal.kind() != Kind::SheetWrong {
        return refusal.to_string();
    }
    let outcome = run::run(&built.table, tokens);
    if let Err(none) = outcome.answer.as_ref() {
        if (20..=24).contains(&none.number()) {
            return format!("{refusal}; the segment has none: {}", run::told(built, tokens, &outcome, *none));
        }
    }
    match sheet::read(built, tokens, bytes) {
        Err(words) => format!("{refusal}; {words}"),
        Ok(_) => refusal.to_string(),
    }
}

/// The value of a sheet that is accepted, or why it is not.
fn judged(built: &Built, tokens: &[Token], bytes: &[u8]) -> Result<i64, Trouble> {
    let (kinds, values) = run::lists(tokens);
    let answer = sheet::deep(|| built.table.judge(&kinds, &values, bytes).map_err(|refusal| told(built, tokens, bytes, refusal)));
    answer.map_err(Trouble::Refused)
}

fn judge(mut args: Args, out: &mut dyn Write) -> Outcome {
    let (file, sheet) = (args.take()?, args.take()?);
    let (built, bytes) = both(&file, &sheet)?;
    let tokens = segment(&built, &mut args)?;
    Ok(writeln!(out, "{}", judged(&built, &tokens, &bytes)?)?)
}

/// The grammar and the bytes of a sheet.
fn both(file: &OsStr, sheet: &OsStr) -> Result<(Built, Vec<u8>), Trouble> {
    if file == "-" && sheet == "-" {
        return Err(Trouble::Failed("grammar: standard input cannot be both the grammar and the sheet".into()));
    }
    Ok((build(file)?.1, read(sheet)?))
}

/// The tree sheet of a segment that has a tree, or why it has none.
fn made(built: &Built, tokens: &[Token]) -> Result<Vec<u8>, Trouble> {
    let (kinds, values) = run::lists(tokens);
    let sheet = sheet::deep(|| built.table.sheet(&kinds, &values).map(|sheet| sheet.bytes().to_vec()));
    sheet.map_err(|refusal| {
        let outcome = run::run(&built.table, tokens);
        Trouble::Refused(match outcome.answer {
            Err(refusal) => run::told(built, tokens, &outcome, refusal),
            Ok(_) => refusal.to_string(),
        })
    })
}

fn write_sheet(mut args: Args, out: &mut dyn Write) -> Outcome {
    let file = args.take()?;
    let (_, built) = build(&file)?;
    let bytes = made(&built, &segment(&built, &mut args)?)?;
    match args.value("-o") {
        Some(to) => std::fs::write(to, bytes).map_err(|e| Trouble::Failed(format!("{}: {e}", shown(to)))),
        None => Ok(out.write_all(&bytes)?),
    }
}

fn tree(mut args: Args, out: &mut dyn Write) -> Outcome {
    let file = args.take()?;
    let (built, given) = match args.value("--sheet") {
        Some(sheet) => both(&file, sheet).map(|(built, bytes)| (built, Some(bytes)))?,
        None => (build(&file)?.1, None),
    };
    let tokens = segment(&built, &mut args)?;
    let bytes = match given {
        Some(bytes) => judged(&built, &tokens, &bytes).map(|_| bytes)?,
        None => made(&built, &tokens)?,
    };
    let tree = sheet::deep(|| sheet::read(&built, &tokens, &bytes)).map_err(Trouble::Refused)?;
    let drawing = Drawing::new(&built, &tokens, &tree);
    let drawn = if args.has("--svg") { drawing.svg() } else { drawing.text() };
    Ok(out.write_all(drawn.as_bytes())?)
}
