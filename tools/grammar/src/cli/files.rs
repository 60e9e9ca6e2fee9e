//! The commands on a file: `check`, `table`, `text`, `list`, `fmt`, `test`, `header`.
use super::{misused, Args, Command, Outcome, Trouble};
use crate::suggest::counted;
use crate::{cost, examples, fmt, header, list, to_table, to_text, Built};
use segment::Table;
use std::ffi::OsStr;
use std::io::{Read, Write};

pub const COMMANDS: &[Command] = &[
    Command { name: "check", options: &[], usage: &[("check FILE..", "judges grammars, and says how long a segment may be")], run: check },
    Command {
        name: "table",
        options: &["-o="],
        usage: &[("table FILE [-o OUT]", "writes its table, to standard output without -o")],
        run: table,
    },
    Command { name: "text", options: &[], usage: &[("text FILE.table", "writes the text of a table, with made-up names")], run: text },
    Command { name: "list", options: &[], usage: &[("list FILE", "lists the engine's instructions beside the rules")], run: listed },
    Command {
        name: "fmt",
        options: &["--check"],
        usage: &[("fmt FILE.. [--check]", "lays grammars out; --check only says which are not")],
        run: laid_out,
    },
    Command { name: "test", options: &[], usage: &[("test FILE..", "runs the examples in the comments")], run: test },
    Command {
        name: "header",
        options: &["--lang=", "--name="],
        usage: &[("header FILE --lang c|rust|json [--name NAME]", "writes the names and their numbers for a program")],
        run: names,
    },
];

/// A file's name as it is told.
pub fn shown(file: &OsStr) -> String {
    crate::source::plain(&file.to_string_lossy())
}

/// A file's bytes; `-` is standard input.
pub fn read(file: &OsStr) -> Result<Vec<u8>, Trouble> {
    let mut bytes = Vec::new();
    let read = match file.to_str() {
        Some("-") => std::io::stdin().lock().read_to_end(&mut bytes).map(|_| bytes),
        _ => std::fs::read(file),
    };
    read.map_err(|e| Trouble::Failed(format!("{}: {e}", shown(file))))
}

/// Whether some bytes begin as a table does.
pub fn is_table(bytes: &[u8]) -> bool {
    bytes.starts_with(&[1, 0, 4])
}

/// A grammar's text, by a file's bytes.
pub fn text_of(file: &OsStr, bytes: Vec<u8>) -> Result<String, Trouble> {
    let name = shown(file);
    if is_table(&bytes) {
        return Err(Trouble::Refused(format!("{name}: this looks like a table; `grammar text` writes its text")));
    }
    let text = String::from_utf8(bytes).map_err(|e| {
        let at = e.utf8_error().valid_up_to();
        let line = 1 + e.as_bytes()[..at].iter().filter(|&&b| b == b'\n').count();
        Trouble::Refused(format!("{name}:{line}: the text is not UTF-8 at byte {at}"))
    })?;
    Ok(text.trim_start_matches('\u{feff}').into())
}

fn read_text(file: &OsStr) -> Result<String, Trouble> {
    text_of(file, read(file)?)
}

pub fn build_text(file: &OsStr, text: &str) -> Result<Built, Trouble> {
    to_table(text).map_err(|faults| Trouble::Refused(faults.show(&shown(file), text)))
}

pub fn build(file: &OsStr) -> Result<(String, Built), Trouble> {
    let text = read_text(file)?;
    let built = build_text(file, &text)?;
    Ok((text, built))
}

/// Does something with each file, and goes on where one is refused.
fn each(mut args: Args, mut work: impl FnMut(&OsStr) -> Outcome) -> Outcome {
    let (first, rest) = (args.take()?, args.rest());
    let mut refused = Ok(());
    for file in std::iter::once(first).chain(rest) {
        match work(&file) {
            Err(Trouble::Refused(words)) => {
                eprintln!("{words}");
                refused = Err(Trouble::Told);
            }
            Err(Trouble::Told) => refused = Err(Trouble::Told),
            other => other?,
        }
    }
    refused
}

fn check(args: Args, out: &mut dyn Write) -> Outcome {
    each(args, |file| {
        let (_, built) = build(file)?;
        let g = &built.grammar;
        let counts = [counted(g.tokens.len(), "token"), counted(g.parts.len(), "part"), counted(g.productions.len(), "production")];
        writeln!(out, "{}: accepted; {}, a table of {}", shown(file), counts.join(", "), counted(built.table.bytes().len(), "byte"))?;
        Ok(cost::lines(&built).into_iter().try_for_each(|line| writeln!(out, "  {line}"))?)
    })
}

/// Whether two names are one file.
fn is_same(a: &OsStr, b: &OsStr) -> bool {
    matches!((std::fs::canonicalize(a), std::fs::canonicalize(b)), (Ok(a), Ok(b)) if a == b)
}

/// Writes the table made of a file: to the file that `-o` names, or to standard output.
pub fn write_table(mut args: Args, out: &mut dyn Write, make: impl Fn(&OsStr) -> Result<Table, Trouble>) -> Outcome {
    let file = args.take()?;
    args.end()?;
    let to = args.value("-o");
    if let Some(to) = to.filter(|to| is_same(&file, to)) {
        return Err(Trouble::Failed(format!("{}: the table would overwrite the grammar; name another file", shown(to))));
    }
    let table = make(&file)?;
    match to {
        Some(to) => std::fs::write(to, table.bytes()).map_err(|e| Trouble::Failed(format!("{}: {e}", shown(to)))),
        None => Ok(out.write_all(table.bytes())?),
    }
}

fn table(args: Args, out: &mut dyn Write) -> Outcome {
    write_table(args, out, |file| Ok(build(file)?.1.table))
}

fn text(mut args: Args, out: &mut dyn Write) -> Outcome {
    let file = args.take()?;
    args.end()?;
    let bytes = read(&file)?;
    let text = to_text(&bytes).map_err(|refusal| {
        let is_text = bytes.first().is_some_and(|b| b.is_ascii_graphic()) && std::str::from_utf8(&bytes).is_ok();
        let hint = if is_text { "; this looks like a text: `grammar table` writes its table" } else { "" };
        Trouble::Refused(format!("{}: {refusal}{hint}", shown(&file)))
    })?;
    Ok(out.write_all(text.as_bytes())?)
}

fn listed(mut args: Args, out: &mut dyn Write) -> Outcome {
    let file = args.take()?;
    args.end()?;
    let (_, built) = build(&file)?;
    Ok(out.write_all(list::text(&built).as_bytes())?)
}

fn laid_out(args: Args, out: &mut dyn Write) -> Outcome {
    let only_check = args.has("--check");
    each(args, |file| {
        let text = read_text(file)?;
        let laid = fmt::laid_out(&text).map_err(|faults| Trouble::Refused(faults.show(&shown(file), &text)))?;
        match file.to_str() {
            Some("-") if !only_check => Ok(out.write_all(laid.as_bytes())?),
            _ if laid == text => Ok(()),
            _ if only_check => {
                writeln!(out, "{}: not laid out", shown(file))?;
                Err(Trouble::Told)
            }
            _ => std::fs::write(file, laid).map_err(|e| Trouble::Failed(format!("{}: {e}", shown(file)))),
        }
    })
}

fn test(args: Args, out: &mut dyn Write) -> Outcome {
    each(args, |file| {
        let (text, built) = build(file)?;
        let found = examples::find(&text);
        let wrong: Vec<String> = found.iter().filter_map(|example| examples::wrong(&built, example)).collect();
        let name = shown(file);
        wrong.iter().try_for_each(|words| writeln!(out, "{name}:{words}"))?;
        writeln!(out, "{name}: {}, {} wrong", counted(found.len(), "example"), wrong.len())?;
        if wrong.is_empty() {
            return Ok(());
        }
        Err(Trouble::Told)
    })
}

fn names(mut args: Args, out: &mut dyn Write) -> Outcome {
    let file = args.take()?;
    args.end()?;
    let path = std::path::Path::new(&file);
    let stem = path.file_stem().map_or("grammar".into(), |s| s.to_string_lossy().into_owned());
    let name = args.value("--name").map_or(stem, |n| n.to_string_lossy().into_owned());
    let (_, built) = build(&file)?;
    let from = path.file_name().map_or(name.clone(), shown);
    let Some(text) = args.value("--lang").and_then(|l| l.to_str()).and_then(|lang| header::text(&built, lang, &name, &from)) else {
        return misused();
    };
    Ok(out.write_all(text.as_bytes())?)
}
