//! The command on files: what it prints, writes and exits with.
mod common;
use common::{assert_answer, grammar, grammar_on, scratch, shipped, shipped_file, stdout};
use std::process::Command;

#[test]
fn check_counts() {
    let file = shipped_file("words");
    let words = format!(
        "{file}: accepted; 3 tokens, 2 parts, 4 productions, a table of 136 bytes\n  what the stacks hold, conditions aside:\n  \
         line 23, `L: word L`: each takes 1 place and 2 registers; at most 1,021 in a row\n  \
         line 27, `L: open L close L`: each takes 1 place and 2 registers; at most 1,021 inside each other\n  \
         line 27, `L: open L close L`: each takes 1 place and 3 registers; at most 1,021 in a row\n"
    );
    assert_answer(grammar(&["check", &file]), 0, &words, "");
    let one = scratch("one.grammar", b"token t\npart S -> n\nstart S.n\nS: t\n n = 1\n");
    assert_answer(grammar(&["check", &one]), 0, &format!("{one}: accepted; 1 token, 1 part, 1 production, a table of 28 bytes\n"), "");
}

/// The bound is reached: with four attributes handed down the registers end first.
#[test]
fn the_cost_is_what_the_engine_allows() {
    let reg = "token w\npart S -> n\npart L(a, b, c, d) -> n\nstart S.n\nS: L\n L.a = 0\n L.b = 0\n L.c = 0\n L.d = 0\n n = L.n\n\
        L: w L\n L.a = a\n L.b = b\n L.c = c\n L.d = d\n n = L.n\nL: nothing\n n = 0\n";
    for (name, text, token, most) in [("reg", reg.to_string(), "w ", 818), ("words", shipped("words"), "word ", 1021)] {
        let file = scratch(&format!("cost_{name}.grammar"), text.as_bytes());
        let said = stdout(&grammar(&["check", &file]));
        let bound = if most > 1000 { "1,021".into() } else { most.to_string() };
        assert!(said.contains(&format!("at most {bound} in a row")), "{said}");
        let lines = format!("{}\n{}\n", token.repeat(most), token.repeat(most + 1));
        let answers = stdout(&grammar_on(&["run", &file, "-"], lines.as_bytes()));
        let (first, second) = answers.split_once('\n').expect("two lines");
        assert!(first.parse::<i64>().is_ok() && second.starts_with("refused 3"), "{answers}");
    }
}

#[test]
fn check_shows_faults() {
    let file = scratch("fault.grammar", b"\xef\xbb\xbftoken word\r\npart S -> n\r\nstart S.m\r\n");
    let words = format!("{file}:3:9: `S` has no attribute `m`; its attributes: `n`\n  start S.m\n          ^\n");
    assert_answer(grammar(&["check", &file]), 1, "", &words);
    let file = scratch("bytes.grammar", b"token w\npart \xff");
    assert_answer(grammar(&["check", &file]), 1, "", &format!("{file}:2: the text is not UTF-8 at byte 13\n"));
    let table = concat!(env!("CARGO_MANIFEST_DIR"), "/../../grammars/words.table");
    assert_answer(grammar(&["check", table]), 1, "", &format!("{table}: this looks like a table; `grammar text` writes its text\n"));
    let missing = grammar(&["check", "missing.grammar"]);
    assert_answer(missing, 2, "", "missing.grammar: No such file or directory (os error 2)\n");
}

#[test]
fn check_goes_on_after_a_refused_file() {
    let bad = scratch("bad_first.grammar", b"token\n");
    let output = grammar(&["check", &bad, &shipped_file("words")]);
    assert_eq!(output.status.code(), Some(1));
    assert!(stdout(&output).contains("words.grammar: accepted"), "{output:?}");
}

#[test]
fn table_and_text_go_round() {
    let table = scratch("clause.table", b"");
    assert_answer(grammar(&["table", &shipped_file("clause"), "-o", &table]), 0, "", "");
    let bytes = std::fs::read(&table).expect("the table");
    assert_eq!(grammar(&["table", &shipped_file("clause")]).stdout, bytes);
    assert_eq!(grammar_on(&["table", "-"], shipped("clause").as_bytes()).stdout, bytes);
    let text = scratch("clause.again", &grammar(&["text", &table]).stdout);
    assert_eq!(grammar(&["table", &text]).stdout, bytes);
    let cut = scratch("cut.table", &bytes[..bytes.len() - 1]);
    let told = format!("{cut}: refused 2 at byte {}: a field is cut short\n", bytes.len() - 12);
    assert_answer(grammar(&["text", &cut]), 1, "", &told);
    let told = String::from_utf8_lossy(&grammar(&["text", &shipped_file("words")]).stderr).into_owned();
    assert!(told.ends_with("; this looks like a text: `grammar table` writes its table\n"), "{told}");
}

#[test]
fn a_grammar_is_not_overwritten() {
    let file = scratch("own.grammar", shipped("words").as_bytes());
    let told = format!("{file}: the table would overwrite the grammar; name another file\n");
    assert_answer(grammar(&["table", &file, "-o", &file]), 2, "", &told);
    assert_eq!(std::fs::read_to_string(&file).expect("the grammar"), shipped("words"));
}

#[test]
fn a_refused_grammar_writes_no_table() {
    let file = scratch("refused.grammar", b"token word\npart S -> n\nstart S.n\nS: word\n");
    let table = scratch("refused.table", b"old");
    let words = format!("{file}:4:1: refused 8: no rule for `n`\n  S: word\n  ^^^^^^^\n");
    assert_answer(grammar(&["table", &file, "-o", &table]), 1, "", &words);
    assert_eq!(std::fs::read(&table).expect("the table"), b"old");
}

#[test]
fn help_and_version() {
    for args in [&["help"][..], &["--help"], &["-h"]] {
        let output = grammar(args);
        assert_eq!(output.status.code(), Some(0));
        assert!(stdout(&output).starts_with("grammar: judges the grammars of the segment engine"));
    }
    assert_answer(grammar(&["--version"]), 0, concat!("grammar ", env!("CARGO_PKG_VERSION"), "\n"), "");
    assert!(stdout(&grammar(&["run", "--help"])).starts_with("usage: grammar run FILE TOKENS..."));
}

#[test]
fn other_words_show_the_usage() {
    for (args, told) in [
        (&[][..], "grammar: judges"),
        (&["table"], "usage: grammar table FILE [-o OUT]"),
        (&["table", "a", "b"], "usage: grammar table"),
        (&["table", "a", "-o"], "grammar: `-o` needs a value"),
        (&["chekc", "a"], "grammar: there is no command `chekc`; did you mean `check`?"),
        (&["check", "--all", "a"], "grammar: there is no option `--all` here"),
        (&["header", "a"], "a: No such file"),
    ] {
        let output = grammar(args);
        let stderr = String::from_utf8_lossy(&output.stderr);
        assert!(stderr.starts_with(told), "{args:?}: {stderr}");
        assert_eq!(output.status.code(), Some(2));
    }
}

/// A file's name need not be UTF-8.
#[test]
fn names_of_any_bytes() {
    use std::os::unix::ffi::OsStrExt;
    let name = std::ffi::OsStr::from_bytes(b"none\xff.grammar");
    let output = Command::new(env!("CARGO_BIN_EXE_grammar")).arg("check").arg(name).output().expect("the command runs");
    assert_answer(output, 2, "", "none\u{fffd}.grammar: No such file or directory (os error 2)\n");
}

#[test]
fn lost_output_is_told() {
    let full = std::fs::OpenOptions::new().write(true).open("/dev/full").expect("/dev/full");
    let mut command = Command::new(env!("CARGO_BIN_EXE_grammar"));
    let output = command.args(["check", &shipped_file("words")]).stdout(full).output().expect("the command runs");
    assert_answer(output, 2, "", "grammar: standard output: No space left on device (os error 28)\n");
}

#[test]
fn examples_are_tested() {
    let file = shipped_file("words");
    assert_answer(grammar(&["test", &file]), 0, &format!("{file}: 6 examples, 0 wrong\n"), "");
    let text =
        shipped("words").replace("gives 2", "gives 3").replace("refused 24 after 1", "gives 1").replace("#   word close", "#   wrod close");
    let file = scratch("wrong.grammar", text.as_bytes());
    let told = format!(
        "{file}:6: word open word close: the example says `gives 3`, the engine `gives 2`\n\
         {file}:9: token 1, `wrod`, is not in the grammar; did you mean `word`?\n\
         {file}:10: open: the example says `gives 1`, the engine `refused 24 after 1`\n{file}: 6 examples, 3 wrong\n"
    );
    assert_answer(grammar(&["test", &file]), 1, &told, "");
}

#[test]
fn layout() {
    for name in ["words", "agency", "lengths", "clause", "sheet"] {
        assert_answer(grammar(&["fmt", "--check", &shipped_file(name)]), 0, "", "");
    }
    let wild =
        "token  a b#two\n\n\n\npart S->n   # how many\n  part L( d,e )->n\nstart S . n\nS :L\n\tL.d=-1 # minus\n L.e = L.d-1\n#end\n\n";
    let laid =
        "token a b  #two\n\npart S -> n  # how many\npart L(d, e) -> n\nstart S.n\nS: L\n    L.d = -1  # minus\n    L.e = L.d - 1\n#end\n";
    assert_answer(grammar_on(&["fmt", "-"], wild.as_bytes()), 0, laid, "");
    assert_answer(grammar_on(&["fmt", "-"], laid.as_bytes()), 0, laid, "");
    let file = scratch("wild.grammar", wild.as_bytes());
    assert_answer(grammar(&["fmt", "--check", &file]), 1, &format!("{file}: not laid out\n"), "");
    assert_answer(grammar(&["fmt", &file]), 0, "", "");
    assert_eq!(std::fs::read_to_string(&file).expect("laid out"), laid);
    assert_eq!(grammar_on(&["fmt", "-"], b"token a;\n").status.code(), Some(1));
}

#[test]
fn the_listing_has_its_rules() {
    let listed = stdout(&grammar(&["list", &shipped_file("clause")]));
    for line in [
        "    E3 1 addc 7 1           Inner.depth = depth + 1",
        "    P1 atmost 1 3           Number.n <= next",
        "    A4 4                    Level",
        "    P1 range 1 1 40         1 <= word.length <= 40",
    ] {
        assert!(listed.contains(line), "{line}\n{listed}");
    }
    let count = |text: &str| text.lines().filter(|l| l.starts_with("    ")).count();
    let table = concat!(env!("CARGO_MANIFEST_DIR"), "/../../crates/listing/stdout");
    let words = stdout(&grammar(&["list", &shipped_file("words")]));
    assert_eq!(count(&words), std::fs::read_to_string(table).expect("the listing").lines().count());
}
