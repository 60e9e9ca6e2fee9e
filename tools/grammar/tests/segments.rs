//! The command `run`: a segment given by its tokens, or a segment a line.
mod common;
use common::{assert_answer, grammar, grammar_on, scratch, shipped_file};

#[test]
fn a_value_or_a_refusal() {
    let file = shipped_file("words");
    assert_answer(grammar(&["run", &file, "word", "open", "word", "close"]), 0, "2\n", "");
    assert_answer(grammar(&["run", &file, "word open word close"]), 0, "2\n", "");
    assert_answer(grammar(&["run", &file, "--empty"]), 0, "0\n", "");
    let told = "refused 24 after 1 token, at the end: the segment is over where it expects `close`\n";
    assert_answer(grammar(&["run", &file, "open"]), 1, "", told);
    let told = "token 2, `wrod`, is not in the grammar; did you mean `word`?\n";
    assert_answer(grammar(&["run", &file, "word", "wrod"]), 1, "", told);
}

#[test]
fn piped_tokens_are_not_passed_over() {
    let file = shipped_file("words");
    let told = "grammar: no tokens are given: name them, or write `-` to read a segment a line from standard input, or `--empty`\n";
    assert_answer(grammar_on(&["run", &file], b"word\n"), 2, "", told);
    for args in
        [&["run", &file, "--empty", "word"][..], &["run", &file, "--segments", "x", "word"], &["run", &file, "--segments=x", "--empty"]]
    {
        assert_answer(grammar(args), 2, "", "grammar: tokens, `--segments` and `--empty` exclude each other\n");
    }
}

#[test]
fn standard_input_is_read_once() {
    let told = "grammar: standard input cannot be both the grammar and the segments\n";
    assert_answer(grammar_on(&["run", "-", "-"], b"word\n"), 2, "", told);
    assert_answer(grammar_on(&["run", "-", "word"], common::shipped("words").as_bytes()), 0, "1\n", "");
}

const LINES: &str = "word\n\nword  open\tword close\r\nopen open open open\nword wrod\n\u{1b}[31m\nword word";
const ANSWERS: &str = "1\n0\n2\n\
    refused 22 after 3 tokens, at token 4, `open`: the condition `0 <= d <= 2` on line 31 is false: d is 3\n\
    token 2, `wrod`, is not in the grammar; did you mean `word`?\n\
    token 1, `\u{fffd}[31m`, is not in the grammar; its tokens: word open close\n2\n";

#[test]
fn a_segment_a_line() {
    let file = shipped_file("words");
    assert_answer(grammar_on(&["run", &file, "-"], LINES.as_bytes()), 1, ANSWERS, "");
    let list = scratch("segments.txt", LINES.as_bytes());
    assert_answer(grammar(&["run", &file, "--segments", &list]), 1, ANSWERS, "");
    assert_answer(grammar_on(&["run", &file, "--segments", "-"], b"word\nword word\n"), 0, "1\n2\n", "");
    assert_answer(grammar_on(&["run", &file, "-"], b""), 0, "", "");
    assert_answer(
        grammar_on(&["run", &file, "-"], b"\xff\n"),
        1,
        "token 1, `\u{fffd}`, is not in the grammar; its tokens: word open close\n",
        "",
    );
    let output = grammar(&["run", &file, "--segments", "none.txt"]);
    assert_answer(output, 2, "", "none.txt: No such file or directory (os error 2)\n");
}

/// As many as a translation memory has in a chapter: each line has its answer, in its order.
#[test]
fn many_segments() {
    let lines: String = (0..20_000).map(|i| "word ".repeat(i % 7) + "\n").collect();
    let answers: String = (0..20_000).map(|i| format!("{}\n", i % 7)).collect();
    assert_answer(grammar_on(&["run", &shipped_file("words"), "-"], lines.as_bytes()), 0, &answers, "");
}
