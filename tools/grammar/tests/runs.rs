//! Refusals of segments in words.
mod common;
use common::{of_kinds, shipped};
use grammar::{run, to_table, Built};

fn read(name: &str) -> Built {
    to_table(&shipped(name)).expect(name)
}

fn told(built: &Built, words: &str) -> String {
    let words: Vec<&str> = words.split_whitespace().collect();
    let tokens = run::tokens(&built.grammar, &words).expect("tokens");
    let outcome = run::run(&built.table, &tokens);
    let refusal = outcome.answer.expect_err("a refusal");
    run::told(built, &tokens, &outcome, refusal)
}

/// Grammar, tokens, the refusal in words.
const TOLD: &[(&str, &str, &str)] = &[
    ("words", "word close", "refused 21 after 1 token, at token 2, `close`: the segment is already complete"),
    ("words", "open", "refused 24 after 1 token, at the end: the segment is over where it expects `close`"),
    ("words", "open open open open", "refused 22 after 3 tokens, at token 4, `open`: the condition `0 <= d <= 2` on line 31 is false: d is 3"),
    ("clause", "", "refused 22 after 0 tokens, at the end: the condition `1 <= Level.count <= 9` on line 43 is false: Level.count is 0"),
    (
        "clause",
        "one sub two",
        "refused 22 after 3 tokens, once token 3, `two`, was read: the condition `Number.n <= next` on line 48 is false: Number.n is 2, next is 1",
    ),
    (
        "clause",
        "one excludes excludes two",
        "refused 22 after 3 tokens, at token 4, `two`: the condition `-20 <= Inner.score <= 60` on line 53 is false: Inner.score is -30",
    ),
    ("clause", "sub", "refused 21 after 0 tokens, at token 1, `sub`: expected `one`, `two`, `three`, `four`, `five`, `six`, `seven`, `eight`, `nine` or the end"),
    (
        "clause",
        "one word=5 word=41",
        "refused 22 after 3 tokens, once token 3, `word=41`, was read: the condition `1 <= word.length <= 40` on line 83 is false: word.length is 41",
    ),
    (
        "clause",
        "one word=40 word=40 word=40",
        "refused 22 after 4 tokens, at the end: the condition `0 <= Text.letters <= 100` on line 50 is false: Text.letters is 120",
    ),
    ("sheet", "limit one by one gram one", "refused 21 after 5 tokens, at token 6, `one`: expected `item` or `total`"),
    (
        "sheet",
        "limit one zero kilogram item five pound total two gram",
        "refused 22 after 10 tokens, once token 10, `gram`, was read: the condition `Items.grams <= Weight2.grams` on line 38 is false: Items.grams is 2268, Weight2.grams is 2",
    ),
    (
        "sheet",
        "limit nine nine nine nine nine nine nine nine nine nine nine nine nine",
        "refused 23 after 13 tokens, at token 14, `nine`: the rule `product = a * b` on line 118 gives 9999999999990, a value outside -1,000,000,000,000 to 1,000,000,000,000: a is 999999999999, b is 10",
    ),
];

#[test]
fn refusals_of_segments_in_words() {
    for (name, words, expected) in TOLD {
        let built = read(name);
        assert_eq!(told(&built, words), *expected);
    }
}

#[test]
fn unknown_tokens_are_named() {
    let built = read("words");
    let told = run::tokens(&built.grammar, &["word", "wrod"]);
    assert_eq!(told, Err("token 2, `wrod`, is not in the grammar; did you mean `word`?".into()));
    let told = run::tokens(&built.grammar, &["word=1"]);
    assert_eq!(told, Err("token 1, `word=1`: `word` carries no value".into()));
}

#[test]
fn values_are_written_behind_tokens() {
    let built = read("lengths");
    let tokens = run::tokens(&built.grammar, &["word=4", "open", "word=-7", "word"]).expect("tokens");
    assert_eq!(run::lists(&tokens), (vec![0, 1, 0, 0], vec![4, 0, -7, 0]));
    let written: Vec<String> = tokens.iter().map(|t| t.written(&built.grammar)).collect();
    assert_eq!(written, ["word=4", "open", "word=-7", "word=0"]);
    for (word, reason) in [
        ("word=", "a value is a number from -2147483648 to 2147483647"),
        ("word=2147483648", "a value is a number from -2147483648 to 2147483647"),
        ("open=1", "`open` carries no value"),
    ] {
        assert_eq!(run::tokens(&built.grammar, &[word]), Err(format!("token 1, `{word}`: {reason}")));
    }
    let told = run::tokens(&built.grammar, &["wrod=1"]);
    assert_eq!(told, Err("token 1, `wrod`, is not in the grammar; did you mean `word`?".into()));
}

/// The 1,024 places hold the whole segment, S, and an L for each word and for the end.
#[test]
fn deep_segments_meet_the_places() {
    let built = read("words");
    let answer = |n: usize| run::run(&built.table, &of_kinds(&vec![0; n])).answer.map_err(|r| (r.number(), r.count()));
    assert_eq!((answer(1021), answer(1022)), (Ok(1021), Err((32, 1022))));
    assert_eq!(
        told(&built, &"word ".repeat(1023)),
        "refused 32 after 1022 tokens, at token 1023, `word`: it would need more than 1,024 places"
    );
}

/// Two alternatives hold the end; each has an entry condition that is false.
#[test]
fn entry_conditions_at_the_end() {
    let text = "token t u\npart S -> n\npart A(d) -> n\nstart S.n\nS: u A\n A.d = 7\n n = A.n\n\
        A: nothing\n n = 0\n 0 <= d <= 1\nA: B\n n = 1\n 2 <= d <= 3\npart B\nB: t\nB: nothing";
    let built = to_table(text).expect("accepted");
    let condition = |text: &str, line: u32| format!("the condition `{text}` on line {line} is false: d is 7");
    let (first, second) = (condition("0 <= d <= 1", 10), condition("2 <= d <= 3", 13));
    assert_eq!(told(&built, "u"), format!("refused 22 after 1 token, at the end: {first}; {second}"));
    assert_eq!(told(&built, "u t"), format!("refused 22 after 1 token, at token 2, `t`: {second}"));
}

/// The way of writing "strictly less" that docs/GRAMMARS.md tells.
#[test]
fn strictly_less() {
    let text = "token one two three\npart S -> n\npart A -> a\npart Less(n) -> m\nstart S.n\n\
        S: A A Less\n Less.n = A2.a\n n = A2.a\n A1.a <= Less.m\n\
        A: one\n a = 1\nA: two\n a = 2\nA: three\n a = 3\nLess: nothing\n m = n - 1\n";
    let built = to_table(text).expect("accepted");
    for (a, b) in (0..3).flat_map(|a| (0..3).map(move |b| (a, b))) {
        let answer = run::run(&built.table, &of_kinds(&[a, b])).answer.map_err(|r| r.number());
        assert_eq!(answer, if a < b { Ok(i64::from(b) + 1) } else { Err(22) }, "{a} {b}");
    }
}

/// 01's word for a token is taken too.
#[test]
fn a_terminal_with_its_value() {
    let text = shipped("lengths");
    let other = text.replace("token word -> length", "terminal word : length");
    assert_ne!(text, other);
    let table = |text: &str| to_table(text).expect("a grammar").table;
    assert_eq!(table(&other), table(&text));
}
