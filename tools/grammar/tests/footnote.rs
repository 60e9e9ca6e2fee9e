//! Notes inside a segment: the example of docs/RUNS.md, a footnote inside a legal clause, call by call with both records; and the command.
mod common;
use common::{assert_answer, grammar, shipped, shipped_file};
use grammar::{run, to_table, Built};
use segment::lent::{self, Memory, Record};
use segment::Refusal;

/// A record as vectors/README.md writes it.
fn written(r: &Record) -> String {
    let state = ["closed", "open", "waiting"][r.status as usize];
    let begins = if r.kind == lent::INNER { format!(" inner {} {}", r.register_base, r.place_base) } else { String::new() };
    format!("{state} {} {} {} {}{begins}", r.tokens, r.moves, r.registers, r.places)
}

/// An answer: what it is called where the call is not turned back.
fn told<A>(answer: Result<A, Refusal>, words: impl Fn(A) -> String) -> String {
    answer.map_or_else(|refusal| format!("refused {}", refusal.number()), words)
}

struct Example {
    clause: Built,
    note: Built,
    outer: Record,
    inner: Record,
    registers: Vec<i64>,
    places: Vec<u32>,
    program: Vec<u32>,
}

impl Example {
    fn new() -> Example {
        let built = |name| to_table(&shipped(name)).unwrap();
        let (outer, inner) = (Record::default(), Record::default());
        let (registers, places, program) = (vec![0; lent::REGISTERS], vec![0; lent::PLACES], vec![0; lent::PROGRAM]);
        Example { clause: built("clause"), note: built("words"), outer, inner, registers, places, program }
    }

    /// Makes the call that a line names; gives its answer.
    fn call(&mut self, name: &str) -> String {
        let Example { clause, note, outer, inner, registers, places, program } = self;
        let m = &mut Memory { registers, places, program };
        let (who, call) = name.split_once(": ").expect("who is called");
        let built = if who == "clause" { &*clause } else { &*note };
        let (table, both) = (built.table.bytes(), (&mut *outer, &mut *inner));
        let (opened, more) = (|_| "opened".to_string(), |moves| format!("more {moves}"));
        let value = |(value, moves)| format!("value {value} {moves}");
        match (who, call) {
            ("clause", "open") => return told(lent::open(table, outer, m), opened),
            ("clause", "finish") => return told(lent::finish(table, outer, m), value),
            ("note", "open") => return told(lent::open_inner(clause.table.bytes(), table, both, m), opened),
            ("note", "finish") => return told(lent::finish_inner(table, both, m), value),
            ("note", "give up") => return told(lent::give_up_inner(table, both, m), more),
            _ => {}
        }
        let words: Vec<&str> = call.split(' ').collect();
        let (kinds, values) = run::lists(&run::tokens(&built.grammar, &words).unwrap());
        match who {
            "clause" => told(lent::feed(table, outer, m, &kinds, &values), more),
            _ => told(lent::feed_inner(table, both, m, &kinds, &values), more),
        }
    }
}

#[test]
fn the_page_says_what_happens() {
    let page = std::fs::read_to_string(format!("{}/../../docs/RUNS.md", env!("CARGO_MANIFEST_DIR"))).unwrap();
    let block = page.split("```footnote\n").nth(1).and_then(|rest| rest.split("```").next()).expect("a block of the example");
    let mut example = Example::new();
    for line in block.lines() {
        let name = line.split(" | ").next().expect("a call").trim();
        let answer = example.call(name);
        let shown = [name, &answer, &written(&example.outer), &written(&example.inner)].map(str::to_string);
        let parts: Vec<String> = line.split(" | ").map(|part| part.trim().to_string()).collect();
        assert_eq!(shown.to_vec(), parts);
    }
    assert_eq!(block.lines().count(), 14);
}

/// What the command answers for words and tags, or words with their lengths, with notes of the other grammar.
fn with_notes(of: &str, notes: &str, tokens: &str, code: i32, stdout: &str, stderr: &str) {
    let (of, notes) = (shipped_file(of), shipped_file(notes));
    let words = ["run", &of, "--notes", &notes].into_iter().chain(tokens.split_whitespace());
    assert_answer(grammar(&words.collect::<Vec<_>>()), code, stdout, stderr);
}

#[test]
fn notes_in_a_segment() {
    with_notes("words", "lengths", "word open [ word=4 word=7 ] word close", 0, "note after 2 tokens: 11\n2\n", "");
    with_notes("words", "lengths", "[ ] word [ word=2 ]", 0, "note after 0 tokens: 0\nnote after 1 token: 2\n1\n", "");
    let refused = "note after 1 token: refused 22 after 1 token, once token 1, `word=41`, was read: the condition \
                   `1 <= word.length <= 40` on line 25 is false: word.length is 41\n1\n";
    with_notes("words", "lengths", "word [ word=41 ]", 1, refused, "");
    let over = "refused 24 after 1 token, at the end: the segment is over where it expects `close`\n";
    with_notes("words", "words", "open [ word ]", 1, "note after 1 token: 1\n", over);
    with_notes(
        "words",
        "words",
        "close [ word ]",
        1,
        "",
        "refused 21 after 0 tokens, at token 1, `close`: expected `word`, `open` or the end\n",
    );
    for tokens in ["word ]", "[ word [ word ] ]"] {
        with_notes("words", "words", tokens, 2, "", "grammar: a note stands between `[` and `]`, and has none of its own\n");
    }
    with_notes("words", "words", "word [ word", 2, "", "grammar: a note has no `]` behind it\n");
    with_notes("words", "words", "--empty", 0, "0\n", "");
    with_notes("words", "words", "-", 2, "", "grammar: `--notes` is for a segment whose tokens are given\n");
}

/// A segment that leaves a note no room: 1,020 words fill all places but two.
#[test]
fn a_note_without_room() {
    let tokens = "word ".repeat(1020) + "[ word ]";
    let note = "note after 1,020 tokens: refused 32 after 0 tokens: the run needs more places than were lent; at most 1,024 count\n1020\n";
    with_notes("words", "words", &tokens, 1, note, "");
}
