//! Traces by names: what they say, and that it is what the engine does.
mod common;
use common::{assert_answer, grammar, grammar_on, shipped, shipped_file, stdout};
use grammar::model::Item;
use grammar::stacks::{result, rules};
use grammar::story::{Event, Move, Story};
use grammar::{run, to_table, Built};
use segment::steps::Kind;

const WORD: &str = include_str!("traces/word.txt");
const CLAUSE: &str = include_str!("traces/clause.txt");

#[test]
fn a_trace_by_names() {
    assert_answer(grammar(&["trace", &shipped_file("words"), "word"]), 0, WORD, "");
    assert_answer(grammar_on(&["trace", &shipped_file("words"), "-"], b"word\n"), 0, WORD, "");
}

/// The last moves of a segment that a condition ends.
#[test]
fn the_false_condition_is_named() {
    let args = ["trace", &shipped_file("clause"), "one", "sub", "two", "--from", "3"];
    assert_answer(grammar(&args), 1, CLAUSE, "");
}

#[test]
fn a_part_of_a_run() {
    let file = shipped_file("words");
    let told = |args: &[&str]| {
        let all = [&["trace", file.as_str()], args].concat();
        stdout(&grammar(&all)).lines().filter(|l| l.starts_with("token") || *l == "the end").map(String::from).collect::<Vec<_>>()
    };
    let tokens = ["word", "open", "word", "close"];
    let from = |more: &[&str]| told(&[&tokens[..], more].concat());
    assert_eq!(from(&["--from", "3"]), ["token 3 of 4: word", "token 4 of 4: close", "the end"]);
    assert_eq!(from(&["--from=2", "--to=3"]), ["token 2 of 4: open", "token 3 of 4: word"]);
    assert_eq!(from(&["--stop", "open"]), ["token 1 of 4: word", "token 2 of 4: open"]);
    assert_eq!(from(&["--from", "5"]), ["the end"]);
    assert_eq!(told(&["--empty"]), ["the end"]);
    let wrong = grammar(&["trace", &file, "word", "--from", "3"]);
    assert_answer(wrong, 2, "", "grammar: there is no token 3: the tokens are 1 to 1, the end is 2\n");
    let wrong = grammar(&["trace", &file, "word", "--stop", "clsoe"]);
    assert_answer(wrong, 2, "", "token 1, `clsoe`, is not in the grammar; did you mean `close`?\n");
}

/// At each stop the tokens that may come next, tried with the value of the token that comes.
#[test]
fn what_may_be_typed_at_each_stop() {
    let told = |name: &str, args: &[&str]| {
        let file = shipped_file(name);
        let all = [&["trace", file.as_str()], args].concat();
        let lines = stdout(&grammar(&all));
        lines.lines().filter_map(|l| l.strip_prefix("        may be typed now")).map(String::from).collect::<Vec<_>>()
    };
    let opened = [": word open", ": word open close", ": word open close", ": word close"];
    assert_eq!(told("words", &["open", "open", "open"]), opened);
    assert_eq!(told("words", &["open", "open", "--from", "2", "--to", "2"]), opened[1..3]);
    assert_eq!(told("words", &["word", "close"]), [": word open"; 2]);
    let lengths = [", with value 4: word=4 open", ", with value 0: open", ", with value 41: open close"];
    assert_eq!(told("lengths", &["word=4", "open", "word=41"]), lengths);
}

#[test]
fn deep_stacks_are_cut_unless_all_is_wanted() {
    let words = vec!["word"; 30];
    let file = shipped_file("words");
    let longest = |more: &[&str]| {
        let args = [&["trace", file.as_str()], &words[..], more].concat();
        stdout(&grammar(&args)).lines().map(|l| l.chars().count()).max().unwrap_or(0)
    };
    assert!(longest(&[]) < 280 && longest(&["--full"]) > 800);
}

/// Whether each rule of an evaluate has the result that its register holds.
fn assert_evaluated(built: &Built, made: &Move) {
    let Some(p) = built.grammar.productions.get(made.place.production) else { return };
    let position = if made.place.passed < p.right.len() { made.place.passed + 1 } else { 0 };
    let place = made.stacks.places.len() - 1;
    for (_, item) in rules(p, position) {
        let Item::Rule(target, function) = item else { continue };
        let computed = result(function, |o| made.stacks.value(place, o));
        assert_eq!(computed, made.stacks.value(place, *target).map(i128::from), "{:?}", made.words);
    }
}

/// The names are those of the registers: what a rule computes from them is what the engine put there, for segments of all kinds.
#[test]
fn names_and_registers_belong_together() {
    for (name, segments) in [
        ("words", &["", "word open word close", "open open open close close close word", "open open open open", "word close"][..]),
        (
            "clause",
            &[
                "one warrants sub one warrants word=4 two limits end two word=1",
                "one word=4 three word=4",
                "one warrants sub one word=40",
                "word",
            ],
        ),
        ("lengths", &["word=4 open word=7 close", "word=4 word=41", "word=1 open word=2"]),
        ("sheet", &["limit one kilogram item two five zero gram item three by one zero zero gram total five five zero gram", "limit gram"]),
    ] {
        let built = to_table(&shipped(name)).expect(name);
        for segment in segments {
            let words: Vec<&str> = segment.split_whitespace().collect();
            let tokens = run::tokens(&built.grammar, &words).expect(segment);
            let outcome = run::run(&built.table, &tokens);
            let (mut moves, mut ended) = (0, None);
            for event in Story::open(&built, &tokens, 0).expect("opened") {
                match event {
                    Event::Moved(made) => {
                        moves += 1;
                        assert_eq!(made.number, moves);
                        assert!(
                            !made.words.is_empty() && !made.words.iter().any(|w| w.contains('?') || w.contains("false")),
                            "{:?}",
                            made.words
                        );
                        if made.kind == Kind::Evaluate {
                            assert_evaluated(&built, &made);
                        }
                    }
                    Event::Coming(_) => {}
                    Event::Value(value) => ended = Some(Ok(value)),
                    Event::Refused(number) => ended = Some(Err(number)),
                }
            }
            assert_eq!((moves, ended), (outcome.moves, Some(outcome.answer.map_err(|r| r.number()))), "{segment}");
        }
    }
}
