//! The teaching model: without a slip it is the engine; with one it shows what docs/CLASSROOM.md says.
mod common;
use common::{of_kinds, shipped};
use grammar::run::{self as runs, Token};
use grammar::slips::{run, End, Slip};
use grammar::story::{Event, Story};
use grammar::{to_table, Built};

const ROOM: (usize, usize) = (4096, 1024);

fn tokens(built: &Built, segment: &str) -> Vec<Token> {
    let words: Vec<&str> = segment.split_whitespace().collect();
    runs::tokens(&built.grammar, &words).expect(segment)
}

/// Every move and both stacks of the model are the engine's, and so is the end.
fn assert_same(built: &Built, tokens: &[Token], room: (usize, usize)) {
    let (frames, end) = run(built, tokens, None, room);
    let mut made = frames.iter();
    let mut coming = 0;
    for event in Story::open_in(built, tokens, 0, room).expect("opened") {
        match event {
            Event::Coming(index) => coming = index,
            Event::Moved(m) => {
                let frame = made.next().unwrap_or_else(|| panic!("{tokens:?}: move {} is not in the model", m.number));
                let mut registers: Vec<Option<i64>> = m.stacks.cells.iter().map(|c| c.value).collect();
                registers.reverse();
                let places: Vec<u32> = m.stacks.places.iter().map(|p| p.number() as u32).collect();
                assert_eq!((frame.kind, &frame.registers, &frame.places), (m.kind, &registers, &places), "{tokens:?}, move {}", m.number);
                assert!(frame.token == coming || frame.token + 1 == coming, "{tokens:?}, move {}", m.number);
            }
            Event::Value(value) => assert_eq!(end, Ok(value), "{tokens:?}"),
            Event::Refused(number) => assert_eq!(end.as_ref().map_err(|e| e.0), Err(number), "{tokens:?}"),
        }
    }
    assert_eq!(made.next(), None, "{tokens:?}");
}

#[test]
fn without_a_slip_it_is_the_engine() {
    let mut seed = 7u64;
    let mut below = |n: usize| {
        seed = seed.wrapping_mul(6_364_136_223_846_793_005).wrapping_add(1_442_695_040_888_963_407);
        (seed >> 33) as usize % n
    };
    for name in ["words", "lengths", "price", "clause", "sheet"] {
        let built = to_table(&shipped(name)).expect(name);
        let examples = grammar::examples::find(&shipped(name));
        let count = built.grammar.tokens.len();
        let mut token = || Token { kind: below(count) as u8, value: below(50) as i32 };
        let random: Vec<Vec<Token>> = (0..40).map(|n| (0..n % 9).map(|_| token()).collect()).collect();
        let given: Vec<Vec<Token>> = examples.iter().map(|e| tokens(&built, &e.tokens.join(" "))).collect();
        for tokens in given.iter().chain(&random) {
            assert_same(&built, tokens, ROOM);
            assert_same(&built, tokens, (6, 5));
            assert_same(&built, tokens, (40, 4));
        }
    }
}

/// The accepted tables of the vectors, with made-up names: parts without attributes, empty alternatives, conditions of all kinds.
#[test]
fn under_the_grammars_of_the_vectors_it_is_the_engine() {
    let tables = common::vectors();
    let mut seed = 11u64;
    let mut below = |n: usize| {
        seed = seed.wrapping_mul(6_364_136_223_846_793_005).wrapping_add(1_442_695_040_888_963_407);
        (seed >> 33) as usize % n
    };
    let mut built = 0;
    for text in tables.iter().filter_map(|table| grammar::to_text(table).ok()) {
        let grammar = to_table(&text).expect("accepted");
        let derive = grammar::exercises::Derive::new(&grammar.grammar);
        let mut chance = grammar::exercises::Chance::new(built);
        built += 1;
        for _ in 0..6 {
            let mut tokens = derive.segment(&mut chance).unwrap_or_default();
            if below(3) == 0 {
                tokens.insert(below(tokens.len() + 1), of_kinds(&[below(grammar.grammar.tokens.len()) as u8])[0]);
            }
            let (frames, _) = run(&grammar, &tokens, None, ROOM);
            if frames.len() < 500 {
                assert_same(&grammar, &tokens, ROOM);
            }
        }
    }
    assert!(built >= 100, "{built}");
}

fn slipped(name: &str, segment: &str, slip: Slip, room: (usize, usize)) -> (End, Vec<Option<i64>>) {
    let built = to_table(&shipped(name)).expect(name);
    let (frames, end) = run(&built, &tokens(&built, segment), Some(slip), room);
    (end, frames.last().map_or(vec![], |f| f.registers.clone()))
}

/// The answers that docs/CLASSROOM.md gives for each slip.
#[test]
fn the_five_slips() {
    let (end, registers) = slipped("words", "word", Slip::BottomFirst, ROOM);
    assert_eq!((end.map_err(|e| e.0), registers), (Err(0), vec![Some(0), None, None, None, None]));
    assert_eq!(slipped("words", "", Slip::BottomFirst, ROOM).0, Ok(0));
    assert_eq!(slipped("price", "word word word word", Slip::TriesAnother, ROOM).0, Ok(6));
    assert_eq!(slipped("words", "open close", Slip::FollowAtEnd, ROOM).0.map_err(|e| e.0), Err(21));
    assert_eq!(slipped("words", "word word word", Slip::NoLimits, (4096, 5)).0, Ok(3));
    let (end, registers) = slipped("words", "word", Slip::WritesFirst, (4, 4));
    assert_eq!((end.map_err(|e| e.0), registers), (Err(31), vec![None, None, Some(0), None, Some(0)]));
    assert_eq!(slipped("words", "word", Slip::WritesFirst, (5, 2)).0.map_err(|e| e.0), Err(32));
    let (end, registers) = slipped("lengths", "word=4", Slip::WritesFirst, (3, 4));
    assert_eq!((end.map_err(|e| e.0), registers), (Err(31), vec![None, None, Some(0), Some(4)]));
    assert_eq!(slipped("lengths", "word=4", Slip::NoLimits, (3, 4)).0, Ok(4));
}
