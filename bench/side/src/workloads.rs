//! What is measured.
use crate::engine::{PLACES, REGISTERS};
use crate::tables;
use plain::samples;

/// What the clock is stopped for.
#[derive(Clone, Copy, PartialEq)]
pub enum Work {
    /// A verdict on the table.
    Judge,
    /// An opening with no registers lent, which is turned back by 31 right after the program is written, less judging.
    Build,
    /// An opening.
    Open,
    /// A feed without tokens, where the segment has been fed.
    Empty,
    /// The feed of the segment, less a feed without tokens just before it.
    Feed,
    /// The feed of the segment, as a call.
    Short,
    /// The segment, one token a feed.
    Single,
    /// The finish behind the feed of the segment.
    Finish,
}

pub struct Workload {
    pub work: Work,
    pub name: String,
    pub table: Vec<u8>,
    pub tokens: Vec<u8>,
    pub values: Vec<i32>,
    /// Registers and places.
    pub lent: (usize, usize),
    /// The number of its last answer.
    pub number: u32,
}

const CAPS: (usize, usize) = (REGISTERS, PLACES);
const SMALL: (usize, usize) = (64, 16);

fn workload(work: Work, name: &str, table: Vec<u8>, tokens: Vec<u8>, lent: (usize, usize), number: u32) -> Workload {
    let kind = match work {
        Work::Judge => "judge",
        Work::Build => "build",
        Work::Open => "open",
        Work::Empty => "empty feed",
        Work::Feed => "moves",
        Work::Short => "feed",
        Work::Single => "one token a feed",
        Work::Finish => "finish",
    };
    let values = (1..=9).cycle().take(tokens.len()).collect();
    Workload { work, name: format!("{kind}: {name}, {} B", table.len()), table, tokens, values, lent, number }
}

fn feeds() -> Vec<Workload> {
    let feed = |name, table, tokens, lent| workload(Work::Feed, name, table, tokens, lent, 0);
    let tree = tables::tree_segment(&tables::WIDTHS);
    let mixed =
        |name, kinds| feed(name, tables::wide_of_kinds(&tables::WIDTHS, kinds), tables::tree_of_kinds(&tables::WIDTHS, kinds), SMALL);
    vec![
        feed("1,021 words", samples::words(), vec![0; 1021], CAPS),
        feed("words and tags, 1,000 tokens", samples::words(), [0, 1, 0, 2].repeat(250), CAPS),
        feed("words that carry their lengths, 1,021", samples::lengths(), vec![0; 1021], CAPS),
        feed("words in a wide tree", tables::wide(&tables::WIDTHS), tree.clone(), SMALL),
        mixed("words of 2 kinds in no order, wide tree", 2),
        mixed("words of 16 kinds in no order, wide tree", 16),
        feed("words of 2 kinds in no order, a state for each", tables::states(2), tables::in_no_order(1021, 2), CAPS),
        feed("words of 8 kinds in no order, a state for each", tables::states(8), tables::in_no_order(1021, 8), CAPS),
        feed("reads in a wide tree", tables::reads(&tables::WIDTHS), tree.clone(), SMALL),
        feed("brackets 1,020 deep", samples::brackets(), samples::brackets_segment(1020), CAPS),
        feed("brackets 510 deep, 4 + 4 attributes", tables::brackets_of_eight(), samples::brackets_segment(510), CAPS),
        feed("rules and conditions", tables::ruled(&tables::WIDTHS), tree, (512, 16)),
    ]
}

fn calls() -> Vec<Workload> {
    let call = |work, name, table, tokens: usize, lent| workload(work, name, table, vec![0; tokens], lent, 0);
    let (wide, ruled) = (tables::wide(&tables::WIDTHS), tables::ruled(&tables::WIDTHS));
    vec![
        call(Work::Short, "20 words, 64 registers and 32 places", samples::words(), 20, (64, 32)),
        call(Work::Single, "wide tree, small stacks", wide.clone(), 100, SMALL),
        call(Work::Single, "wide tree, all cells", wide.clone(), 100, CAPS),
        call(Work::Single, "words, all cells", samples::words(), 100, CAPS),
        call(Work::Empty, "words, small stacks", samples::words(), 0, SMALL),
        call(Work::Empty, "words, all cells", samples::words(), 0, CAPS),
        call(Work::Empty, "words, all cells, 1,021 words on the stacks", samples::words(), 1021, CAPS),
        call(Work::Empty, "wide tree, small stacks", wide, 0, SMALL),
        call(Work::Empty, "rules and conditions", ruled, 0, (512, 16)),
        call(Work::Open, "words, all cells", samples::words(), 0, CAPS),
        call(Work::Finish, "1,021 words, all cells", samples::words(), 1021, CAPS),
    ]
}

fn judging() -> Vec<Workload> {
    let judge = |name, table, number| workload(Work::Judge, name, table, vec![], SMALL, number);
    vec![
        judge("words, accepted", samples::words(), 0),
        judge("words, refused by its last field", tables::refused_last(samples::words()), 5),
        judge("wide tree, accepted", tables::wide(&tables::WIDTHS), 0),
        judge("chain of 4, accepted", samples::chain(4, 2, 8), 0),
        judge("chain of 4, refused late by 13", samples::refused_late(4, 2, 8), 13),
        judge("largest, accepted", samples::largest(), 0),
        judge("chain of 47, refused late by 13", samples::refused_late(47, 33, 512), 13),
        judge("longest, refused by its last field", samples::longest_refused(), 5),
    ]
}

fn building() -> Vec<Workload> {
    let build = |name, table| workload(Work::Build, name, table, vec![], (0, PLACES), 31);
    vec![
        build("words", samples::words()),
        build("wide tree", tables::wide(&tables::WIDTHS)),
        build("chain of 4", samples::chain(4, 2, 8)),
        build("rules and conditions", tables::ruled(&tables::WIDTHS)),
        build("largest", samples::largest()),
    ]
}

/// What takes longest for its bytes.
fn worst() -> Vec<Workload> {
    let judge = |name, table| workload(Work::Judge, name, table, vec![], SMALL, 0);
    let build = |name, table| workload(Work::Build, name, table, vec![], (0, PLACES), 31);
    vec![
        judge("worst order, chain declared from its end", tables::worst_order(true)),
        judge("worst order, chain declared from its start", tables::worst_order(false)),
        judge("127 alternatives kept apart by ranges", samples::alternatives(false)),
        judge("127 alternatives kept apart by comparisons", samples::alternatives(true)),
        judge("104 rules a production, reversed", samples::many_rules(12, true)),
        judge("most rules and conditions, interleaved", tables::heavy()),
        judge("one production of 597 rules and conditions", tables::one_production()),
        workload(Work::Judge, "the same, refused by its last field", tables::refused_last(tables::one_production()), vec![], SMALL, 5),
        build("104 rules a production, reversed", samples::many_rules(12, true)),
        build("most rules and conditions, interleaved", tables::heavy()),
    ]
}

pub fn all() -> Vec<Workload> {
    [feeds(), calls(), judging(), building(), worst()].into_iter().flatten().collect()
}
