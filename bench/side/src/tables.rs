//! Tables that stand for a kind of work, and worst cases, beside those of `plain::samples`.
use plain::samples::field;

/// The tag of a field that says that a token carries a value.
const CARRIER: u8 = 6;
/// The tag of a condition, and the kind that compares with a constant added.
const CONDITION: u8 = 5;
const AT_MOST: u8 = 2;

/// How many nodes a node of each level has below it: 3,456 tokens in all.
pub const WIDTHS: [u8; 4] = [2, 12, 12, 12];

/// The tokens of a tree with these widths.
pub fn tree_segment(widths: &[u8]) -> Vec<u8> {
    vec![0; widths.iter().map(|&w| w as usize).product()]
}

/// The rule that occurrence (k, a) is a copy of another.
fn copy(t: &mut Vec<u8>, to: (u8, u8), from: (u8, u8)) {
    field(t, 4, &[to.0, to.1, 1, from.0, from.1]);
}

fn constant(t: &mut Vec<u8>, to: (u8, u8), value: u8) {
    field(t, 4, &[to.0, to.1, 0, 0, 0, 0, value]);
}

fn range(t: &mut Vec<u8>, (k, a): (u8, u8), low: i32, high: i32) {
    field(t, 5, &[&[0, k, a], &low.to_be_bytes()[..], &high.to_be_bytes()].concat());
}

fn at_most(t: &mut Vec<u8>, low: (u8, u8), high: (u8, u8)) {
    field(t, 5, &[1, low.0, low.1, high.0, high.1]);
}

/// The header, a start symbol with one result, and `n` nonterminals with so many attributes of either kind; the start symbol goes on to
/// the first of them, with constants, and has its first result.
fn headed(terminals: u8, n: u8, inherited: &[u8], synthesized: u8) -> Vec<u8> {
    let mut t = Vec::new();
    field(&mut t, 1, &[terminals, n + 1, 0, 1]);
    field(&mut t, 2, &[0, 1]);
    for _ in 0..n {
        field(&mut t, 2, &[inherited.len() as u8, synthesized]);
    }
    field(&mut t, 3, &[0, 1, 129]);
    for (a, &value) in (1..).zip(inherited) {
        constant(&mut t, (1, a), value);
    }
    copy(&mut t, (0, 1), (1, inherited.len() as u8 + 1));
    t
}

/// A production whose children hand `n` values on from one to the next, with four conditions on each child where there are four values.
fn handing_on(t: &mut Vec<u8>, left: u8, children: u8, n: u8) {
    let mut body = vec![left, children];
    body.resize(2 + children as usize, 128 + left + 1);
    field(t, 3, &body);
    for k in 1..=children {
        for a in 1..=n {
            copy(t, (k, a), if k == 1 { (0, a) } else { (k - 1, n + a) });
        }
        if n == 4 {
            range(t, (k, 5), 0, 1_000_000);
            range(t, (k, 6), 0, 1);
            at_most(t, (k, 6), (k, 7));
            at_most(t, (0, 1), (k, 5));
        }
    }
    for a in 1..=n {
        copy(t, (0, n + a), (children, n + a));
    }
}

/// The same tokens, of so many kinds in no order.
pub fn tree_of_kinds(widths: &[u8], kinds: u8) -> Vec<u8> {
    in_no_order(tree_segment(widths).len(), kinds)
}

/// So many tokens, of so many kinds in no order.
pub fn in_no_order(tokens: usize, kinds: u8) -> Vec<u8> {
    let mut state = 1u32;
    let mut kind = || {
        state = state.wrapping_mul(1_664_525).wrapping_add(1_013_904_223);
        ((state >> 16) % kinds as u32) as u8
    };
    (0..tokens).map(|_| kind()).collect()
}

/// A wide tree of words of so many kinds: each word is a nonterminal that adds 1 to what it is handed, with an alternative for each kind.
fn wide_by(widths: &[u8], terminals: u8, kinds: u8) -> Vec<u8> {
    let levels = widths.len() as u8;
    let mut t = headed(terminals, levels + 1, &[0], 1);
    for (left, &width) in (1..).zip(widths) {
        handing_on(&mut t, left, width, 1);
    }
    for kind in 0..kinds {
        field(&mut t, 3, &[levels + 1, 1, kind]);
        field(&mut t, 4, &[0, 2, 7, 0, 1, 0, 0, 0, 1]);
    }
    t
}

/// Words of so many kinds, each of which goes on to a nonterminal of its own: a regular grammar, one nonterminal for each state.
pub fn states(kinds: u8) -> Vec<u8> {
    let mut t = headed(kinds, kinds, &[0], 1);
    for left in 1..=kinds {
        for kind in 0..kinds {
            field(&mut t, 3, &[left, 2, kind, 129 + kind]);
            copy(&mut t, (2, 1), (0, 1));
            field(&mut t, 4, &[0, 2, 7, 2, 2, 0, 0, 0, 1]);
        }
        field(&mut t, 3, &[left, 0]);
        constant(&mut t, (0, 2), 0);
    }
    t
}

/// A wide tree of words of one kind.
pub fn wide(widths: &[u8]) -> Vec<u8> {
    wide_by(widths, 3, 1)
}

/// A wide tree of words of several kinds.
pub fn wide_of_kinds(widths: &[u8], kinds: u8) -> Vec<u8> {
    wide_by(widths, kinds, kinds)
}

/// The same tree with plain tokens in its lowest nodes: nearly nothing but reads.
pub fn reads(widths: &[u8]) -> Vec<u8> {
    let (&tokens, upper) = widths.split_last().unwrap();
    let lowest = upper.len() as u8 + 1;
    let mut t = headed(3, lowest, &[0], 1);
    for (left, &width) in (1..).zip(upper) {
        handing_on(&mut t, left, width, 1);
    }
    let mut body = vec![lowest, tokens];
    body.resize(2 + tokens as usize, 0);
    field(&mut t, 3, &body);
    field(&mut t, 4, &[0, 2, 7, 0, 1, 0, 0, 0, tokens]);
    t
}

/// The same tree with four values handed on, four conditions on each child, and two alternatives for a word that an entry condition picks.
pub fn ruled(widths: &[u8]) -> Vec<u8> {
    let levels = widths.len() as u8;
    let mut t = headed(3, levels + 1, &[0, 0, 5, 0], 4);
    for (left, &width) in (1..).zip(widths) {
        handing_on(&mut t, left, width, 4);
    }
    for (side, step) in [(0, 1), (1, -1)] {
        field(&mut t, 3, &[levels + 1, 1, 0]);
        field(&mut t, 4, &[0, 5, 7, 0, 1, 0, 0, 0, 1]);
        field(&mut t, 4, &[&[0, 6, 7, 0, 2], &i32::to_be_bytes(step)[..]].concat());
        field(&mut t, 4, &[0, 7, 5, 0, 3, 0, 2]);
        field(&mut t, 4, &[0, 8, 8, 0, 1, 0, 0, 0, 3]);
        range(&mut t, (0, 2), side, side);
    }
    t
}

/// Brackets with four attributes of either kind: 0 opens, 1 closes, 2 is inside, as in `plain::samples::brackets`.
pub fn brackets_of_eight() -> Vec<u8> {
    let mut t = headed(3, 1, &[0, 0, 0, 0], 4);
    field(&mut t, 3, &[1, 3, 0, 129, 1]);
    field(&mut t, 4, &[2, 1, 7, 0, 1, 0, 0, 0, 1]);
    field(&mut t, 4, &[2, 2, 2, 0, 2, 0, 1]);
    field(&mut t, 4, &[2, 3, 6, 0, 3, 0, 2]);
    field(&mut t, 4, &[2, 4, 5, 0, 4, 0, 1]);
    field(&mut t, 4, &[0, 5, 7, 2, 5, 0, 0, 0, 1]);
    field(&mut t, 4, &[0, 6, 2, 2, 6, 0, 1]);
    field(&mut t, 4, &[0, 7, 6, 2, 7, 0, 2]);
    field(&mut t, 4, &[0, 8, 3, 2, 8, 0, 3]);
    field(&mut t, 3, &[1, 1, 2]);
    for a in 1..=4 {
        copy(&mut t, (0, 4 + a), (0, a));
    }
    t
}

/// 48 nonterminals in a chain, each with two productions of 12 symbols that end in the next. With `ends_first` the chain is declared from
/// its end, so that a pass over the productions in their order carries what comes from above (what is reachable, what can follow) by one
/// nonterminal only; else from its start, so that this is so for what comes from below (what derives a token string, what can be empty,
/// what it can begin with). A pass against their order has it the other way round.
pub fn worst_order(ends_first: bool) -> Vec<u8> {
    let number = |link: u8| if ends_first { link } else { 47 - link };
    let mut t = Vec::new();
    field(&mut t, 1, &[63, 48, number(47), 1]);
    for n in 0..48 {
        field(&mut t, 2, &[0, (n == number(47)) as u8]);
    }
    // A number's link is the link's number.
    for link in (0..48).map(number) {
        if link == 0 {
            field(&mut t, 3, &[number(0), 0]);
            continue;
        }
        for first in [128 + number(0), link] {
            let mut body = vec![number(link), 12, first];
            body.resize(13, 128 + number(0));
            body.push(128 + number(link - 1));
            field(&mut t, 3, &body);
            if link == 47 {
                constant(&mut t, (0, 1), 0);
            }
        }
    }
    t
}

/// Twelve productions of up to 12 children with 7 rules and some conditions for each, nearly all that a table can have; the rules of a
/// child lie as far apart as they can.
pub fn heavy() -> Vec<u8> {
    let last = 13;
    let mut t = headed(1, last, &[1; 7], 1);
    for left in 1..last {
        let children = if left == 1 { 11 } else { 12 };
        let mut body = vec![left, children];
        body.resize(2 + children as usize, 128 + left + 1);
        field(&mut t, 3, &body);
        for a in 1..=7 {
            for k in 1..=children {
                copy(&mut t, (k, a), (0, a));
            }
        }
        copy(&mut t, (0, 8), (0, 1));
        for i in 0..42 {
            range(&mut t, (1 + i % children, 8), i32::MIN, i32::MAX);
        }
    }
    field(&mut t, 3, &[last, 1, 0]);
    copy(&mut t, (0, 8), (0, 1));
    t
}

/// One production of 12 children with 7 rules for each, and all the conditions that a table can have.
pub fn one_production() -> Vec<u8> {
    let mut t = Vec::new();
    field(&mut t, 1, &[1, 2, 0, 1]);
    field(&mut t, 2, &[0, 1]);
    field(&mut t, 2, &[7, 1]);
    field(&mut t, 3, &[1, 1, 0]);
    constant(&mut t, (0, 8), 1);
    field(&mut t, 3, &[&[0, 12][..], &[129; 12]].concat());
    for k in 1..=12 {
        for a in 1..=7 {
            constant(&mut t, (k, a), a);
        }
    }
    copy(&mut t, (0, 1), (12, 8));
    for i in 0..512 {
        range(&mut t, (1 + (i % 12) as u8, 8), -5, 5);
    }
    t
}

/// The same table with one more rule, whose function is unknown: refused by 5 at its last field.
pub fn refused_last(mut table: Vec<u8>) -> Vec<u8> {
    field(&mut table, 4, &[0, 1, 9]);
    table
}

/// Whether a table has what document 01 alone does not know: tokens that carry values, or conditions that compare with a constant added.
pub fn extended(table: &[u8]) -> bool {
    let mut at = 0;
    while at + 3 < table.len() {
        if table[at] == CARRIER || table[at] == CONDITION && table[at + 3] == AT_MOST {
            return true;
        }
        at += 3 + table[at + 1] as usize * 256 + table[at + 2] as usize;
    }
    false
}
