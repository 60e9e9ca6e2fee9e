//! Random tables: most of them accepted, others with one thing wrong.
use crate::random::Random;

type Field = (u8, Vec<u8>);

/// An occurrence: symbol position and attribute.
type Occurrence = [u8; 2];

/// Inherited and synthesized count of each nonterminal, and the terminals that carry a value.
struct Counts(Vec<(u8, u8)>, Vec<u8>);

impl Counts {
    fn of(&self, symbol: u8) -> (u8, u8) {
        if symbol < 128 {
            (0, self.1.contains(&symbol) as u8)
        } else {
            self.0[symbol as usize - 128]
        }
    }
}

fn written(fields: &[Field]) -> Vec<u8> {
    let mut table = Vec::new();
    for (tag, body) in fields {
        table.push(*tag);
        table.extend((body.len() as u16).to_be_bytes());
        table.extend(body);
    }
    table
}

/// The attributes that a production's rules and conditions may read, up to a position.
fn inputs(counts: &Counts, left: u8, right: &[u8], below: usize) -> Vec<Occurrence> {
    let mut found: Vec<Occurrence> = (1..=counts.of(left).0).map(|a| [0, a]).collect();
    for (k, &x) in right.iter().enumerate().take(below.saturating_sub(1)) {
        let (inherited, synthesized) = counts.of(x);
        found.extend((1..=synthesized).map(|a| [k as u8 + 1, inherited + a]));
    }
    found
}

/// Mostly small, so that halves occur.
fn divisor(r: &mut Random) -> u32 {
    let most = if r.chance(70) { 8 } else { 1_000_000 };
    1 + r.below(most) as u32
}

fn rule(r: &mut Random, target: Occurrence, inputs: &[Occurrence]) -> Vec<u8> {
    let function = if inputs.is_empty() { 0 } else { r.below(9) as u8 };
    let mut body = vec![target[0], target[1], function];
    if function > 0 {
        body.extend(r.pick(inputs));
    }
    match function {
        0 | 7 => body.extend(r.value().to_be_bytes()),
        8 => body.extend(divisor(r).to_be_bytes()),
        2..=6 => body.extend(r.pick(inputs)),
        _ => {}
    }
    body
}

/// A rule for each output of a production.
fn rules(r: &mut Random, counts: &Counts, left: u8, right: &[u8]) -> Vec<Field> {
    let mut found = Vec::new();
    for (k, &x) in right.iter().enumerate() {
        for a in 1..=counts.of(x).0 {
            let below = if r.chance(1) { right.len() + 1 } else { k + 1 };
            found.push((4, rule(r, [k as u8 + 1, a], &inputs(counts, left, right, below))));
        }
    }
    let (inherited, synthesized) = counts.of(left);
    for a in 1..=synthesized {
        found.push((4, rule(r, [0, inherited + a], &inputs(counts, left, right, right.len() + 1))));
    }
    found
}

fn range(o: Occurrence, low: i32, high: i32) -> Field {
    (5, [&[0, o[0], o[1]], &low.to_be_bytes()[..], &high.to_be_bytes()[..]].concat())
}

/// Of kind 1, or of kind 2 with a constant, mostly a small one.
fn compared(r: &mut Random, a: Occurrence, b: Occurrence) -> Field {
    let mut body = vec![1, a[0], a[1], b[0], b[1]];
    if r.chance(60) {
        body[0] = 2;
        let constant = if r.chance(80) { r.below(7) as i32 - 3 } else { r.value() };
        body.extend(constant.to_be_bytes());
    }
    (5, body)
}

/// Alternatives of one nonterminal told apart by how far its first attribute is above its last.
fn apart(inherited: u8, i: usize, n: usize) -> Vec<Field> {
    let between = |a: u8, b: u8, c: i32| (5, [&[2, 0, a, 0, b], &c.to_be_bytes()[..]].concat());
    let mut found = Vec::new();
    if i > 0 {
        found.push(between(inherited, 1, -3 * i as i32));
    }
    if i + 1 < n {
        found.push(between(1, inherited, 3 * i as i32 + 2));
    }
    found
}

fn condition(r: &mut Random, inputs: &[Occurrence]) -> Field {
    let (a, b) = (*r.pick(inputs), *r.pick(inputs));
    if r.chance(50) {
        return compared(r, a, b);
    }
    let (x, y) = (r.value(), r.value());
    if r.chance(2) {
        return range(a, x, y);
    }
    range(a, x.min(y), x.max(y))
}

/// The right side of the i-th of n productions of a nonterminal: the first goes on to the next nonterminal, the last has tokens only,
/// and each begins, mostly, with a token of its own.
fn right_side(r: &mut Random, terminals: usize, nonterminals: usize, left: usize, i: usize, n: usize) -> Vec<u8> {
    let mut right = Vec::new();
    if r.chance(if i + 1 < n { 95 } else { 60 }) {
        right.push((i % terminals) as u8);
    }
    for _ in 0..r.below(4) {
        let s = if i + 1 == n || r.chance(50) { r.below(terminals) } else { 128 + r.below(nonterminals) };
        right.push(s as u8);
    }
    if i == 0 && n > 1 && left + 1 < nonterminals {
        right.push(128 + left as u8 + 1);
    }
    right
}

fn fields(r: &mut Random) -> Vec<Field> {
    let terminals = if r.chance(5) { 63 } else { 1 + r.below(5) };
    let nonterminals = 1 + r.below(4);
    let mut counts = Counts((0..nonterminals).map(|_| (r.below(3) as u8, r.below(3) as u8)).collect(), vec![]);
    if r.chance(60) {
        counts.1 = (0..terminals as u8).filter(|_| r.chance(50)).collect();
    }
    counts.0[0] = (0, 1 + r.below(2) as u8);
    let result = 1 + r.below(counts.0[0].1 as usize) as u8;
    let mut found = vec![(1, vec![terminals as u8, nonterminals as u8, 0, result])];
    found.extend(counts.0.iter().map(|&(i, s)| (2, vec![i, s])));
    found.extend(counts.1.iter().map(|&t| (6, vec![t])));
    for left in 0..nonterminals {
        let n = if left + 1 < nonterminals { 2 + r.below(2) } else { 1 + r.below(3) };
        let split = counts.0[left].0 > 0 && r.chance(40);
        let by_difference = counts.0[left].0 > 1 && r.chance(60);
        for i in 0..n {
            let right = right_side(r, terminals, nonterminals, left, if split { 0 } else { i }, n);
            let symbol = 128 + left as u8;
            found.push((3, [&[left as u8, right.len() as u8], &right[..]].concat()));
            found.extend(rules(r, &counts, symbol, &right));
            if split && by_difference {
                found.extend(apart(counts.0[left].0, i, n));
            } else if split {
                found.push(range([0, 1], 3 * i as i32, 3 * i as i32 + 2));
            }
            let readable = inputs(&counts, symbol, &right, right.len() + 1);
            while !readable.is_empty() && r.chance(20) {
                found.push(condition(r, &readable));
            }
        }
    }
    found
}

/// A random table, now and then one that is refused.
pub fn random(r: &mut Random) -> Vec<u8> {
    written(&fields(r))
}

/// The fields of a table, as far as they are whole.
fn taken_apart(table: &[u8]) -> Vec<Field> {
    let (mut found, mut at) = (Vec::new(), 0);
    while at + 3 <= table.len() {
        let end = at + 3 + u16::from_be_bytes([table[at + 1], table[at + 2]]) as usize;
        if end > table.len() {
            break;
        }
        found.push((table[at], table[at + 3..end].to_vec()));
        at = end;
    }
    found
}

/// The table with the rules and conditions of each production in another order, and conditions said twice. Where the table is accepted this
/// one is too, unless it is then too long or has too many conditions.
pub fn shuffled(r: &mut Random, table: &[u8]) -> Vec<u8> {
    let mut fields = Vec::new();
    let mut first = 0;
    for field in taken_apart(table) {
        let (condition, at) = (field.0 == 5, fields.len());
        if !matches!(field.0, 4 | 5) {
            first = at + 1;
        }
        fields.push(field.clone());
        if condition && r.chance(30) {
            fields.push(field);
        }
        for i in at.max(first)..fields.len() {
            let j = first + r.below(i + 1 - first);
            fields.swap(i, j);
        }
    }
    written(&fields)
}

/// The table with one field dropped, doubled, moved, or changed.
fn field_damaged(r: &mut Random, table: &[u8]) -> Vec<u8> {
    let mut fields = taken_apart(table);
    let i = r.below(fields.len());
    match r.below(6) {
        0 => drop(fields.remove(i)),
        1 => fields.insert(i, fields[i].clone()),
        2 => {
            let j = r.below(fields.len());
            fields.swap(i, j);
        }
        3 => fields[i].0 = r.below(7) as u8,
        4 => fields[i].1.push(r.below(3) as u8),
        _ => {
            if !fields[i].1.is_empty() {
                let k = r.below(fields[i].1.len());
                fields[i].1[k] = if r.chance(70) { r.below(4) as u8 } else { r.number() as u8 };
            }
        }
    }
    written(&fields)
}

/// The table with something wrong; now and then it is accepted all the same.
pub fn damaged(r: &mut Random, table: &[u8]) -> Vec<u8> {
    let mut t = table.to_vec();
    match r.below(20) {
        0 => t.resize(32769 + r.below(3), 0),
        1 => t.truncate(r.below(t.len())),
        2 => t.push(r.below(6) as u8),
        3 | 4 => {
            let i = r.below(t.len());
            t[i] ^= 1 << r.below(8);
        }
        5 => t = (0..r.below(40)).map(|_| r.below(6) as u8).collect(),
        _ => t = field_damaged(r, &t),
    }
    t
}
