//! The program area: docs/PROGRAM.md.
use crate::judge::{Sets, END};
use crate::table::{constant, Outline};

pub const AREA: usize = 16384;
/// The words for the whole segment; the directory comes behind them.
pub const WHOLE: usize = 9;

/// The address of the records.
pub fn records(o: &Outline) -> usize {
    WHOLE + 64 * o.nonterminals as usize
}

struct Writer<'a> {
    words: &'a mut [u32],
    at: usize,
}

impl Writer<'_> {
    fn put(&mut self, word: u32) {
        self.words[self.at] = word;
        self.at += 1;
    }
}

/// Selectors of one production.
struct Selectors {
    inherited: [u32; 13],
    /// The synthesized attributes of the symbols up to each position.
    sums: [u32; 13],
}

impl Selectors {
    fn new(o: &Outline, p: usize) -> Selectors {
        let mut s = Selectors { inherited: [0; 13], sums: [0; 13] };
        let n = o.rows[p][1];
        for k in 0..=n {
            let x = o.symbol(p, k);
            s.inherited[k as usize] = o.inh(x) as u32;
            if k > 0 {
                s.sums[k as usize] = s.sums[k as usize - 1] + o.syn(x) as u32;
            }
        }
        s
    }

    /// After the first k symbols are left.
    fn after(&self, k: usize, position: u8, attribute: u8) -> u32 {
        let i = position as usize;
        if i == 0 {
            self.sums[k] + attribute as u32
        } else {
            self.sums[k] - self.sums[i] + attribute as u32 - self.inherited[i]
        }
    }
}

fn write_rule(w: &mut Writer, b: &[u8], select: impl Fn(u8, u8) -> u32) {
    let f = b[2] as u32;
    let a = if f == 0 { 0 } else { select(b[3], b[4]) };
    let second = if (2..=6).contains(&f) { select(b[5], b[6]) } else { 0 };
    let c = match f {
        0 => constant(b, 3) as u32,
        7 | 8 => constant(b, 5) as u32,
        _ => 0,
    };
    w.put(select(b[0], b[1]) + 128 * f + 2048 * a + 262144 * second);
    w.put(c);
}

fn write_condition(w: &mut Writer, b: &[u8], select: impl Fn(u8, u8) -> u32) {
    if b[0] == 0 {
        w.put(select(b[1], b[2]));
        w.put(constant(b, 3) as u32);
        w.put(constant(b, 7) as u32);
    } else {
        w.put(select(b[1], b[2]) + 128 * b[0] as u32 + 2048 * select(b[3], b[4]));
        w.put(if b[0] == 1 { 0 } else { constant(b, 5) as u32 });
        w.put(0);
    }
}

/// The bodies of the fields of production p with a tag.
fn fields<'t>(table: &'t [u8], o: &Outline, p: usize, tag: u8) -> impl Iterator<Item = &'t [u8]> {
    let end = if p + 1 < o.productions { o.offsets[p + 1] as usize } else { table.len() };
    let mut at = o.offsets[p] as usize;
    std::iter::from_fn(move || {
        while at < end {
            let size = table[at + 1] as usize * 256 + table[at + 2] as usize;
            let field = (table[at], &table[at + 3..at + 3 + size]);
            at += 3 + size;
            if field.0 == tag {
                return Some(field.1);
            }
        }
        None
    })
}

fn position_of(b: &[u8]) -> u8 {
    if b[0] == 0 {
        b[1]
    } else {
        b[1].max(b[3])
    }
}

fn write_body(table: &[u8], o: &Outline, p: usize, w: &mut Writer) -> (u32, u32) {
    let s = Selectors::new(o, p);
    let row = &o.rows[p];
    let n = row[1] as usize;
    let index = w.at;
    w.at += n;
    let mut entries = 0;
    for b in fields(table, o, p, 5).filter(|b| position_of(b) == 0) {
        write_condition(w, b, |i, a| s.after(0, i, a));
        entries += 1;
    }
    let scheme = w.at as u32;
    for k in 1..=n {
        let x = row[1 + k];
        let att = (o.inh(x) + o.marked(x)) as u32;
        if att > 0 {
            w.put(8 * att);
        }
        if o.inh(x) > 0 {
            w.put(1 + 8 * o.inh(x) as u32);
            let select = |i: u8, a: u8| if i as usize == k { a as u32 } else { att + s.after(k - 1, i, a) };
            for b in fields(table, o, p, 4).filter(|b| b[0] as usize == k) {
                write_rule(w, b, select);
            }
        }
        w.words[index + k - 1] = w.at as u32;
        w.put(if x < 128 { 2 + 8 * x as u32 } else { 3 + 8 * (x - 128) as u32 });
        let head = w.at;
        let mut count = 0;
        for b in fields(table, o, p, 5).filter(|b| position_of(b) as usize == k) {
            if count == 0 {
                w.at += 1;
            }
            write_condition(w, b, |i, a| s.after(k, i, a));
            count += 1;
        }
        if count > 0 {
            w.words[head] = 4 + 8 * count;
        }
    }
    let left = 128 + row[0];
    if o.syn(left) > 0 {
        w.put(1 + 8 * o.syn(left) as u32);
        for b in fields(table, o, p, 4).filter(|b| b[0] == 0) {
            write_rule(w, b, |i, a| s.after(n, i, a));
        }
    }
    w.put(5 + 8 * (o.inh(left) as u32 + s.sums[n]));
    (scheme, entries)
}

/// What a place of production p waits at, for each number of symbols passed.
fn write_waits(o: &Outline, p: usize, waits: &mut [u32]) {
    let (left, mut passed) = (o.rows[p][0] as u32, 0);
    waits.fill(0);
    for k in 1..=o.rows[p][1] {
        let x = o.symbol(p, k);
        let held = 8192 * o.marked(x) as u32 + 131072 * o.inh(x) as u32;
        waits[k as usize - 1] = left + 64 * passed + held + 2097152 * x as u32 + 536870912;
        passed += o.syn(x) as u32;
    }
}

/// Writes the program; answers its length.
pub fn build(table: &[u8], o: &Outline, sets: &Sets, area: &mut [u32]) -> usize {
    let records = records(o);
    let waits = records + 8 * o.productions;
    let start = 128 + o.start;
    area[..WHOLE].copy_from_slice(&[
        3 + 8 * o.start as u32,
        6,
        records as u32,
        o.terminals as u32,
        o.syn(start) as u32,
        o.result as u32,
        o.productions as u32,
        o.carriers as u32,
        (o.carriers >> 32) as u32,
    ]);
    let mut w = Writer { words: area, at: waits + 12 * o.productions };
    for p in 0..o.productions {
        write_waits(o, p, &mut w.words[waits + 12 * p..waits + 12 * p + 12]);
        let body = w.at as u32;
        let (scheme, entries) = write_body(table, o, p, &mut w);
        let r = records + 8 * p;
        w.words[r] = o.rows[p][0] as u32;
        w.words[r + 2] = sets.starts[p] as u32;
        w.words[r + 3] = (sets.starts[p] >> 32) as u32;
        w.words[r + 4] = body;
        w.words[r + 5] = entries;
        w.words[r + 6] = scheme;
        w.words[r + 7] = o.rows[p][1] as u32;
    }
    debug_assert!(END >> 63 == 1);
    let end = w.at;
    write_directory(o, sets, area);
    end
}

/// The directory and the next-words, the last production first; the records stand already.
fn write_directory(o: &Outline, sets: &Sets, area: &mut [u32]) {
    let records = records(o);
    area[WHOLE..records].fill(0);
    let mut next = [0u32; 48];
    for p in (0..o.productions).rev() {
        let (left, r) = (o.rows[p][0] as usize, records + 8 * p);
        area[r + 1] = next[left];
        next[left] = p as u32 + 1;
        let scheme = if area[r + 5] == 0 { area[r + 6] } else { 0 };
        let mut set = sets.starts[p];
        while set != 0 {
            area[WHOLE + 64 * left + set.trailing_zeros() as usize] = p as u32 + 1 + 256 * scheme;
            set &= set - 1;
        }
    }
}
