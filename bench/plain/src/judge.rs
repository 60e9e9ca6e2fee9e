//! Refusals 11 to 13: FIRST, FOLLOW and what follows from them.
use crate::table::{constant, Outline, Refusal};

pub const END: u64 = 1 << 63;

pub struct Sets {
    /// FIRST-then-FOLLOW of each production.
    pub starts: [u64; 128],
}

/// What the productions of a table without refusals 1 to 10 allow.
pub struct Analysis<'a> {
    o: &'a Outline,
    nullable: u64,
    first: [u64; 48],
    follow: [u64; 48],
}

fn until_stable(mut step: impl FnMut() -> bool) {
    while step() {}
}

impl<'a> Analysis<'a> {
    /// Before anything is found.
    pub fn new(o: &'a Outline) -> Analysis<'a> {
        Analysis { o, nullable: 0, first: [0; 48], follow: [0; 48] }
    }

    fn right(&self, p: usize) -> &'a [u8] {
        let row = &self.o.rows[p];
        &row[2..2 + row[1] as usize]
    }

    fn left(&self, p: usize) -> usize {
        self.o.rows[p][0] as usize
    }

    /// The nonterminals with a right side whose symbols are all in the set; tokens count where `tokens` says so.
    fn closure(&self, tokens: bool) -> u64 {
        let mut set = 0u64;
        until_stable(|| {
            let before = set;
            for p in 0..self.o.productions {
                let ok = |&s: &u8| if s < 128 { tokens } else { set >> (s - 128) & 1 == 1 };
                if self.right(p).iter().all(ok) {
                    set |= 1 << self.left(p);
                }
            }
            set != before
        });
        set
    }

    /// The nonterminals that derive a token string.
    pub fn productive(&self) -> u64 {
        self.closure(true)
    }

    pub fn find_nullable(&mut self) {
        self.nullable = self.closure(false);
    }

    /// The nonterminals in some sentential form.
    pub fn reachable(&self) -> u64 {
        let mut set = 1u64 << self.o.start;
        until_stable(|| {
            let before = set;
            for p in 0..self.o.productions {
                if set >> self.left(p) & 1 == 1 {
                    for &s in self.right(p) {
                        if s >= 128 {
                            set |= 1 << (s - 128);
                        }
                    }
                }
            }
            set != before
        });
        set
    }

    fn is_nullable(&self, s: u8) -> bool {
        s >= 128 && self.nullable >> (s - 128) & 1 == 1
    }

    /// FIRST of a string, and whether the string derives nothing.
    fn first_of(&self, xs: &[u8]) -> (u64, bool) {
        let mut set = 0;
        for &s in xs {
            set |= if s < 128 { 1 << s } else { self.first[(s - 128) as usize] };
            if !self.is_nullable(s) {
                return (set, false);
            }
        }
        (set, true)
    }

    fn find_first(&mut self) {
        loop {
            let mut changed = false;
            for p in 0..self.o.productions {
                let new = self.first[self.left(p)] | self.first_of(self.right(p)).0;
                changed |= new != self.first[self.left(p)];
                self.first[self.left(p)] = new;
            }
            if !changed {
                return;
            }
        }
    }

    fn find_follow(&mut self) {
        self.follow[self.o.start as usize] = END;
        loop {
            let mut changed = false;
            for p in 0..self.o.productions {
                let mut after = self.follow[self.left(p)];
                for &s in self.right(p).iter().rev() {
                    if s < 128 {
                        after = 1 << s;
                        continue;
                    }
                    let n = (s - 128) as usize;
                    let new = self.follow[n] | after;
                    changed |= new != self.follow[n];
                    self.follow[n] = new;
                    after = if self.is_nullable(s) { after | self.first[n] } else { self.first[n] };
                }
            }
            if !changed {
                return;
            }
        }
    }

    /// For each nonterminal those that one of its productions can begin with, behind symbols that derive nothing.
    pub fn leads(&self) -> [u64; 48] {
        let mut leads = [0u64; 48];
        for p in 0..self.o.productions {
            for &s in self.right(p) {
                if s < 128 {
                    break;
                }
                leads[self.left(p)] |= 1 << (s - 128);
                if !self.is_nullable(s) {
                    break;
                }
            }
        }
        leads
    }

    /// The lowest nonterminal that reaches itself leftmost without reading.
    fn recursive(&self) -> Option<usize> {
        let mut leads = self.leads();
        let n = self.o.nonterminals as usize;
        for k in 0..n {
            for i in 0..n {
                if leads[i] >> k & 1 == 1 {
                    leads[i] |= leads[k];
                }
            }
        }
        (0..n).find(|&i| leads[i] >> i & 1 == 1)
    }

    /// FIRST-then-FOLLOW of each production, where `find_nullable` came before.
    pub fn starts(&mut self) -> Sets {
        self.find_first();
        self.find_follow();
        let mut sets = Sets { starts: [0; 128] };
        for p in 0..self.o.productions {
            let (first, empty) = self.first_of(self.right(p));
            sets.starts[p] = if empty { first | self.follow[self.left(p)] } else { first };
        }
        sets
    }
}

/// Values are from minus this to this.
const LIMIT: i64 = 1_000_000_000_000;

/// The entry conditions of a production: the intersection of its ranges, attribute by attribute, and its comparisons.
pub struct Entry {
    ranges: [(i64, i64); 8],
    /// Attribute a is at most attribute b plus c.
    compared: Vec<(usize, usize, i32)>,
}

/// None without entry conditions.
fn entry(table: &[u8], o: &Outline, p: usize) -> Option<Entry> {
    let end = if p + 1 < o.productions { o.offsets[p + 1] as usize } else { table.len() };
    let mut at = o.offsets[p] as usize;
    let mut found: Option<Entry> = None;
    while at < end {
        let size = table[at + 1] as usize * 256 + table[at + 2] as usize;
        let b = &table[at + 3..at + 3 + size];
        if table[at] == 5 && b[1] == 0 && (b[0] == 0 || b[3] == 0) {
            let e = found.get_or_insert_with(|| Entry { ranges: [(-LIMIT, LIMIT); 8], compared: vec![] });
            let r = &mut e.ranges[b[2] as usize - 1];
            match b[0] {
                0 => *r = (r.0.max(constant(b, 3).into()), r.1.min(constant(b, 7).into())),
                1 => e.compared.push((b[2] as usize, b[4] as usize, 0)),
                _ => e.compared.push((b[2] as usize, b[4] as usize, constant(b, 5))),
            }
        }
        at += 3 + size;
    }
    found
}

/// Values at which the entry conditions of both hold, by Bellman and Ford: node 0 is zero, node a the attribute a.
fn values(a: &Entry, b: &Entry) -> Option<[i64; 8]> {
    let mut edges: Vec<(usize, usize, i64)> = Vec::new();
    for e in [a, b] {
        for (k, &(low, high)) in e.ranges.iter().enumerate() {
            edges.extend([(k + 1, 0, high), (0, k + 1, -low)]);
        }
        edges.extend(e.compared.iter().map(|&(x, y, c)| (x, y, i64::from(c))));
    }
    let mut at = [0i64; 9];
    for round in 0.. {
        let before = at;
        for &(x, y, c) in &edges {
            at[x] = at[x].min(at[y] + c);
        }
        if at == before {
            break;
        }
        if round == 9 {
            return None;
        }
    }
    Some(std::array::from_fn(|k| at[k + 1] - at[0]))
}

fn can_both(a: &Option<Entry>, b: &Option<Entry>) -> bool {
    match (a, b) {
        (Some(a), Some(b)) if a.compared.is_empty() && b.compared.is_empty() => {
            a.ranges.iter().zip(&b.ranges).all(|(x, y)| x.0.max(y.0) <= x.1.min(y.1))
        }
        (Some(a), Some(b)) => values(a, b).is_some(),
        _ => true,
    }
}

/// Values at which productions p and q can both be entered; none where one of them has no entry condition.
pub fn entered_with(table: &[u8], o: &Outline, p: usize, q: usize) -> Option<[i64; 8]> {
    values(&entry(table, o, p)?, &entry(table, o, q)?)
}

/// The lowest production that clashes with an earlier one, and the lowest of those.
pub fn clash(table: &[u8], o: &Outline, sets: &Sets) -> Option<(usize, usize)> {
    let entries: Vec<Option<Entry>> = (0..o.productions).map(|p| entry(table, o, p)).collect();
    for p in 0..o.productions {
        for q in 0..p {
            let meet = o.rows[p][0] == o.rows[q][0] && sets.starts[p] & sets.starts[q] != 0;
            if meet && can_both(&entries[p], &entries[q]) {
                return Some((p, q));
            }
        }
    }
    None
}

pub fn judge(table: &[u8], o: &Outline) -> Result<Sets, Refusal> {
    let mut a = Analysis::new(o);
    let useful = a.reachable() & a.productive();
    if let Some(n) = (0..o.nonterminals as usize).find(|n| useful >> n & 1 == 0) {
        return Err(Refusal { number: 11, offset: 7 + 5 * n as u32 });
    }
    a.find_nullable();
    if let Some(n) = a.recursive() {
        return Err(Refusal { number: 12, offset: 7 + 5 * n as u32 });
    }
    let sets = a.starts();
    match clash(table, o, &sets) {
        Some((p, _)) => Err(Refusal { number: 13, offset: o.offsets[p] }),
        None => Ok(sets),
    }
}
