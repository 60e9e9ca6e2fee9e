//! Refusals 1 to 10: one pass over the table's bytes.

/// A refusal of a table: its number and the field's offset.
#[derive(Clone, Copy, Debug, PartialEq, Eq)]
pub struct Refusal {
    pub number: u32,
    pub offset: u32,
}

/// What was read: counts of each nonterminal, offset and row of each production.
#[derive(Clone)]
pub struct Outline {
    pub terminals: u8,
    pub nonterminals: u8,
    pub start: u8,
    pub result: u8,
    pub inherited: [u8; 48],
    pub synthesized: [u8; 48],
    /// The terminals that carry a value: a bit each.
    pub carriers: u64,
    pub productions: usize,
    pub offsets: [u32; 128],
    /// 16 bytes a production: left side, length, symbols.
    pub rows: [[u8; 16]; 128],
    pub rules: u32,
    pub conditions: u32,
}

impl Outline {
    fn new() -> Outline {
        Outline {
            terminals: 0,
            nonterminals: 0,
            start: 0,
            result: 0,
            inherited: [0; 48],
            synthesized: [0; 48],
            carriers: 0,
            productions: 0,
            offsets: [0; 128],
            rows: [[0; 16]; 128],
            rules: 0,
            conditions: 0,
        }
    }

    pub fn inh(&self, symbol: u8) -> u8 {
        if symbol < 128 {
            0
        } else {
            self.inherited[(symbol - 128) as usize]
        }
    }

    pub fn syn(&self, symbol: u8) -> u8 {
        if symbol < 128 {
            (self.carriers >> symbol & 1) as u8
        } else {
            self.synthesized[(symbol - 128) as usize]
        }
    }

    /// The marked registers of a symbol that is waited at: none for a terminal, whose register comes with its read.
    pub fn marked(&self, symbol: u8) -> u8 {
        if symbol < 128 {
            0
        } else {
            self.syn(symbol)
        }
    }

    /// The symbol at a position of production p, the left side at 0.
    pub fn symbol(&self, p: usize, position: u8) -> u8 {
        if position == 0 {
            128 + self.rows[p][0]
        } else {
            self.rows[p][1 + position as usize]
        }
    }
}

const RULE_LENGTH: [usize; 9] = [7, 5, 7, 7, 7, 7, 7, 9, 9];

pub fn constant(b: &[u8], at: usize) -> i32 {
    i32::from_be_bytes([b[at], b[at + 1], b[at + 2], b[at + 3]])
}

struct Reader {
    outline: Outline,
    counts: usize,
    has_header: bool,
    /// Bit a - 1 of note[position]: attribute a there has its rule.
    note: [u8; 13],
}

/// The attributes 1 to n as a mask.
fn mask(n: u8) -> u8 {
    ((1u16 << n) - 1) as u8
}

impl Reader {
    fn is_complete(&self) -> bool {
        let o = &self.outline;
        if o.productions == 0 {
            return true;
        }
        let p = o.productions - 1;
        let left = o.symbol(p, 0);
        if self.note[0] != mask(o.inh(left) + o.syn(left)) & !mask(o.inh(left)) {
            return false;
        }
        (1..=o.rows[p][1]).all(|k| self.note[k as usize] == mask(o.inh(o.symbol(p, k))))
    }

    fn is_known(&self, position: u8, attribute: u8) -> bool {
        let o = &self.outline;
        let p = o.productions - 1;
        if position > o.rows[p][1] {
            return false;
        }
        let x = o.symbol(p, position);
        1 <= attribute && attribute <= o.inh(x) + o.syn(x)
    }

    fn is_input(&self, position: u8, attribute: u8) -> bool {
        let o = &self.outline;
        let x = o.symbol(o.productions - 1, position);
        (position == 0) == (attribute <= o.inh(x))
    }

    fn header(&mut self, b: &[u8]) -> u32 {
        if b.len() != 4 || !(1..=63).contains(&b[0]) || !(1..=48).contains(&b[1]) {
            return 4;
        }
        if b[2] >= b[1] {
            return 5;
        }
        let o = &mut self.outline;
        (o.terminals, o.nonterminals, o.start, o.result) = (b[0], b[1], b[2], b[3]);
        self.has_header = true;
        0
    }

    fn counts(&mut self, b: &[u8]) -> u32 {
        if b.len() != 2 || b[0] as u32 + b[1] as u32 > 8 {
            return 4;
        }
        let o = &mut self.outline;
        if self.counts == o.start as usize && (b[0] != 0 || !(1..=b[1]).contains(&o.result)) {
            return 6;
        }
        o.inherited[self.counts] = b[0];
        o.synthesized[self.counts] = b[1];
        self.counts += 1;
        0
    }

    fn carrier(&mut self, b: &[u8]) -> u32 {
        if b.len() != 1 {
            return 4;
        }
        let o = &mut self.outline;
        if b[0] >= o.terminals || o.carriers >> b[0] != 0 {
            return 5;
        }
        o.carriers |= 1 << b[0];
        0
    }

    fn production(&mut self, b: &[u8], offset: usize) -> u32 {
        if b.len() < 2 || b[1] > 12 || b.len() != 2 + b[1] as usize || self.outline.productions == 128 {
            return 4;
        }
        let o = &mut self.outline;
        if b[0] >= o.nonterminals {
            return 5;
        }
        for &s in &b[2..] {
            let known = if s < 128 { s < o.terminals } else { s - 128 < o.nonterminals };
            if !known {
                return 5;
            }
        }
        o.offsets[o.productions] = offset as u32;
        o.rows[o.productions][..b.len()].copy_from_slice(b);
        o.productions += 1;
        self.note = [0; 13];
        0
    }

    fn rule(&mut self, b: &[u8]) -> u32 {
        if b.len() < 3 || self.outline.rules == 1024 {
            return 4;
        }
        let f = b[2] as usize;
        if f <= 8 && b.len() != RULE_LENGTH[f] {
            return 4;
        }
        if f == 8 && !(1..=1_000_000).contains(&constant(b, 5)) {
            return 4;
        }
        if f > 8 || !self.is_known(b[0], b[1]) {
            return 5;
        }
        let operands = match f {
            0 => 0,
            2..=6 => 2,
            _ => 1,
        };
        let reads = [(b[3], b[4]), if operands == 2 { (b[5], b[6]) } else { (b[3], b[4]) }];
        let reads = &reads[..operands];
        if !reads.iter().all(|&(k, a)| self.is_known(k, a)) {
            return 5;
        }
        if self.is_input(b[0], b[1]) || !reads.iter().all(|&(k, a)| self.is_input(k, a)) {
            return 7;
        }
        let bit = 1u8 << (b[1] - 1);
        if self.note[b[0] as usize] & bit != 0 {
            return 8;
        }
        if b[0] != 0 && reads.iter().any(|&(k, _)| k >= b[0]) {
            return 9;
        }
        self.note[b[0] as usize] |= bit;
        self.outline.rules += 1;
        0
    }

    fn condition(&mut self, b: &[u8]) -> u32 {
        if b.is_empty() || self.outline.conditions == 512 {
            return 4;
        }
        let kind = b[0];
        if kind <= 2 && b.len() != [11, 5, 9][kind as usize] {
            return 4;
        }
        if kind > 2 || !self.is_known(b[1], b[2]) || (kind != 0 && !self.is_known(b[3], b[4])) {
            return 5;
        }
        if !self.is_input(b[1], b[2]) || (kind != 0 && !self.is_input(b[3], b[4])) {
            return 7;
        }
        if kind == 0 && constant(b, 3) > constant(b, 7) {
            return 10;
        }
        self.outline.conditions += 1;
        0
    }

    fn field(&mut self, tag: u8, b: &[u8], at: usize) -> u32 {
        if !self.has_header {
            return if tag == 1 { self.header(b) } else { 3 };
        }
        if self.counts < self.outline.nonterminals as usize {
            return if tag == 2 { self.counts(b) } else { 3 };
        }
        match tag {
            3 => self.production(b, at),
            6 if self.outline.productions == 0 => self.carrier(b),
            4 if self.outline.productions > 0 => self.rule(b),
            5 if self.outline.productions > 0 => self.condition(b),
            _ => 3,
        }
    }
}

pub fn read(table: &[u8]) -> Result<Outline, Refusal> {
    let refuse = |number, offset: usize| Err(Refusal { number, offset: offset as u32 });
    if table.len() > 32768 {
        return refuse(1, 0);
    }
    let mut r = Reader { outline: Outline::new(), counts: 0, has_header: false, note: [0; 13] };
    let mut at = 0;
    loop {
        let over = at == table.len();
        let gap = r.outline.productions > 0 && (over || table[at] == 3) && !r.is_complete();
        if gap {
            return refuse(8, r.outline.offsets[r.outline.productions - 1] as usize);
        }
        if over {
            break;
        }
        if table.len() - at < 3 {
            return refuse(2, at);
        }
        let size = table[at + 1] as usize * 256 + table[at + 2] as usize;
        if table.len() - at - 3 < size {
            return refuse(2, at);
        }
        let number = r.field(table[at], &table[at + 3..at + 3 + size], at);
        if number != 0 {
            return refuse(number, at);
        }
        at += 3 + size;
    }
    if r.outline.productions == 0 {
        return refuse(3, at);
    }
    Ok(r.outline)
}
