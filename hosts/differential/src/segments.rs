//! Random segments of a table's grammar, its conditions aside.
use crate::random::Random;
use plain::table::Outline;

const LONGEST: usize = 3000;

pub struct Segments<'a> {
    outline: &'a Outline,
    /// The height of the lowest tree of each production.
    heights: Vec<usize>,
}

impl Segments<'_> {
    pub fn new(outline: &Outline) -> Segments<'_> {
        let mut s = Segments { outline, heights: vec![usize::MAX; outline.productions] };
        for _ in 0..outline.nonterminals {
            for p in 0..outline.productions {
                let below = s.right(p).iter().map(|&x| if x < 128 { 0 } else { s.height(x) }).max().unwrap_or(0);
                s.heights[p] = s.heights[p].min(below.saturating_add(1));
            }
        }
        s
    }

    fn right(&self, p: usize) -> &[u8] {
        &self.outline.rows[p][2..2 + self.outline.rows[p][1] as usize]
    }

    fn of(&self, symbol: u8) -> impl Iterator<Item = usize> + '_ {
        (0..self.outline.productions).filter(move |&p| 128 + self.outline.rows[p][0] == symbol)
    }

    fn height(&self, symbol: u8) -> usize {
        self.of(symbol).map(|p| self.heights[p]).min().unwrap()
    }

    fn derive(&self, r: &mut Random, symbol: u8, depth: usize, tokens: &mut Vec<u8>) {
        if symbol < 128 {
            return tokens.push(symbol);
        }
        let all: Vec<usize> = self.of(symbol).collect();
        let lowest = *all.iter().min_by_key(|&&p| self.heights[p]).unwrap();
        let p = if depth == 0 || tokens.len() > LONGEST { lowest } else { *r.pick(&all) };
        for &x in self.right(p) {
            self.derive(r, x, depth.saturating_sub(1), tokens);
        }
    }

    /// A segment, sometimes with some tokens changed.
    pub fn random(&self, r: &mut Random) -> Vec<u8> {
        let depth = if r.chance(1) { 1030 } else { r.below(14) };
        let mut tokens = Vec::new();
        self.derive(r, 128 + self.outline.start, depth, &mut tokens);
        if r.chance(35) {
            for _ in 0..1 + r.below(2) {
                let any = if r.chance(5) { 256 } else { self.outline.terminals as usize + 1 };
                let (i, t) = (r.below(tokens.len() + 1), r.below(any) as u8);
                match r.below(3) {
                    0 => tokens.insert(i, t),
                    1 if i < tokens.len() => tokens[i] = t,
                    _ => tokens.truncate(i),
                }
            }
        }
        tokens
    }
}
