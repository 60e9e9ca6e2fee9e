//! Forged records and stacks: near what a run leaves, or anything.
use crate::pair::Pair;
use crate::random::Random;
use segment::lent::{Record, MARK};

/// Records that are not as a call left them.
trait Forged {
    fn forge_state(&mut self, r: &mut Random);
    fn forge_height(&mut self, r: &mut Random);
    fn forge_base(&mut self, r: &mut Random);
}

/// One more, one less, or another small number.
fn near(r: &mut Random, n: &mut u64) {
    *n = match r.below(3) {
        0 => n.wrapping_add(1),
        1 => n.wrapping_sub(1),
        _ => r.below(6) as u64,
    };
}

impl Forged for Record {
    /// Another status or kind, also by numbers that only count as one.
    fn forge_state(&mut self, r: &mut Random) {
        if r.chance(60) {
            self.status = *r.pick(&[0, 1, 2, 2, 3, 7, u64::MAX]);
        } else {
            self.kind = *r.pick(&[0, 1, 1, 2, u64::MAX]);
        }
    }

    fn forge_height(&mut self, r: &mut Random) {
        let height = if r.chance(50) { &mut self.registers } else { &mut self.places };
        near(r, height);
    }

    fn forge_base(&mut self, r: &mut Random) {
        let base = if r.chance(50) { &mut self.register_base } else { &mut self.place_base };
        near(r, base);
    }
}

impl Pair {
    /// Forges the record or the stacks: near what a run leaves, or anything.
    pub fn forge(&mut self, r: &mut Random) {
        match r.below(12) {
            0 => self.records.outer.tokens = 65533 + r.below(4) as u64,
            1 | 2 => self.records.outer.moves = u32::MAX as u64 - r.below(12) as u64,
            3 => self.records.outer.moves = u32::MAX as u64 + r.below(2) as u64,
            4 => self.records.outer.forge_state(r),
            5 => self.forge_heights(r),
            6 => self.forge_left(r),
            7 => self.forge_all(r),
            8 | 9 => self.forge_place(r),
            _ => self.forge_register(r),
        }
    }

    fn forge_heights(&mut self, r: &mut Random) {
        let height = if r.chance(50) { &mut self.records.outer.registers } else { &mut self.records.outer.places };
        *height = match r.below(4) {
            0 => r.number(),
            1 => r.below(6) as u64,
            2 => height.wrapping_sub(1),
            _ => height.wrapping_add(1),
        };
    }

    /// The start symbol left, with any values.
    fn forge_left(&mut self, r: &mut Random) {
        let Some(first) = self.cells.places.first_mut() else { return };
        *first = 32769;
        self.records.outer.places = 1 + r.chance(10) as u64;
        self.records.outer.registers = r.below(4) as u64;
        self.cells.places[1..self.lengths.places.max(1)].fill(0);
        let height = (self.records.outer.registers as usize).min(self.lengths.registers);
        self.cells.registers[..self.lengths.registers].fill(MARK);
        for v in &mut self.cells.registers[..height] {
            *v = r.held();
        }
    }

    fn forge_all(&mut self, r: &mut Random) {
        let mut number = || r.number() >> (8 * (r.number() % 8));
        for record in [&mut self.records.outer, &mut self.records.inner] {
            *record = Record {
                status: number() % 5,
                tokens: number(),
                moves: number(),
                registers: number(),
                places: number(),
                kind: number() % 3,
                register_base: number(),
                place_base: number(),
            };
        }
        for v in self.cells.registers.iter_mut().take(8) {
            *v = number() as i64;
        }
        for p in self.cells.places.iter_mut().take(8) {
            *p = number() as u32;
        }
    }

    fn forge_place(&mut self, r: &mut Random) {
        let i = r.below(self.records.outer.places as usize % 2000 + 2);
        if let Some(place) = self.cells.places.get_mut(i) {
            *place = match r.below(4) {
                0 => r.below(5) as u32 * 256 + r.below(4) as u32,
                1 => place.wrapping_add(1),
                2 => place.wrapping_sub(1),
                _ => r.number() as u32,
            };
        }
    }

    fn forge_register(&mut self, r: &mut Random) {
        let i = r.below(self.records.outer.registers as usize % 5000 + 2);
        if let Some(register) = self.cells.registers.get_mut(i) {
            *register = match r.below(4) {
                0 => MARK,
                1 => r.number() as i64,
                2 => r.pick(&[1, -1]) * (1_000_000_000_000 + r.below(2) as i64),
                _ => r.held(),
            };
        }
    }

    /// Other values where there are values: the run goes on with them.
    pub fn forge_values(&mut self, r: &mut Random) {
        let height = (self.records.outer.registers as usize).min(self.lengths.registers);
        for v in self.cells.registers[..height].iter_mut().filter(|v| **v != MARK) {
            *v = r.held();
        }
    }

    /// Forges what an inner run leaves: either record, the cells of its stretch or those below it.
    pub fn forge_inner(&mut self, r: &mut Random) {
        let (outer, inner) = (&mut self.records.outer, &mut self.records.inner);
        match r.below(12) {
            0 => outer.forge_state(r),
            1 => inner.forge_state(r),
            2 => inner.forge_base(r),
            3 => outer.forge_height(r),
            4 => inner.forge_height(r),
            5 => std::mem::swap(outer, inner),
            6 => inner.moves = u32::MAX as u64 - r.below(12) as u64,
            7 => (outer.tokens, outer.moves) = (r.number(), r.number()),
            8 => inner.tokens = 65533 + r.below(4) as u64,
            _ => self.forge_cell(r),
        }
    }

    /// A cell from a little below the inner run's beginning to a little above its heights.
    fn forge_cell(&mut self, r: &mut Random) {
        let Record { registers, places, register_base, place_base, .. } = self.records.inner;
        let index = |r: &mut Random, base: u64, height: u64| (base as usize % 5000 + r.below(height as usize % 5000 + 4)).saturating_sub(2);
        if r.chance(50) {
            let i = index(r, register_base, registers);
            if let Some(register) = self.cells.registers.get_mut(i) {
                *register = if r.chance(30) { MARK } else { r.held() };
            }
        } else {
            let i = index(r, place_base, places);
            if let Some(place) = self.cells.places.get_mut(i) {
                *place = *r.pick(&[0, 32768, 32769, place.wrapping_add(1), 256]);
            }
        }
    }

    /// Moves the inner run's beginning and the outer heights together: up or down, or past what is lent.
    pub fn forge_beginning(&mut self, r: &mut Random) {
        let (outer, inner) = (&mut self.records.outer, &mut self.records.inner);
        let by = if r.chance(20) { r.number() } else { r.below(5) as u64 };
        let (base, height) = match r.chance(50) {
            true => (&mut inner.register_base, &mut outer.registers),
            false => (&mut inner.place_base, &mut outer.places),
        };
        *base = if r.chance(50) { base.wrapping_add(by) } else { base.wrapping_sub(by) };
        *height = *base;
    }
}
