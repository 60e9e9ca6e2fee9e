//! What an accepted table says of its symbols: how many registers they have.

/// 01: "the whole segment is production 128 with the start symbol as its one symbol".
pub const WHOLE: usize = 128;

/// The productions' right sides, the attributes of the nonterminals, and the terminals that carry a value.
pub struct Grammar {
    start: u8,
    attributes: Vec<Attributes>,
    carriers: Vec<u8>,
    productions: Vec<Vec<u8>>,
}

/// How many attributes a symbol has.
#[derive(Clone, Copy, Debug, Default, PartialEq, Eq)]
pub struct Attributes {
    pub inherited: usize,
    pub synthesized: usize,
}

impl Attributes {
    pub fn all(self) -> usize {
        self.inherited + self.synthesized
    }
}

impl Grammar {
    /// Reads an accepted table's fields: a tag, two bytes of length, a body.
    pub fn of(table: &[u8]) -> Grammar {
        let mut grammar = Grammar { start: 0, attributes: vec![], carriers: vec![], productions: vec![] };
        let mut rest = table;
        while let [tag, high, low, after @ ..] = rest {
            let (body, next) = after.split_at(after.len().min(usize::from(*high) << 8 | usize::from(*low)));
            match (tag, body) {
                (1, [_, _, start, ..]) => grammar.start = *start,
                (2, [inherited, synthesized, ..]) => {
                    grammar.attributes.push(Attributes { inherited: (*inherited).into(), synthesized: (*synthesized).into() })
                }
                (6, [terminal]) => grammar.carriers.push(*terminal),
                (3, [_, _, symbols @ ..]) => grammar.productions.push(symbols.to_vec()),
                _ => {}
            }
            rest = next;
        }
        grammar
    }

    /// How many symbols a production has.
    pub fn size(&self, production: usize) -> usize {
        if production == WHOLE {
            return 1;
        }
        self.productions[production].len()
    }

    /// Whether a token of this kind carries a value.
    pub fn carries(&self, kind: u8) -> bool {
        self.carriers.contains(&kind)
    }

    /// Whether any token carries a value.
    pub fn has_carriers(&self) -> bool {
        !self.carriers.is_empty()
    }

    /// The attributes of the symbol at a position, counted from 1.
    pub fn attributes(&self, production: usize, position: usize) -> Attributes {
        let symbol = if production == WHOLE { 128 + self.start } else { self.productions[production][position - 1] };
        match usize::from(symbol).checked_sub(128) {
            Some(nonterminal) => self.attributes[nonterminal],
            None => Attributes { inherited: 0, synthesized: self.carries(symbol).into() },
        }
    }
}

#[cfg(test)]
mod tests {
    use super::*;

    #[test]
    fn words_and_tags() {
        let grammar = Grammar::of(include_bytes!("../../../../grammars/words.table"));
        let sizes: Vec<_> = [0, 1, 2, 3, WHOLE].iter().map(|&p| grammar.size(p)).collect();
        assert_eq!(sizes, [1, 2, 4, 0, 1]);
        assert_eq!(grammar.attributes(WHOLE, 1), Attributes { inherited: 0, synthesized: 1 });
        assert_eq!(grammar.attributes(2, 1), Attributes { inherited: 0, synthesized: 0 });
        assert_eq!(grammar.attributes(2, 4), Attributes { inherited: 1, synthesized: 1 });
    }

    #[test]
    fn tokens_that_carry_a_value() {
        let grammar = Grammar::of(include_bytes!("../../../../grammars/lengths.table"));
        assert_eq!((grammar.carries(0), grammar.carries(1)), (true, false));
        assert_eq!(grammar.attributes(1, 1), Attributes { inherited: 0, synthesized: 1 });
        assert_eq!(grammar.attributes(2, 1), Attributes::default());
    }
}
