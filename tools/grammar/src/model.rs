//! A grammar with its names, numbered as in the table.

/// A rule's function; `O` is what stands for an occurrence.
#[derive(Clone, Debug, PartialEq, Eq)]
pub enum Function<O> {
    Const(i32),
    Copy(O),
    Sum(O, O),
    Diff(O, O),
    Prod(O, O),
    Max(O, O),
    Min(O, O),
    AddC(O, i32),
    Quot(O, i32),
}

#[derive(Clone, Debug, PartialEq, Eq)]
pub enum Condition<O> {
    Range(O, i32, i32),
    /// The first at most the second; with a constant, plus it.
    AtMost(O, O, Option<i32>),
}

/// What follows a production: its rules and conditions.
#[derive(Clone, Debug, PartialEq, Eq)]
pub enum Item<O> {
    Rule(O, Function<O>),
    Condition(Condition<O>),
}

impl<O> Function<O> {
    pub fn operands(&self) -> Vec<&O> {
        use Function::*;
        match self {
            Const(_) => vec![],
            Copy(a) | AddC(a, _) | Quot(a, _) => vec![a],
            Sum(a, b) | Diff(a, b) | Prod(a, b) | Max(a, b) | Min(a, b) => vec![a, b],
        }
    }

    /// The same function, each occurrence put into another form.
    pub fn each<P>(&self, f: &mut impl FnMut(&O) -> P) -> Function<P> {
        let made = self.map(&mut |o| Ok::<P, std::convert::Infallible>(f(o)));
        made.unwrap_or_else(|never| match never {})
    }

    /// The same, where that may fail.
    fn map<P, E>(&self, f: &mut impl FnMut(&O) -> Result<P, E>) -> Result<Function<P>, E> {
        use Function::*;
        Ok(match self {
            Const(c) => Const(*c),
            Copy(a) => Copy(f(a)?),
            Sum(a, b) => Sum(f(a)?, f(b)?),
            Diff(a, b) => Diff(f(a)?, f(b)?),
            Prod(a, b) => Prod(f(a)?, f(b)?),
            Max(a, b) => Max(f(a)?, f(b)?),
            Min(a, b) => Min(f(a)?, f(b)?),
            AddC(a, c) => AddC(f(a)?, *c),
            Quot(a, c) => Quot(f(a)?, *c),
        })
    }
}

impl<O> Condition<O> {
    /// The same condition, each occurrence put into another form.
    pub fn each<P>(&self, f: &mut impl FnMut(&O) -> P) -> Condition<P> {
        match self {
            Condition::Range(a, low, high) => Condition::Range(f(a), *low, *high),
            Condition::AtMost(a, b, c) => Condition::AtMost(f(a), f(b), *c),
        }
    }
}

impl<O> Item<O> {
    /// The occurrences read.
    pub fn reads(&self) -> Vec<&O> {
        match self {
            Item::Rule(_, function) => function.operands(),
            Item::Condition(Condition::Range(a, _, _)) => vec![a],
            Item::Condition(Condition::AtMost(a, b, _)) => vec![a, b],
        }
    }

    pub fn map<P, E>(&self, f: &mut impl FnMut(&O) -> Result<P, E>) -> Result<Item<P>, E> {
        Ok(match self {
            Item::Rule(target, function) => Item::Rule(f(target)?, function.map(f)?),
            Item::Condition(Condition::Range(a, low, high)) => Item::Condition(Condition::Range(f(a)?, *low, *high)),
            Item::Condition(Condition::AtMost(a, b, c)) => Item::Condition(Condition::AtMost(f(a)?, f(b)?, *c)),
        })
    }
}

#[derive(Clone, Copy, Debug, PartialEq, Eq)]
pub enum Symbol {
    Token(usize),
    Part(usize),
}

/// Position 0 is the left side; attributes are numbered from 1, inherited first.
#[derive(Clone, Copy, Debug, PartialEq, Eq)]
pub struct Occurrence {
    pub position: usize,
    pub attribute: usize,
}

#[derive(Clone, Debug, PartialEq, Eq)]
pub struct Production {
    pub left: usize,
    pub right: Vec<Symbol>,
    pub items: Vec<Item<Occurrence>>,
}

impl Production {
    pub fn symbol(&self, position: usize) -> Symbol {
        match position {
            0 => Symbol::Part(self.left),
            k => self.right[k - 1],
        }
    }
}

/// A nonterminal: what it takes (inherited attributes) and gives (synthesized ones).
#[derive(Clone, Debug, PartialEq, Eq)]
pub struct Part {
    pub name: String,
    pub takes: Vec<String>,
    pub gives: Vec<String>,
}

impl Part {
    pub fn attributes(&self) -> impl Iterator<Item = &String> {
        self.takes.iter().chain(&self.gives)
    }
}

#[derive(Clone, Debug, PartialEq, Eq)]
pub struct Grammar {
    pub tokens: Vec<String>,
    /// The attribute of each token that carries a value.
    pub carried: Vec<Option<String>>,
    pub parts: Vec<Part>,
    pub start: usize,
    /// The start symbol.
    pub whole: Symbol,
    pub result: usize,
    pub productions: Vec<Production>,
}

impl Grammar {
    pub fn name(&self, symbol: Symbol) -> &str {
        match symbol {
            Symbol::Token(t) => &self.tokens[t],
            Symbol::Part(n) => &self.parts[n].name,
        }
    }

    /// The name of a symbol's attribute, by its number.
    pub fn attribute(&self, symbol: Symbol, attribute: usize) -> &str {
        match symbol {
            Symbol::Token(t) => self.carried[t].as_deref().unwrap_or("?"),
            Symbol::Part(n) => self.parts[n].attributes().nth(attribute - 1).map_or("?", |a| a),
        }
    }

    /// How many attributes a symbol takes and gives.
    pub fn counts(&self, symbol: Symbol) -> (usize, usize) {
        match symbol {
            Symbol::Token(t) => (0, self.carried[t].is_some().into()),
            Symbol::Part(n) => (self.parts[n].takes.len(), self.parts[n].gives.len()),
        }
    }

    /// Inherited on the left or synthesized on the right.
    pub fn is_input(&self, p: &Production, o: Occurrence) -> bool {
        (o.position == 0) == (o.attribute <= self.counts(p.symbol(o.position)).0)
    }

    /// The outputs of a production, each of which has one rule.
    pub fn outputs(&self, p: &Production) -> Vec<Occurrence> {
        let mut found = Vec::new();
        for position in 0..=p.right.len() {
            let (takes, gives) = self.counts(p.symbol(position));
            let all = (1..=takes + gives).map(|attribute| Occurrence { position, attribute });
            found.extend(all.filter(|&o| !self.is_input(p, o)));
        }
        found
    }

    /// An occurrence as it is written: `n` on the left side, `L.n` on the right, `L2.n` where L stands there several times.
    pub fn label(&self, p: &Production, o: Occurrence) -> String {
        let symbol = p.symbol(o.position);
        let attribute = self.attribute(symbol, o.attribute);
        if o.position == 0 {
            return attribute.into();
        }
        let same = |k: &usize| p.symbol(*k) == symbol;
        let number = (1..=o.position).filter(same).count();
        let several = (1..=p.right.len()).filter(same).count() > 1;
        let number = if several { number.to_string() } else { String::new() };
        format!("{}{number}.{attribute}", self.name(symbol))
    }

    /// A production's first line: left side and right side.
    pub fn heading(&self, p: &Production) -> String {
        let right: Vec<&str> = p.right.iter().map(|&s| self.name(s)).collect();
        let right = if right.is_empty() { "nothing".into() } else { right.join(" ") };
        format!("{}: {right}", self.parts[p.left].name)
    }
}
