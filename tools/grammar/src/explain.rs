//! A table's refusal in words, at the line it concerns.
use crate::model::{Condition, Function, Grammar, Item, Occurrence, Production, Symbol};
use crate::resolve::Places;
use crate::source::{Fault, Faults, Span};
use crate::table::{Field, What};
use plain::judge::{clash, entered_with, Analysis};
use segment::Refusal;

/// A grammar's text and table together.
pub struct Judged<'a> {
    pub grammar: &'a Grammar,
    pub places: &'a Places,
    pub table: &'a [u8],
    pub fields: &'a [Field],
}

type Found = (Span, String);

/// A refusal by its number.
fn numbered(number: u32, (span, words): Found) -> Fault {
    Fault { span, message: format!("refused {number}: {words}") }
}

impl Judged<'_> {
    /// The engine's refusal of the table as a fault of the text. The engine tells the first that applies; what else is wrong of the same
    /// kind is told too.
    pub fn explain(&self, refusal: Refusal) -> Faults {
        let what = self.fields.iter().find(|f| f.offset as u64 == refusal.count()).map(|f| f.what);
        let field = || (self.place(what.unwrap_or(What::Header)), refusal.reason().into());
        let found = self.found(refusal.number(), what).unwrap_or_else(field);
        let first = numbered(refusal.number(), found);
        let more = match refusal.number() {
            7..=10 => self.wrong_items(),
            11 => self.all_useless(),
            _ => vec![],
        };
        Faults::of([vec![first.clone()], more].concat()).unwrap_or_else(|| first.into())
    }

    /// Every rule and condition that 7 to 10 concern.
    fn wrong_items(&self) -> Vec<Fault> {
        let mut all = Vec::new();
        for (p, production) in self.grammar.productions.iter().enumerate() {
            for (i, item) in production.items.iter().enumerate() {
                let sides = self.wrong_side(p, i).map(|found| (7, found));
                let found = sides.or_else(|| self.wrong_item(p, i, item));
                all.extend(found.map(|(number, found)| numbered(number, found)));
            }
            if self.lacks_rule(p) {
                all.push(numbered(8, self.missing(p)));
            }
        }
        all
    }

    fn wrong_item(&self, p: usize, i: usize, item: &Item<Occurrence>) -> Option<(u32, Found)> {
        match item {
            Item::Rule(..) if self.is_second(p, i) => Some((8, self.second_rule(p, i))),
            Item::Rule(target, _) if target.position > 0 => self.reads_too_far(p, i).map(|found| (9, found)),
            Item::Rule(..) => None,
            Item::Condition(Condition::Range(_, low, high)) if low > high => self.wrong_condition(p, i).map(|found| (10, found)),
            Item::Condition(_) => None,
        }
    }

    /// Every part that 11 concerns.
    fn all_useless(&self) -> Vec<Fault> {
        let useful = self.analysed(|a, _| a.reachable() & a.productive()).unwrap_or(u64::MAX);
        let parts = (0..self.grammar.parts.len()).filter(|n| useful >> n & 1 == 0);
        parts.filter_map(|n| self.useless(n)).map(|found| numbered(11, found)).collect()
    }

    /// What is wrong and where, for the refusals that a text can meet.
    fn found(&self, number: u32, what: Option<What>) -> Option<Found> {
        Some(match (number, what) {
            (1, _) => self.too_long(),
            (3, None) => (self.places.end, "the table is over too early: there is no production".into()),
            (4, Some(what)) => self.outside_limits(what),
            (6, Some(What::Part(n))) => self.start(n),
            (7, Some(What::Item(p, i))) => self.wrong_side(p, i)?,
            (8, Some(What::Item(p, i))) => self.second_rule(p, i),
            (8, Some(What::Production(p))) => self.missing(p),
            (9, Some(What::Item(p, i))) => self.reads_too_far(p, i)?,
            (10, Some(What::Item(p, i))) => self.wrong_condition(p, i)?,
            (11, Some(What::Part(n))) => self.useless(n)?,
            (12, Some(What::Part(n))) => self.circle(n)?,
            (13, Some(What::Production(p))) => self.clash(p)?,
            _ => return None,
        })
    }

    fn place(&self, what: What) -> Span {
        match what {
            What::Header => self.places.start,
            What::Part(n) => self.places.parts[n],
            What::Token(t) => self.places.tokens[t],
            What::Production(p) => self.places.productions[p].span,
            What::Item(p, i) => self.places.productions[p].items[i].span,
        }
    }

    fn production(&self, p: usize) -> &Production {
        &self.grammar.productions[p]
    }

    fn label(&self, p: usize, o: Occurrence) -> String {
        self.grammar.label(self.production(p), o)
    }

    fn part_name(&self, n: usize) -> &str {
        &self.grammar.parts[n].name
    }

    fn too_long(&self) -> Found {
        let first = self.fields.iter().find(|f| f.end > 32_768).map_or(What::Header, |f| f.what);
        let length = self.table.len();
        (self.place(first), format!("the table is too long, {length} bytes where 32,768 are allowed; this line is the first past them"))
    }

    fn outside_limits(&self, what: What) -> Found {
        let g = self.grammar;
        let (tokens, parts) = (&self.places.tokens, &self.places.parts);
        match what {
            What::Header if tokens.is_empty() => (self.places.start, "no token is declared; a grammar has 1 to 63".into()),
            What::Header if tokens.len() > 63 => (tokens[63], format!("`{}` is the 64th token; a grammar has 1 to 63", g.tokens[63])),
            What::Token(_) => (self.place(what), segment::Kind::OutsideLimits.reason().into()),
            What::Header => (parts[48], format!("`{}` is the 49th part; a grammar has 1 to 48", self.part_name(48))),
            What::Part(n) => {
                let count = g.parts[n].attributes().count();
                (self.place(what), format!("`{}` has {count} attributes; a part has at most 8", self.part_name(n)))
            }
            What::Production(p) if self.production(p).right.len() > 12 => {
                let count = self.production(p).right.len();
                (self.place(what), format!("the right side has {count} symbols; at most 12 are allowed"))
            }
            What::Production(_) => (self.place(what), "the 129th production; a grammar has at most 128".into()),
            What::Item(p, i) => (self.place(what), self.item_outside_limits(p, i)),
        }
    }

    fn item_outside_limits(&self, p: usize, i: usize) -> String {
        match &self.production(p).items[i] {
            Item::Rule(_, Function::Quot(_, c)) if !(1..=1_000_000).contains(c) => {
                format!("division by {c}; a divisor is a number from 1 to 1000000")
            }
            Item::Rule(..) => "the 1025th rule; a grammar has at most 1,024".into(),
            Item::Condition(_) => "the 513th condition; a grammar has at most 512".into(),
        }
    }

    fn start(&self, n: usize) -> Found {
        let takes = self.grammar.parts[n].takes.join("`, `");
        (self.places.parts[n], format!("the start symbol `{}` takes `{takes}`; it has no inherited attributes", self.part_name(n)))
    }

    /// The occurrences of a rule or condition, the one set first, with their places.
    fn occurrences(&self, p: usize, i: usize) -> Vec<(Occurrence, Span)> {
        let item = &self.production(p).items[i];
        let place = &self.places.productions[p].items[i].item;
        let reads = item.reads().into_iter().copied().zip(place.reads().into_iter().copied());
        match (item, place) {
            (Item::Rule(o, _), Item::Rule(span, _)) => std::iter::once((*o, *span)).chain(reads).collect(),
            _ => reads.collect(),
        }
    }

    fn wrong_side(&self, p: usize, i: usize) -> Option<Found> {
        let production = self.production(p);
        let is_rule = matches!(production.items[i], Item::Rule(..));
        for (k, (o, span)) in self.occurrences(p, i).into_iter().enumerate() {
            let sets = is_rule && k == 0;
            if sets == self.grammar.is_input(production, o) {
                return Some((span, self.side(p, o, sets)));
            }
        }
        None
    }

    /// Why an occurrence is not set, or not read.
    fn side(&self, p: usize, o: Occurrence, sets: bool) -> String {
        let label = self.label(p, o);
        let name = self.grammar.name(self.production(p).symbol(o.position));
        match (sets, o.position) {
            (true, 0) => format!("`{label}` is an input: `{name}` takes it, a rule cannot set it"),
            (true, _) => format!("`{label}` is an input: `{name}` gives it, a rule cannot set it"),
            (false, 0) => format!("`{label}` is an output: rules set it for `{name}`, nothing reads it here"),
            (false, _) => format!("`{label}` is an output: a rule sets it for `{name}`, nothing reads it here"),
        }
    }

    /// The first item of a production that sets what this one sets.
    fn first_rule(&self, p: usize, i: usize) -> usize {
        let set = |item: &Item<Occurrence>| match item {
            Item::Rule(o, _) => Some(*o),
            Item::Condition(_) => None,
        };
        let items = &self.production(p).items;
        let target = set(&items[i]);
        items.iter().position(|item| set(item) == target).unwrap_or(i)
    }

    fn is_second(&self, p: usize, i: usize) -> bool {
        self.first_rule(p, i) != i
    }

    fn second_rule(&self, p: usize, i: usize) -> Found {
        let line = self.place(What::Item(p, self.first_rule(p, i))).line;
        let (o, span) = self.occurrences(p, i)[0];
        (span, format!("a second rule for `{}`; the first is on line {line}", self.label(p, o)))
    }

    /// The outputs of a production that have no rule.
    fn unset(&self, p: usize) -> Vec<Occurrence> {
        let production = self.production(p);
        let is_set = |o: &Occurrence| production.items.iter().any(|item| matches!(item, Item::Rule(t, _) if t == o));
        self.grammar.outputs(production).into_iter().filter(|o| !is_set(o)).collect()
    }

    fn lacks_rule(&self, p: usize) -> bool {
        !self.unset(p).is_empty()
    }

    fn missing(&self, p: usize) -> Found {
        let names: Vec<String> = self.unset(p).into_iter().map(|o| format!("`{}`", self.label(p, o))).collect();
        (self.place(What::Production(p)), format!("no rule for {}", names.join(", ")))
    }

    fn reads_too_far(&self, p: usize, i: usize) -> Option<Found> {
        let found = self.occurrences(p, i);
        let (target, _) = found[0];
        let (o, span) = found[1..].iter().copied().find(|(o, _)| o.position >= target.position)?;
        let (set, read) = (self.label(p, target), self.label(p, o));
        let words = format!("the rule for `{set}` reads `{read}`, which is known only later; it reads what stands to the left of it");
        Some((span, words))
    }

    fn wrong_condition(&self, p: usize, i: usize) -> Option<Found> {
        let Item::Condition(Condition::Range(_, low, high)) = &self.production(p).items[i] else { return None };
        Some((self.place(What::Item(p, i)), format!("the low bound {low} is above the high bound {high}")))
    }

    /// The plain engine's reading of a table that the refusals 1 to 10 let through.
    fn analysed<T>(&self, look: impl Fn(&mut Analysis, &plain::table::Outline) -> T) -> Option<T> {
        let outline = plain::table::read(self.table).ok()?;
        let mut analysis = Analysis::new(&outline);
        analysis.find_nullable();
        Some(look(&mut analysis, &outline))
    }

    fn useless(&self, n: usize) -> Option<Found> {
        let (reached, ending) = self.analysed(|a, _| (a.reachable(), a.productive()))?;
        let name = self.part_name(n);
        let words = if reached >> n & 1 == 0 {
            format!("`{name}` is unreachable: no derivation from `{}` contains it", self.part_name(self.grammar.start))
        } else if self.grammar.productions.iter().all(|p| p.left != n) {
            format!("`{name}` derives no token string: it has no production")
        } else {
            let endless = (0..self.grammar.parts.len()).filter(|m| ending >> m & 1 == 0);
            let names: Vec<String> = endless.map(|m| format!("`{}`", self.part_name(m))).collect();
            format!("`{name}` derives no token string: each of its productions goes on to a part that derives none: {}", names.join(", "))
        };
        Some((self.places.parts[n], words))
    }

    /// The shortest way from a part to itself over what productions begin with.
    fn circle(&self, n: usize) -> Option<Found> {
        let leads = self.analysed(|a, _| a.leads())?;
        let mut ways = vec![vec![n]];
        let mut seen = 0u64;
        let mut at = 0;
        while leads[*ways.get(at)?.last()?] >> n & 1 == 0 {
            let way = ways[at].clone();
            let next = leads[*way.last()?];
            let new = (0..48).filter(|&m| (next & !seen) >> m & 1 == 1);
            ways.extend(new.map(|m| [&way[..], &[m]].concat()));
            seen |= next;
            at += 1;
        }
        let way: Vec<usize> = ways[at].iter().chain([&n]).copied().collect();
        let names: Vec<String> = way.iter().map(|&m| format!("`{}`", self.part_name(m))).collect();
        let steps: Vec<usize> = way.windows(2).filter_map(|step| self.begins(step[0], step[1])).collect();
        let lines: Vec<String> = steps.iter().map(|&p| self.place(What::Production(p)).line.to_string()).collect();
        let words = format!("{} can reach itself leftmost without reading: {}", names[0], names.join(" begins with "));
        let place = steps.first().map_or(self.places.parts[n], |&p| self.place(What::Production(p)));
        let s = if lines.len() == 1 { "" } else { "s" };
        Some((place, format!("{words} (line{s} {})", lines.join(", "))))
    }

    /// The first production of a part that begins with another, behind parts that derive nothing.
    fn begins(&self, from: usize, to: usize) -> Option<usize> {
        let mut empty = vec![false; self.grammar.parts.len()];
        let is_empty = |empty: &[bool], s: &Symbol| matches!(s, Symbol::Part(n) if empty[*n]);
        for _ in 0..empty.len() {
            for p in &self.grammar.productions {
                empty[p.left] |= p.right.iter().all(|s| is_empty(&empty, s));
            }
        }
        let leads = |p: &Production| {
            let before = p.right.iter().take_while(|s| is_empty(&empty, s)).count();
            p.left == from && p.right.iter().take(before + 1).any(|s| *s == Symbol::Part(to))
        };
        self.grammar.productions.iter().position(leads)
    }

    fn clash(&self, p: usize) -> Option<Found> {
        let (q, both, values) = self.analysed(|a, o| {
            let sets = a.starts();
            clash(self.table, o, &sets).map(|(p, q)| (q, sets.starts[p] & sets.starts[q], entered_with(self.table, o, p, q)))
        })??;
        let next = match self.grammar.tokens.get(both.trailing_zeros() as usize) {
            Some(token) => format!("before `{token}`"),
            None => "at the end of the segment".into(),
        };
        let (line, name) = (self.place(What::Production(q)).line, self.part_name(self.production(p).left));
        let with = values.and_then(|v| self.entered(p, q, &v)).unwrap_or_default();
        let words = format!("this production of `{name}` clashes with the one on line {line}: {next} both are possible{with}");
        Some((self.place(What::Production(p)), words))
    }

    /// The entry conditions of a production.
    fn entries(&self, p: usize) -> Vec<&Condition<Occurrence>> {
        let at_entry = |item: &&Item<Occurrence>| item.reads().iter().all(|o| o.position == 0);
        let conditions = self.production(p).items.iter().filter(at_entry).filter_map(|item| match item {
            Item::Condition(c) => Some(c),
            Item::Rule(..) => None,
        });
        conditions.collect()
    }

    /// Values that meet the entry conditions of both, by name; they are tried before they are shown.
    fn entered(&self, p: usize, q: usize, values: &[i64]) -> Option<String> {
        let mut read: Vec<usize> = Vec::new();
        for c in self.entries(p).into_iter().chain(self.entries(q)) {
            let value = |o: &Occurrence| values[o.attribute - 1];
            let (holds, reads) = match c {
                Condition::Range(a, low, high) => ((i64::from(*low)..=i64::from(*high)).contains(&value(a)), vec![a]),
                Condition::AtMost(a, b, c) => (value(a) <= value(b) + i64::from(c.unwrap_or(0)), vec![a, b]),
            };
            if !holds {
                return None;
            }
            read.extend(reads.iter().map(|o| o.attribute));
        }
        read.sort_unstable();
        read.dedup();
        let takes = &self.grammar.parts[self.production(p).left].takes;
        let named: Vec<String> = read.iter().map(|&a| format!("`{}` = {}", takes[a - 1], values[a - 1])).collect();
        Some(format!(", as with {}", named.join(", ")))
    }
}
