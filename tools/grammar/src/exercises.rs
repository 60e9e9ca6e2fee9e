//! Exercises for a class, made from a grammar by chance and answered by the engine.
use crate::model::{Grammar, Symbol};
use crate::run::{self, lists, told, Token};
use crate::stacks::Stacks;
use crate::story::{Event, Story};
use crate::suggest::counted;
use crate::Built;

/// A question and its answer.
#[derive(Clone, Debug, PartialEq, Eq)]
pub struct Exercise {
    pub question: String,
    pub answer: String,
}

/// Numbers that look random and are the same for the same seed.
pub struct Chance(u64);

impl Chance {
    pub fn new(seed: u64) -> Chance {
        Chance(seed.wrapping_mul(0x9e37_79b9_7f4a_7c15) ^ 0x2545_f491_4f6c_dd1d)
    }

    pub fn below(&mut self, n: usize) -> usize {
        self.0 ^= self.0 << 13;
        self.0 ^= self.0 >> 7;
        self.0 ^= self.0 << 17;
        (self.0 >> 11) as usize % n.max(1)
    }
}

/// The tokens of a segment that is derived from the grammar; conditions are not looked at.
pub struct Derive<'g> {
    g: &'g Grammar,
    /// The depth of the lowest tree of each part.
    lowest: Vec<usize>,
}

impl<'g> Derive<'g> {
    pub fn new(g: &'g Grammar) -> Derive<'g> {
        let mut found = Derive { g, lowest: vec![usize::MAX; g.parts.len()] };
        for _ in 0..=g.parts.len() {
            for p in 0..g.productions.len() {
                let depth = found.depth(p);
                let left = g.productions[p].left;
                found.lowest[left] = found.lowest[left].min(depth);
            }
        }
        found
    }

    /// The depth of the lowest tree that begins with a production.
    fn depth(&self, p: usize) -> usize {
        let below = self.g.productions[p].right.iter().map(|s| match s {
            Symbol::Token(_) => 0,
            Symbol::Part(n) => self.lowest[*n],
        });
        below.max().unwrap_or(0).saturating_add(1)
    }

    fn part(&self, n: usize, left: usize, chance: &mut Chance, out: &mut Vec<Token>) {
        let all: Vec<usize> = (0..self.g.productions.len()).filter(|&p| self.g.productions[p].left == n).collect();
        let fit: Vec<usize> = all.iter().copied().filter(|&p| self.depth(p) <= left).collect();
        let lowest = all.iter().copied().min_by_key(|&p| self.depth(p));
        let chosen = if fit.is_empty() { lowest } else { Some(fit[chance.below(fit.len())]) };
        let Some(p) = chosen else { return };
        for s in &self.g.productions[p].right {
            match s {
                Symbol::Token(t) => out.push(self.token(*t, chance)),
                Symbol::Part(m) => self.part(*m, left.saturating_sub(1), chance, out),
            }
        }
    }

    /// A token; one that carries a value has 1 to 9.
    fn token(&self, kind: usize, chance: &mut Chance) -> Token {
        let value = if self.g.carried[kind].is_some() { 1 + chance.below(9) as i32 } else { 0 };
        Token { kind: kind as u8, value }
    }

    /// A segment of 1 to 10 tokens, if one is found.
    pub fn segment(&self, chance: &mut Chance) -> Option<Vec<Token>> {
        let tries = (0..200).map(|_| {
            let mut out = Vec::new();
            let depth = 2 + chance.below(6) + self.lowest[self.g.start];
            self.part(self.g.start, depth, chance, &mut out);
            out
        });
        tries.into_iter().find(|s| (1..=10).contains(&s.len()))
    }
}

struct Maker<'b> {
    built: &'b Built,
    derive: Derive<'b>,
    chance: Chance,
}

/// So many exercises of all kinds in turn, no question twice.
pub fn make(built: &Built, seed: u64, count: usize) -> Vec<Exercise> {
    let mut maker = Maker { built, derive: Derive::new(&built.grammar), chance: Chance::new(seed) };
    let mut found: Vec<Exercise> = Vec::new();
    for i in 0..count * 20 {
        if found.len() == count {
            break;
        }
        let kind = (found.len() + i / count.max(1)) % 5;
        if let Some(exercise) = maker.exercise(kind).filter(|e| found.iter().all(|f| f.question != e.question)) {
            found.push(exercise);
        }
    }
    found
}

impl Maker<'_> {
    fn names(&self, tokens: &[Token]) -> String {
        let names: Vec<String> = tokens.iter().map(|t| t.written(&self.built.grammar)).collect();
        if names.is_empty() {
            return "no tokens".into();
        }
        format!("`{}`", names.join(" "))
    }

    fn exercise(&mut self, kind: usize) -> Option<Exercise> {
        let tokens = self.derive.segment(&mut self.chance)?;
        match kind {
            0 => self.value(&tokens),
            1 => self.register(&tokens),
            2 => self.refusal(tokens),
            3 => self.places(&tokens),
            _ => self.moves(&tokens),
        }
    }

    fn value(&self, tokens: &[Token]) -> Option<Exercise> {
        let outcome = run::run(&self.built.table, tokens);
        let answer = match outcome.answer {
            Ok(value) => value.to_string(),
            Err(refusal) => told(self.built, tokens, &outcome, refusal),
        };
        Some(Exercise { question: format!("What is the value of {}, or why has it none?", self.names(tokens)), answer })
    }

    /// The stacks after some of a segment's tokens were fed.
    fn fed(&mut self, tokens: &[Token]) -> Option<(usize, Stacks<'_>)> {
        let fed = 1 + self.chance.below(tokens.len());
        let mut run = self.built.table.run();
        let (kinds, values) = lists(&tokens[..fed]);
        run.feed_values(&kinds, &values).ok()?;
        let registers: Vec<Option<i64>> = run.registers().collect();
        Some((fed, Stacks::new(&self.built.grammar, &registers, run.places())))
    }

    fn register(&mut self, tokens: &[Token]) -> Option<Exercise> {
        let pick = self.chance.below(5);
        let (fed, stacks) = self.fed(tokens)?;
        let cell = stacks.cells.get(pick)?;
        let held = cell.value.map_or("the mark: there is no value yet".into(), |v| v.to_string());
        let answer = format!("{held}; it is `{}` of `{}`", stacks.name(cell), stacks.place_name(stacks.places[cell.place]));
        let question = format!("After {}: what stands in register {}, and whose is it?", self.names(&tokens[..fed]), pick + 1);
        Some(Exercise { question, answer })
    }

    fn places(&mut self, tokens: &[Token]) -> Option<Exercise> {
        let (fed, stacks) = self.fed(tokens)?;
        let places: Vec<String> = stacks.places.iter().rev().map(|&p| format!("{} (`{}`)", p.number(), stacks.place_name(p))).collect();
        let answer = places.join(", ");
        let question = format!("After {}: which places stand, from the top, and what does each wait at?", self.names(&tokens[..fed]));
        Some(Exercise { question, answer })
    }

    /// A segment with a token changed, left out or put in, or cut short.
    fn refusal(&mut self, mut tokens: Vec<Token>) -> Option<Exercise> {
        let (at, kind) = (self.chance.below(tokens.len()), self.chance.below(self.built.grammar.tokens.len()));
        let token = self.derive.token(kind, &mut self.chance);
        match self.chance.below(4) {
            0 => tokens[at] = token,
            1 => drop(tokens.remove(at)),
            2 => tokens.insert(at, token),
            _ => tokens.truncate(at),
        }
        let outcome = run::run(&self.built.table, &tokens);
        let refusal = outcome.answer.err()?;
        let answer = told(self.built, &tokens, &outcome, refusal);
        let question = format!("{}: which number is it refused by, after how many tokens, and why?", self.names(&tokens));
        Some(Exercise { question, answer })
    }

    /// How many moves a token takes, and which.
    fn moves(&mut self, tokens: &[Token]) -> Option<Exercise> {
        let at = self.chance.below(tokens.len());
        let (mut made, mut here) = (Vec::new(), false);
        for event in Story::open(self.built, tokens, at + 1).ok()? {
            match event {
                Event::Coming(index) => here = index == at,
                Event::Moved(m) if here => made.push(format!("{} {}", crate::story::kind_name(m.kind), m.words.join("; "))),
                Event::Refused(_) => return None,
                _ => {}
            }
        }
        let name = tokens[at].written(&self.built.grammar);
        let question = format!("In {}, which moves are made for token {}, `{name}`, and how many?", self.names(tokens), at + 1);
        let list: Vec<String> = made.iter().map(|m| format!("`{m}`")).collect();
        Some(Exercise { question, answer: format!("{}: {}", counted(made.len(), "move"), list.join(", ")) })
    }
}

/// The exercises as a sheet in Markdown: questions, and answers behind them where they are wanted.
pub fn sheet(title: &str, seed: u64, exercises: &[Exercise], answers: bool) -> String {
    let mut text = format!("# Exercises: {title}, sheet {seed}\n\n");
    for (i, exercise) in exercises.iter().enumerate() {
        text += &format!("{}. {}\n\n", i + 1, exercise.question);
        if !answers {
            text += "    &nbsp;\n\n    &nbsp;\n\n";
        }
    }
    if answers {
        text += "## Answers\n\n";
        for (i, exercise) in exercises.iter().enumerate() {
            text += &format!("{}. {}\n\n", i + 1, exercise.answer);
        }
    }
    text.trim_end().to_string() + "\n"
}

/// The same as a page to print: answers on a sheet of their own.
pub fn printable(title: &str, seed: u64, exercises: &[Exercise], answers: bool) -> String {
    let list =
        |text: &dyn Fn(&Exercise) -> String| exercises.iter().map(|e| format!("<li>{}</li>\n", marked(&text(e)))).collect::<String>();
    let (questions, answered) = (list(&|e| e.question.clone()), list(&|e| e.answer.clone()));
    let answers =
        if answers { format!("<section class=\"answers\">\n<h2>Answers</h2>\n<ol>\n{answered}</ol>\n</section>\n") } else { String::new() };
    let title = crate::page::html(&format!("Exercises: {title}, sheet {seed}"));
    format!(
        "<!doctype html>\n<html lang=\"en\">\n<head>\n<meta charset=\"utf-8\">\n<title>{title}</title>\n<style>\n\
         body {{ font: 12pt/1.5 system-ui, sans-serif; max-width: 46rem; margin: 2rem auto; padding: 0 1rem; }}\n\
         .questions li {{ margin-bottom: 4.5rem; break-inside: avoid; }}\n.answers {{ break-before: page; }}\n.answers li {{ margin-bottom: .6rem; }}\n\
         </style>\n</head>\n<body>\n<h1>{title}</h1>\n<p>Name: ______________________________</p>\n\
         <ol class=\"questions\">\n{questions}</ol>\n{answers}</body>\n</html>\n"
    )
}

/// Text with `code` in HTML.
fn marked(text: &str) -> String {
    let parts = crate::page::html(text);
    let parts = parts.split('`').enumerate();
    parts.map(|(i, part)| if i % 2 == 1 { format!("<code>{part}</code>") } else { part.into() }).collect()
}
