//! What a page's script reads: the stacks after each move, the tree, the end, and the same for a slip.
use super::tree::Tree;
use super::{Page, MOVES};
use crate::run::{run_on, told};
use crate::slips;
use crate::stacks::{Cell, Stacks};
use crate::story::{kind_name, Event, Story};
use crate::suggest::counted;
use segment::Run;

/// A register: its name, its value and whether it changed.
type Register = (String, Option<i64>, bool);

/// The stacks after a move, from the top.
#[derive(Clone, Debug, Default)]
pub struct Frame {
    pub kind: &'static str,
    pub words: Vec<String>,
    pub token: usize,
    pub read: usize,
    pub registers: Vec<Register>,
    pub places: Vec<(String, usize)>,
}

/// A run's frames, tree and end.
#[derive(Default)]
pub struct Data {
    pub frames: Vec<Frame>,
    pub end: String,
    refused: bool,
    tokens: Vec<String>,
    tree: Tree,
    slip: Option<(Vec<Frame>, String)>,
}

/// A text in JSON.
fn quoted(text: &str) -> String {
    let mut quoted = String::from("\"");
    for c in text.chars() {
        match c {
            '"' | '\\' => quoted.extend(['\\', c]),
            c if c.is_control() => quoted += &format!("\\u{:04x}", c as u32),
            c => quoted.push(c),
        }
    }
    quoted + "\""
}

fn list(items: impl Iterator<Item = String>) -> String {
    format!("[{}]", items.collect::<Vec<_>>().join(","))
}

/// The stacks from the top; cells above those lent are named so.
fn shown(stacks: &Stacks, changed: &[usize], room: (usize, usize)) -> (Vec<Register>, Vec<(String, usize)>) {
    let above = |above: bool| if above { " (not lent)" } else { "" };
    let (cells, places) = (&stacks.cells, stacks.places.iter().enumerate().rev());
    let name = |c: &Cell| format!("{}{}", stacks.name(c), above(cells.len() - c.number >= room.0));
    let registers = cells.iter().map(|c| (name(c), c.value, changed.contains(&c.number)));
    let places = places.map(|(i, &p)| (format!("{}{}", stacks.place_name(p), above(i >= room.1)), p.number()));
    (registers.collect(), places.collect())
}

impl Frame {
    fn json(&self) -> String {
        let value = |v: &Option<i64>| v.map_or("null".into(), |v| quoted(&v.to_string()));
        let registers = list(self.registers.iter().map(|(name, v, new)| format!("[{},{},{new}]", quoted(name), value(v))));
        let places = list(self.places.iter().map(|(text, n)| format!("[{},{n}]", quoted(text))));
        let words = list(self.words.iter().map(|w| quoted(w)));
        let (kind, token, read) = (quoted(self.kind), self.token, self.read);
        format!("{{\"kind\":{kind},\"token\":{token},\"read\":{read},\"words\":{words},\"registers\":{registers},\"places\":{places}}}")
    }
}

impl Data {
    pub fn of(page: &Page) -> Result<Data, String> {
        let names = page.tokens.iter().map(|t| t.written(&page.built.grammar)).collect();
        let mut data = Data { tokens: names, ..Data::default() };
        data.engine(page)?;
        data.slip = page.slip.map(|slip| slipped(page, slip));
        Ok(data)
    }

    /// The engine's run.
    fn engine(&mut self, page: &Page) -> Result<(), String> {
        let mut story = Story::open_in(page.built, page.tokens, 0, page.room).map_err(|r| r.to_string())?;
        let (registers, places) = shown(&story.stacks(), &[], page.room);
        self.frames.push(Frame { kind: "opened", registers, places, ..Frame::default() });
        let mut token = 0;
        while let Some(event) = story.next() {
            match event {
                Event::Coming(index) => token = index,
                Event::Moved(made) if self.frames.len() <= MOVES => {
                    let (registers, places) = shown(&made.stacks, &made.changed, page.room);
                    let (kind, read) = (kind_name(made.kind), story.counts().1 as usize);
                    self.tree.add(page.built, &made);
                    self.frames.push(Frame { kind, words: made.words.clone(), token, read, registers, places });
                }
                Event::Moved(_) => return Err(format!("a page holds at most {MOVES} moves; `grammar trace` tells longer runs")),
                Event::Value(value) => self.end = format!("The segment's value is {value}."),
                Event::Refused(_) => self.refusal(page),
            }
        }
        Ok(())
    }

    fn refusal(&mut self, page: &Page) {
        self.refused = true;
        let Ok(mut run) = Run::with_room(&page.built.table, page.room.0, page.room.1) else { return };
        let outcome = run_on(&mut run, page.tokens);
        if let Err(refusal) = outcome.answer {
            let after = format!("refused {} after {}", refusal.number(), counted(refusal.count() as usize, "token"));
            let words = match refusal.number() {
                31 => format!("{after}: the run needs more than the {} registers lent", page.room.0),
                32 => format!("{after}: the run needs more than the {} places lent", page.room.1),
                _ => told(page.built, page.tokens, &outcome, refusal),
            };
            self.end = format!("{words}. The move that failed changed nothing; those before it stand.");
        }
    }

    pub fn json(&self) -> String {
        let node = |n: &super::tree::Node| {
            let number = |n: Option<u64>| n.map_or("null".into(), |n| n.to_string());
            let (parent, done) = (number(n.parent.map(|p| p as u64)), number(n.done));
            let (label, takes, gives) = (quoted(&n.label), quoted(&n.takes), quoted(&n.gives));
            format!(
                "{{\"parent\":{parent},\"label\":{label},\"token\":{},\"born\":{},\"done\":{done},\"takes\":{takes},\"gives\":{gives}}}",
                n.token, n.born
            )
        };
        let frames = |frames: &[Frame]| list(frames.iter().map(Frame::json));
        let slip = match &self.slip {
            Some((slipped, end)) => format!("{{\"end\":{},\"frames\":{}}}", quoted(end), frames(slipped)),
            None => "null".into(),
        };
        format!(
            "{{\"tokens\":{},\"refused\":{},\"end\":{},\"slip\":{slip},\"tree\":{},\"frames\":{}}}",
            list(self.tokens.iter().map(|t| quoted(t))),
            self.refused,
            quoted(&self.end),
            list(self.tree.nodes.iter().map(node)),
            frames(&self.frames),
        )
    }
}

/// The run of the teaching model with a slip, and how it ends.
fn slipped(page: &Page, slip: slips::Slip) -> (Vec<Frame>, String) {
    let (made, end) = slips::run(page.built, page.tokens, Some(slip), page.room);
    let first = slips::Frame {
        kind: segment::steps::Kind::Add,
        words: "opened".into(),
        registers: made_at_opening(page),
        places: vec![32768],
        token: 0,
    };
    let mut frames = Vec::new();
    let mut before: Vec<Option<i64>> = first.registers.clone();
    for frame in std::iter::once(first).chain(made).take(MOVES + 1) {
        let stacks = Stacks::new(&page.built.grammar, &frame.registers, &frame.places);
        let height = frame.registers.len();
        let differs = |i: &usize| before.get(*i) != Some(&frame.registers[*i]);
        let changed: Vec<usize> = (0..height).filter(differs).map(|i| height - i).collect();
        let (registers, places) = shown(&stacks, &changed, page.room);
        frames.push(Frame { kind: "", words: vec![frame.words], token: frame.token, read: frame.token, registers, places });
        before = frame.registers;
    }
    let end = match end {
        Ok(value) => format!("The slip gives the value {value}."),
        Err((0, words)) => format!("The slip cannot go on: {words}."),
        Err((number, words)) => format!("The slip is refused by {number}: {words}."),
    };
    (frames, end)
}

fn made_at_opening(page: &Page) -> Vec<Option<i64>> {
    let g = &page.built.grammar;
    vec![None; g.counts(g.whole).1]
}
