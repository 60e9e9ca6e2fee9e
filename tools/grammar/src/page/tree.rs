//! The derivation tree that the moves of a run build, as far as it goes.
use crate::story::Move;
use crate::Built;
use segment::steps::Kind;

/// A node: a part or a token, when it came and when it was done, and what it took and gave.
#[derive(Clone, Debug, Default)]
pub struct Node {
    pub parent: Option<usize>,
    pub label: String,
    pub token: bool,
    pub born: u64,
    pub done: Option<u64>,
    pub takes: String,
    pub gives: String,
    /// The place below that waits at it, and its position there.
    place: usize,
    position: usize,
}

/// The tree so far; `open` has the node of each place but the whole segment's.
#[derive(Default)]
pub struct Tree {
    pub nodes: Vec<Node>,
    open: Vec<usize>,
}

/// The values of a node's attributes, as far as they have registers.
fn values(built: &Built, made: &Move, node: &Node, takes: bool) -> String {
    let g = &built.grammar;
    let here = made.stacks.cells.iter().filter(|c| c.place == node.place && c.occurrence.position == node.position);
    let Some(part) = g.parts.iter().find(|p| p.name == node.label) else { return String::new() };
    let wanted = here.filter(|c| (c.occurrence.attribute <= part.takes.len()) == takes);
    let shown = wanted.filter_map(|c| {
        let name = part.attributes().nth(c.occurrence.attribute - 1)?;
        Some(format!("{name}={}", c.value?))
    });
    shown.collect::<Vec<_>>().join(" ")
}

impl Tree {
    pub fn add(&mut self, built: &Built, made: &Move) {
        match made.kind {
            Kind::Predict => self.predict(built, made),
            Kind::Read => {
                let parent = self.open.last().copied();
                let label = made.words.first().cloned().unwrap_or_default();
                let (born, done) = (made.number, Some(made.number));
                self.nodes.push(Node { parent, label, token: true, born, done, ..Node::default() });
            }
            Kind::Remove => {
                let Some(node) = self.open.pop() else { return };
                let gives = values(built, made, &self.nodes[node], false);
                (self.nodes[node].done, self.nodes[node].gives) = (Some(made.number), gives);
            }
            _ => {}
        }
    }

    fn predict(&mut self, built: &Built, made: &Move) {
        let (g, place) = (&built.grammar, made.stacks.places.len() - 2);
        let label = g.parts[g.productions[made.place.production].left].name.clone();
        let (parent, position) = (self.open.last().copied(), made.stacks.places[place].passed + 1);
        let mut node = Node { parent, label, born: made.number, place, position, ..Node::default() };
        node.takes = values(built, made, &node, true);
        self.open.push(self.nodes.len());
        self.nodes.push(node);
    }
}
