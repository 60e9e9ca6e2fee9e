//! A tree as a picture: lines of text, or SVG with the tokens below.
use crate::run::Token;
use crate::sheet::{Child, Tree};
use crate::Built;

/// What is drawn.
pub struct Drawing<'a> {
    built: &'a Built,
    tokens: &'a [Token],
    tree: &'a Tree,
}

/// The height of a box, the way from one row to the next, and the least room between two boxes.
const BOX: usize = 34;
const ROW: usize = 60;
const GAP: usize = 12;

/// The width of a text, about.
fn width(text: &str) -> usize {
    8 * text.chars().count()
}

fn escaped(text: &str) -> String {
    text.replace('&', "&amp;").replace('<', "&lt;").replace('>', "&gt;")
}

impl<'a> Drawing<'a> {
    pub fn new(built: &'a Built, tokens: &'a [Token], tree: &'a Tree) -> Drawing<'a> {
        Drawing { built, tokens, tree }
    }

    fn name(&self, node: usize) -> &'a str {
        let g = &self.built.grammar;
        &g.parts[g.productions[self.tree[node].production].left].name
    }

    /// `d=0 n=2`.
    fn values(&self, node: usize) -> String {
        let g = &self.built.grammar;
        let attributes = g.parts[g.productions[self.tree[node].production].left].attributes();
        let shown = attributes.zip(&self.tree[node].values).map(|(a, v)| format!("{a}={v}"));
        shown.collect::<Vec<_>>().join(" ")
    }

    fn token(&self, token: usize) -> String {
        self.tokens[token].written(&self.built.grammar)
    }

    /// A line for each node and each token, those below a node indented behind it.
    pub fn text(&self) -> String {
        let mut text = String::new();
        // What is still to be written: the lead of its line, the lead of the lines below it, and itself.
        let mut todo = vec![(String::new(), String::new(), &Child::Node(0))];
        while let Some((lead, below, child)) = todo.pop() {
            let node = match child {
                Child::Token(t) => {
                    text += &format!("{lead}{}\n", self.token(*t));
                    continue;
                }
                Child::Node(node) => *node,
            };
            let children = &self.tree[node].children;
            let line = [self.name(node).into(), self.values(node), if children.is_empty() { "(nothing)".into() } else { String::new() }];
            text += &format!("{lead}{}\n", line.into_iter().filter(|word| !word.is_empty()).collect::<Vec<_>>().join(" "));
            for (i, child) in children.iter().enumerate().rev() {
                let (branch, bar) = if i + 1 == children.len() { ("└─ ", "   ") } else { ("├─ ", "│  ") };
                todo.push((format!("{below}{branch}"), format!("{below}{bar}"), child));
            }
        }
        text
    }

    /// The width of the box of a node.
    fn box_width(&self, node: usize) -> usize {
        width(self.name(node)).max(width(&self.values(node))) + 16
    }

    /// The room that each node and all below it takes. What is below has a higher number.
    fn rooms(&self) -> Vec<usize> {
        let mut rooms = vec![0; self.tree.len()];
        for node in (0..self.tree.len()).rev() {
            rooms[node] = (self.box_width(node) + GAP).max(self.below(node, &rooms));
        }
        rooms
    }

    /// The room of all that is directly below a node.
    fn below(&self, node: usize, rooms: &[usize]) -> usize {
        self.tree[node].children.iter().map(|child| self.room(child, rooms)).sum()
    }

    fn room(&self, child: &Child, rooms: &[usize]) -> usize {
        match child {
            Child::Token(t) => width(&self.token(*t)) + GAP,
            Child::Node(n) => rooms[*n],
        }
    }

    /// A picture of its own, for a page or a slide.
    pub fn svg(&self) -> String {
        let rooms = self.rooms();
        // Where the room of each node begins, and its depth; a node comes before those below it.
        let mut at = vec![(0, 0); self.tree.len()];
        let depth = self.depth();
        let bottom = ROW * (depth + 1) + BOX;
        let (mut lines, mut boxes) = (String::new(), String::new());
        for node in 0..self.tree.len() {
            let (left, level) = at[node];
            let (x, y) = (left + rooms[node] / 2, ROW * level);
            let mut next = left + (rooms[node] - self.below(node, &rooms)) / 2;
            for child in &self.tree[node].children {
                let room = self.room(child, &rooms);
                let (to, top) = (next + room / 2, ROW * (level + 1));
                let way = format!("{x},{} {to},{top}", y + BOX);
                match child {
                    Child::Node(n) => {
                        at[*n] = (next, level + 1);
                        lines += &format!("<polyline points=\"{way}\"/>\n");
                    }
                    // Straight down in the room that is the token's alone.
                    Child::Token(t) => {
                        lines += &format!("<polyline points=\"{way} {to},{}\"/>\n", bottom - 18);
                        boxes += &format!("<text class=\"token\" x=\"{to}\" y=\"{bottom}\">{}</text>\n", escaped(&self.token(*t)));
                    }
                }
                next += room;
            }
            boxes += &self.boxed(node, x, y);
        }
        let words: Vec<String> = (0..self.tokens.len()).map(|t| self.token(t)).collect();
        let title = if words.is_empty() { "no tokens".into() } else { escaped(&words.join(" ")) };
        let (w, h) = (rooms[0], bottom + 10);
        format!(
            "<svg xmlns=\"http://www.w3.org/2000/svg\" width=\"{w}\" height=\"{h}\" viewBox=\"0 -1 {w} {h}\" role=\"img\">\n\
             <title>{title}</title>\n<style>text {{ font: 13px monospace; text-anchor: middle }} .token {{ font-weight: bold }} \
             rect {{ fill: #eef3fa; stroke: #345 }} polyline {{ fill: none; stroke: #789 }}</style>\n{lines}{boxes}</svg>\n"
        )
    }

    /// A node's box: its part, and its values below.
    fn boxed(&self, node: usize, x: usize, y: usize) -> String {
        let wide = self.box_width(node);
        let rect = format!("<rect x=\"{}\" y=\"{y}\" width=\"{wide}\" height=\"{BOX}\" rx=\"5\"/>", x - wide / 2);
        let name = format!("<text x=\"{x}\" y=\"{}\">{}</text>", y + 14, escaped(self.name(node)));
        format!("{rect}{name}<text x=\"{x}\" y=\"{}\">{}</text>\n", y + 29, escaped(&self.values(node)))
    }

    /// The depth of the tree; the root alone is at 0.
    fn depth(&self) -> usize {
        let mut levels = vec![0; self.tree.len()];
        for node in 0..self.tree.len() {
            for child in &self.tree[node].children {
                if let Child::Node(n) = child {
                    levels[*n] = levels[node] + 1;
                }
            }
        }
        levels.into_iter().max().unwrap_or(0)
    }
}
