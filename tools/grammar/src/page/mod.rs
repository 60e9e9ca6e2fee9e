//! A run as a page to step through: one HTML file that needs no network.
mod data;
mod lessons;
mod tree;

pub use lessons::{lesson, LESSONS};

use crate::Built;
use data::Data;

/// What a page shows.
pub struct Page<'b> {
    pub built: &'b Built,
    pub tokens: &'b [crate::run::Token],
    /// The registers and places lent.
    pub room: (usize, usize),
    pub title: String,
    pub lead: String,
    pub slip: Option<crate::slips::Slip>,
}

/// So many moves are on a page at most.
pub const MOVES: usize = 1500;

/// A text as HTML.
pub fn html(text: &str) -> String {
    text.replace('&', "&amp;").replace('<', "&lt;").replace('>', "&gt;").replace('"', "&quot;")
}

/// The page; or why there is none.
pub fn page(page: &Page) -> Result<String, String> {
    let data = Data::of(page)?;
    let moves: Vec<String> = data
        .frames
        .iter()
        .enumerate()
        .skip(1)
        .map(|(i, frame)| {
            let words: Vec<String> = frame.words.iter().map(|w| html(w)).collect();
            format!("      <li><a href=\"#{i}\">{i} {}</a> <code>{}</code></li>", frame.kind, words.join("<br>"))
        })
        .collect();
    let filled = [
        ("@TITLE@", html(&page.title)),
        ("@LEAD@", html(&page.lead)),
        ("@MOVES@", moves.join("\n")),
        ("@END@", html(&data.end)),
        ("@DATA@", data.json().replace('<', "\\u003c")),
        ("@SCRIPT@", include_str!("page.js").trim_end().into()),
    ];
    let mut text = String::new();
    let mut rest = include_str!("page.html");
    while let Some(at) = rest.find('@') {
        text += &rest[..at];
        rest = &rest[at..];
        let hole = filled.iter().find(|(name, _)| rest.starts_with(name));
        let (name, value) = hole.map_or(("@", "@"), |(name, value)| (name, value.as_str()));
        text += value;
        rest = &rest[name.len()..];
    }
    Ok(text + rest)
}
