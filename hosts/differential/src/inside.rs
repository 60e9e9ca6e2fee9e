//! Inner runs: over an outer run as it stands, under another table, with calls in between that are turned back or made on forged records.
use crate::pair::{Call, Pair};
use crate::segments::Segments;
use crate::{Comparison, Table};

/// Sometimes a call on forged records or cells, of another table, or an ordinary one; the inner run then goes on as it was.
fn disturb(c: &mut Comparison, pair: &Pair, outer: &[u8], inside: &[u8]) -> Result<(), String> {
    if !c.r.chance(40) {
        return Ok(());
    }
    let mut tried = pair.clone();
    match c.r.below(10) {
        0 => tried.forge(&mut c.r),
        1 => tried.forge_beginning(&mut c.r),
        2 => tried.lend(&mut c.r),
        3 => {}
        _ => (0..1 + c.r.below(2)).for_each(|_| tried.forge_inner(&mut c.r)),
    }
    let kinds: Vec<u8> = (0..c.r.below(4)).map(|_| c.r.below(4) as u8).collect();
    let values = c.values(kinds.len());
    let (table, call) = match c.r.below(10) {
        0 => (outer, Call::Feed(&kinds, &values)),
        1 => (outer, Call::Finish),
        2 => (outer, Call::InnerOpen(inside)),
        3 => (outer, Call::GiveUp),
        4 | 5 => (inside, Call::GiveUp),
        6 | 7 => (inside, Call::InnerFinish),
        _ => (inside, Call::InnerFeed(&kinds, &values)),
    };
    c.call(&mut tried, table, call).map(drop)
}

/// Opens an inner run, feeds it a segment in pieces, and ends it. Mostly the outer run has then nothing to wait for.
pub fn run(c: &mut Comparison, pair: &mut Pair, outer: &[u8]) -> Result<(), String> {
    let Table { bytes: inside, outline } = c.table();
    disturb(c, pair, outer, &inside)?;
    let opened = c.call(pair, outer, Call::InnerOpen(&inside))?;
    if opened != 0 && c.r.chance(80) {
        return Ok(());
    }
    let segment = outline.map_or(vec![0, 1], |outline| Segments::new(&outline).random(&mut c.r));
    let mut at = 0;
    while at < segment.len() {
        disturb(c, pair, outer, &inside)?;
        let longest = if c.r.chance(80) { segment.len() - at } else { 3 };
        let end = segment.len().min(at + c.r.below(longest + 1));
        let values = c.values(end - at);
        match c.call(pair, &inside, Call::InnerFeed(&segment[at..end], &values))? {
            0 => at = end,
            38 => {}
            _ => break,
        }
        if c.r.chance(4) {
            break;
        }
    }
    disturb(c, pair, outer, &inside)?;
    let end = if c.r.chance(25) { Call::GiveUp } else { Call::InnerFinish };
    c.call(pair, &inside, end).map(drop)
}
