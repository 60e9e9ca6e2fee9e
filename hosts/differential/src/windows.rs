//! Random calls on windows: sizes inside and outside the limits, values at the limits, refusals, damaged and short buffers. Total,
//! largest and every cell are compared, with some past the window's form.
use crate::random::Random;
use segment::window::{self, Standing};

/// A call on a window's buffer.
#[derive(Clone, Copy, Debug)]
pub enum Call {
    Open(u64),
    Value(i64),
    Refused(u32),
}

impl Call {
    pub fn name(&self) -> &'static str {
        match self {
            Call::Open(_) => "window open",
            Call::Value(_) => "window value",
            Call::Refused(_) => "window refusal",
        }
    }

    fn random(r: &mut Random) -> Call {
        match r.below(100) {
            0 => Call::Open(size(r)),
            1..=20 => Call::Refused(*r.pick(&[5, 21, 22, 23, 24, 34, u32::MAX])),
            _ => Call::Value(value(r)),
        }
    }
}

fn size(r: &mut Random) -> u64 {
    match r.below(12) {
        0 => *r.pick(&[0, 65, 66, u64::MAX]),
        1..=4 => 1 + r.below(64) as u64,
        _ => 1 + r.below(5) as u64,
    }
}

/// Mostly small, so that values are often equal; sometimes at the limits and past them.
fn value(r: &mut Random) -> i64 {
    const LIMIT: i64 = 1_000_000_000_000;
    match r.below(20) {
        0 => LIMIT - 1 + r.below(3) as i64,
        1 => -LIMIT - 1 + r.below(3) as i64,
        2 => r.number() as i64,
        3..=5 => r.below(2_000_000) as i64 - 1_000_000,
        _ => r.below(7) as i64 - 3,
    }
}

/// What stands in the window, or a refusal's number and what comes with it.
type Answered = Result<Standing, (u32, u64)>;

/// What the plain window answers, as the host library does.
fn plain(call: Call, buffer: &mut [i64]) -> Answered {
    let answer = match call {
        Call::Open(size) => plain::window::open(size, buffer),
        Call::Value(value) => plain::window::value(value, buffer),
        Call::Refused(_) => plain::window::refused(buffer),
    };
    answer.map(|(total, largest)| Standing { total, largest }).ok_or((42, 0))
}

fn proved(call: Call, buffer: &mut [i64], count: u64) -> Answered {
    let answer = match call {
        Call::Open(size) => window::open(size, buffer),
        Call::Value(value) => window::value(0, value, count, buffer),
        Call::Refused(number) => window::value(number, 0, count, buffer),
    };
    answer.map_err(|refusal| (refusal.number(), refusal.count()))
}

/// Makes a call on both; gives the number of its refusal, 0 for none.
fn compared(r: &mut Random, call: Call, buffer: &mut Vec<i64>) -> Result<u32, String> {
    let before = buffer.clone();
    let mut other = buffer.clone();
    let (a, b) = (plain(call, buffer), proved(call, &mut other, r.number()));
    if a != b || *buffer != other {
        return Err(format!("{call:?} on {before:?}: proved {b:?} and {other:?}, plain {a:?} and {buffer:?}"));
    }
    if b.is_err() && *buffer != before {
        return Err(format!("{call:?} on {before:?}: turned back, and {buffer:?}"));
    }
    Ok(b.map_or_else(|(number, _)| number, |_| 0))
}

/// A cell changed, or the buffer cut short.
fn damaged(r: &mut Random, buffer: &[i64]) -> Vec<i64> {
    let mut buffer = buffer.to_vec();
    if buffer.is_empty() || r.chance(5) {
        buffer.truncate(r.below(buffer.len() + 1));
        return buffer;
    }
    for _ in 0..1 + r.below(2) {
        let cell = if r.chance(40) { r.below(buffer.len().min(5)) } else { r.below(buffer.len()) };
        buffer[cell] = match r.below(4) {
            0 => value(r),
            1 => r.below(66) as i64,
            2 => buffer[cell].wrapping_add(1),
            _ => buffer[cell].wrapping_sub(1),
        };
    }
    buffer
}

/// A window and calls on it, some of them on a damaged copy of its buffer; `count` is told each call and its refusal's number.
pub fn run(r: &mut Random, mut count: impl FnMut(&'static str, u32)) -> Result<(), String> {
    let size = size(r);
    let long = window::length(size.min(70) as usize) + r.below(4);
    let mut buffer = vec![7; long.saturating_sub(r.below(2))];
    let mut call = Call::Open(size);
    for _ in 0..r.below(200) {
        count(call.name(), compared(r, call, &mut buffer)?);
        call = Call::random(r);
        if r.chance(20) {
            let mut damaged = damaged(r, &buffer);
            let call = Call::random(r);
            count(call.name(), compared(r, call, &mut damaged)?);
        }
    }
    Ok(())
}
