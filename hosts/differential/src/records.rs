//! A record of the host library and of the plain engine, one as the other.
use plain::run::{self, Kind, Status};
use segment::lent::{self, Record};

/// What the numbers of a record count as.
pub fn brought(r: &Record) -> run::Record {
    let status = match r.status {
        lent::CLOSED => Status::Closed,
        lent::WAITING => Status::Waiting,
        _ => Status::Running,
    };
    let kind = match r.kind {
        lent::INNER => Kind::Inner(r.register_base, r.place_base),
        _ => Kind::Outer,
    };
    run::Record { status, kind, tokens: r.tokens, moves: r.moves, registers: r.registers, places: r.places }
}

/// The numbers that are handed back.
pub fn handed(r: run::Record) -> Record {
    let status = match r.status {
        Status::Closed => lent::CLOSED,
        Status::Running => lent::RUNNING,
        Status::Waiting => lent::WAITING,
    };
    let (kind, register_base, place_base) = match r.kind {
        Kind::Outer => (lent::OUTER, 0, 0),
        Kind::Inner(registers, places) => (lent::INNER, registers, places),
    };
    let run::Record { tokens, moves, registers, places, .. } = r;
    Record { status, tokens, moves, registers, places, kind, register_base, place_base }
}
