//! Inner runs: a segment inside an unfinished one, over the same memory.
use segment::lent::{self, Memory, Record, MARK};
use segment::{Kind, Refusal, Run, Table};

const WORDS: &[u8] = include_bytes!("../../../grammars/words.table");
const LENGTHS: &[u8] = include_bytes!("../../../grammars/lengths.table");

fn tables() -> (Table, Table) {
    (Table::new(WORDS).unwrap(), Table::new(LENGTHS).unwrap())
}

/// Number and count of a refusal.
fn refused(refusal: Refusal) -> (u32, u64) {
    (refusal.number(), refusal.count())
}

/// What can be seen of a run.
fn seen(run: &Run) -> (Vec<Option<i64>>, Vec<u32>, u64, u64, bool, bool) {
    (run.registers().collect(), run.places().to_vec(), run.tokens(), run.moves(), run.is_open(), run.is_waiting())
}

#[test]
fn a_footnote() {
    let (words, lengths) = tables();
    let mut run = words.run();
    run.feed(&[0, 1]).unwrap();
    let before = seen(&run);
    let mut note = run.open_inner(&lengths).unwrap();
    assert_eq!((note.is_open(), note.tokens(), note.moves(), note.value(), note.places()), (true, 0, 0, None, &[32768][..]));
    assert_eq!(note.feed_values(&[0, 1], &[4, 99]), Ok(12));
    assert_eq!(note.registers().rev().collect::<Vec<_>>(), [Some(1), None, Some(0), None, Some(4), Some(0), None, None]);
    assert_eq!(note.feed_values(&[0], &[]).map_err(refused), Err((38, 0)));
    note.feed_values(&[0, 2], &[7, 0]).unwrap();
    assert_eq!((note.finish(), note.value(), note.tokens(), note.is_open(), note.places().len()), (Ok(11), Some(11), 4, false, 0));
    assert_eq!((note.finish().map_err(refused), note.give_up().map_err(refused)), (Err((33, 0)), Err((33, 0))));
    assert_eq!(seen(&run), before);
    assert!(run.inner().is_none());
    run.feed(&[0, 2]).unwrap();
    assert_eq!((run.finish(), run.moves()), (Ok(2), 32));
    assert_eq!(run.open_inner(&words).map(drop).map_err(refused), Err((33, 0)));
}

/// The inner run is the outer one's: a view that is dropped ends nothing.
#[test]
fn the_outer_run_waits() {
    let (words, lengths) = tables();
    let mut run = words.run();
    run.feed(&[0, 1]).unwrap();
    run.open_inner(&lengths).unwrap().feed_values(&[0], &[3]).unwrap();
    let waiting = run.feed(&[0]).unwrap_err();
    assert_eq!((waiting.kind(), refused(waiting), waiting.tokens()), (Kind::RunWaiting, (40, 0), None));
    assert_eq!(run.finish().map_err(refused), Err((40, 0)));
    assert_eq!(run.open_inner(&words).map(drop).map_err(refused), Err((40, 0)));
    assert_eq!((run.is_waiting(), run.is_open(), run.tokens()), (true, true, 2));
    assert!(format!("{run:?}").starts_with("Run(waiting, 2 tokens, 11 moves, 7 registers, 4 places, "));
    let mut copy = run.clone();
    let mut note = run.inner().unwrap();
    assert!(format!("{note:?}").starts_with("InnerRun(open, 1 tokens, 8 moves, Table(152 bytes, "), "{note:?}");
    assert_eq!((note.table(), note.finish()), (&lengths, Ok(3)));
    assert_eq!(copy.inner().unwrap().give_up(), Ok(8));
    assert_eq!((run.feed(&[2]), copy.feed(&[2])), (Ok(17), Ok(17)));
    run.restart().unwrap();
    run.open_inner(&words).unwrap();
    run.restart().unwrap();
    assert!(run.inner().is_none());
    assert_eq!(run.evaluate(&[0]), Ok(1));
}

#[test]
fn refusals_end_it() {
    let (words, _) = tables();
    let mut run = words.run();
    run.feed(&[0, 1]).unwrap();
    let before = seen(&run);
    for (tokens, refusal) in [(&[2][..], (21, 0)), (&[1, 1, 1, 1], (22, 3)), (&[0, 9], (20, 1))] {
        let mut note = run.open_inner(&words).unwrap();
        assert_eq!((note.feed(tokens).map_err(refused), note.is_open(), note.tokens()), (Err(refusal), false, refusal.1));
        assert_eq!(seen(&run), before);
    }
    let mut note = run.open_inner(&words).unwrap();
    note.feed(&[1]).unwrap();
    assert_eq!((note.finish().map_err(refused), note.value()), (Err((24, 1)), None));
    assert_eq!(seen(&run), before);
}

/// It has the value that it has alone with as much room as is left.
#[test]
fn as_alone_on_what_is_left() {
    let (words, _) = tables();
    for (registers, places) in (7..14).flat_map(|r| (4..9).map(move |p| (r, p))) {
        let mut run = Run::with_room(&words, registers, places).unwrap();
        run.feed(&[0, 1]).unwrap();
        let before = seen(&run);
        let inside = run.open_inner(&words).and_then(|mut note| note.feed(&[0]).and_then(|_| note.finish()));
        let alone = Run::with_room(&words, registers - 7, places - 4).and_then(|mut run| run.evaluate(&[0]));
        assert_eq!((inside, seen(&run)), (alone, before), "{registers} registers, {places} places");
    }
}

#[test]
fn budgets() {
    let (words, _) = tables();
    let mut run = words.run().with_budget(11);
    assert_eq!(run.feed(&[0, 1]), Ok(11));
    let mut note = run.open_inner(&words).unwrap();
    assert_eq!((note.moves(), note.feed(&[0, 1]), note.feed(&[0]).map_err(refused), note.moves()), (0, Ok(11), Err((35, 2)), 11));
    assert_eq!(run.feed(&[0]).map_err(refused), Err((35, 2)));
}

/// The calls as they are: every cell below the beginning and past what is lent stays.
#[test]
fn lent_memory() {
    let (mut registers, mut places, mut program) = ([MARK; 20], [0; 10], [5; 16384]);
    let (mut outer, mut inner) = (Record::default(), Record { status: 9, tokens: 9, ..Record::default() });
    let mut m = Memory { registers: &mut registers, places: &mut places, program: &mut program };
    lent::open(WORDS, &mut outer, &mut m).unwrap();
    lent::feed(WORDS, &mut outer, &mut m, &[0, 1], &[0, 0]).unwrap();
    let opened = lent::open_inner(WORDS, &LENGTHS[..100], (&mut outer, &mut inner), &mut m).map_err(refused);
    assert_eq!((opened, inner, outer.status), (Err((2, 93)), Record::default(), lent::RUNNING));
    lent::open_inner(WORDS, LENGTHS, (&mut outer, &mut inner), &mut m).unwrap();
    let begins = Record { kind: lent::INNER, register_base: 7, place_base: 4, ..Record::default() };
    assert_eq!(inner, Record { status: lent::RUNNING, registers: 1, places: 1, ..begins });
    assert_eq!((outer.status, outer.kind, m.places[4]), (lent::WAITING, lent::OUTER, 32768));
    // What is below the beginning is not looked at; a third run, and either record in the other's place, is turned back.
    m.registers[..7].fill(77);
    m.places[..4].fill(99);
    assert_eq!(lent::feed_inner(LENGTHS, (&mut outer, &mut inner), &mut m, &[0], &[6]), Ok(8));
    let (mut third, mut same) = (Record::default(), inner);
    assert_eq!(lent::open_inner(LENGTHS, WORDS, (&mut same, &mut third), &mut m).map_err(refused), Err((40, 0)));
    assert_eq!(lent::feed(LENGTHS, &mut same, &mut m, &[], &[]).map_err(refused), Err((34, 0)));
    assert_eq!(lent::give_up_inner(LENGTHS, (&mut inner, &mut outer), &mut m).map_err(refused), Err((34, 0)));
    assert_eq!(lent::give_up_inner(LENGTHS, (&mut outer, &mut third), &mut m).map_err(refused), Err((33, 0)));
    let before = inner;
    assert_eq!(lent::give_up_inner(LENGTHS, (&mut outer, &mut inner), &mut m), Ok(8));
    assert_eq!((outer.status, inner), (lent::RUNNING, Record { status: lent::CLOSED, ..before }));
    assert_eq!((m.registers[..7] == [77; 7], m.registers[7..] == [MARK; 13]), (true, true));
    assert_eq!((m.places[..4] == [99; 4], m.places[4..] == [0; 6]), (true, true));
}
