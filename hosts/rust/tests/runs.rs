//! Runs of the grammar of words and tags through the wrapper.
use segment::lent::{self, Memory, Record, MARK};
use segment::{Kind, NotTable, Refusal, Run, Table, MOVES};

const WORDS: &[u8] = include_bytes!("../../../grammars/words.table");
const LENGTHS: &[u8] = include_bytes!("../../../grammars/lengths.table");

fn table() -> Table {
    Table::new(WORDS).unwrap()
}

/// Number and count of a refusal.
type Refused = (u32, u64);

fn refused(refusal: Refusal) -> Refused {
    (refusal.number(), refusal.count())
}

/// Value and moves of a segment.
fn run(tokens: &[u8]) -> Result<(i64, u64), Refused> {
    let table = table();
    let mut run = table.run();
    run.feed(tokens).map_err(refused)?;
    run.finish().map_err(refused)?;
    Ok((run.value().unwrap(), run.moves()))
}

#[test]
fn values() {
    assert_eq!(run(&[]), Ok((0, 8)));
    assert_eq!(run(&[0, 1, 0, 2]).unwrap().0, 2);
    assert_eq!(run(&[1, 1, 1, 0, 2, 2, 2]).unwrap().0, 1);
    let table = table();
    let mut run = table.run();
    assert_eq!((run.evaluate(&[0]), run.evaluate(&[]), run.evaluate(&[0, 0])), (Ok(1), Ok(0), Ok(2)));
}

#[test]
fn refused_segments() {
    assert_eq!(run(&[1, 1, 1, 1]), Err((22, 3)));
    assert_eq!(run(&[0, 2]), Err((21, 1)));
    assert_eq!(run(&[1]), Err((24, 1)));
    assert_eq!(run(&[0, 3]), Err((20, 1)));
}

#[test]
fn room() {
    let table = table();
    let small = |registers, places| Run::with_room(&table, registers, places).and_then(|mut run| run.finish()).map_err(refused);
    assert_eq!(small(3, 3), Ok(0));
    assert_eq!(small(2, 3), Err((31, 0)));
    assert_eq!(small(3, 2), Err((32, 0)));
    assert_eq!(small(0, 3), Err((31, 0)));
    assert_eq!(small(usize::MAX, usize::MAX), Ok(0));
}

#[test]
fn stopped() {
    let table = table();
    let mut run = table.run();
    run.feed(&[0]).unwrap();
    assert_eq!(run.feed(&[1]), Ok(run.moves()));
    assert_eq!((run.tokens(), run.is_open(), run.value()), (2, true, None));
    let registers: Vec<_> = run.registers().rev().collect();
    assert_eq!(registers, [Some(1), None, Some(0), None, Some(0), None, None]);
    for (i, register) in registers.iter().enumerate() {
        assert_eq!(run.register(i + 1), *register);
    }
    assert_eq!((run.register(0), run.register(8), run.register(usize::MAX)), (None, None, None));
    assert_eq!(run.places(), [32768, 0, 257, 513]);
}

#[test]
fn tokens_carry_values() {
    let table = Table::new(LENGTHS).unwrap();
    let mut run = table.run();
    assert_eq!(run.feed_values(&[0, 1], &[4, 99]), Ok(12));
    assert_eq!(run.registers().rev().collect::<Vec<_>>(), [Some(1), None, Some(0), None, Some(4), Some(0), None, None]);
    run.feed_values(&[0, 2], &[7, 0]).unwrap();
    assert_eq!(run.finish(), Ok(11));
    assert_eq!(run.evaluate_values(&[0, 0], &[40, 41]).map_err(refused), Err((22, 2)));
    assert_eq!(run.evaluate(&[0]).map_err(refused), Err((22, 1)));
    assert_eq!((run.evaluate(&[]), run.evaluate(&[1, 2])), (Ok(0), Ok(0)));
    let small = |registers| Run::with_room(&table, registers, 5).and_then(|mut run| run.feed_values(&[0], &[1])).map_err(refused);
    assert_eq!((small(5).map_err(|e| e.0), small(4), small(3)), (Err(31), Err((31, 1)), Err((31, 0))));
}

#[test]
fn lists_of_unequal_length() {
    let table = Table::new(LENGTHS).unwrap();
    let mut run = table.run();
    run.feed_values(&[0], &[4]).unwrap();
    for (kinds, values) in [(&[0][..], &[][..]), (&[], &[1]), (&[0, 0], &[1, 2, 3]), (&[9], &[])] {
        let unequal = run.feed_values(kinds, values).unwrap_err();
        assert_eq!((unequal.kind(), refused(unequal), unequal.tokens()), (Kind::ListsUnequal, (38, 0), None));
    }
    assert_eq!((run.is_open(), run.tokens(), run.feed_values(&[0], &[5]), run.finish()), (true, 1, Ok(13), Ok(9)));
    assert_eq!(run.feed_values(&[0], &[]).map_err(refused), Err((33, 0)));
}

#[test]
fn closed_and_opened_again() {
    let table = table();
    let mut run = table.run();
    assert_eq!(run.feed(&[0, 2, 0]).map_err(refused), Err((21, 1)));
    assert!(!run.is_open());
    assert_eq!(run.feed(&[0]).map_err(refused), Err((33, 0)));
    assert_eq!(run.finish().map_err(refused), Err((33, 0)));
    run.restart().unwrap();
    run.feed(&[0, 0]).unwrap();
    assert_eq!((run.finish(), run.value(), run.places().len()), (Ok(2), Some(2), 1));
    run.restart().unwrap();
    assert_eq!(run.value(), None);
}

#[test]
fn budgets() {
    let table = table();
    for (budget, answer) in [(31, Err((35, 4))), (32, Ok(2)), (23, Err((35, 4))), (22, Err((35, 4))), (0, Err((35, 0)))] {
        let mut run = table.run().with_budget(budget);
        for _ in 0..2 {
            assert_eq!(run.evaluate(&[0, 1, 0, 2]).map_err(refused), answer, "{budget}");
            assert_eq!((run.moves(), run.budget()), (budget.min(32), budget));
        }
    }
    let mut run = table.run().with_budget(u64::MAX);
    assert_eq!((run.feed(&[0, 1]), run.moves(), run.budget()), (Ok(11), 11, MOVES));
    let mut run = table.run().with_budget(20);
    assert_eq!((run.feed(&[0, 1]), run.feed(&[]), run.moves()), (Ok(11), Ok(11), 11));
}

#[test]
fn tables() {
    assert_eq!(segment::check(WORDS), Ok(()));
    assert_eq!(segment::check(&WORDS[..100]).map_err(refused), Err((2, 97)));
    let table = table();
    assert_eq!((table.bytes(), table.productions()), (WORDS, 4));
    let parts: Vec<u8> = (0..4).flat_map(|p| table.stretch(p).unwrap()).copied().collect();
    assert_eq!(parts, WORDS[17..]);
    assert_eq!(table.stretch(4).map_err(refused), Err((14, 0)));
    assert_eq!(segment::stretch(WORDS, usize::MAX).map_err(refused), Err((14, 0)));
    assert_eq!(segment::stretch(&[], 0).map_err(refused), Err((3, 0)));
    assert_eq!(Table::new([]).map_err(refused), Err((3, 0)));
}

#[test]
fn sums_tell_tables_apart() {
    assert_eq!(segment::sum(b""), 0xcbf29ce484222325);
    assert_eq!(segment::sum(b"foobar"), 0x85944171f73967e8);
    let sum = table().sum();
    assert_eq!(sum, segment::sum(WORDS));
    assert_eq!(Table::with_sum(WORDS, sum), Ok(table()));
    assert_eq!(Table::with_sum(WORDS, 1), Err(NotTable::Other { found: sum, wanted: 1 }));
    assert_eq!(Table::with_sum(WORDS, 1).unwrap_err().to_string(), "another table: its sum is d30e9953d2057f43, not 0000000000000001");
    assert!(matches!(Table::with_sum([], sum), Err(NotTable::Refused(r)) if r.number() == 3));
}

/// What is shown in a failed test stays short.
#[test]
fn short_to_look_at() {
    let table = table();
    let mut run = table.run();
    run.feed(&[0, 1]).unwrap();
    let shown = "Run(open, 2 tokens, 11 moves, 7 registers, 4 places, Table(136 bytes, sum d30e9953d2057f43))";
    assert_eq!(format!("{run:?}"), shown);
    assert_eq!(format!("{:?}", run.feed(&[3]).unwrap_err()), "Refusal(20: UnknownToken, 2)");
}

fn sendable<T: Send + Sync + 'static>(_: T) {}

#[test]
fn threads_share_a_table() {
    sendable(table());
    sendable(run(&[1]).unwrap_err());
    let table = table();
    std::thread::scope(|scope| {
        for n in 0..4 {
            let table = &table;
            scope.spawn(move || assert_eq!(table.run().evaluate(&vec![0; n]), Ok(n as i64)));
        }
    });
}

#[test]
fn listings() {
    let whole = include_str!("../../../crates/listing/stdout");
    assert_eq!(segment::listing(WORDS), whole);
    assert_eq!(segment::listing(&WORDS[..100]), "refused 2 97\n");
    let (mut program, mut out) = ([5; 16384], [7; 100]);
    assert_eq!((lent::list(WORDS, &mut program[..16383], &mut out), out == [7; 100], program == [5; 16384]), ((0, false), true, true));
    assert_eq!((lent::list(WORDS, &mut program, &mut out[..63]), out == [7; 100], program == [5; 16384]), ((0, false), true, true));
    let (length, over) = lent::list(WORDS, &mut program, &mut out);
    assert!(!over && length + lent::LINE > 100 && out[..length] == whole.as_bytes()[..length] && out[length - 1] == b'\n');
    assert!(out[length..].iter().all(|&b| b == 7) && program[1] == 6 && program[16383] == 5);
}

#[test]
fn words_for_refusals() {
    let table = table();
    let told = |tokens: &[u8]| table.run().evaluate(tokens).unwrap_err().to_string();
    assert!(told(&[0, 2]).starts_with("refused 21 after 1 token: the token is not the expected one"));
    assert!(told(&[1, 1, 1, 1]).starts_with("refused 22 after 3 tokens: a condition is false"));
    assert_eq!(segment::check(&WORDS[..100]).unwrap_err().to_string(), "refused 2 at byte 97: a field is cut short");
    let mut run = table.run();
    run.evaluate(&[0, 0]).unwrap();
    let closed = run.finish().unwrap_err();
    assert_eq!((closed.to_string().as_str(), closed.tokens(), closed.offset()), ("refused 33: the run is closed", None, None));
    let numbers: Vec<u32> = Kind::ALL.iter().map(|kind| kind.number()).collect();
    assert_eq!(numbers, (1..=14).chain(20..=24).chain(30..=43).collect::<Vec<u32>>());
    assert!(Kind::ALL.iter().all(|&kind| Kind::of(kind.number()) == kind && kind != Kind::Unknown));
    assert_eq!((Kind::of(0), Kind::of(99), Kind::Unknown.number()), (Kind::Unknown, Kind::Unknown, 0));
}

#[test]
fn lent_memory() {
    let (mut registers, mut places, mut short, mut program) = ([7; 10], [9; 10], [5; 16383], [5; 16384]);
    let mut record = Record { status: 7, tokens: 1, moves: 2, registers: 3, places: 4, kind: 5, register_base: 6, place_base: 7 };
    let brought = Record { status: lent::RUNNING, kind: lent::OUTER, register_base: 0, place_base: 0, ..record };
    let mut m = Memory { registers: &mut registers, places: &mut places, program: &mut short };
    assert_eq!(lent::feed(WORDS, &mut record, &mut m, &[0], &[0]).map_err(refused), Err((30, 0)));
    assert_eq!((record, m.registers == [7; 10], m.places == [9; 10], m.program == [5; 16383]), (brought, true, true, true));
    m.program = &mut program;
    assert_eq!(lent::feed(WORDS, &mut record, &mut m, &[0], &[0]).map_err(refused), Err((34, 0)));
    assert_eq!((record, m.registers == [7; 10], m.places == [9; 10], m.program[1]), (brought, true, true, 6));
    assert_eq!(lent::open(WORDS, &mut record, &mut m), Ok(0));
    assert_eq!(record, Record { status: lent::RUNNING, registers: 1, places: 1, ..Record::default() });
    assert_eq!((m.registers == [MARK; 10], m.places[0], m.places[1..] == [0; 9]), (true, 32768, true));
    assert_eq!(m.program[16383], 5);
}
