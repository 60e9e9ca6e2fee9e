//! Previews: what one more token would do, and which may come. The run stays as it is.
use segment::lent::{self, Memory, Record, Stopped, MARK};
use segment::{Kind, Refusal, Run, Table};

const WORDS: &[u8] = include_bytes!("../../../grammars/words.table");
const LENGTHS: &[u8] = include_bytes!("../../../grammars/lengths.table");

fn refused(refusal: Refusal) -> (u32, u64) {
    (refusal.number(), refusal.count())
}

/// What can be seen of a run.
fn seen(run: &Run) -> (Vec<Option<i64>>, Vec<u32>, u64, u64, bool, bool) {
    (run.registers().collect(), run.places().to_vec(), run.tokens(), run.moves(), run.is_open(), run.is_waiting())
}

/// Each token on a run as it stands, beside a feed on a copy; then the set.
fn compare(run: &mut Run, value: i32) {
    let before = seen(run);
    let mut set = vec![];
    for kind in 0..=255 {
        let preview = run.preview_value(kind, value);
        let mut copy = run.clone();
        assert_eq!(preview.answer(), copy.feed_values(&[kind], &[value]));
        let told = (preview.registers(), preview.places(), preview.tokens(), preview.moves(), preview.is_open());
        assert_eq!(told, (copy.registers().len(), copy.places().len(), copy.tokens(), copy.moves(), copy.is_open()));
        set.extend(preview.answer().is_ok().then_some(kind));
    }
    let found = run.may_follow_value(value).unwrap();
    assert_eq!((found.iter().collect::<Vec<u8>>(), found.len(), found.is_empty()), (set.clone(), set.len(), set.is_empty()));
    assert!((0..=255)
        .all(|kind| found.contains(kind) == set.contains(&kind) && (kind > 63 || found.bits() >> kind & 1 == set.contains(&kind) as u64)));
    assert_eq!(seen(run), before);
}

#[test]
fn as_a_feed_on_a_copy() {
    let (words, lengths) = (Table::new(WORDS).unwrap(), Table::new(LENGTHS).unwrap());
    let segment = [0, 1, 0, 1, 1, 0, 2, 2, 2, 0];
    for (table, value, registers, places) in
        [(&words, 0, 4096, 1024), (&words, 0, 12, 6), (&lengths, 40, 4096, 1024), (&lengths, 41, 64, 9)]
    {
        let mut run = Run::with_room(table, registers, places).unwrap();
        compare(&mut run, value);
        for token in segment {
            if run.feed_values(&[token], &[3]).is_ok() {
                compare(&mut run, value);
            }
        }
    }
    let mut run = words.run().with_budget(7);
    compare(&mut run, 0);
    let mut run = words.run().with_budget(6);
    assert!(run.may_follow().unwrap().is_empty());
}

#[test]
fn turned_back() {
    let table = Table::new(WORDS).unwrap();
    let mut run = table.run();
    run.feed(&[0, 1]).unwrap();
    run.open_inner(&table).unwrap();
    let waiting = run.preview(0);
    assert_eq!((waiting.answer().map_err(refused), waiting.tokens(), waiting.is_open()), (Err((40, 0)), 2, true));
    assert_eq!(run.may_follow().map_err(refused), Err((40, 0)));
    run.inner().unwrap().give_up().unwrap();
    assert_eq!(run.may_follow().unwrap().bits(), 7);
    run.feed(&[0, 2]).unwrap();
    run.finish().unwrap();
    assert_eq!(run.may_follow().map_err(refused), Err((33, 0)));
    assert_eq!((run.preview(0).answer().map_err(refused), run.preview(0).registers()), (Err((33, 0)), 1));
    assert!(Run::with_room(&table, 3, 3).unwrap().clone().may_follow().unwrap().is_empty());
}

/// The calls as they are: the scratch is cleared as far as it is needed, and untouched where the call is turned back.
#[test]
fn lent_memory() {
    let (mut registers, mut places, mut program) = ([7; 20], [9; 10], [5; 16384]);
    let mut record = Record::default();
    let mut m = Memory { registers: &mut registers, places: &mut places, program: &mut program };
    lent::open(WORDS, &mut record, &mut m).unwrap();
    lent::feed(WORDS, &mut record, &mut m, &[0, 1], &[0, 0]).unwrap();
    let run = Stopped { record: &record, registers: &registers, places: &places };
    let (mut scratch_registers, mut scratch_places, mut less) = ([7; 22], [9; 11], [5; 16383]);
    let untouched = |m: &Memory| m.registers.iter().all(|&v| v == 7) && m.places.iter().all(|&p| p == 9);
    let mut short = Memory { registers: &mut scratch_registers[..19], places: &mut scratch_places, program: &mut program };
    let (after, answer) = lent::preview(WORDS, run, &mut short, 0, 0);
    let unfit = answer.unwrap_err();
    assert_eq!((unfit.kind(), refused(unfit), unfit.tokens(), after, untouched(&short)), (Kind::ScratchShort, (39, 0), None, record, true));
    assert_eq!((lent::may_follow(WORDS, run, &mut short, 0).map_err(refused), untouched(&short)), (Err((39, 0)), true));
    let mut short = Memory { registers: &mut scratch_registers, places: &mut scratch_places[..9], program: &mut program };
    assert_eq!((lent::may_follow(WORDS, run, &mut short, 0).map_err(refused), untouched(&short)), (Err((39, 0)), true));
    let mut scratch = Memory { registers: &mut scratch_registers, places: &mut scratch_places, program: &mut less };
    assert_eq!(lent::preview(WORDS, run, &mut scratch, 0, 0).1.map_err(refused), Err((30, 0)));
    scratch.program = &mut program;
    assert_eq!(lent::preview(&WORDS[..100], run, &mut scratch, 0, 0).1.map_err(refused), Err((2, 97)));
    let unlike = Record { registers: 6, ..record };
    assert_eq!(lent::preview(WORDS, Stopped { record: &unlike, ..run }, &mut scratch, 0, 0).1.map_err(refused), Err((34, 0)));
    assert!(untouched(&scratch));
    let (after, answer) = lent::preview(WORDS, run, &mut scratch, 0, 0);
    assert_eq!((answer, after), (Ok(15), Record { tokens: 3, moves: 15, registers: 9, places: 5, ..record }));
    assert_eq!((scratch.registers[..20] == [MARK; 20], scratch.registers[20..] == [7; 2]), (true, true));
    assert_eq!((scratch.places[..10] == [0; 10], scratch.places[10]), (true, 9));
    assert_eq!(lent::may_follow(WORDS, run, &mut scratch, 0), Ok(7));
    assert_eq!((scratch.registers[..20] == [MARK; 20], scratch.registers[20..] == [7; 2], scratch.places[10]), (true, true, 9));
}
