//! Rankings: candidate segments listed by their values.
use segment::lent::{self, Candidates, Memory, Report, MARK};
use segment::{Entry, Kind, Refusal, Table};

const WORDS: &[u8] = include_bytes!("../../../grammars/words.table");
const LENGTHS: &[u8] = include_bytes!("../../../grammars/lengths.table");

fn refused(refusal: Refusal) -> (u32, u64) {
    (refusal.number(), refusal.count())
}

#[test]
fn the_highest_first() {
    let table = Table::new(WORDS).unwrap();
    let candidates = [&[0][..], &[2], &[0, 0], &[], &[0, 1, 0, 2], &[9], &[1, 1, 1, 1], &[1]];
    let ranking = table.rank(&candidates).unwrap();
    let valued = [(2, 2), (4, 2), (0, 1), (3, 0)].map(|(number, value)| Entry { number, outcome: Ok(value) });
    let kinds = [(1, Kind::UnexpectedToken), (5, Kind::UnknownToken), (6, Kind::ConditionFalse), (7, Kind::SegmentOver)];
    let refused = kinds.map(|(number, kind)| Entry { number, outcome: Err(kind) });
    assert_eq!(ranking.entries().collect::<Vec<_>>(), [valued, refused].concat());
    assert_eq!((ranking.valued(), ranking.total(), ranking.entries().len()), (4, 5, 8));
    for entry in ranking.entries() {
        let alone = table.run().evaluate(candidates[entry.number]).map_err(|refusal| refusal.kind());
        assert_eq!(alone, entry.outcome);
    }
}

#[test]
fn tokens_carry_values() {
    let table = Table::new(LENGTHS).unwrap();
    let ranking = table.rank_values(&[vec![(0, 4)], vec![(0, 40), (0, 41)], vec![(0, 4), (1, 99), (0, 7), (2, -1)], vec![]]).unwrap();
    let entries: Vec<_> = ranking.entries().map(|e| (e.number, e.outcome)).collect();
    assert_eq!(entries, [(2, Ok(11)), (0, Ok(4)), (3, Ok(0)), (1, Err(Kind::ConditionFalse))]);
    assert_eq!((ranking.valued(), ranking.total()), (3, 15));
}

#[test]
fn how_many() {
    let table = Table::new(WORDS).unwrap();
    let none = table.rank::<Vec<u8>>(&[]).unwrap();
    assert_eq!((none.entries().len(), none.valued(), none.total()), (0, 0, 0));
    let most = table.rank(&[[0; 3]; lent::CANDIDATES]).unwrap();
    assert_eq!((most.valued(), most.total()), (512, 3 * 512));
    assert!(most.entries().map(|entry| entry.number).eq(0..512));
    let unfit = table.rank(&[[]; lent::CANDIDATES + 1]).unwrap_err();
    assert_eq!((unfit.kind(), refused(unfit), unfit.tokens(), unfit.offset()), (Kind::CandidatesUnfit, (37, 0), None, None));
}

/// The call as it is, with everything that turns it back, in its order; the cells past the entries, and all of them on a refusal, stay.
#[test]
fn lent_memory() {
    let (mut registers, mut places, mut short, mut program) = ([7; 10], [9; 10], [5; 16383], [5; 16384]);
    let mut list = [-1; 10];
    let mut m = Memory { registers: &mut registers, places: &mut places, program: &mut short };
    let all = Candidates { kinds: &[0, 0, 0, 2], values: &[0; 4], lengths: &[1, 2, 1] };
    let unfit = [
        (Candidates { lengths: &[1, 2], ..all }, 10),
        (Candidates { lengths: &[1, 3, 1], ..all }, 10),
        (Candidates { lengths: &[u32::MAX, 1, 4, 0], ..all }, 12),
        (Candidates { kinds: &[], ..all }, 10),
        (all, 8),
    ];
    for (candidates, cells) in unfit {
        let mut list = vec![-1; cells];
        assert_eq!(lent::rank(&[], candidates, &mut m, &mut list).map_err(refused), Err((37, 0)));
        assert_eq!(list, vec![-1; cells]);
    }
    assert_eq!(lent::rank(&[], all, &mut m, &mut list).map_err(refused), Err((30, 0)));
    m.program = &mut program;
    assert_eq!(lent::rank(&WORDS[..100], all, &mut m, &mut list).map_err(refused), Err((2, 97)));
    assert_eq!(m.program[1], 5);
    assert_eq!(lent::rank(WORDS, Candidates { values: &[0; 3], ..all }, &mut m, &mut list).map_err(refused), Err((38, 0)));
    assert_eq!((m.program[1], list == [-1; 10], m.registers == [7; 10], m.places == [9; 10]), (6, true, true, true));
    assert_eq!(lent::rank(WORDS, all, &mut m, &mut list), Ok(Report { valued: 2, total: 3, entries: 3 }));
    assert_eq!(list, [1, 2, 0, 0, 1, 0, 2, 0, 21, -1]);
    // What the last candidate left: it was refused before any move.
    assert_eq!((m.registers == [MARK; 10], m.places[0], m.places[1..] == [0; 9]), (true, 32768, true));
    m.registers = &mut [];
    assert_eq!(lent::rank(WORDS, all, &mut m, &mut list), Ok(Report { valued: 0, total: 0, entries: 3 }));
    assert_eq!(list, [0, 0, 31, 1, 0, 31, 2, 0, 31, -1]);
}
