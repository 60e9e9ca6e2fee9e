//! Tree sheets of segments.
use segment::lent::{self, Written, PLACES, REGISTERS};
use segment::{Kind, Refusal, Table};

const WORDS: &[u8] = include_bytes!("../../../grammars/words.table");
const LENGTHS: &[u8] = include_bytes!("../../../grammars/lengths.table");
const TREE: &[u8] = include_bytes!("../../../grammars/tree.sheet");

fn refused(refusal: Refusal) -> (u32, u64) {
    (refusal.number(), refusal.count())
}

/// Value, moves and refusals are those of a run, and the sheet is accepted.
#[test]
fn as_a_run() {
    let table = Table::new(WORDS).unwrap();
    assert_eq!(table.sheet(&[0, 1, 0, 2], &[0; 4]).unwrap().bytes(), TREE);
    for kinds in
        [&[][..], &[0], &[0, 0, 0], &[1, 2], &[1, 1, 1, 2, 2, 2, 0], &[2], &[0, 9], &[1, 1, 1, 1], &[1], &[0; 1021], &[0; 1022], &[0; 2000]]
    {
        let mut run = table.run();
        let value = run.evaluate(kinds);
        let sheet = table.sheet(kinds, &vec![0; kinds.len()]);
        assert_eq!(sheet.as_ref().map(|s| (s.value(), s.moves())), value.as_ref().map(|v| (*v, run.moves())), "{kinds:?}");
        if let Ok(sheet) = sheet {
            assert_eq!(table.judge(kinds, &vec![0; kinds.len()], sheet.bytes()), Ok(sheet.value()));
        }
    }
}

#[test]
fn tokens_carry_values() {
    let table = Table::new(LENGTHS).unwrap();
    let sheet = table.sheet(&[0, 0], &[4, 7]).unwrap();
    assert_eq!((sheet.value(), table.judge(&[0, 0], &[4, 7], sheet.bytes())), (11, Ok(11)));
    assert_eq!(table.judge(&[0, 0], &[7, 4], sheet.bytes()).map_err(|r| r.number()), Err(43));
    assert_eq!(table.sheet(&[0], &[41]).map_err(refused), Err((22, 1)));
    assert_eq!(table.sheet(&[0], &[]).map_err(refused), Err((38, 0)));
}

/// The call as it is, in the order of its refusals; bytes past the sheet, and all of them on a refusal, stay.
#[test]
fn lent_memory() {
    let kinds = [0, 1, 0, 2];
    let full = (REGISTERS, PLACES);
    let call = |table: &[u8], values: &[i32], room: (usize, usize), long: usize| {
        let mut out = vec![0xa5; long + 4];
        let answer = lent::sheet(table, &kinds, values, room, &mut out[..long]).map_err(refused);
        let length = answer.map_or(0, |written| written.length);
        assert!(out[length..].iter().all(|&byte| byte == 0xa5));
        out.truncate(length);
        (answer, out)
    };
    assert_eq!(call(&WORDS[..100], &[0; 3], (0, 0), 0).0, Err((2, 97)));
    assert_eq!(call(WORDS, &[0; 3], (0, 0), 0).0, Err((38, 0)));
    assert_eq!(call(WORDS, &[0; 4], (0, 0), 0).0, Err((31, 0)));
    assert_eq!(call(WORDS, &[0; 4], (1, 0), 0).0, Err((32, 0)));
    assert_eq!(call(WORDS, &[0; 4], (3, 9), 0).0, Err((31, 1)));
    assert_eq!(call(WORDS, &[0; 4], (99, 3), 0).0, Err((32, 1)));
    assert_eq!(call(WORDS, &[0; 4], full, TREE.len() - 1).0, Err((41, 0)));
    for (room, long) in [(full, TREE.len()), (full, 999), ((usize::MAX, usize::MAX), 999), ((11, 6), 999)] {
        assert_eq!(call(WORDS, &[0; 4], room, long), (Ok(Written { value: 2, moves: 32, length: TREE.len() }), TREE.to_vec()));
    }
    let short = lent::sheet(WORDS, &kinds, &[0; 4], full, &mut []).unwrap_err();
    assert_eq!((short.kind(), short.tokens(), short.offset()), (Kind::SheetShort, None, None));
}

fn field(table: &mut Vec<u8>, tag: u8, body: &[u8]) {
    table.extend([tag, 0, body.len() as u8]);
    table.extend(body);
}

/// Lines of eleven tokens and the next line, which is the twelfth symbol: what takes the most of the thread's stack, 2.5 MB. A test's thread has
/// 2 MB: `Table::sheet` makes one of its own, and the call itself is tried on one with the stack that it is said to need.
#[test]
fn the_deepest_tree() {
    let mut table = vec![];
    for (tag, body) in [
        (1, &[1, 2, 0, 1][..]),
        (2, &[0, 1]),
        (2, &[1, 1]),
        (3, &[0, 1, 129]),
        (4, &[1, 1, 0, 0, 0, 0, 0]),
        (4, &[0, 1, 1, 1, 2]),
        (3, &[1, 12, 0, 0, 0, 0, 0, 0, 0, 0, 0, 0, 0, 129]),
        (4, &[12, 1, 1, 0, 1]),
        (4, &[0, 2, 7, 12, 2, 0, 0, 0, 1]),
        (3, &[1, 0]),
        (4, &[0, 2, 0, 0, 0, 0, 0]),
    ] {
        field(&mut table, tag, body);
    }
    let length = 20 + 1022 * 28;
    let made = Table::new(table.clone()).unwrap();
    let sheet = |lines: usize| made.sheet(&vec![0; 11 * lines], &vec![0; 11 * lines]).map(|sheet| (sheet.value(), sheet.bytes().len()));
    assert_eq!(sheet(1021), Ok((1021, length)));
    assert_eq!(sheet(1022).map_err(refused), Err((32, 11 * 1022)));
    let work = move || {
        let (kinds, values) = (vec![0; 11 * 1021], vec![0; 11 * 1021]);
        lent::sheet(&table, &kinds, &values, (REGISTERS, PLACES), &mut vec![0; length]).map(|written| (written.value, written.length))
    };
    let written = std::thread::Builder::new().stack_size(lent::SHEET_STACK).spawn(work).unwrap().join().unwrap();
    assert_eq!(written, Ok((1021, length)));
}
