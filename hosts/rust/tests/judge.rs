//! Tree sheets from other tools.
use segment::lent::{self, SHEET_STACK};
use segment::{Kind, Refusal, Table};

const WORDS: &[u8] = include_bytes!("../../../grammars/words.table");
const LENGTHS: &[u8] = include_bytes!("../../../grammars/lengths.table");

fn refused(refusal: Refusal) -> (u32, u64) {
    (refusal.number(), refusal.count())
}

/// A record: production, tokens before, tokens covered, and the values.
type Record<'a> = (u32, u32, u32, &'a [i64]);

fn sheet(records: &[Record]) -> Vec<u8> {
    let bytes = |&(p, before, covered, values): &Record| {
        let head = [p, before, covered].into_iter().flat_map(u32::to_be_bytes).collect::<Vec<u8>>();
        head.into_iter().chain(values.iter().flat_map(|v| v.to_be_bytes())).collect::<Vec<u8>>()
    };
    records.iter().flat_map(bytes).collect()
}

/// `word open word close`.
const KINDS: &[u8] = &[0, 1, 0, 2];
const TREE: &[Record] =
    &[(0, 0, 4, &[2]), (1, 0, 4, &[0, 2]), (2, 1, 3, &[0, 1]), (1, 2, 1, &[1, 1]), (3, 3, 0, &[1, 0]), (3, 4, 0, &[0, 0])];

#[test]
fn only_the_tree_is_accepted() {
    let (table, right) = (Table::new(WORDS).unwrap(), sheet(TREE));
    let judge = |sheet: &[u8]| table.judge(KINDS, &[0; 4], sheet).map_err(refused);
    assert_eq!(judge(&right), Ok(2));
    assert_eq!(table.run().evaluate(KINDS), Ok(2));
    for i in 0..right.len() {
        for change in [1, 0x80, 0xff] {
            let mut wrong = right.clone();
            wrong[i] ^= change;
            assert_eq!(judge(&wrong), Err((43, 0)), "byte {i}");
        }
        assert_eq!(judge(&right[..i]), Err((43, 0)), "{i} bytes");
    }
    assert_eq!(judge(&[&right[..], &[0]].concat()), Err((43, 0)));
    for other in [&[0, 1, 0][..], &[0, 1, 2, 0], &[0, 1, 0, 2, 0], &[]] {
        assert_eq!(table.judge(other, &vec![0; other.len()], &right).map_err(refused), Err((43, 0)));
    }
}

/// What is wrong in one place and fits in all others, so that one promise alone refuses it.
#[test]
fn one_thing_wrong() {
    let table = Table::new(WORDS).unwrap();
    let edits: [(usize, Record); 5] =
        [(0, (0, 0, 4, &[3])), (1, (1, 1, 4, &[0, 2])), (2, (2, 1, 2, &[0, 1])), (4, (1, 3, 0, &[1, 0])), (5, (3, 4, 0, &[1, 0]))];
    for (i, record) in edits {
        let mut records = TREE.to_vec();
        records[i] = record;
        assert_eq!(table.judge(KINDS, &[0; 4], &sheet(&records)).map_err(refused), Err((43, 0)), "record {i}");
    }
    // Four tags inside each other: all rules hold, but not the condition 0 <= d <= 2.
    let deep: [Record; 10] = [
        (0, 0, 8, &[0]),
        (2, 0, 8, &[0, 0]),
        (2, 1, 6, &[1, 0]),
        (2, 2, 4, &[2, 0]),
        (2, 3, 2, &[3, 0]),
        (3, 4, 0, &[4, 0]),
        (3, 5, 0, &[3, 0]),
        (3, 6, 0, &[2, 0]),
        (3, 7, 0, &[1, 0]),
        (3, 8, 0, &[0, 0]),
    ];
    assert_eq!(table.judge(&[1, 1, 1, 1, 2, 2, 2, 2], &[0; 8], &sheet(&deep)).map_err(refused), Err((43, 0)));
}

/// Words carry their lengths; a value that no kind carries is ignored.
#[test]
fn tokens_carry_values() {
    let table = Table::new(LENGTHS).unwrap();
    let right = sheet(&[(0, 0, 1, &[4]), (1, 0, 1, &[0, 4]), (3, 1, 0, &[0, 0])]);
    assert_eq!(table.judge(&[0], &[4], &right), Ok(4));
    assert_eq!(table.judge(&[0], &[5], &right).map_err(refused), Err((43, 0)));
    let uneven = table.judge(&[0], &[4, 4], &right).unwrap_err();
    assert_eq!((uneven.kind(), refused(uneven)), (Kind::ListsUnequal, (38, 0)));
    let wrong = table.judge(&[0], &[4], &[]).unwrap_err();
    assert_eq!((wrong.kind(), wrong.tokens(), wrong.offset()), (Kind::SheetWrong, None, None));
    assert_eq!(wrong.to_string(), "refused 43: the sheet does not describe the segment's tree");
    assert_eq!(lent::judge(&WORDS[..100], &[0], &[], &right).map_err(refused), Err((2, 97)));
}

/// So many words, each list inside the one before: as many nodes on the way down, and two more.
fn words(n: u32) -> Result<i64, (u32, u64)> {
    let n64 = i64::from(n);
    let mut bytes = sheet(&[(0, 0, n, &[n64])]);
    for i in 0..n {
        bytes.extend(sheet(&[(1, i, n - i, &[0, n64 - i64::from(i)])]));
    }
    bytes.extend(sheet(&[(3, n, 0, &[0, 0])]));
    Table::new(WORDS).unwrap().judge(&vec![0; n as usize], &vec![0; n as usize], &bytes).map_err(refused)
}

/// At the deepest, and past it, with the stack that the call is said to need, and with half of it.
#[test]
fn depth() {
    for stack in [SHEET_STACK, SHEET_STACK / 2] {
        let judged = std::thread::Builder::new().stack_size(stack).spawn(|| [1, 1021, 1022, 5000].map(words)).unwrap();
        assert_eq!(judged.join().unwrap(), [Ok(1), Ok(1021), Err((43, 0)), Err((43, 0))]);
    }
}
