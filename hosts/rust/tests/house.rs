//! House order through the host library.
use segment::{house_order, lent, Kind, Refusal, Table};

const WORDS: &[u8] = include_bytes!("../../../grammars/words.table");

/// Words and tags with its condition, the 14 bytes before byte 121, said twice.
fn twice() -> Vec<u8> {
    [&WORDS[..121], &WORDS[107..]].concat()
}

/// Number, kind and what comes with it, where that is neither an offset nor tokens.
fn told(refusal: Refusal) -> (u32, Kind, u64, bool) {
    (refusal.number(), refusal.kind(), refusal.count(), refusal.offset().is_none() && refusal.tokens().is_none())
}

#[test]
fn one_table_for_one_grammar() {
    let house = Table::new(WORDS).unwrap().house_order();
    assert_eq!(Table::new(twice()).unwrap().house_order(), house);
    assert_eq!(house.house_order(), house);
    assert_eq!((house.bytes().len(), &house.bytes()[..17]), (WORDS.len(), &WORDS[..17]));
    assert_ne!(house.bytes(), WORDS);
}

#[test]
fn segments_keep_their_value_or_refusal() {
    let (table, house) = (Table::new(twice()).unwrap(), Table::new(house_order(&twice()).unwrap()).unwrap());
    let (mut run, mut other) = (table.run(), house.run());
    for tokens in [&[0, 1, 0, 2][..], &[1, 1, 1, 1], &[0, 2], &[1], &[], &[3], &[0; 1022]] {
        assert_eq!(run.evaluate(tokens), other.evaluate(tokens));
        assert_eq!((run.tokens(), run.moves()), (other.tokens(), other.moves()));
    }
}

#[test]
fn the_buffer() {
    for length in [0, 1, WORDS.len() - 1] {
        let mut out = vec![0xa5; length];
        let refusal = lent::house(&twice(), &mut out).unwrap_err();
        assert_eq!(told(refusal), (36, Kind::OutputShort, 0, true));
        assert_eq!(refusal.to_string(), "refused 36: the output buffer is too short");
        assert!(out.iter().all(|&byte| byte == 0xa5));
    }
    let mut out = vec![0xa5; WORDS.len() + 3];
    assert_eq!(lent::house(&twice(), &mut out), Ok(WORDS.len()));
    assert_eq!((&out[..WORDS.len()], &out[WORDS.len()..]), (&house_order(WORDS).unwrap()[..], &[0xa5; 3][..]));
}

#[test]
fn the_tables_own_refusals_come_first() {
    let mut out = [0xa5; 4];
    assert_eq!(lent::house(&WORDS[..100], &mut out).map_err(|r| (r.number(), r.offset())), Err((2, Some(97))));
    assert_eq!(house_order(&[]).map_err(|r| (r.number(), r.offset())), Err((3, Some(0))));
    assert_eq!(out, [0xa5; 4]);
}
