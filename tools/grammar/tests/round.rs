//! Table to text to table gives the same bytes.
mod common;
use common::{shipped, vectors};
use grammar::model::Grammar;
use grammar::{print, resolve, table, to_table, to_text};

#[test]
fn accepted_tables_come_back() {
    let tables = vectors();
    let (mut accepted, mut refused) = (0, 0);
    for old in &tables {
        let Ok(text) = to_text(old) else {
            refused += 1;
            continue;
        };
        let built = to_table(&text).unwrap_or_else(|fault| panic!("{}\n{text}", fault.show("text", &text)));
        assert_eq!(built.table.bytes(), *old, "{text}");
        assert_eq!(print::text(&built.grammar), text);
        accepted += 1;
    }
    assert!(accepted >= 100 && refused >= 100, "{accepted} accepted, {refused} refused");
}

#[test]
fn the_plain_engine_agrees() {
    for table in vectors() {
        let plain = plain::check(&table).map(|_| ()).map_err(|r| (r.number, u64::from(r.offset)));
        assert_eq!(segment::check(&table).map_err(|r| (r.number(), r.count())), plain);
    }
}

#[test]
fn the_largest_sample_comes_back() {
    let old = plain::samples::chain(47, 33, 512);
    let text = to_text(&old).expect("accepted");
    assert!(text.contains("token z\ntoken aa\ntoken ab\n") && text.contains("part AV(i1, i2, i3, i4) -> s1, s2, s3, s4\n"));
    assert_eq!(to_table(&text).expect("accepted").table.bytes(), old);
}

/// Names, comments and blank lines aside, a printed grammar reads as the grammar it was printed from.
#[test]
fn printed_grammars_read_back() {
    for name in ["words", "lengths", "clause", "sheet"] {
        let read = |text: &str| -> Grammar { resolve::grammar(text).expect(name).0 };
        let grammar = read(&shipped(name));
        assert_eq!(read(&print::text(&grammar)), grammar);
    }
}

/// A rule's text, its bytes behind the occurrence set, and the text that these bytes give.
const RULES: [(&str, &[u8], &str); 14] = [
    ("-2", &[0, 0xff, 0xff, 0xff, 0xfe], "-2"),
    ("j", &[1, 0, 2], "i2"),
    ("i + j", &[2, 0, 1, 0, 2], "i1 + i2"),
    ("i - j", &[3, 0, 1, 0, 2], "i1 - i2"),
    ("i * j", &[4, 0, 1, 0, 2], "i1 * i2"),
    ("max(i, j)", &[5, 0, 1, 0, 2], "max(i1, i2)"),
    ("min(j, i)", &[6, 0, 2, 0, 1], "min(i2, i1)"),
    ("i + 258", &[7, 0, 1, 0, 0, 1, 2], "i1 + 258"),
    ("3 + i", &[7, 0, 1, 0, 0, 0, 3], "i1 + 3"),
    ("i - 1", &[7, 0, 1, 0xff, 0xff, 0xff, 0xff], "i1 - 1"),
    ("i + -1", &[7, 0, 1, 0xff, 0xff, 0xff, 0xff], "i1 - 1"),
    ("i - -1", &[7, 0, 1, 0, 0, 0, 1], "i1 + 1"),
    ("i - 2147483648", &[7, 0, 1, 0x80, 0, 0, 0], "i1 - 2147483648"),
    ("i / 1000000", &[8, 0, 1, 0, 0x0f, 0x42, 0x40], "i1 / 1000000"),
];

#[test]
fn every_function_has_its_bytes_and_text() {
    let head = "token t\npart A(i, j) -> m\npart S -> n\nstart S.n\nS: A\n A.i = 1\n A.j = 2\n n = A.m\nA: t\n m = ";
    for (rule, bytes, again) in RULES {
        let built = to_table(&format!("{head}{rule}")).expect(rule);
        assert!(built.table.bytes().ends_with(&[&[0, 3], bytes].concat()), "{rule}");
        let text = to_text(built.table.bytes()).expect(rule);
        assert!(text.ends_with(&format!("\n    s1 = {again}\n")), "{text}");
    }
}

#[test]
fn conditions_have_their_bytes() {
    let text = "token t\npart A -> m\npart S -> n\nstart S.n\nS: A A\n n = 0\n -1 <= A2.m <= 256\n A2.m <= A1.m\nA: t\n m = 1";
    let (grammar, _) = resolve::grammar(text).expect("grammar");
    let (bytes, fields) = table::table(&grammar);
    let body = |i: usize| &bytes[fields[i].offset..fields[i].end];
    assert_eq!(body(5), [5, 0, 11, 0, 2, 1, 0xff, 0xff, 0xff, 0xff, 0, 0, 1, 0]);
    assert_eq!(body(6), [5, 0, 5, 1, 2, 1, 1, 1]);
    assert_eq!(segment::check(&bytes), Ok(()));
}
