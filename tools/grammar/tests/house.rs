//! `grammar house` and `grammar same`: one table for one grammar, and where two differ first.
mod common;
use common::{assert_answer, grammar, grammar_on, scratch, shipped, shipped_file, vectors};
use grammar::same::{difference, House};
use grammar::to_table;

const TABLE: &str = concat!(env!("CARGO_MANIFEST_DIR"), "/../../grammars/words.table");
const SAME: &str = "the same grammar: in house order a table of 136 bytes, sum bb4b8326842908df\n";

/// The shipped grammar with a part of its text replaced, in a file of its own.
fn changed(name: &str, from: &str, to: &str) -> String {
    let text = shipped("words");
    assert!(text.contains(from), "{from}");
    scratch(name, text.replacen(from, to, 1).as_bytes())
}

#[test]
fn one_table_for_texts_and_tables() {
    let (words, agency) = (shipped_file("words"), shipped_file("agency"));
    let house = grammar(&["house", &words]).stdout;
    assert_eq!((house.len(), house[..17] == std::fs::read(TABLE).expect("the table")[..17]), (136, true));
    assert_eq!(grammar(&["house", &agency]).stdout, house);
    assert_eq!(grammar(&["house", TABLE]).stdout, house);
    let written = scratch("house.table", b"");
    assert_answer(grammar(&["house", &agency, "-o", &written]), 0, "", "");
    assert_eq!(std::fs::read(&written).expect("the table"), house);
    assert_eq!(grammar(&["house", &written]).stdout, house);
    assert_eq!(grammar_on(&["house", "-"], &house).stdout, house);
    for other in [&agency, TABLE, &written] {
        assert_answer(grammar(&["same", &words, other]), 0, SAME, "");
    }
}

#[test]
fn the_shipped_grammars_differ() {
    let names = ["words", "lengths", "clause", "sheet", "allowance", "price"];
    for a in names {
        for b in names {
            let status = grammar(&["same", &shipped_file(a), &shipped_file(b)]).status.code();
            assert_eq!(status, Some((a != b).into()), "{a} {b}");
        }
    }
}

#[test]
fn where_they_differ_first() {
    let words = shipped_file("words");
    for (i, (from, to, place, one, other)) in [
        ("0 <= d <= 2", "0 <= d <= 3", "production 2, `L: open L close L`", "0 <= d <= 2", "0 <= d <= 3"),
        ("    0 <= d <= 2\n", "", "production 2, `L: open L close L`", "0 <= d <= 2", "nothing more"),
        ("0 <= d <= 2", "0 <= d <= 2\n    d <= d", "production 2, `L: open L close L`", "nothing more", "d <= d"),
        ("L1.n + L2.n", "L2.n + L1.n", "production 2, `L: open L close L`", "n = L1.n + L2.n", "n = L2.n + L1.n"),
        ("L: word L\n", "L: word word L\n", "production 1", "L: word L", "L: word word L"),
        ("word open close", "word open close x", "the header", "3 tokens, 2 parts, start S.n", "4 tokens, 2 parts, start S.n"),
    ]
    .into_iter()
    .enumerate()
    {
        let file = changed(&format!("differ{i}.grammar"), from, to);
        let there = format!("they differ first in {place}\n  {words}: {one}\n  {file}: {other}\n");
        assert_answer(grammar(&["same", &words, &file]), 1, &there, "");
        let back = format!("they differ first in {place}\n  {file}: {other}\n  {words}: {one}\n");
        assert_answer(grammar(&["same", &file, &words]), 1, &back, "");
    }
}

#[test]
fn one_production_more() {
    let more = shipped("words").replace("token word open close", "token word open close more") + "\nL: more L\n    L.d = d\n    n = L.n\n";
    let fewer = shipped("words").replace("token word open close", "token word open close more");
    let (more, fewer) = (scratch("more.grammar", more.as_bytes()), scratch("fewer.grammar", fewer.as_bytes()));
    let told = format!("they differ first in production 4\n  {fewer}: no production 4\n  {more}: L: more L\n");
    assert_answer(grammar(&["same", &fewer, &more]), 1, &told, "");
}

#[test]
fn names_parts_and_carriers() {
    let (words, lengths) = (shipped_file("words"), shipped_file("lengths"));
    let told = format!("they differ first in token 0\n  {lengths}: token word -> length\n  {words}: token word\n");
    assert_answer(grammar(&["same", &lengths, &words]), 1, &told, "");
    let two = shipped("words").replace("part S -> n ", "part S -> n, m ").replace("S: L\n", "S: L\n    m = 0\n");
    let two = scratch("two.grammar", two.as_bytes());
    let told = format!("they differ first in part 0\n  {words}: part S -> n\n  {two}: part S -> n, m\n");
    assert_answer(grammar(&["same", &words, &two]), 1, &told, "");
    let renamed = changed("renamed.grammar", "token word open close", "token open word close");
    let output = grammar(&["same", &words, &renamed]);
    let told = "they differ first in production 1\n";
    assert!(String::from_utf8_lossy(&output.stdout).starts_with(told) && output.status.code() == Some(1), "{output:?}");
}

#[test]
fn what_is_refused() {
    let bytes = std::fs::read(TABLE).expect("the table");
    let cut = scratch("house_cut.table", &bytes[..100]);
    let told = format!("{cut}: refused 2 at byte 97: a field is cut short\n");
    assert_answer(grammar(&["house", &cut]), 1, "", &told);
    assert_answer(grammar(&["same", TABLE, &cut]), 2, "", &told);
    let text = scratch("house_cut.grammar", b"token\n");
    assert_eq!(grammar(&["house", &text]).status.code(), Some(1));
    assert_eq!(grammar(&["same", &text, TABLE]).status.code(), Some(2));
    assert_answer(grammar(&["same", TABLE, "none"]), 2, "", "none: No such file or directory (os error 2)\n");
    assert_eq!(grammar(&["same", TABLE]).status.code(), Some(2));
    let own = scratch("house_own.table", &bytes);
    assert_eq!(grammar(&["house", &own, "-o", &own]).status.code(), Some(2));
    assert_eq!(std::fs::read(&own).expect("the table"), bytes);
}

/// Every accepted table of the vectors is the same grammar as its own text, and as its house table.
#[test]
fn tables_of_the_vectors() {
    let mut accepted = 0;
    for bytes in vectors() {
        let Ok(house) = House::of_table(&bytes) else { continue };
        let text = grammar::to_text(&bytes).expect("accepted");
        assert_eq!(difference(&house, &House::of_text(&to_table(&text).expect("accepted"))), None);
        assert_eq!(difference(&house, &House::of_table(house.table.bytes()).expect("accepted")), None);
        accepted += 1;
    }
    assert!(accepted > 100, "{accepted}");
}
