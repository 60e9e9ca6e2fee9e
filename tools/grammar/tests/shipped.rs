//! The grammars that ship: accepted, and the examples in their comments answered as they say.
mod common;
use common::shipped;
use grammar::{examples, to_table, Built};

fn read(name: &str) -> (String, Built) {
    let text = shipped(name);
    let built = to_table(&text).unwrap_or_else(|fault| panic!("{}", fault.show(name, &text)));
    (text, built)
}

fn run_examples(name: &str, count: usize) {
    let (text, built) = read(name);
    let found = examples::find(&text);
    assert_eq!(found.len(), count, "{name}");
    let wrong: Vec<String> = found.iter().filter_map(|example| examples::wrong(&built, example)).collect();
    assert_eq!(wrong, Vec::<String>::new(), "{name}");
}

#[test]
fn words_and_tags() {
    run_examples("words", 6);
}

#[test]
fn a_legal_clause() {
    run_examples("clause", 14);
}

#[test]
fn words_that_carry_their_lengths() {
    run_examples("lengths", 6);
    assert_eq!(read("lengths").1.table.bytes(), include_bytes!("../../../grammars/lengths.table"));
}

#[test]
fn a_product_sheet() {
    run_examples("sheet", 10);
}

#[test]
fn depth_and_allowance() {
    run_examples("allowance", 6);
}

#[test]
fn words_of_another_agency() {
    run_examples("agency", 3);
}

#[test]
fn words_is_the_table_of_the_specification() {
    let (_, built) = read("words");
    assert_eq!(built.table.bytes().len(), 136);
    assert_eq!(built.table.bytes(), plain::samples::words());
    assert_eq!(built.table.bytes(), include_bytes!("../../../grammars/words.table"));
}

#[test]
fn the_documented_grammar_is_words() {
    let docs = std::fs::read_to_string(concat!(env!("CARGO_MANIFEST_DIR"), "/../../docs/GRAMMARS.md")).expect("docs");
    let (_, rest) = docs.split_once("```grammar\n").expect("an example");
    let (text, _) = rest.split_once("```").expect("the end of the example");
    assert_eq!(to_table(text).expect("accepted").table, read("words").1.table);
}

#[test]
fn the_classroom_runs_the_grammars_it_shows() {
    let root = concat!(env!("CARGO_MANIFEST_DIR"), "/../..");
    let page = std::fs::read_to_string(format!("{root}/docs/CLASSROOM.md")).expect("the page");
    let commands = std::fs::read_to_string(format!("{root}/vectors/classroom.in")).expect("the commands");
    let mut tables = vec![read("words").1.table.bytes().to_vec()];
    for rest in page.split("```grammar\n").skip(1) {
        let (text, _) = rest.split_once("```").expect("the end of a grammar");
        tables.push(to_table(text).unwrap_or_else(|fault| panic!("{}", fault.show("docs/CLASSROOM.md", text))).table.bytes().to_vec());
    }
    assert_eq!(tables.len(), 4);
    for table in tables {
        let hex: String = table.iter().map(|byte| format!("{byte:02x}")).collect();
        assert!(commands.lines().any(|line| line.split(' ').nth(1) == Some(&hex)), "no command has the table {hex}");
    }
}
