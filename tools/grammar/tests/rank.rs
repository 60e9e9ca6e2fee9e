//! Rankings: the example of docs/RUNS.md, and the command `rank`.
mod common;
use common::{assert_answer, grammar, grammar_on, scratch, shipped, shipped_file};
use grammar::{run, to_table};
use segment::lent::{self, Candidates, Memory, CANDIDATES, ENTRY};

#[test]
fn the_page_says_what_happens() {
    let page = std::fs::read_to_string(format!("{}/../../docs/RUNS.md", env!("CARGO_MANIFEST_DIR"))).unwrap();
    let block = page.split("```ranking\n").nth(1).and_then(|rest| rest.split("```").next()).expect("a block of the example");
    let lines: Vec<(&str, &str)> = block.lines().map(|line| line.split_once('|').unwrap_or((line, ""))).collect();
    let cells = |text: &str| text.split_whitespace().map(|cell| cell.parse().unwrap()).collect::<Vec<i64>>();
    let (shown, [(_, list), (report, _)]) = lines.split_at(lines.len() - 2) else { panic!("the list and the answer") };
    let built = to_table(&shipped("words")).unwrap();
    let tokens = |text: &str| run::lists(&run::tokens(&built.grammar, &text.split_whitespace().collect::<Vec<_>>()).unwrap());
    let (kinds, values): (Vec<Vec<u8>>, Vec<Vec<i32>>) = shown.iter().map(|(text, _)| tokens(text)).unzip();
    let lengths: Vec<u32> = kinds.iter().map(|kinds| kinds.len() as u32).collect();
    let (mut registers, mut places, mut program) = (vec![0; lent::REGISTERS], vec![0; lent::PLACES], vec![0; lent::PROGRAM]);
    let mut memory = Memory { registers: &mut registers, places: &mut places, program: &mut program };
    let mut found = vec![0; ENTRY * CANDIDATES];
    let candidates = Candidates { kinds: &kinds.concat(), values: &values.concat(), lengths: &lengths };
    let answer = lent::rank(built.table.bytes(), candidates, &mut memory, &mut found).unwrap();
    let entries = &found[..ENTRY * answer.entries];
    assert_eq!((entries, shown.len()), (&cells(list)[..], 6));
    for (number, (_, entry)) in shown.iter().enumerate() {
        let of = entries.chunks(ENTRY).find(|entry| entry[0] == number as i64).unwrap();
        assert_eq!(of, cells(entry));
    }
    assert_eq!(*report, format!("valued {} total {} entries {}", answer.valued, answer.total, answer.entries));
}

#[test]
fn the_highest_first() {
    let file = shipped_file("words");
    let lines = "word\nword close\nword open word close\r\n\nopen\nword word";
    let told = "2  line 3: word open word close\n2  line 6: word word\n1  line 1: word\n0  line 4: (no tokens)\n\
        -  line 2: word close\n     refused 21 after 1 token, at token 2, `close`: the segment is already complete\n\
        -  line 5: open\n     refused 24 after 1 token, at the end: the segment is over where it expects `close`\n\
        4 of 6 segments valued, total 5\n";
    assert_answer(grammar_on(&["rank", &file, "-"], lines.as_bytes()), 1, told, "");
    let list = scratch("candidates.txt", b"word\nword word\n");
    let told = "2  line 2: word word\n1  line 1: word\n2 of 2 segments valued, total 3\n";
    assert_answer(grammar(&["rank", &file, &list]), 0, told, "");
    assert_answer(grammar_on(&["rank", "-", &list], shipped("words").as_bytes()), 0, told, "");
    assert_answer(grammar_on(&["rank", &file, "-"], b""), 0, "0 of 0 segments valued, total 0\n", "");
}

/// Words carry their lengths here; values have different widths.
#[test]
fn tokens_with_values() {
    let told = "11  line 2: word=4 word=7\n 4  line 3: word=4\n -  line 1: word=41\n      refused 22 after 1 token, once token 1, \
        `word=41`, was read: the condition `1 <= word.length <= 40` on line 25 is false: word.length is 41\n2 of 3 segments valued, total 15\n";
    assert_answer(grammar_on(&["rank", &shipped_file("lengths"), "-"], b"word=41\nword=4 word=7\nword=4\n"), 1, told, "");
}

#[test]
fn what_is_no_list_of_candidates() {
    let file = shipped_file("words");
    let told = "line 2: token 1, `wrod`, is not in the grammar; did you mean `word`?\n";
    assert_answer(grammar_on(&["rank", &file, "-"], b"word\nwrod\n"), 1, "", told);
    let told = "refused 37: there are more than 512 candidates, their lengths do not add up, or the list is too short\n";
    assert_answer(grammar_on(&["rank", &file, "-"], &b"\n".repeat(513)), 1, "", told);
    let output = grammar_on(&["rank", &file, "-"], &b"word\n".repeat(512));
    assert!(output.status.success() && output.stdout.ends_with(b"1  line 512: word\n512 of 512 segments valued, total 512\n"));
    let told = "grammar: standard input cannot be both the grammar and the candidates\n";
    assert_answer(grammar_on(&["rank", "-", "-"], b""), 2, "", told);
    assert_answer(grammar(&["rank", &file, "none.txt"]), 2, "", "none.txt: No such file or directory (os error 2)\n");
}
