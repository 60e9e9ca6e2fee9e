//! Tree sheets: the example of docs/SHEETS.md, and the commands `sheet`, `tree` and `judge`.
mod common;
use common::{assert_answer, grammar, grammar_on, scratch, shipped, shipped_file, stdout};
use grammar::sheet::{deep, read, Child, Node};
use grammar::{run, to_table, Built};

/// The sheet of the page, and for each record what it says.
fn page() -> (Vec<u8>, Vec<[String; 3]>) {
    let page = std::fs::read_to_string(format!("{}/../../docs/SHEETS.md", env!("CARGO_MANIFEST_DIR"))).unwrap();
    let block = page.split("```sheet\n").nth(1).and_then(|rest| rest.split("```").next()).expect("a block of the example");
    let (mut sheet, mut said) = (vec![], vec![]);
    for line in block.lines() {
        let cells: Vec<&str> = line.split('|').map(str::trim).collect();
        let digits = cells[0].replace(' ', "");
        sheet.extend((0..digits.len()).step_by(2).map(|i| u8::from_str_radix(&digits[i..i + 2], 16).unwrap()));
        said.push([cells[1], cells[2], cells[3]].map(String::from));
    }
    (sheet, said)
}

const SEGMENT: [&str; 4] = ["word", "open", "word", "close"];

fn words() -> Built {
    to_table(&shipped("words")).unwrap()
}

#[test]
fn the_page_says_what_the_records_mean() {
    let (built, (sheet, said)) = (words(), page());
    let tokens = run::tokens(&built.grammar, &SEGMENT).unwrap();
    let (kinds, values) = run::lists(&tokens);
    assert_eq!(deep(|| built.table.judge(&kinds, &values, &sheet)), Ok(2));
    let g = &built.grammar;
    let tree = read(&built, &tokens, &sheet).unwrap();
    let told = |node: &Node| {
        let p = &g.productions[node.production];
        let values = g.parts[p.left].attributes().zip(&node.values).map(|(a, v)| format!("{a}={v}"));
        let covered = &SEGMENT[node.before..node.before + node.covered];
        [g.heading(p), values.collect::<Vec<_>>().join(" "), covered.join(" ")]
    };
    assert_eq!(tree.iter().map(told).collect::<Vec<_>>(), said);
    assert_eq!(tree[2].children, [Child::Token(1), Child::Node(3), Child::Token(3), Child::Node(5)]);
    assert!(std::fs::read(shipped_file("words").replace("words.grammar", "tree.sheet")).unwrap() == sheet);
}

/// Whatever is changed in the sheet, the engine refuses it and the tool finds something wrong.
#[test]
fn every_change_is_found() {
    let (built, (right, _)) = (words(), page());
    let tokens = run::tokens(&built.grammar, &SEGMENT).unwrap();
    let (kinds, values) = run::lists(&tokens);
    let mut changed: Vec<Vec<u8>> = (0..right.len()).map(|i| right[..i].to_vec()).collect();
    changed.push([&right[..], &[0]].concat());
    for i in 0..right.len() {
        for change in [1, 2, 3, 0x80, 0xff] {
            changed.push(right.clone());
            changed.last_mut().unwrap()[i] ^= change;
        }
    }
    deep(|| {
        for sheet in &changed {
            let refused = built.table.judge(&kinds, &values, sheet).map_err(|refusal| refusal.number());
            assert_eq!((refused, read(&built, &tokens, sheet).is_err()), (Err(43), true), "{sheet:?}");
        }
    });
}

const WRONG: &str = "refused 43: the sheet does not describe the segment's tree";

#[test]
fn what_is_wrong_is_told() {
    let (file, (right, _)) = (shipped_file("words"), page());
    let told = |byte: usize, to: u8, words: &str| {
        let mut sheet = right.clone();
        sheet[byte] = to;
        let output = grammar_on(&["judge", &file, "-", "word", "open", "word close"], &sheet);
        assert_answer(output, 1, "", &format!("{WRONG}; {words}\n"));
    };
    told(19, 3, "record 1, `S: L`: the rule `n = L.n` on line 21 gives 2, and n is 3");
    told(23, 4, "record 2, at byte 20: there is no production 4");
    told(23, 0, "record 2, at byte 20: production 0 is `S: L`, and a `L` stands here");
    told(55, 2, "record 3, at byte 48: 1 token before it, not 2");
    told(87, 2, "record 4, `L: word L`: 1 token covered, not 2");
    told(12, 0x7f, "record 1, at byte 0: n is 9151314442816847874, outside -1,000,000,000,000 to 1,000,000,000,000");
    let judge = |args: &[&str], sheet: &[u8], words: &str| {
        assert_answer(grammar_on(&[&["judge", &file, "-"], args].concat(), sheet), 1, "", &format!("{WRONG}; {words}\n"));
    };
    judge(&["word"], &right[..30], "record 2, at byte 20: the sheet is over in the record of `L`");
    judge(&SEGMENT, &[&right[..], b"\n"].concat(), "1 byte after the tree");
    judge(&["word", "open", "word", "close", "word"], &right, "the tree ends before token 5, `word`");
    judge(
        &["word", "open", "word"],
        &right,
        "the segment has none: refused 24 after 3 tokens, at the end: the segment is over where it expects `close`",
    );
}

#[test]
fn the_command() {
    let (file, (right, _)) = (shipped_file("words"), page());
    let sheet = scratch("tree.sheet", &right);
    assert_answer(grammar(&["judge", &file, &sheet, "word", "open", "word", "close"]), 0, "2\n", "");
    assert_answer(grammar_on(&["judge", "-", &sheet, "word open word close"], shipped("words").as_bytes()), 0, "2\n", "");
    let mut empty = vec![0; 48];
    empty[23] = 3;
    assert_answer(grammar_on(&["judge", &file, "-", "--empty"], &empty), 0, "0\n", "");
    let told = "grammar: standard input cannot be both the grammar and the sheet\n";
    assert_answer(grammar(&["judge", "-", "-", "word"]), 2, "", told);
    assert_answer(grammar(&["judge", &file, "none.sheet", "word"]), 2, "", "none.sheet: No such file or directory (os error 2)\n");
    let told = "token 1, `wrod`, is not in the grammar; did you mean `word`?\n";
    assert_answer(grammar(&["judge", &file, &sheet, "wrod"]), 1, "", told);
}

/// The deepest tree, and one that is a node deeper.
#[test]
fn depth() {
    let file = shipped_file("words");
    for (n, code) in [(1021u32, 0), (1022, 1)] {
        let record = |numbers: [u32; 3], values: &[u32]| {
            let values = values.iter().flat_map(|&v| i64::from(v).to_be_bytes());
            numbers.into_iter().flat_map(u32::to_be_bytes).chain(values).collect::<Vec<u8>>()
        };
        let lists = (0..n).flat_map(|i| record([1, i, n - i], &[0, n - i]));
        let sheet: Vec<u8> = record([0, 0, n], &[n]).into_iter().chain(lists).chain(record([3, n, 0], &[0, 0])).collect();
        let output = grammar_on(&["judge", &file, "-", &"word ".repeat(n as usize)], &sheet);
        let told = [("1021\n", String::new()), ("", format!("{WRONG}; record 1024 is more than 1,023 nodes deep\n"))];
        assert_answer(output, code, told[code as usize].0, &told[code as usize].1);
    }
}

/// The tree as text and as a picture, which has a box for each node, a line to each but the root, and the tokens at the bottom.
#[test]
fn the_tree_is_drawn() {
    let (file, (right, _)) = (shipped_file("words"), page());
    let draw = |sheet: &[u8], more: &[&str]| grammar_on(&[&["tree", &file, "--sheet", "-"], more].concat(), sheet);
    let text = "S n=2\n\u{2514}\u{2500} L d=0 n=2\n   \u{251c}\u{2500} word\n   \u{2514}\u{2500} L d=0 n=1\n";
    let output = draw(&right, &SEGMENT);
    assert!(output.status.success() && stdout(&output).starts_with(text), "{}", stdout(&output));
    let svg = stdout(&draw(&right, &["--svg", "word", "open", "word", "close"]));
    let count = |part: &str| svg.matches(part).count();
    assert_eq!((count("<rect"), count("<polyline"), count("class=\"token\"")), (6, 9, 4));
    assert!(svg.starts_with("<svg xmlns=") && svg.contains("<title>word open word close</title>") && svg.ends_with("</svg>\n"));
    let bottoms: Vec<&str> =
        svg.split("class=\"token\"").skip(1).map(|t| t.split("y=\"").nth(1).unwrap().split('"').next().unwrap()).collect();
    assert!(bottoms.windows(2).all(|pair| pair[0] == pair[1]), "{bottoms:?}");
    let mut empty = vec![0; 48];
    empty[23] = 3;
    assert_answer(draw(&empty, &["--empty"]), 0, "S n=0\n\u{2514}\u{2500} L d=0 n=0 (nothing)\n", "");
    assert_answer(
        draw(&right, &["word"]),
        1,
        "",
        &format!("{WRONG}; record 3, `L: open L close L`: the segment is over where `open` stands\n"),
    );
    assert_eq!(grammar(&["tree", &file]).status.code(), Some(2));
}

/// Without a sheet the engine writes it; what is written is accepted.
#[test]
fn sheets_are_written() {
    let (file, (right, _)) = (shipped_file("words"), page());
    assert!(grammar(&["sheet", &file, "word open word close"]).stdout == right);
    let to = scratch("written.sheet", b"");
    assert_answer(grammar(&["sheet", &file, "-o", &to, "word", "open", "word", "close"]), 0, "", "");
    assert!(std::fs::read(&to).unwrap() == right);
    let drawn = grammar(&[&["tree", &file, "--sheet", &to], &SEGMENT[..]].concat());
    assert_eq!(stdout(&grammar(&["tree", &file, "word open word close"])), stdout(&drawn));
    let told = "refused 21 after 1 token, at token 2, `close`: the segment is already complete\n";
    assert_answer(grammar(&["sheet", &file, "word", "close"]), 1, "", told);
    assert_answer(grammar(&["tree", &file, "word", "close"]), 1, "", told);
    let clause = shipped_file("clause");
    let output = grammar(&["sheet", &clause, "one warrants word=4 two limits word=9"]);
    assert_answer(grammar_on(&["judge", &clause, "-", "one warrants word=4 two limits word=9"], &output.stdout), 0, "5\n", "");
}
