//! What may be typed now: the example of docs/RUNS.md, and the command `next`.
mod common;
use common::{assert_answer, grammar, grammar_on, shipped, shipped_file};
use grammar::{run, to_table};

/// A line of the example: tokens so far, the set, and for some token more the answer and the heights that a feed would give.
#[test]
fn the_page_says_what_happens() {
    let page = std::fs::read_to_string(format!("{}/../../docs/RUNS.md", env!("CARGO_MANIFEST_DIR"))).unwrap();
    let block = page.split("```preview\n").nth(1).and_then(|rest| rest.split("```").next()).expect("a block of the example");
    let built = to_table(&shipped("words")).unwrap();
    let kinds = |text: &str| run::lists(&run::tokens(&built.grammar, &text.split_whitespace().collect::<Vec<_>>()).unwrap()).0;
    for line in block.lines() {
        let parts: Vec<&str> = line.split('|').map(str::trim).collect();
        let [before, set, more, answer, heights] = parts[..] else { panic!("{line}") };
        let mut run = built.table.run();
        run.feed(&kinds(before)).unwrap();
        assert_eq!(run.may_follow().unwrap().iter().collect::<Vec<u8>>(), kinds(set), "{line}");
        let preview = run.preview(kinds(more)[0]);
        let told = preview.answer().map_or_else(|refusal| format!("refused {}", refusal.number()), |moves| format!("more {moves}"));
        assert_eq!((told.as_str(), format!("{} {}", preview.registers(), preview.places()).as_str()), (answer, heights), "{line}");
        assert_eq!(run.feed(&kinds(more)), preview.answer());
    }
    assert_eq!(block.lines().count(), 5);
}

#[test]
fn tokens_by_their_names() {
    let file = shipped_file("words");
    assert_answer(grammar(&["next", &file, "word", "open"]), 0, "word open close\n", "");
    assert_answer(grammar(&["next", &file, "word open word close"]), 0, "word open (end)\n", "");
    assert_answer(grammar(&["next", &file, "--empty"]), 0, "word open (end)\n", "");
    let told = "word close\n\
        open: refused 22 after 3 tokens, at token 4, `open`: the condition `0 <= d <= 2` on line 31 is false: d is 3\n\
        (end): refused 24 after 3 tokens, at the end: the segment is over where it expects `close`\n";
    assert_answer(grammar(&["next", &file, "open open open", "--why"]), 0, told, "");
    let told = "refused 21 after 1 token, at token 2, `close`: the segment is already complete\n";
    assert_answer(grammar(&["next", &file, "word close"]), 1, "", told);
    assert_answer(grammar_on(&["next", &file, "-"], b"word\nopen\n"), 0, "word open close\n", "");
}

/// Words carry their lengths, 1 to 40, so a word is expected, but none without letters.
#[test]
fn one_value_for_all() {
    let file = shipped_file("lengths");
    assert_answer(grammar(&["next", &file, "word=4"]), 0, "open (end)\n", "");
    assert_answer(grammar(&["next", &file, "word=4", "--value", "40"]), 0, "word=40 open (end)\n", "");
    let told = "open (end)\nword=41: refused 22 after 1 token, once token 1, `word=41`, was read: the condition \
        `1 <= word.length <= 40` on line 25 is false: word.length is 41\n\
        close: refused 21 after 0 tokens, at token 1, `close`: expected `word`, `open` or the end\n";
    assert_answer(grammar(&["next", &file, "--empty", "--value=41", "--why"]), 0, told, "");
    let told = "grammar: `--value` needs a number from -2147483648 to 2147483647\n";
    assert_answer(grammar(&["next", &file, "--empty", "--value", "2147483648"]), 2, "", told);
}
