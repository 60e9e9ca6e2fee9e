//! The pages of this repository: what stands behind a `$` in them is run, and what is handed out is what the tool writes.
use std::path::{Path, PathBuf};
use std::process::Command;

fn root() -> PathBuf {
    Path::new(env!("CARGO_MANIFEST_DIR")).join("../..")
}

fn read(name: &str) -> String {
    std::fs::read_to_string(root().join(name)).expect(name)
}

/// What the tool prints for the words of a command, standard output before standard error.
fn printed(words: &str) -> String {
    let args = words.split_whitespace().skip(1);
    let output = Command::new(env!("CARGO_BIN_EXE_grammar")).args(args).current_dir(root()).output().expect("the command runs");
    String::from_utf8_lossy(&output.stdout).into_owned() + &String::from_utf8_lossy(&output.stderr)
}

/// Whether the lines are those printed, where `...` stands for any of them.
fn stands(lines: &[&str], printed: &[&str]) -> bool {
    match (lines, printed) {
        ([], []) => true,
        (["...", rest @ ..], _) => (0..=printed.len()).any(|i| stands(rest, &printed[i..])),
        ([line, rest @ ..], [first, after @ ..]) => line == first && stands(rest, after),
        _ => false,
    }
}

#[test]
fn commands_on_the_pages_print_what_they_say() {
    let mut commands = 0;
    for page in ["README.md", "docs/GRAMMARS.md", "docs/TRACE.md", "docs/CLASSROOM.md", "docs/HOSTING.md", "docs/SHEETS.md"] {
        let text = read(page);
        for block in text.split("```console\n").skip(1) {
            let (block, _) = block.split_once("```").expect("the end of a block");
            for command in block.split("$ ").skip(1) {
                let mut lines = command.lines();
                let words = lines.next().expect("a command");
                let output = printed(words);
                let (lines, output): (Vec<&str>, Vec<&str>) = (lines.collect(), output.lines().collect());
                assert!(stands(&lines, &output), "{page}: {words} prints\n{}", output.join("\n"));
                commands += 1;
            }
        }
    }
    assert!(commands >= 9, "{commands} commands");
}

#[test]
fn what_is_handed_out_is_what_the_tool_writes() {
    let class = |name: &str| read(&format!("docs/class/{name}"));
    for n in 1..=5 {
        assert!(
            class(&format!("slip{n}.html")) == printed(&format!("grammar page --slip {n}")),
            "slip{n}.html: docs/class/make writes it anew"
        );
    }
    let sheet = "grammar exercises grammars/words.grammar --seed 1 --html";
    assert!(class("words-1-answers.html") == printed(sheet), "docs/class/make writes it anew");
    assert!(class("words-1.html") == printed(&format!("{sheet} --no-answers")), "docs/class/make writes it anew");
    let page = read("docs/CLASSROOM.md");
    let (_, rest) = page.split_once("\n## Exercises\n").expect("the exercises");
    let (questions, _) = rest.split_once("\n## Answers\n").expect("the answers");
    assert_eq!(class("worksheet.md"), format!("# Exercises\n\nName: ______________________________\n{questions}\n"));
}

/// The price list of the classroom is the one that ships.
#[test]
fn the_price_list_is_the_classrooms() {
    let page = read("docs/CLASSROOM.md");
    let (_, rest) = page.split_once("```grammar\n").expect("a grammar");
    let (shown, _) = rest.split_once("```").expect("its end");
    assert!(read("grammars/price.grammar").ends_with(shown));
}
