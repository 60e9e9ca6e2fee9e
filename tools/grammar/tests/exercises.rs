//! Exercises: the same for the same seed, of all kinds, and answered as the engine answers.
mod common;
use common::{grammar, shipped, shipped_file, stdout};
use grammar::exercises::make;
use grammar::{run, to_table, Built};

/// The tokens between the first backticks of a text.
fn tokens(built: &Built, text: &str) -> Vec<run::Token> {
    let words: Vec<&str> = text.split('`').nth(1).map_or(vec![], |w| w.split_whitespace().collect());
    run::tokens(&built.grammar, &words).unwrap_or_default()
}

#[test]
fn sheets_are_the_same_for_the_same_seed() {
    let sheet = |args: &[&str]| stdout(&grammar(&[&["exercises", &shipped_file("words")], args].concat()));
    let first = sheet(&["--seed", "1"]);
    assert_eq!(first, sheet(&["--seed=1", "--count=10"]));
    assert_ne!(first, sheet(&["--seed", "2"]));
    assert_eq!(first.matches("\n10. ").count(), 2, "{first}");
    let without = sheet(&["--seed", "1", "--no-answers"]);
    assert!(!without.contains("Answers") && without.matches("\n10. ").count() == 1, "{without}");
    let page = sheet(&["--seed", "1", "--html"]);
    assert!(page.starts_with("<!doctype html>") && page.matches("<li>").count() == 20, "{page}");
    assert_eq!(grammar(&["exercises", &shipped_file("words")]).status.code(), Some(2));
}

#[test]
fn answers_are_the_engines() {
    for name in ["words", "lengths", "price", "clause", "sheet"] {
        let built = to_table(&shipped(name)).expect(name);
        for seed in 0..20 {
            let all = make(&built, seed, 10);
            assert!(all.len() >= 5, "{name}, {seed}: {all:?}");
            for e in all.iter().filter(|e| e.question.starts_with("What is the value")) {
                let answer = run::run(&built.table, &tokens(&built, &e.question)).answer;
                let number = |text: &str| text.parse::<i64>().ok();
                assert_eq!(number(&e.answer), answer.ok(), "{e:?}");
            }
            for e in all.iter().filter(|e| e.question.contains("which number is it refused by")) {
                let refusal = run::run(&built.table, &tokens(&built, &e.question)).answer.expect_err("refused");
                assert!(e.answer.starts_with(&format!("refused {} after {} token", refusal.number(), refusal.count())), "{e:?}");
            }
        }
    }
}
