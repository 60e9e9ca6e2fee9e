//! The example of docs/WINDOW.md: legal clauses, and what stands in the window after each.
mod common;
use common::shipped;
use grammar::{run, to_table};
use segment::Window;

#[test]
fn the_page_says_what_happens() {
    let page = std::fs::read_to_string(format!("{}/../../docs/WINDOW.md", env!("CARGO_MANIFEST_DIR"))).unwrap();
    let block = page.split("```window\n").nth(1).and_then(|rest| rest.split("```").next()).expect("a block of the example");
    let clause = to_table(&shipped("clause")).unwrap();
    let mut window = Window::new(3).unwrap();
    for line in block.lines() {
        let [words, answer, standing, cells] = line.split(" | ").collect::<Vec<_>>()[..] else { panic!("{line}") };
        let tokens = run::tokens(&clause.grammar, &words.split(' ').collect::<Vec<_>>()).unwrap();
        let finished = run::run(&clause.table, &tokens).answer;
        let found = window.bring(finished).unwrap();
        let told = finished.map_or_else(|refusal| format!("refused {}", refusal.number()), |value| format!("value {value}"));
        let shown: Vec<String> = window.cells().iter().map(i64::to_string).collect();
        assert_eq!((told.as_str(), format!("{} {}", found.total, found.largest.unwrap()).as_str()), (answer, standing), "{line}");
        assert_eq!(shown.join(" "), cells, "{line}");
    }
    assert_eq!(block.lines().count(), 6);
}
