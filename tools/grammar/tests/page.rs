//! Pages: one file that needs nothing else, with all that its script reads. `tests/browser` looks at them in a browser.
mod common;
use common::{assert_answer, grammar, shipped_file, stdout};

fn page(args: &[&str]) -> String {
    let output = grammar(&[&["page"], args].concat());
    assert_eq!(output.status.code(), Some(0), "{output:?}");
    stdout(&output)
}

/// Whether brackets close and strings end, as far as that goes without a reader of JSON.
fn is_balanced(json: &str) -> bool {
    let (mut open, mut string, mut escaped) = (Vec::new(), false, false);
    for c in json.chars() {
        match c {
            _ if escaped => escaped = false,
            '\\' if string => escaped = true,
            '"' => string = !string,
            _ if string => {}
            '{' | '[' => open.push(c),
            '}' if open.pop() != Some('{') => return false,
            ']' if open.pop() != Some('[') => return false,
            _ => {}
        }
    }
    open.is_empty() && !string
}

#[test]
fn tokens_are_shown_with_their_values() {
    let text = page(&[&shipped_file("lengths"), "word=4", "open", "close"]);
    for words in ["\"tokens\":[\"word=4\",\"open\",\"close\"]", "\"label\":\"word=4\"", "[\"word.length\",\"4\",true]"] {
        assert!(text.contains(words), "{words}");
    }
}

#[test]
fn a_page_stands_alone() {
    let text = page(&[&shipped_file("words"), "word", "open", "word", "close"]);
    assert!(!text.contains("http:") || text.matches("http:").count() == text.matches("http://www.w3.org/2000/svg").count());
    assert!(!text.contains("https:") && !text.contains(" src=") && !text.contains("@DATA") && !text.contains("@MOVES"));
    let (_, rest) = text.split_once("<script type=\"application/json\" id=\"run\">").expect("the data");
    let (json, _) = rest.split_once("</script>").expect("its end");
    assert!(is_balanced(json) && !json.contains('<'));
    assert_eq!(json.matches("\"kind\":").count(), 33);
    for words in ["<li><a href=\"#11\">11 evaluate</a> <code>L1.d = d + 1: r1 = r3 + 1 = 0 + 1 = 1</code></li>", "<html lang=\"en\">"] {
        assert!(text.contains(words), "{words}");
    }
}

#[test]
fn names_are_text_and_no_markup() {
    let text = "token a\npart S -> n\nstart S.n\nS: a\n n = 1\n 0 <= S.n <= 1\n".replace("\n 0 <= S.n <= 1", "");
    let file = common::scratch("a<b>&\".grammar", text.as_bytes());
    let text = page(&[&file, "a"]);
    assert!(text.contains("<h1>A segment under a&lt;b&gt;&amp;&quot;.grammar</h1>"), "{}", &text[..400]);
}

#[test]
fn the_slips_have_pages() {
    for number in ["1", "2", "3", "4", "5"] {
        let text = page(&["--slip", number]);
        assert!(text.contains(&format!("<h1>Slip {number}: ")) && text.contains("\"slip\":{\"end\":"));
    }
    assert_eq!(grammar(&["page", "--slip", "6"]).status.code(), Some(2));
}

/// The titles and segments are those of the page for the teacher.
#[test]
fn the_lessons_are_those_of_the_classroom() {
    let docs = std::fs::read_to_string(concat!(env!("CARGO_MANIFEST_DIR"), "/../../docs/CLASSROOM.md")).expect("the page");
    for lesson in grammar::page::LESSONS {
        assert!(docs.contains(&format!("## {}\n", lesson.title)), "{}", lesson.title);
        let (_, rest) = docs.split_once(&format!("## {}\n", lesson.title)).expect("the title");
        assert!(rest.contains(&format!("`{}`", lesson.tokens.join(" "))), "{}", lesson.title);
    }
}

#[test]
fn long_runs_have_no_page() {
    let (words, file) = (vec!["word"; 300], shipped_file("words"));
    let args = [&["page", file.as_str()], &words[..]].concat();
    assert_answer(grammar(&args), 1, "", "a page holds at most 1500 moves; `grammar trace` tells longer runs\n");
}
