//! Names for programs: what is written compiles, and tells tables apart.
mod common;
use common::{grammar, scratch, shipped, shipped_file, stdout};
use std::process::Command;

fn header(file: &str, language: &str) -> String {
    let output = grammar(&["header", file, "--lang", language]);
    assert_eq!(output.status.code(), Some(0), "{output:?}");
    stdout(&output)
}

#[test]
fn c_names_compile_and_check_the_table() {
    let names = scratch("words_names.h", header(&shipped_file("words"), "c").as_bytes());
    let root = concat!(env!("CARGO_MANIFEST_DIR"), "/../..");
    let table = std::fs::read(format!("{root}/grammars/words.table")).expect("the table");
    let bytes: Vec<String> = table.iter().map(u8::to_string).collect();
    let program = format!(
        "#include \"{names}\"\n#include <string.h>\nstatic uint8_t table[] = {{{}}};\n\
         static const char *const tokens[WORDS_TOKENS] = WORDS_TOKEN_NAMES;\n\
         int main(void) {{ int right = words_is_table(table, sizeof table); table[5]++;\n\
         return right && !words_is_table(table, sizeof table) && !words_is_table(table, 3) && WORDS_TOKEN_CLOSE == 2 && WORDS_PART_L == 1\n\
         && WORDS_ATTRIBUTE_L_N == 2 && strcmp(tokens[WORDS_TOKEN_OPEN], \"open\") == 0 ? 0 : 1; }}\n",
        bytes.join(", ")
    );
    let source = scratch("names.c", program.as_bytes());
    let built = format!("{source}.out");
    let flags = ["-std=c11", "-Wall", "-Wextra", "-Werror"];
    let archive = format!("{root}/target/staticlib/libhost.a");
    let compiled = Command::new("gcc").args(flags).args(["-I", &format!("{root}/hosts/c"), "-o", &built, &source, &archive]).status();
    assert!(compiled.expect("gcc runs").success());
    assert!(Command::new(&built).status().expect("it runs").success());
}

#[test]
fn rust_names_compile() {
    for name in ["words", "lengths", "clause", "sheet"] {
        let source = scratch(&format!("{name}_names.rs"), header(&shipped_file(name), "rust").as_bytes());
        let out = format!("{source}.rmeta");
        let mut compiled = Command::new("rustc");
        compiled.args(["--edition=2021", "--crate-type=lib", "--emit=metadata", "-Dwarnings", "-o", &out, &source]);
        assert!(compiled.status().expect("rustc runs").success(), "{name}");
    }
    let text = header(&shipped_file("words"), "rust");
    for line in ["pub const TABLE_SUM: u64 = 0xd30e9953d2057f43;", "    pub const CLOSE: u8 = 2;", "    pub const L_N: u8 = 2;"] {
        assert!(text.contains(line), "{line}\n{text}");
    }
}

#[test]
fn json_names() {
    let text = header(&shipped_file("words"), "json");
    for line in [
        "  \"table\": {\"length\": 136, \"sum\": \"d30e9953d2057f43\"},",
        "  \"tokens\": [\"word\", \"open\", \"close\"],",
        "    {\"name\": \"L\", \"takes\": [\"d\"], \"gives\": [\"n\"]}",
        "    {\"left\": \"L\", \"right\": [\"open\", \"L\", \"close\", \"L\"]},",
    ] {
        assert!(text.contains(line), "{line}\n{text}");
    }
    assert!(
        text.contains("  \"carried\": {},") && header(&shipped_file("lengths"), "json").contains("  \"carried\": {\"word\": \"length\"},")
    );
}

/// Names of other alphabets, and names that differ by capitals alone.
#[test]
fn names_of_all_kinds() {
    let text = "token \u{441}\u{43b}\u{43e}\u{432}\u{43e} Word word h1\npart S -> n\nstart S.n\nS: Word\n n = 1\n";
    let file = scratch("kinds.grammar", text.as_bytes());
    let c = header(&file, "c");
    for line in ["KINDS_TOKEN_Word = 1", "KINDS_TOKEN_word = 2", "KINDS_TOKEN_H1 = 3", "KINDS_TOKEN_U0441U043BU043EU0432U043E = 0"] {
        assert!(c.contains(line), "{line}\n{c}");
    }
    assert!(header(&file, "rust").contains("\"\u{441}\u{43b}\u{43e}\u{432}\u{43e}\""));
}

/// A token put in the middle: the names tell that the table is another.
#[test]
fn a_token_in_the_middle_changes_the_sum() {
    let changed = shipped("words").replace("token word open close", "token word note open close");
    let sum = |text: &str| text.split("\"sum\": ").nth(1).map(|s| s[..18].to_string());
    let file = scratch("changed.grammar", changed.as_bytes());
    assert_ne!(sum(&header(&file, "json")), sum(&header(&shipped_file("words"), "json")));
}
