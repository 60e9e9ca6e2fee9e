//! Every way in which a text is no grammar, with line and column.
use grammar::to_table;

/// A small grammar; a case replaces one of its lines.
const LINES: [&str; 12] = [
    "token word open close",
    "part S -> n",
    "part L(d) -> n",
    "start S.n",
    "S: L",
    "  L.d = 0",
    "  n = L.n",
    "L: open L close L",
    "  L1.d = d + 1",
    "  L2.d = d",
    "  n = L1.n + L2.n",
    "L: nothing",
];

fn with(line: usize, text: &str) -> String {
    let mut lines: Vec<&str> = LINES.to_vec();
    lines[line - 1] = text;
    lines.join("\n") + "\n  n = 0"
}

/// Line, new text of the line, column of the fault, the start of its message.
const CASES: &[(usize, &str, usize, &str)] = &[
    (6, "  L.d = 0 ; 1", 11, "`;` has no meaning here: a line has one statement"),
    (6, "  L.d = 0 @ 1", 11, "the character `@` has no meaning here"),
    (6, "  L.d := 0", 7, "`:=` has no meaning here: a rule is written with `=`"),
    (6, "  L.d == 0", 7, "`==` has no meaning here: equal is written with `<=`"),
    (6, "  0 < L.n < 2", 5, "`<` has no meaning here: conditions are written with `<=`"),
    (6, "  L.n > 0", 7, "`>` has no meaning here: write the smaller side first"),
    (6, "  L.n >= 0", 7, "`>=` has no meaning here: write the smaller side first"),
    (6, "  L.d = 1,000", 10, "expected the end of the line, found `,`; numbers are whole and written without marks, as in `1000`"),
    (6, "  L.d = 1 + 2", 13, "expected an attribute (the sum of two numbers is written as one), found `2`"),
    (1, "Token word open close", 1, "`Token` begins no line; did you mean `token`, in small letters?"),
    (1, "tokens word open close", 1, "`tokens` begins no line; did you mean `token`"),
    (2, "Part S -> n", 1, "`Part` begins no line; did you mean `part`"),
    (5, "S -> L", 3, "a production is written `S: ...`, a declaration `part S -> ...`"),
    (5, "S => L", 3, "`=>` has no meaning here: what a part gives is written with `->`, a production with `:`"),
    (5, "S: opne L", 4, "`opne` is not declared as a token or a part; did you mean `open`?"),
    (6, "  l.d = 0", 3, "`l` does not stand on the right side; did you mean `L`?"),
    (6, "  L.d = 99999999999999999999", 9, "the number 99999999999999999999 does not fit"),
    (6, "  L.d = 2147483648", 9, "the number 2147483648 does not fit"),
    (6, "  L.d = -2147483649", 9, "the number -2147483649 does not fit"),
    (9, "  L1.d = d - -2147483648", 14, "the number 2147483648 does not fit"),
    (9, "  L1.d = d + 2147483648", 14, "the number 2147483648 does not fit"),
    (1, "token", 6, "expected the name of a token, but the line ends here"),
    (1, "token word, open", 11, "expected the name of a token, found `,`"),
    (1, "token word max", 12, "`max` is a word of the grammar language and cannot be a name"),
    (1, "token word word", 12, "`word` is declared a second time; the first is on line 1"),
    (2, "part S2 -> n", 6, "`S2` ends in a digit"),
    (2, "part S - n", 8, "expected the end of the line, found `-`"),
    (2, "part S ->", 10, "expected the name of an attribute, but the line ends here"),
    (2, "part S -> n m", 13, "expected the end of the line, found `m`"),
    (2, "part word -> n", 6, "`word` is declared a second time; the first is on line 1"),
    (3, "part L(d -> n", 10, "expected `)`, found `->`"),
    (3, "part L() -> n", 8, "expected the name of an attribute, found `)`"),
    (3, "part L(d, n) -> n", 17, "the attribute `n` is named twice"),
    (4, "start S", 8, "expected `.`, but the line ends here"),
    (4, "start S.m", 9, "`S` has no attribute `m`; its attributes: `n`"),
    (4, "start word.n", 7, "`word` is a token; a part is expected here"),
    (4, "start T.n", 7, "`T` is not declared as a token or a part"),
    (4, "", 8, "the text has no line `start PART.ATTRIBUTE`"),
    (5, "start S.n", 1, "a second start; the first is on line 4"),
    (4, "start S.n\n  n = 0", 3, "a rule or condition stands after the production it belongs to"),
    (5, "S:", 3, "expected a token, a part or `nothing`, but the line ends here"),
    (5, "S: M", 4, "`M` is not declared as a token or a part"),
    (5, "word: L", 1, "`word` is a token; a part is expected here"),
    (5, "S: nothing L", 12, "expected the end of the line, found `L`"),
    (5, "S: L nothing", 6, "`nothing` is a word of the grammar language and cannot be a name"),
    (5, "S L", 3, "expected `=`, found `L`"),
    (5, "S", 2, "expected `:`, `=` or `<=`, but the line ends here"),
    (6, "  = 0", 3, "expected a declaration, a production, a rule or a condition, found `=`"),
    (6, "  L. = 0", 6, "expected the name of an attribute, found `=`"),
    (6, "  L.d =", 8, "expected an attribute, a number, `max` or `min`, but the line ends here"),
    (6, "  L.x = 0", 5, "`L` has no attribute `x`; its attributes: `d`, `n`"),
    (6, "  M.d = 0", 3, "`M` does not stand on the right side"),
    (6, "  S.n = 0", 3, "`S` does not stand on the right side; the left side's attributes are written without it"),
    (6, "  L2.d = 0", 3, "there is no `L2`: `L` stands once on the right side"),
    (9, "  L.d = d + 1", 3, "`L` stands several times on the right side: write `L1`, `L2`"),
    (9, "  L3.d = d + 1", 3, "there is no `L3`: `L` stands 2 times on the right side"),
    (9, "  L0.d = d + 1", 3, "there is no `L0`: `L` stands 2 times on the right side"),
    (9, "  L1.d = open.d", 10, "`open` is a token and carries no value; one that does is declared `token open -> ..`"),
    (9, "  L1.d = d + 1 + 1", 16, "expected the end of the line, found `+`; a rule has one function"),
    (9, "  L1.d = d +", 13, "expected an attribute or a number, but the line ends here"),
    (9, "  L1.d = d * 2", 14, "expected an attribute (a product is of two attributes), found `2`"),
    (9, "  L1.d = 2 * d", 12, "expected the end of the line, found `*`"),
    (9, "  L1.d = d / d", 14, "expected a number (a quotient is by a number from 1 to 1000000), found `d`"),
    (9, "  L1.d = max(d, 1)", 17, "expected an attribute, found `1`"),
    (9, "  L1.d = max d", 14, "expected `(`, found `d`"),
    (9, "  0 <= d", 9, "expected `<=`, but the line ends here"),
    (9, "  0 <= d <= n", 13, "expected a number (a range has two numbers, as in `0 <= d <= 2`), found `n`"),
    (9, "  d <= 2", 8, "expected an attribute (a range has two numbers, as in `0 <= d <= 2`), found `2`"),
    (9, "  0 <= 1 <= 2", 8, "expected an attribute, found `1`"),
    (9, "  d <=", 7, "expected an attribute, but the line ends here"),
];

/// The line of a fault is that of the case, except where another is named here.
fn line_of(case: &(usize, &str, usize, &str)) -> usize {
    match case.3 {
        m if m.starts_with("the text has no line") => 13,
        m if m.starts_with("a rule or condition") => 5,
        _ => case.0,
    }
}

#[test]
fn the_small_grammar_is_accepted() {
    assert!(to_table(&with(1, LINES[0])).is_ok());
}

#[test]
fn faults_name_line_and_column() {
    for case in CASES {
        let (line, new, column, message) = *case;
        let faults = to_table(&with(line, new)).expect_err(new);
        let fault = faults.first();
        assert!(fault.message.starts_with(message), "{new}: {}", fault.message);
        assert_eq!((fault.span.line, fault.span.column), (line_of(case), column), "{new}: {}", fault.message);
    }
}

#[test]
fn an_empty_text_has_no_start() {
    for text in ["", "\n", "# nothing but a comment"] {
        let faults = to_table(text).expect_err("no start");
        let fault = faults.first();
        assert_eq!((fault.span.line, fault.message.as_str()), (1, "the text has no line `start PART.ATTRIBUTE`"), "{text:?}");
    }
}

#[test]
fn what_no_byte_holds_is_a_fault() {
    let tokens: Vec<String> = (0..256).map(|i| name("t", i)).collect();
    let parts: String = (0..128).map(|i| format!("part {}\n", name("P", i))).collect();
    let attributes: Vec<String> = (0..256).map(|i| format!("a{i}")).collect();
    let cases = [
        (with(1, &format!("token word open close\ntoken {}", tokens.join(" "))), 2, "more than 255 tokens"),
        (with(3, &format!("part L(d) -> n\n{parts}")), 130, "more than 128 parts"),
        (with(2, &format!("part S -> {}", attributes.join(", "))), 2, "more than 255 attributes"),
        (with(8, &format!("L: {}", "word ".repeat(256))), 8, "more than 255 symbols"),
    ];
    for (text, line, message) in cases {
        let faults = to_table(&text).expect_err(message);
        let fault = faults.first();
        assert!(fault.message.starts_with(message), "{}", fault.message);
        assert_eq!(fault.span.line, line, "{message}");
    }
}

fn name(first: &str, i: usize) -> String {
    format!("{first}{}{}", (b'a' + (i / 26) as u8) as char, (b'a' + (i % 26) as u8) as char)
}

#[test]
fn a_fault_is_shown_under_its_line() {
    let text = with(9, "\tL1.d = d * 2   # twice");
    let shown = to_table(&text).expect_err("product").show("x.grammar", &text);
    let message = "x.grammar:9:13: expected an attribute (a product is of two attributes), found `2`";
    assert_eq!(shown, format!("{message}\n  \tL1.d = d * 2   # twice\n  \t           ^"));
}

/// Wide characters take two cells of a terminal, and control characters are not passed on.
#[test]
fn carets_stand_under_wide_characters() {
    let shown = |line: &str| to_table(line).expect_err(line).first().show("x", line);
    assert_eq!(shown("part \u{6bb5} - n"), "x:1:8: expected the end of the line, found `-`\n  part \u{6bb5} - n\n          ^");
    assert_eq!(shown("\u{1b}[31m"), "x:1:1: the character `\u{fffd}` has no meaning here\n  \u{fffd}[31m\n  ^");
}

/// The lines that are told, and nothing that only follows from them.
#[test]
fn all_faults_in_one_run() {
    let text =
        "tokens word open\npart S -> n\nstrat S.n\nS: L\n  L.d = 0\n  n = L.m\npart L(d) -> n\nL: word L\n  L.d = d * 2\n  n == L.n\n\
        L: opne L close\n  n = 0\nL -> nothing\n  n = 0\n";
    let faults = to_table(text).expect_err("faults");
    let lines: Vec<usize> = faults.all().iter().map(|f| f.span.line).collect();
    assert_eq!(lines, [1, 3, 6, 9, 10, 11, 13], "{}", faults.show("x", text));
    let many = format!("token word\n{}", "x\n".repeat(25));
    let shown = to_table(&many).expect_err("faults").show("x", &many);
    assert_eq!(shown.matches("x:").count(), 21);
    assert!(shown.ends_with("\nx: 5 more faults"), "{shown}");
}

/// What the engine refuses is told for all rules and conditions at once.
#[test]
fn all_wrong_items_in_one_run() {
    let text = "token t\npart S -> n, m\npart A(d) -> a\nstart S.n\nS: A A\n n = A1.a\n n = 1\n A1.d = A2.a\n A2.d = n\n 3 <= A1.a <= 2\n\
        A: t\n d = 1\n a = 1\n";
    let faults = to_table(text).expect_err("refused");
    let found: Vec<(usize, &str)> = faults.all().iter().map(|f| (f.span.line, &f.message[..10])).collect();
    let numbers = [(5, "refused 8:"), (7, "refused 8:"), (8, "refused 9:"), (9, "refused 7:"), (10, "refused 10"), (12, "refused 7:")];
    assert_eq!(found, numbers, "{}", faults.show("x", text));
    let text = "token t\npart S -> n\npart A\npart B\nstart S.n\nS: t\n n = 1\nA: t\n";
    assert_eq!(to_table(text).expect_err("useless").all().len(), 2);
}

/// Tokens that carry a value are counted like parts, and read like what a part gives.
#[test]
fn tokens_that_carry_a_value() {
    let text = "token w -> len\ntoken t\npart S -> n\nstart S.n\nS: w t w\n n = w1.len + w2.len\n w1.len <= w2.len\n";
    let built = to_table(text).expect("accepted");
    assert!(built.table.bytes().windows(4).any(|field| field == [6, 0, 1, 0]));
    let message = |old: &str, new: &str| to_table(&text.replace(old, new)).expect_err(new).first().message.clone();
    assert_eq!(message("w1.len + w2.len", "w.len"), "`w` stands several times on the right side: write `w1`, `w2`");
    assert_eq!(message("w1.len + w2.len", "w3.len"), "there is no `w3`: `w` stands 2 times on the right side");
    assert_eq!(message("w1.len + w2.len", "w1.size"), "`w` has no attribute `size`; its attributes: `len`");
    assert_eq!(message(" w1.len <= w2.len", " w1.len = 1"), "refused 7: `w1.len` is an input: `w` gives it, a rule cannot set it");
    assert_eq!(message("token t", "token t1 -> len"), "`t1` ends in a digit; at the end of such a token's name digits count occurrences");
    assert_eq!(message("w -> len", "w ->"), "expected the name of an attribute, but the line ends here");
    assert_eq!(message("w -> len", "w -> len, size"), "expected the end of the line, found `,`");
}

/// Tokens may end in digits; a part beside them is counted all the same.
#[test]
fn tokens_that_end_in_digits() {
    let text = "token h1 h2 utf8 L1\npart S -> n\npart L -> n\nstart S.n\nS: h1 L utf8 L L1\n n = L1.n + L2.n\nL: h2\n n = 1";
    assert!(to_table(text).is_ok());
    let message = |new: &str| to_table(&text.replace("L1.n + L2.n", new)).expect_err(new).first().message.clone();
    assert_eq!(message("h1.n"), "`h1` is a token and carries no value; one that does is declared `token h1 -> ..`");
    assert_eq!(message("L3.n"), "there is no `L3`: `L` stands 2 times on the right side");
}
