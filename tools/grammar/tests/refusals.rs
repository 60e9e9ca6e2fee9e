//! Every refusal of the proved engine that a text can meet, with the line, column and names it concerns.
use grammar::{to_table, to_text};
use segment::Refusal;

/// A grammar of a start part S and what a case adds.
const HEAD: &str = "\
token word open close
part S -> n
start S.n
";

/// Blocks of a line `== NUMBER LINE:COLUMN MESSAGE` and the lines after the head; these begin on line 4.
const CASES: &str = include_str!("refusals.txt");

fn assert_refused(text: &str, number: u32, line: usize, column: usize, message: &str) {
    let faults = to_table(text).expect_err(message);
    let told = format!("refused {number}: {message}");
    let fault = faults.all().iter().find(|f| f.message == told).unwrap_or_else(|| faults.first());
    assert_eq!(fault.message, format!("refused {number}: {message}"), "{text}");
    assert_eq!((fault.span.line, fault.span.column), (line, column), "{text}");
}

/// Number, line, column and message.
fn parsed(line: &str) -> Option<(u32, usize, usize, &str)> {
    let (number, rest) = line.split_once(' ')?;
    let (place, message) = rest.split_once(' ')?;
    let (line, column) = place.split_once(':')?;
    Some((number.parse().ok()?, line.parse().ok()?, column.parse().ok()?, message))
}

#[test]
fn refusals_name_their_line() {
    let cases: Vec<&str> = CASES.split("== ").skip(1).collect();
    assert_eq!(cases.len(), 28);
    for case in cases {
        let (line, rest) = case.split_once('\n').expect(case);
        let (number, line, column, message) = parsed(line).expect(line);
        assert_refused(&format!("{HEAD}{}", rest.trim_end()), number, line, column, message);
    }
}

#[test]
fn the_start_takes_nothing() {
    let text = "token word\npart S(d) -> n\nstart S.n\nS: word\n n = 1";
    assert_refused(text, 6, 2, 6, "the start symbol `S` takes `d`; it has no inherited attributes");
}

#[test]
fn counts_outside_their_limits() {
    let accepted = "S: word\n n = 1\n";
    let names = |n: usize| (0..n).map(|i| format!(" x{}", letters(i))).collect::<String>();
    let parts = |n: usize| (0..n).map(|i| format!("part P{}\n", letters(i))).collect::<String>();
    let text = format!("token{}\npart S -> n\nstart S.n\nS: xaa\n n = 1", names(64));
    assert_refused(&text, 4, 1, 7 + 63 * 4, "`xcl` is the 64th token; a grammar has 1 to 63");
    assert!(to_table(&text.replace(" xcl", "")).is_ok());
    assert_refused("part S -> n\nstart S.n\nS: nothing\n n = 1", 4, 2, 1, "no token is declared; a grammar has 1 to 63");
    assert_refused(&format!("{HEAD}{}{accepted}", parts(48)), 4, 51, 6, "`Pbv` is the 49th part; a grammar has 1 to 48");
    let production = "S: word\n n = 1\n";
    let many = format!("{HEAD}{}", production.repeat(129));
    assert_refused(&many, 4, 4 + 256, 1, "the 129th production; a grammar has at most 128");
    let conditions = format!("{HEAD}S: open S\n n = S.n\n{}", " 0 <= S.n <= 1\n".repeat(513));
    assert_refused(&conditions, 4, 6 + 512, 2, "the 513th condition; a grammar has at most 512");
    assert_refused(&many_rules(1025), 4, 4 + 1024 + 128, 2, "the 1025th rule; a grammar has at most 1,024");
}

/// Productions of S with eight rules each.
fn many_rules(rules: usize) -> String {
    let mut text = String::from("token word\npart S -> a, b, c, d, e, f, g, h\nstart S.a\n");
    for i in 0..rules {
        if i % 8 == 0 && i < 1024 {
            text += "S: word\n";
        }
        text += &format!(" {} = 1\n", (b'a' + (i % 8) as u8) as char);
    }
    text
}

/// The 2,338th condition ends with the last byte allowed.
#[test]
fn a_table_too_long() {
    let text = format!("{HEAD}S: {}S\n n = S.n\n{}", "open ".repeat(10), " 0 <= S.n <= 1\n".repeat(2400));
    let faults = to_table(&text).expect_err("too long");
    let fault = faults.first();
    let length = 7 + 5 + 16 + 8 + 2400 * 14;
    let words = format!("refused 1: the table is too long, {length} bytes where 32,768 are allowed; this line is the first past them");
    assert_eq!(fault.message, words);
    assert_eq!(fault.span.line, 5 + 2339);
}

#[test]
fn a_damaged_table_has_no_text() {
    let table = to_table(&format!("{HEAD}S: word\n n = 1\n")).expect("accepted").table.bytes().to_vec();
    let refused = |table: &[u8]| to_text(table).map_err(|r: Refusal| (r.number(), r.count())).expect_err("refused");
    assert_eq!(refused(&table[..5]), (2, 0));
    assert_eq!(refused(&[&table[..], &[9, 0, 0]].concat()), (3, table.len() as u64));
    let mut unknown = table.clone();
    unknown[17] = 7;
    assert_eq!(refused(&unknown), (5, 12));
}

fn letters(i: usize) -> String {
    format!("{}{}", (b'a' + (i / 26) as u8) as char, (b'a' + (i % 26) as u8) as char)
}
