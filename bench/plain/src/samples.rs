//! Tables and segments to measure with.

/// Adds a field to a table.
pub fn field(table: &mut Vec<u8>, tag: u8, body: &[u8]) {
    table.extend([tag, (body.len() / 256) as u8, (body.len() % 256) as u8]);
    table.extend(body);
}

/// How a table with three tokens begins, some of which carry a value: S to L, to which 0 is handed down, and whose result is that of S.
fn start(carriers: &[u8]) -> Vec<u8> {
    let mut t = Vec::new();
    field(&mut t, 1, &[3, 2, 0, 1]);
    field(&mut t, 2, &[0, 1]);
    field(&mut t, 2, &[1, 1]);
    for &terminal in carriers {
        field(&mut t, 6, &[terminal]);
    }
    field(&mut t, 3, &[0, 1, 129]);
    field(&mut t, 4, &[1, 1, 0, 0, 0, 0, 0]);
    field(&mut t, 4, &[0, 1, 1, 1, 2]);
    t
}

/// A grammar of words and tags: how it begins, and what a word adds to the value.
fn words_and_tags(mut t: Vec<u8>, word: &[u8]) -> Vec<u8> {
    field(&mut t, 3, &[1, 2, 0, 129]);
    field(&mut t, 4, &[2, 1, 1, 0, 1]);
    field(&mut t, 4, word);
    field(&mut t, 3, &[1, 4, 1, 129, 2, 129]);
    field(&mut t, 4, &[2, 1, 7, 0, 1, 0, 0, 0, 1]);
    field(&mut t, 4, &[4, 1, 1, 0, 1]);
    field(&mut t, 4, &[0, 2, 2, 2, 2, 4, 2]);
    field(&mut t, 5, &[0, 0, 1, 0, 0, 0, 0, 0, 0, 0, 2]);
    field(&mut t, 3, &[1, 0]);
    field(&mut t, 4, &[0, 2, 0, 0, 0, 0, 0]);
    t
}

/// Document 01's grammar of words and tags.
pub fn words() -> Vec<u8> {
    words_and_tags(start(&[]), &[0, 2, 7, 2, 2, 0, 0, 0, 1])
}

/// The same with words that carry their lengths, which are added up.
pub fn lengths() -> Vec<u8> {
    words_and_tags(start(&[0]), &[0, 2, 2, 1, 1, 2, 2])
}

/// A chain of n nonterminals, 1 to 47, behind the start symbol; each has a production of tokens only, one that goes on to the next
/// nonterminal and, up to `third` of them, one that goes on twice. `conditions` entry ranges in all, at most 4 a production.
/// With 47, 33 and 512 it is nearly the largest table that can be accepted.
pub fn chain(n: usize, third: usize, conditions: usize) -> Vec<u8> {
    let mut t = Vec::new();
    let mut ranges = conditions;
    field(&mut t, 1, &[63, n as u8 + 1, 0, 1]);
    field(&mut t, 2, &[0, 1]);
    for _ in 0..n {
        field(&mut t, 2, &[4, 4]);
    }
    field(&mut t, 3, &[0, 12, 129, 9, 9, 9, 9, 9, 9, 9, 9, 9, 9, 9]);
    for a in 1..=4 {
        field(&mut t, 4, &[1, a, 0, 0, 0, 0, a]);
    }
    field(&mut t, 4, &[0, 1, 7, 1, 5, 0, 0, 0, 1]);
    for k in 1..=n {
        let next = 128 + k as u8 + 1;
        let kinds = 1 + (k < n) as usize + (k < n && k <= third) as usize;
        for kind in 0..kinds {
            let mut body = vec![k as u8, 12];
            body.push(kind as u8);
            body.extend(std::iter::repeat(next).take(kind));
            body.resize(14, 9);
            field(&mut t, 3, &body);
            for child in 0..kind as u8 {
                for a in 1..=4 {
                    field(&mut t, 4, &[2 + child, a, 7, 0, a, 0, 0, 0, 1]);
                }
            }
            for a in 5..=8 {
                let from = if kind == 0 { [0, a - 4] } else { [1 + kind as u8, a] };
                field(&mut t, 4, &[0, a, 7, from[0], from[1], 0, 0, 0, 1]);
            }
            for a in 1..=4 {
                if ranges > 0 {
                    ranges -= 1;
                    field(&mut t, 5, &[0, 0, a, 0xff, 0xff, 0, 0, 0, 0, 0xff, 0xff]);
                }
            }
        }
    }
    t
}

/// The same table, refused by 13 at its last production, which another one clashes with.
pub fn refused_late(n: usize, third: usize, conditions: usize) -> Vec<u8> {
    let mut t = chain(n, third, conditions);
    field(&mut t, 3, &[n as u8, 1, 0]);
    for a in 5..=8 {
        field(&mut t, 4, &[0, a, 1, 0, a - 4]);
    }
    t
}

/// 128 productions of 12 symbols, 1,024 rules and 512 conditions, all fields but four as long as they can be: 8 bytes below the bound of
/// 21,879, since the start symbol has nothing to hand down but constants.
pub fn largest() -> Vec<u8> {
    let mut t = Vec::new();
    field(&mut t, 1, &[63, 48, 0, 1]);
    field(&mut t, 2, &[0, 4]);
    for _ in 0..47 {
        field(&mut t, 2, &[4, 4]);
    }
    field(&mut t, 3, &[0, 12, 129, 9, 9, 9, 9, 9, 9, 9, 9, 9, 9, 9]);
    for a in 1..=4 {
        field(&mut t, 4, &[1, a, 0, 0, 0, 0, a]);
        field(&mut t, 4, &[0, a, 7, 1, 4 + a, 0, 0, 0, 1]);
    }
    for k in 1..=47u8 {
        let kinds = if k == 47 { 1 } else { 2 + (k <= 34) as u8 };
        for kind in 0..kinds {
            let children = if kind == 2 && k <= 13 { 3 } else { kind };
            let mut body = vec![k, 12, kind];
            body.extend(std::iter::repeat_n(129 + k, children as usize));
            body.resize(14, 9);
            field(&mut t, 3, &body);
            for a in 1..=4 {
                for child in 0..children {
                    field(&mut t, 4, &[2 + child, a, 7, 0, a, 0, 0, 0, 1]);
                }
                field(&mut t, 4, &[0, 4 + a, 7, 0, a, 0, 0, 0, 1]);
            }
            for a in (1..=4).cycle().take(if k == 47 { 8 } else { 4 }) {
                field(&mut t, 5, &[0, 0, a, 0xff, 0xff, 0, 0, 0, 0, 0xff, 0xff]);
            }
        }
    }
    t
}

/// 127 alternatives of one nonterminal for one token, the most there can be: told apart by the value of its first attribute, or by how
/// far that is above the second.
pub fn alternatives(comparing: bool) -> Vec<u8> {
    let mut t = Vec::new();
    field(&mut t, 1, &[1, 2, 0, 1]);
    field(&mut t, 2, &[0, 1]);
    field(&mut t, 2, &[2, 1]);
    field(&mut t, 3, &[0, 1, 129]);
    field(&mut t, 4, &[1, 1, 0, 0, 0, 0, 7]);
    field(&mut t, 4, &[1, 2, 0, 0, 0, 0, 0]);
    field(&mut t, 4, &[0, 1, 1, 1, 3]);
    for i in 0..127u8 {
        field(&mut t, 3, &[1, 1, 0]);
        field(&mut t, 4, &[0, 3, 0, 0, 0, 0, i]);
        if comparing {
            field(&mut t, 5, &[2, 0, 1, 0, 2, 0, 0, 0, i]);
            field(&mut t, 5, &[&[2, 0, 2, 0, 1], &(-i32::from(i)).to_be_bytes()[..]].concat());
        } else {
            field(&mut t, 5, &[0, 0, 1, 0, 0, 0, i, 0, 0, 0, i]);
            field(&mut t, 5, &[0, 0, 2, 0, 0, 0, 0, 0, 0, 0, 9]);
        }
    }
    t
}

/// Ten productions with a rule for each of 8 attributes of their left side and of each symbol on their right, in the order of their
/// occurrences or against it. With 12 symbols, the most a production can have, a production has 104 rules and the table 1,024.
pub fn many_rules(symbols: u8, reversed: bool) -> Vec<u8> {
    let mut t = Vec::new();
    field(&mut t, 1, &[1, 12, 0, 1]);
    for _ in 0..11 {
        field(&mut t, 2, &[0, 8]);
    }
    field(&mut t, 2, &[8, 0]);
    let mut production = |left: u8, right: &[u8], outputs: u8| {
        field(&mut t, 3, &[&[left, right.len() as u8], right].concat());
        let mut rules: Vec<[u8; 2]> = (0..=outputs).flat_map(|k| (1..=8).map(move |a| [k, a])).collect();
        if reversed {
            rules.reverse();
        }
        for [k, a] in rules {
            field(&mut t, 4, &[k, a, 0, 0, 0, 0, 1]);
        }
    };
    production(0, &[129, 130, 131, 132, 133, 134, 135, 136, 137, 138], 0);
    for left in 1..=10 {
        let width = if left == 10 { symbols.min(9) } else { symbols };
        production(left, &vec![139; width as usize], width);
    }
    field(&mut t, 3, &[11, 1, 0]);
    t
}

/// One production with 512 conditions, the most there can be, with these lower bounds.
pub fn conditions(low: impl Fn(i32) -> i32) -> Vec<u8> {
    let mut t = start(&[]);
    field(&mut t, 3, &[1, 3, 0, 1, 2]);
    field(&mut t, 4, &[0, 2, 0, 0, 0, 0, 0]);
    for low in (0..512).map(low) {
        field(&mut t, 5, &[&[0, 0, 1], &(low - 512).to_be_bytes()[..], &[0, 0, 0, 9]].concat());
    }
    t
}

/// How many fields a table has.
pub fn fields(table: &[u8]) -> usize {
    let (mut at, mut count) = (0, 0);
    while at < table.len() {
        at += 3 + table[at + 1] as usize * 256 + table[at + 2] as usize;
        count += 1;
    }
    count
}

/// As long as a table may be, refused by 5 at its last field, a rule with an unknown function.
pub fn longest_refused() -> Vec<u8> {
    let mut t = chain(47, 33, 512);
    let mut body = vec![0; 32768 - t.len() - 3];
    body[2] = 9;
    field(&mut t, 4, &body);
    t
}

/// Lines of eleven rows of twelve tokens 0 each, or of one token 1; a place for each line, so that a segment may have 65,535 tokens.
pub fn lines() -> Vec<u8> {
    let mut t = Vec::new();
    field(&mut t, 1, &[2, 3, 0, 1]);
    field(&mut t, 2, &[0, 1]);
    field(&mut t, 2, &[1, 1]);
    field(&mut t, 2, &[0, 0]);
    field(&mut t, 3, &[0, 1, 129]);
    field(&mut t, 4, &[1, 1, 0, 0, 0, 0, 0]);
    field(&mut t, 4, &[0, 1, 1, 1, 2]);
    let mut line = vec![1, 12];
    line.resize(13, 130);
    line.push(129);
    field(&mut t, 3, &line);
    field(&mut t, 4, &[12, 1, 7, 0, 1, 0, 0, 0, 1]);
    field(&mut t, 4, &[0, 2, 7, 12, 2, 0, 0, 0, 132]);
    field(&mut t, 3, &[1, 2, 1, 129]);
    field(&mut t, 4, &[2, 1, 7, 0, 1, 0, 0, 0, 1]);
    field(&mut t, 4, &[0, 2, 7, 2, 2, 0, 0, 0, 1]);
    field(&mut t, 3, &[1, 0]);
    field(&mut t, 4, &[0, 2, 1, 0, 1]);
    field(&mut t, 3, &[2, 12, 0, 0, 0, 0, 0, 0, 0, 0, 0, 0, 0, 0]);
    t
}

/// 65,535 tokens of it.
pub fn lines_segment() -> Vec<u8> {
    let mut s = vec![0; 496 * 132];
    s.resize(65535, 1);
    s
}

/// A list of 63 kinds of tokens, the most there can be, which counts them; a token of an odd number comes only among the first ten.
pub fn many_kinds() -> Vec<u8> {
    let mut t = start(&[]);
    t[3] = 63;
    for kind in 0..63 {
        field(&mut t, 3, &[1, 2, kind, 129]);
        field(&mut t, 4, &[2, 1, 7, 0, 1, 0, 0, 0, 1]);
        field(&mut t, 4, &[0, 2, 7, 2, 2, 0, 0, 0, 1]);
        if kind % 2 == 1 {
            field(&mut t, 5, &[0, 0, 1, 0, 0, 0, 0, 0, 0, 0, 9]);
        }
    }
    field(&mut t, 3, &[1, 0]);
    field(&mut t, 4, &[0, 2, 0, 0, 0, 0, 0]);
    t
}

/// Brackets around one token: 0 opens, 1 closes, 2 is inside; the value is the depth.
pub fn brackets() -> Vec<u8> {
    let mut t = start(&[]);
    field(&mut t, 3, &[1, 3, 0, 129, 1]);
    field(&mut t, 4, &[2, 1, 7, 0, 1, 0, 0, 0, 1]);
    field(&mut t, 4, &[0, 2, 1, 2, 2]);
    field(&mut t, 3, &[1, 1, 2]);
    field(&mut t, 4, &[0, 2, 1, 0, 1]);
    t
}

/// The same among 63 kinds of tokens: of all others none ever comes.
pub fn rare_brackets() -> Vec<u8> {
    let mut t = brackets();
    t[3] = 63;
    t
}

/// A segment of it with so many brackets inside each other.
pub fn brackets_segment(depth: usize) -> Vec<u8> {
    [vec![0; depth], vec![2], vec![1; depth]].concat()
}

/// A segment of `chain`: each of the first `doubled` nonterminals goes on twice, each later one ends.
pub fn chain_segment(doubled: usize) -> Vec<u8> {
    fn part(s: &mut Vec<u8>, doubled: usize) {
        let children = if doubled > 0 { 2 } else { 0 };
        s.push(children);
        for _ in 0..children {
            part(s, doubled - 1);
        }
        s.extend(std::iter::repeat_n(9, 11 - children as usize));
    }
    let mut s = Vec::new();
    part(&mut s, doubled);
    s.extend([9; 11]);
    s
}
