//! A small table can ask for as many moves as the limits allow; a budget ends it.
use segment::{Kind, Run, Table};
use std::time::Instant;

fn field(table: &mut Vec<u8>, tag: u8, body: &[u8]) {
    table.extend([tag, 0, body.len() as u8]);
    table.extend(body);
}

/// A start symbol and nine parts; each but the last stands for twelve of the next, the last for nothing.
fn wide() -> Vec<u8> {
    let mut table = vec![];
    field(&mut table, 1, &[1, 10, 0, 1]);
    field(&mut table, 2, &[0, 1]);
    (0..9).for_each(|_| field(&mut table, 2, &[0, 0]));
    for part in 0..9 {
        let mut body = vec![129 + part; 14];
        (body[0], body[1]) = (part, 12);
        field(&mut table, 3, &body);
        if part == 0 {
            field(&mut table, 4, &[0, 1, 0, 0, 0, 0, 7]);
        }
    }
    field(&mut table, 3, &[9, 0]);
    table
}

#[test]
fn a_budget_ends_a_long_finish() {
    let table = Table::new(wide()).unwrap();
    assert!(table.bytes().len() < 250);
    for budget in [0, 1, 1000, 1_000_000] {
        let mut run = Run::with_room(&table, 1, 12).unwrap().with_budget(budget);
        let begun = Instant::now();
        let refusal = run.finish().unwrap_err();
        assert_eq!((refusal.kind(), refusal.tokens(), run.moves()), (Kind::TooMuch, Some(0), budget));
        assert!(begun.elapsed().as_secs() < 10);
    }
}

/// Few places bound a run too: eleven do not hold the deepest part.
#[test]
fn few_places_end_it_early() {
    let table = Table::new(wide()).unwrap();
    let mut run = Run::with_room(&table, 1, 10).unwrap();
    assert_eq!(run.finish().unwrap_err().kind(), Kind::NeedsPlaces);
    assert!(run.moves() < 20);
}

/// `cargo test --release -- --ignored`: the whole 4,294,967,295 moves, some 17 seconds.
#[test]
#[ignore]
fn without_a_budget() {
    let table = Table::new(wide()).unwrap();
    let mut run = Run::with_room(&table, 1, 12).unwrap();
    let begun = Instant::now();
    assert_eq!(run.finish().unwrap_err().kind(), Kind::TooMuch);
    println!("{} bytes: {} moves in {:?}", table.bytes().len(), run.moves(), begun.elapsed());
}
