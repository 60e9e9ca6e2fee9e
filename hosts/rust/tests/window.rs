//! The window through the host library.
use segment::window::{self, length, Standing};
use segment::{Kind, Refusal, Table, Window};

const WORDS: &[u8] = include_bytes!("../../../grammars/words.table");

/// Refused with 42, and nothing beside.
fn turned_back(answer: Result<Standing, Refusal>) -> bool {
    answer.is_err_and(|r| (r.kind(), r.count(), r.offset(), r.tokens()) == (Kind::WindowUnfit, 0, None, None))
}

fn standing(total: i64, largest: Option<i64>) -> Standing {
    Standing { total, largest }
}

#[test]
fn total_and_largest_of_the_last_values() {
    let mut window = Window::new(3).unwrap();
    assert_eq!(window.standing(), standing(0, None));
    for (value, total, largest) in [(5, 5, 5), (2, 7, 5), (6, 13, 6), (4, 12, 6), (1, 11, 6), (4, 9, 4)] {
        assert_eq!(window.bring(Ok(value)), Ok(standing(total, Some(largest))));
    }
    assert_eq!(window.values().collect::<Vec<_>>(), [4, 1, 4]);
    assert_eq!(window.cells(), [3, 3, 0, 9, 1, 4, 1, 4, 2, 0, 0]);
    assert_eq!(window.size(), 3);
}

#[test]
fn only_accepted_segments_enter() {
    let table = Table::new(WORDS).unwrap();
    let mut run = table.run();
    let mut window = Window::new(64).unwrap();
    let mut expected = vec![];
    for tokens in [&[0, 1, 0, 2][..], &[0, 0, 0], &[2], &[0, 1], &[0]] {
        let finished = run.evaluate(tokens);
        expected.extend(finished);
        assert_eq!(window.bring(finished), Ok(standing(expected.iter().sum(), expected.iter().max().copied())));
    }
    assert_eq!(expected, [2, 3, 1]);
    let before = window.cells().to_vec();
    assert_eq!(window.bring(Table::new(&WORDS[..12]).map(|_| 1)), Ok(standing(6, Some(3))));
    assert_eq!(window.cells(), before);
}

#[test]
fn sizes_and_buffers() {
    for size in [0, 65, usize::MAX] {
        assert!(turned_back(Window::new(size).map(|window| window.standing())));
    }
    for size in 1..=64 {
        let mut buffer = vec![7; length(size) - 1];
        assert!(turned_back(window::open(size as u64, &mut buffer)));
        assert!(buffer.iter().all(|&cell| cell == 7));
        buffer.extend([7, 8, 9]);
        assert_eq!(window::open(size as u64, &mut buffer), Ok(standing(0, None)));
        assert_eq!(buffer[length(size)..], [8, 9]);
    }
    assert!(turned_back(window::open(1, &mut [])));
    assert!(turned_back(window::bring(Ok((1, 0)), &mut [])));
}

#[test]
fn values_outside_the_limits() {
    const LIMIT: i64 = 1_000_000_000_000;
    let mut window = Window::new(2).unwrap();
    for value in [LIMIT + 1, -LIMIT - 1, i64::MAX, i64::MIN] {
        assert!(turned_back(window.bring(Ok(value))));
    }
    assert_eq!(window.standing(), standing(0, None));
    assert_eq!(window.bring(Ok(-LIMIT)), Ok(standing(-LIMIT, Some(-LIMIT))));
    assert_eq!(window.bring(Ok(LIMIT)), Ok(standing(0, Some(LIMIT))));
    assert_eq!(window.bring(Ok(LIMIT)), Ok(standing(2 * LIMIT, Some(LIMIT))));
}

#[test]
fn damaged_buffers() {
    let mut window = Window::new(3).unwrap();
    for value in [5, 2, 6, 4] {
        window.bring(Ok(value)).unwrap();
    }
    let sound = window.cells().to_vec();
    for cell in 0..sound.len() {
        for change in [-1, 1, i64::MIN, i64::MAX] {
            let mut damaged = sound.clone();
            damaged[cell] = damaged[cell].wrapping_add(change);
            let before = damaged.clone();
            assert!(turned_back(window::bring(Ok((1, 9)), &mut damaged)), "cell {cell}");
            assert!(turned_back(window::value(24, 0, 3, &mut damaged)), "cell {cell}");
            assert_eq!(damaged, before);
        }
    }
}

#[test]
fn in_words() {
    let refusal = Window::new(0).unwrap_err();
    assert_eq!(refusal.to_string(), "refused 42: the window's size, buffer or value does not fit");
}
