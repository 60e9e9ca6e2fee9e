//! The window over the last values, in plain Rust and in the same cells as the proved one (docs/WINDOW.md).

/// Total and largest value, which there is none of before the first; `None` where a call is turned back with 42.
pub type Standing = Option<(i64, Option<i64>)>;

fn in_range(value: i64) -> bool {
    (-1_000_000_000_000..=1_000_000_000_000).contains(&value)
}

/// A window's numbers.
#[derive(Clone, Copy)]
struct Numbers {
    size: usize,
    held: usize,
    next: usize,
    leaders: usize,
}

fn numbers(buffer: &[i64]) -> Option<Numbers> {
    let number = |i: usize| usize::try_from(*buffer.get(i)?).ok().filter(|&n| n <= 64);
    let n = Numbers { size: number(0)?, held: number(1)?, next: number(2)?, leaders: number(4)? };
    let place = n.next < n.size && (n.held == n.size || n.next == n.held);
    (n.size > 0 && n.held <= n.size && place && n.leaders <= n.size && buffer.len() >= 5 + 2 * n.size).then_some(n)
}

/// The window's numbers, where an opening and values after it can have left the buffer so.
fn kept(buffer: &[i64]) -> Option<Numbers> {
    let n = numbers(buffer)?;
    let (slots, leaders) = buffer[5..5 + 2 * n.size].split_at(n.size);
    let sound = slots.iter().all(|&v| in_range(v)) && slots[n.held..].iter().all(|&v| v == 0);
    if !sound || slots.iter().sum::<i64>() != buffer[3] || leaders[n.leaders..].iter().any(|&l| l != 0) {
        return None;
    }
    // From the newest value to the oldest: each that is greater than those after it leads.
    let mut expected = leaders[..n.leaders].iter().rev();
    let mut top = i64::MIN;
    for back in 1..=n.held {
        let slot = (n.next + n.size - back) % n.size;
        if slots[slot] > top {
            top = slots[slot];
            if expected.next() != Some(&(slot as i64)) {
                return None;
            }
        }
    }
    expected.next().is_none().then_some(n)
}

fn standing(buffer: &[i64], n: Numbers) -> Standing {
    let largest = (buffer[1] > 0).then(|| buffer[5 + buffer[5 + n.size] as usize]);
    Some((buffer[3], largest))
}

/// Opens a window.
pub fn open(size: u64, buffer: &mut [i64]) -> Standing {
    if !(1..=64).contains(&size) || buffer.len() < 5 + 2 * size as usize {
        return None;
    }
    buffer[..5 + 2 * size as usize].fill(0);
    buffer[0] = size as i64;
    Some((0, None))
}

/// Brings a value.
pub fn value(value: i64, buffer: &mut [i64]) -> Standing {
    if !in_range(value) {
        return None;
    }
    let n = kept(buffer)?;
    let (head, rest) = buffer.split_at_mut(5);
    let (slots, rest) = rest.split_at_mut(n.size);
    let leaders = &mut rest[..n.size];
    let mut count = n.leaders;
    if n.held == n.size && leaders[0] == n.next as i64 {
        leaders.copy_within(1..count, 0);
        count -= 1;
    }
    while count > 0 && slots[leaders[count - 1] as usize] <= value {
        count -= 1;
    }
    leaders[count] = n.next as i64;
    leaders[count + 1..].fill(0);
    head[1] = n.size.min(n.held + 1) as i64;
    head[2] = ((n.next + 1) % n.size) as i64;
    head[3] += value - slots[n.next];
    head[4] = count as i64 + 1;
    slots[n.next] = value;
    standing(buffer, n)
}

/// Brings a refusal: nothing changes.
pub fn refused(buffer: &[i64]) -> Standing {
    standing(buffer, kept(buffer)?)
}

#[cfg(test)]
mod tests {
    use super::*;

    #[test]
    fn the_last_three() {
        let mut buffer = [7; 12];
        assert_eq!(open(3, &mut buffer), Some((0, None)));
        for (v, total, largest) in [(5, 5, 5), (2, 7, 5), (6, 13, 6), (4, 12, 6), (1, 11, 6), (4, 9, 4)] {
            assert_eq!(value(v, &mut buffer), Some((total, Some(largest))));
            assert_eq!(refused(&buffer), Some((total, Some(largest))));
        }
        assert_eq!(buffer, [3, 3, 0, 9, 1, 4, 1, 4, 2, 0, 0, 7]);
        assert_eq!((open(65, &mut [0; 200]), open(3, &mut [0; 10]), value(1, &mut [7; 12])), (None, None, None));
    }
}
