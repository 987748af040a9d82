//! A smaller input that still shows what a large one showed.

/// Takes bytes away, makes them 0, and lowers a count together with taking away what it counted,
/// for as long as `shows` holds of what is left.
pub fn smallest(input: &[u8], shows: impl Fn(&[u8]) -> bool) -> Vec<u8> {
    let mut best = input.to_vec();
    let mut tries = TRIES;
    loop {
        let before = best.clone();
        without_pieces(&mut best, &shows);
        zeroed(&mut best, &shows);
        if best == before && !without_counted(&mut best, &shows, &mut tries) {
            return best;
        }
    }
}

/// How many counted pieces are tried, so that a long input does not take for ever.
const TRIES: usize = 400_000;

/// The longest counted piece that is tried.
const PIECE: usize = 40;

/// By how much a count, or a map of bits, is lowered.
const LOWER: [u8; 3] = [1, 2, 4];

/// Lowers bytes and takes out pieces behind them, wherever such a pair can go.
fn without_counted(best: &mut Vec<u8>, shows: &impl Fn(&[u8]) -> bool, tries: &mut usize) -> bool {
    let before = best.len();
    let mut at = 0;
    while at < best.len() {
        if !LOWER.iter().any(|by| lower_at(best, at, *by, shows, tries)) {
            at += 1;
        }
    }
    best.len() < before
}

/// Lowers one byte and takes out a piece behind it, where some piece can go.
fn lower_at(
    best: &mut Vec<u8>,
    count_at: usize,
    by: u8,
    shows: &impl Fn(&[u8]) -> bool,
    tries: &mut usize,
) -> bool {
    let Some(lower) = best[count_at].checked_sub(by) else {
        return false;
    };
    for at in count_at + 1..best.len() {
        for length in 1..=PIECE.min(best.len() - at) {
            if *tries == 0 {
                return false;
            }
            *tries -= 1;
            let mut tried = [&best[..at], &best[at + length..]].concat();
            tried[count_at] = lower;
            if shows(&tried) {
                *best = tried;
                return true;
            }
        }
    }
    false
}

/// Takes out pieces, from half of the input down to single bytes.
fn without_pieces(best: &mut Vec<u8>, shows: &impl Fn(&[u8]) -> bool) {
    let mut length = best.len().div_ceil(2);
    while length > 0 {
        let mut at = best.len().saturating_sub(length);
        loop {
            let end = (at + length).min(best.len());
            let tried = [&best[..at], &best[end..]].concat();
            if tried.len() < best.len() && shows(&tried) {
                *best = tried;
            }
            if at == 0 {
                break;
            }
            at = at.saturating_sub(length).min(best.len());
        }
        length /= 2;
    }
}

/// Makes single bytes 0.
fn zeroed(best: &mut [u8], shows: &impl Fn(&[u8]) -> bool) {
    for at in 0..best.len() {
        let byte = std::mem::replace(&mut best[at], 0);
        if byte != 0 && !shows(best) {
            best[at] = byte;
        }
    }
}

#[cfg(test)]
mod tests {
    use super::*;

    #[test]
    fn what_does_not_matter_goes() {
        let input: Vec<u8> = (0..200).collect();
        let small = smallest(&input, |bytes| bytes.contains(&77) && bytes.len() >= 3);
        assert_eq!(small.len(), 3);
        assert_eq!(small.iter().filter(|b| **b != 0).collect::<Vec<_>>(), [&77]);
    }

    /// A list that its count must fit shrinks with its count.
    #[test]
    fn a_count_goes_down_with_what_it_counts() {
        let fits = |bytes: &[u8]| {
            bytes.split_first().is_some_and(|(n, list)| *n > 0 && list.len() == usize::from(*n))
        };
        assert_eq!(smallest(&[5, 9, 9, 9, 9, 9], fits), [1, 0]);
    }

    #[test]
    fn nothing_left_where_nothing_is_needed() {
        assert_eq!(smallest(&[1, 2, 3], |_| true), []);
    }
}
