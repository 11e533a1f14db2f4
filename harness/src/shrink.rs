//! Makes an input that shows a difference smaller for as long as it still shows one.

use crate::input::{counted, Input};
use crate::report::Difference;

/// The difference that the smallest input shows, found by leaving out rows and entries and by lowering words.
///
/// The changes are gone through in rounds, each going on where the last one that helped stood, until a round helps nothing.
pub fn smallest(mut input: Input, mut difference: impl FnMut(&Input) -> Option<Difference>) -> Option<Difference> {
    let mut shown = difference(&input)?;
    let (mut tried, mut helped) = (0, false);
    loop {
        match next_smaller(&input, tried, &mut difference) {
            Some((place, candidate, found)) => {
                (input, shown) = (candidate, found);
                (tried, helped) = (place, true);
            }
            None if helped => (tried, helped) = (0, false),
            None => return Some(shown),
        }
    }
}

/// The first change from a place on that leaves a difference: its place, the smaller input and the difference.
fn next_smaller(
    input: &Input,
    from: usize,
    mut difference: impl FnMut(&Input) -> Option<Difference>,
) -> Option<(usize, Input, Difference)> {
    let changes = fewer_rows(input).chain(fewer_entries(input)).chain(lower_words(input)).chain(less_pool(input));
    changes.enumerate().skip(from).find_map(|(place, change)| {
        let mut candidate = input.clone();
        change.apply(&mut candidate);
        difference(&candidate).map(|found| (place, candidate, found))
    })
}

/// One way to make an input smaller.
enum Change {
    DropRows { from: usize, count: usize },
    DropEntries { row: usize, from: usize, count: usize },
    Word { row: usize, place: usize, value: u32 },
    Pool { length: usize },
    Byte { place: usize },
}

impl Change {
    fn apply(&self, input: &mut Input) {
        match *self {
            Change::DropRows { from, count } => drop(input.rows.drain(from..from + count)),
            Change::DropEntries { row, from, count } => drop_entries(&mut input.rows[row], from, count),
            Change::Word { row, place, value } => input.rows[row][place] = value,
            Change::Pool { length } => input.pool.truncate(length),
            Change::Byte { place } => input.pool[place] = b'a',
        }
    }
}

/// Takes entries out of a counted row, and lowers its count.
fn drop_entries(row: &mut Vec<u32>, from: usize, count: usize) {
    if let Some((place, width)) = counted(row[0]) {
        row[place] -= count as u32;
        let start = place + 1 + from * width;
        row.drain(start..start + count * width);
    }
}

/// Runs of a half, a quarter and so on down to one of `n` things: (from, count).
fn runs(n: usize) -> impl Iterator<Item = (usize, usize)> {
    let sizes = std::iter::successors(Some(n.div_ceil(2)), |size| (*size > 1).then_some(size / 2)).filter(|size| *size > 0);
    sizes.flat_map(move |size| (0..n / size).map(move |run| (run * size, size)))
}

/// Fewer rows, but never none: an empty section is another matter.
fn fewer_rows(input: &Input) -> impl Iterator<Item = Change> {
    let n = input.rows.len();
    runs(n).filter(move |(_, count)| *count < n).map(|(from, count)| Change::DropRows { from, count })
}

/// Fewer entries in a row. The count is believed only where the row is that long.
fn fewer_entries(input: &Input) -> impl Iterator<Item = Change> + '_ {
    input.rows.iter().enumerate().flat_map(|(row, words)| {
        let entries = counted(words[0]).and_then(|(place, width)| {
            let n = *words.get(place)? as usize;
            (words.len() > place + n * width).then_some(n)
        });
        runs(entries.unwrap_or(0)).map(move |(from, count)| Change::DropEntries { row, from, count })
    })
}

/// Words made 0, or less by a power of two. The kind stays, and so does a count.
fn lower_words(input: &Input) -> impl Iterator<Item = Change> + '_ {
    input.rows.iter().enumerate().flat_map(|(row, words)| {
        let count = counted(words[0]).map_or(0, |(place, _)| place);
        let places = (1..words.len()).filter(move |place| *place != count);
        places.flat_map(move |place| lower(words[place]).map(move |value| Change::Word { row, place, value }))
    })
}

/// Zero, then what is left when a power of two is taken away, the greatest first.
fn lower(word: u32) -> impl Iterator<Item = u32> {
    let zero = (word > 0).then_some(0);
    zero.into_iter().chain((0..32).rev().filter_map(move |power| word.checked_sub(1 << power)).filter(|left| *left > 0))
}

/// A shorter pool, and plainer bytes in it.
fn less_pool(input: &Input) -> impl Iterator<Item = Change> + '_ {
    let n = input.pool.len();
    let shorter = [n / 2, n.saturating_sub(1)].into_iter().filter(move |length| *length < n);
    let plainer = (0..n).filter(|place| input.pool[*place] != b'a');
    shorter.map(|length| Change::Pool { length }).chain(plainer.map(|place| Change::Byte { place }))
}

#[cfg(test)]
mod tests {
    use super::*;

    /// A made-up fault: some tuple names an index of 8192 or more.
    fn high_index(input: &Input) -> Option<Difference> {
        let high = input.rows.iter().any(|row| row[0] == 6 && row[2..].chunks(2).any(|value| value[0] == 1 && value[1] >= 8192));
        high.then(|| Difference { what: String::new(), input: input.shown(), library: String::new(), other: String::new() })
    }

    #[test]
    fn finds_the_smallest_input() {
        let rows = vec![vec![3, 1, 9000], vec![6, 3, 1, 5, 1, 70_000, 0, 12], vec![0, 3], vec![6, 1, 1, 8192]];
        let found = smallest(Input { family: 7, rows, pool: b"name".to_vec() }, high_index).expect("a difference");
        assert_eq!(found.input, "section 7, 1 rows: [6 1 1 8192]; pool: nothing");
    }

    #[test]
    fn no_difference_is_none() {
        assert!(smallest(Input { family: 7, rows: vec![vec![6, 0]], pool: vec![] }, high_index).is_none());
    }
}
