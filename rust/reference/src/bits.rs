//! Ranges of bits in a map of 64-bit words, handled a word at a time.
//!
//! Bit i is bit i mod 64 of word i / 64, lowest first. A range is `from..to`; it must lie within the
//! map, and an empty one touches nothing.

use std::ops::Range;

/// A non-empty range of bits, cut where the words meet: a mask for the first word, whole words, a
/// mask for the last one. A range within one word has all its bits in `head`; its `tail` is zero,
/// so that the operations below need no case for it.
struct Cut {
    first: usize,
    head: u64,
    whole: Range<usize>,
    last: usize,
    tail: u64,
}

fn cut(from: usize, to: usize) -> Option<Cut> {
    if from >= to {
        return None;
    }
    let first = from / 64;
    let last = (to - 1) / 64;
    let head = u64::MAX << (from % 64);
    let tail = u64::MAX >> (63 - (to - 1) % 64);
    Some(if first == last {
        Cut {
            first,
            head: head & tail,
            whole: first..first,
            last,
            tail: 0,
        }
    } else {
        Cut {
            first,
            head,
            whole: first + 1..last,
            last,
            tail,
        }
    })
}

/// Clears every bit of the range.
pub fn clear(map: &mut [u64], from: usize, to: usize) {
    if let Some(cut) = cut(from, to) {
        map[cut.first] &= !cut.head;
        map[cut.whole].fill(0);
        map[cut.last] &= !cut.tail;
    }
}

/// Sets every bit of the range.
pub fn mark(map: &mut [u64], from: usize, to: usize) {
    if let Some(cut) = cut(from, to) {
        map[cut.first] |= cut.head;
        map[cut.whole].fill(u64::MAX);
        map[cut.last] |= cut.tail;
    }
}

/// Whether any bit of the range is set.
pub fn any(map: &[u64], from: usize, to: usize) -> bool {
    cut(from, to).is_some_and(|cut| {
        map[cut.first] & cut.head != 0
            || map[cut.last] & cut.tail != 0
            || map[cut.whole].iter().any(|word| *word != 0)
    })
}

/// Whether every bit of the range is set.
pub fn all(map: &[u64], from: usize, to: usize) -> bool {
    cut(from, to).is_none_or(|cut| {
        // The end is looked at first: segments mostly arrive in order, so that is what is missing.
        map[cut.last] & cut.tail == cut.tail
            && map[cut.first] & cut.head == cut.head
            && map[cut.whole].iter().all(|word| *word == u64::MAX)
    })
}

/// The number of set bits in the range.
pub fn count(map: &[u64], from: usize, to: usize) -> usize {
    cut(from, to).map_or(0, |cut| {
        let whole: u32 = map[cut.whole].iter().map(|word| word.count_ones()).sum();
        let head = (map[cut.first] & cut.head).count_ones();
        let tail = (map[cut.last] & cut.tail).count_ones();
        (head + whole + tail) as usize
    })
}

/// The place of the lowest clear bit of the range, `to` if there is none.
pub fn first_clear(map: &[u64], from: usize, to: usize) -> usize {
    let Some(cut) = cut(from, to) else {
        return to;
    };
    let lowest = |word: usize, clear: u64| word * 64 + clear.trailing_zeros() as usize;

    let clear = !map[cut.first] & cut.head;
    if clear != 0 {
        return lowest(cut.first, clear);
    }
    for word in cut.whole {
        if map[word] != u64::MAX {
            return lowest(word, !map[word]);
        }
    }
    let clear = !map[cut.last] & cut.tail;
    if clear != 0 {
        return lowest(cut.last, clear);
    }
    to
}

#[cfg(test)]
mod tests {
    use super::*;

    fn bit(map: &[u64], i: usize) -> bool {
        map[i / 64] >> (i % 64) & 1 == 1
    }

    /// Every range of a four-word map, against the same done bit by bit.
    #[test]
    fn ranges_by_word_equal_ranges_by_bit() {
        let maps = [
            [0; 4],
            [u64::MAX; 4],
            [0x8000_0000_0000_0001, u64::MAX, 0, 0xF0F0_1234_8765_0F0F],
            [u64::MAX, u64::MAX, !(1 << 17), u64::MAX],
        ];
        for map in maps {
            for from in 0..=256 {
                for to in from..=256 {
                    let set = (from..to).filter(|i| bit(&map, *i)).count();
                    assert_eq!(count(&map, from, to), set);
                    assert_eq!(any(&map, from, to), set > 0);
                    assert_eq!(all(&map, from, to), set == to - from);
                    let missing = (from..to).find(|i| !bit(&map, *i)).unwrap_or(to);
                    assert_eq!(first_clear(&map, from, to), missing);

                    let mut by_word = map;
                    mark(&mut by_word, from, to);
                    let mut by_bit = map;
                    (from..to).for_each(|i| by_bit[i / 64] |= 1 << (i % 64));
                    assert_eq!(by_word, by_bit);

                    let mut by_word = map;
                    clear(&mut by_word, from, to);
                    let mut by_bit = map;
                    (from..to).for_each(|i| by_bit[i / 64] &= !(1 << (i % 64)));
                    assert_eq!(by_word, by_bit);
                }
            }
        }
    }

    #[test]
    fn an_empty_range_needs_no_word() {
        let mut map: [u64; 0] = [];
        mark(&mut map, 0, 0);
        clear(&mut map, 0, 0);
        assert!(!any(&map, 0, 0));
        assert!(all(&map, 0, 0));
        assert_eq!(count(&map, 0, 0), 0);
        assert_eq!(first_clear(&map, 0, 0), 0);
    }
}
