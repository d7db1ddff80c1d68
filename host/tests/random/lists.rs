//! Random gather lists.

use super::{block, size, Numbers};
use crate::common::{Both, List};
use slotpool_reference::{ENTRIES, TOO_LARGE};

/// A cap: small, or the size of a live block, or any.
fn cap(numbers: &mut Numbers, both: &Both) -> usize {
    match numbers.below(8) {
        0 => size(numbers, both.first.arena.len()).clamp(1, TOO_LARGE - 1),
        1..=2 => block(numbers, both).map_or(1, |b| b.1),
        3..=4 => 1 + numbers.below(12),
        _ => 1 + numbers.below(300),
    }
}

/// A list that is accepted: none to 17 sizes, any up to the cap or, as the planner has it, full caps and then the rest; 17 to 40 places.
fn accepted(numbers: &mut Numbers, both: &Both) -> List {
    let cap = cap(numbers, both);
    let count = numbers.below(ENTRIES + 1);
    let full = if numbers.one_in(2) { count.saturating_sub(1) } else { 0 };
    let sizes: Vec<usize> = (0..count).map(|i| if i < full { cap } else { 1 + numbers.below(cap) }).collect();
    List::new(sizes.iter().sum(), cap, &sizes, ENTRIES + numbers.below(both.lent[0].len() - ENTRIES + 1))
}

/// Puts sizes somewhere into a proposal, as far as it takes them.
fn put(numbers: &mut Numbers, sizes: &mut Vec<usize>, more: &[usize]) {
    for &n in more {
        sizes.insert(numbers.below(sizes.len() + 1), n);
    }
    sizes.truncate(List::MOST);
}

/// A list with one thing made wrong, each in its way; some leave the length what the sizes add up to.
fn spoiled(numbers: &mut Numbers, list: &List) -> List {
    let List { mut length, mut cap, mut places, .. } = *list;
    let mut sizes = list.sizes().to_vec();
    let most = ENTRIES.saturating_mul(cap);
    match numbers.below(8) {
        0 => places = numbers.below(ENTRIES),
        1 => cap = numbers.of(&[0, TOO_LARGE, TOO_LARGE + 1, usize::MAX]),
        2 => length = numbers.of(&[most.saturating_add(1), most.saturating_add(cap), usize::MAX]),
        3 => {
            let more = (ENTRIES + 1 + numbers.below(3)).saturating_sub(sizes.len());
            put(numbers, &mut sizes, &vec![1; more]);
            length = length.wrapping_add(more);
        }
        4 => put(numbers, &mut sizes, &[0]),
        5 => {
            put(numbers, &mut sizes, &[cap.wrapping_add(1)]);
            length = length.wrapping_add(cap).wrapping_add(1);
        }
        6 => {
            let n = 1 + numbers.below(1000);
            let wraps = numbers.of(&[[n, n.wrapping_neg()], [1 << (usize::BITS - 1); 2]]);
            put(numbers, &mut sizes, &wraps);
        }
        _ => {
            let any = numbers.below(most.max(1));
            length = numbers.of(&[length.wrapping_sub(1), length.wrapping_add(1), any]);
        }
    }
    List::new(length, cap, &sizes, places)
}

/// A list that is accepted or, as often, one with up to three things wrong.
pub fn list(numbers: &mut Numbers, both: &Both) -> List {
    let mut list = accepted(numbers, both);
    for _ in 0..numbers.of(&[0, 0, 0, 0, 1, 1, 2, 3]) {
        list = spoiled(numbers, &list);
    }
    list
}

/// What is wrong with a list, if anything is: the first of these, in the order of the answers.
pub fn fault(list: &List) -> Option<&'static str> {
    let (length, cap, sizes) = (list.length, list.cap, list.sizes());
    let sum = sizes.iter().fold(0, |sum: usize, &n| sum.wrapping_add(n));
    let wraps = sizes.iter().try_fold(0, |sum: usize, &n| sum.checked_add(n)).is_none();
    let faults = [
        (list.places < ENTRIES, "few places"),
        (cap == 0 || cap >= TOO_LARGE, "the cap"),
        (length > ENTRIES.saturating_mul(cap), "the length"),
        (sizes.len() > ENTRIES, "many sizes"),
        (sizes.contains(&0), "a size of 0"),
        (wraps && sum == length, "a sum that wraps"),
        (sizes.iter().any(|&n| n > cap), "a size over the cap"),
        (sum != length, "another sum"),
    ];
    faults.iter().find(|(is_so, _)| *is_so).map(|(_, what)| *what)
}
