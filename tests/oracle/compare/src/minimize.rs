//! Makes a failing list small: leaves out as many events as it can while it still fails.

use std::cell::Cell;

use lists::{Item, List};

/// Tries after which the list found so far has to do.
const TRIES: u32 = 1_500;

/// The shortest list found of which `fails` still holds.
pub fn minimize(list: &List, fails: impl Fn(&List) -> bool) -> List {
    let with = |items: &[Item]| List { setting: list.setting, items: items.to_vec() };
    with(&shorten(&list.items, |items| fails(&with(items))))
}

/// The fewest items found of which `fails` still holds, parts being left out from large to small.
pub fn shorten<T: Clone>(items: &[T], fails: impl Fn(&[T]) -> bool) -> Vec<T> {
    let tries = Cell::new(0);
    let fails = |items: &[T]| {
        tries.set(tries.get() + 1);
        tries.get() <= TRIES && fails(items)
    };
    let mut few = items.to_vec();
    let mut part = few.len().div_ceil(2);
    loop {
        let before = few.len();
        let mut start = 0;
        while start < few.len() {
            let end = few.len().min(start + part);
            let fewer = [&few[..start], &few[end..]].concat();
            if fails(&fewer) { few = fewer } else { start += part }
        }
        if part <= 1 && few.len() == before {
            return few;
        }
        part = part.div_ceil(2);
    }
}

#[cfg(test)]
mod tests {
    use super::*;

    #[test]
    fn two_events_that_fail_together_are_left() {
        let items = (0..50).map(|n| Item { record: vec![n], answer_buffer: 1_024 }).collect();
        let fails = |list: &List| [7, 31].iter().all(|&n| list.items.iter().any(|item| item.record == [n]));
        let small = minimize(&List { setting: 1, items }, fails);
        let left: Vec<u8> = small.items.iter().map(|item| item.record[0]).collect();
        assert_eq!(left, [7, 31]);
    }
}
