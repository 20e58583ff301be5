// SPDX-License-Identifier: Apache-2.0
//! Children as they arrive.

use std::collections::BTreeMap;

use tariff_merge::raw::{self, AddedChild, NarrowedList};
use tariff_merge::{Monomial, TooLarge, Unadded};

fn terms(monomial: &Monomial) -> Vec<(u16, u64)> {
    monomial.iter().collect()
}

/// Document 01: "children 4:1, 2:3, 4:2 give 2:3, 4:3", child by child.
#[test]
fn child_by_child() {
    let mut held = Monomial::new();
    assert!(held.is_empty());
    held.add(4, 1).unwrap();
    assert_eq!(terms(&held), [(4, 1)]);
    held.add(2, 3).unwrap();
    assert_eq!(terms(&held), [(2, 3), (4, 1)]);
    held.add(4, 2).unwrap();
    assert_eq!(terms(&held), [(2, 3), (4, 3)]);
    assert_eq!((held.len(), held.total()), (2, 6));
    assert_eq!(format!("{held:?}"), "{2: 3, 4: 3}");
}

#[test]
fn full() {
    let mut held = Monomial::default();
    for class in (0..65).rev() {
        held.add(1000 * class, 1).unwrap();
    }
    let before = held.clone();
    for class in [1, 999, 32_500, 64_001, u16::MAX] {
        assert_eq!(held.add(class, 1), Err(Unadded::Full));
        assert_eq!(held, before);
    }
    held.add(64_000, 2).unwrap();
    assert_ne!(held, before);
    assert_eq!(terms(&held).last(), Some(&(64_000, 3)));
    assert_eq!((held.len(), Monomial::CAPACITY), (65, 65));
    assert!(Unadded::Full.to_string().contains("65 classes"));
}

#[test]
fn overflow() {
    let mut held = Monomial::new();
    held.add(7, u64::MAX).unwrap();
    held.add(6, u64::MAX).unwrap();
    let before = held.clone();
    assert_eq!(held.add(7, 1), Err(Unadded::Overflow));
    assert_eq!(held, before);
    held.add(7, 0).unwrap();
    assert_eq!(held, before);
    assert_eq!(held.total(), 2 * u128::from(u64::MAX));
    assert_eq!(held.iter().len(), 2);
    assert!(
        Unadded::Overflow
            .to_string()
            .contains("18,446,744,073,709,551,615")
    );
}

/// The same children in any order make the same list.
#[test]
fn any_order() {
    let children = [(3, 1), (1, 4), (4, 1), (1, 5), (9, 2), (2, 6), (3, 5)];
    let mut sums = BTreeMap::new();
    let mut there = Monomial::new();
    let mut back = Monomial::new();
    for (class, count) in children {
        *sums.entry(class).or_insert(0) += count;
        there.add(class, count).unwrap();
    }
    for (class, count) in children.into_iter().rev() {
        back.add(class, count).unwrap();
    }
    assert_eq!(there, back);
    assert!(there.into_iter().eq(sums));
}

/// Lists of any length, and a number of terms that a list has not.
#[test]
fn any_slice() {
    let full = |terms| AddedChild { number: 1, terms };
    assert_eq!(raw::add_child(&mut [], 0, 1, 1), full(0));
    assert_eq!(raw::add_child(&mut [8], 0, 1, 1), full(0));
    let mut odd = [3, 1, 8];
    assert_eq!(raw::add_child(&mut odd, usize::MAX, 3, 1), full(usize::MAX));
    assert_eq!(raw::add_child(&mut odd, 2, 3, 1), full(2));
    assert_eq!(odd, [3, 1, 8]);
    let added = raw::add_child(&mut odd, 1, 3, 1);
    assert_eq!((added.number, added.terms, odd), (0, 1, [3, 2, 8]));
}

const MOST: u64 = 4_294_967_295;

/// (02, Paper 7) Narrowing says "at which entry (from 0) first" it fails, child by child.
#[test]
fn narrow_child_by_child() {
    let failed = |entry| Err(TooLarge { entry });
    let mut held = Monomial::new();
    assert_eq!(held.narrow(), Ok(()));
    held.add(4, MOST).unwrap();
    assert_eq!(held.narrow(), Ok(()));
    held.add(4, 1).unwrap();
    assert_eq!(held.narrow(), failed(0));
    held.add(2, MOST - 1).unwrap();
    assert_eq!(held.narrow(), failed(1));
    held.add(9, u64::MAX).unwrap();
    assert_eq!(held.narrow(), failed(1));
    held.add(2, 1).unwrap();
    assert_eq!(held.narrow(), failed(1));
    held.add(2, 1).unwrap();
    assert_eq!(held.narrow(), failed(0));
    assert_eq!(terms(&held), [(2, MOST + 1), (4, MOST + 1), (9, u64::MAX)]);
    assert_eq!(held.add(9, 1), Err(Unadded::Overflow));
    assert_eq!(held.narrow(), failed(0));
}

#[test]
fn narrow_a_full_list() {
    let mut held = Monomial::new();
    for class in 0..65 {
        held.add(1000 * class, MOST).unwrap();
    }
    assert_eq!(held.narrow(), Ok(()));
    for entry in (0..65).rev() {
        held.add(1000 * entry, 1).unwrap();
        let entry = usize::from(entry);
        assert_eq!(held.narrow(), Err(TooLarge { entry }));
        assert_eq!(held.iter().nth(entry).unwrap().1, MOST + 1);
    }
    let said = TooLarge { entry: 64 }.to_string();
    assert!(said.contains("entry 64") && said.contains("4,294,967,295"));
}

/// Lists of any length, and a number of terms that a list has not.
#[test]
fn narrow_any_slice() {
    let fits = NarrowedList {
        number: 0,
        entry: 0,
    };
    let fails = |entry| NarrowedList { number: 1, entry };
    let list = [2, MOST, 4, MOST + 1, 5, u64::MAX, u64::MAX];
    assert_eq!(raw::narrow(&list, 1), fits);
    assert_eq!(raw::narrow(&list, 2), fails(1));
    assert_eq!(raw::narrow(&list, 3), fails(1));
    assert_eq!(raw::narrow(&list[2..], 2), fails(0));
    assert_eq!(raw::narrow(&list[2..], 0), fits);
    for terms in [0, 1, 2, usize::MAX] {
        assert_eq!(raw::narrow(&[], terms), fits);
        assert_eq!(raw::narrow(&[u64::MAX], terms), fits);
        assert_eq!(raw::narrow(&list[..3], terms), fits);
        assert_eq!(raw::narrow(&[MOST + 1, MOST], terms), fits);
    }
    assert_eq!(raw::narrow(&list, usize::MAX), fails(1));
    assert_eq!(raw::narrow(&list[4..], usize::MAX), fails(0));
}
