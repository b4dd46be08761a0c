//! A chronology beside a model of it, and each refusal that it can give.

use knobstream::{AnyDated, Chronology, Entry, TypeErrorKind};
use std::collections::BTreeSet;
use std::ops::RangeInclusive;
use TypeErrorKind::*;

fn entry(days: RangeInclusive<i32>, id: u32) -> Entry {
    Entry { first: *days.start(), last: *days.end(), id }
}

/// 512 entries, the last of which is first in the list.
fn full() -> Chronology {
    let mut c = Chronology::new();
    for id in 0..512 {
        assert_eq!(c.add(-(id as i32)..=9, id), Ok(id as usize + 1));
    }
    c
}

/// The call is refused so, with no place, and changes nothing.
fn refuses<R: std::fmt::Debug>(
    c: &mut Chronology,
    call: impl Fn(&mut Chronology) -> Result<R, knobstream::TypeError>,
    kind: TypeErrorKind,
) {
    let before = c.clone();
    let error = call(c).unwrap_err();
    assert_eq!((error.kind, error.span), (kind, 0..0));
    assert_eq!(*c, before);
}

#[test]
fn an_empty_one() {
    let c = Chronology::default();
    assert!(c.is_empty() && c.iter().next().is_none());
    assert_eq!(c.any_dated(Chronology::DAYS), Ok(AnyDated { found: false, read: 0 }));
    assert_eq!(c.list(&mut []).unwrap(), []);
    assert_eq!(format!("{c:?}"), "[]");
}

#[test]
fn bad_periods() {
    let (first, last) = Chronology::DAYS.into_inner();
    let mut c = Chronology::new();
    assert_eq!(c.add(first..=last, 7), Ok(1));
    let mut used_up = 10..=20;
    used_up.by_ref().for_each(drop);
    #[allow(clippy::reversed_empty_ranges)]
    for days in [1..=0, first - 1..=0, 0..=last + 1, i32::MIN..=i32::MAX, last..=first, used_up] {
        // before the identifier is looked at
        refuses(&mut c, |c| c.add(days.clone(), 7), BadPeriod);
        refuses(&mut c, |c| c.any_dated(days.clone()), BadPeriod);
    }
}

#[test]
fn identifiers() {
    let mut c = Chronology::new();
    for id in [u32::MAX, 0, 16764928, 33529856] {
        refuses(&mut c, |c| c.remove(id), UnknownEntry);
        c.add(3..=4, id).unwrap();
        refuses(&mut c, |c| c.add(1..=2, id), DuplicateEntry);
    }
    assert_eq!(c.iter().map(|e| e.id).collect::<Vec<_>>(), [0, 16764928, 33529856, u32::MAX]);
    assert_eq!(c.remove(16764928), Ok(3));
    refuses(&mut c, |c| c.remove(16764928), UnknownEntry);
}

#[test]
fn a_full_one() {
    let mut c = full();
    refuses(&mut c, |c| c.add(0..=0, 512), ChronologyFull);
    // an identifier that is there is refused first
    refuses(&mut c, |c| c.add(0..=0, 5), DuplicateEntry);
    assert_eq!(c.iter().next(), Some(entry(-511..=9, 511)));
    assert_eq!(c.any_dated(10..=10), Ok(AnyDated { found: false, read: 512 }));
    assert_eq!(c.remove(5), Ok(511));
    assert_eq!(c.add(0..=0, 512), Ok(512));
}

#[test]
fn lists() {
    let mut c = full();
    let mut out = [7; Chronology::LIST_ROOM];
    refuses(&mut c, |c| c.list(&mut [0; Chronology::LIST_ROOM - 1]).map(|_| ()), NoRoom);
    let numbers = |e: Entry| [e.first.into(), e.last.into(), e.id.into()];
    assert_eq!(c.list(&mut out).unwrap(), c.iter().flat_map(numbers).collect::<Vec<i64>>());
    let mut c = Chronology::new();
    c.add(-5..=-1, u32::MAX).unwrap();
    out = [7; Chronology::LIST_ROOM];
    assert_eq!(c.list(&mut out).unwrap(), [-5, -1, 4294967295]);
    assert_eq!(out[3], 7);
    assert_eq!(format!("{c:?}"), "[Entry { first: -5, last: -1, id: 4294967295 }]");
}

#[test]
fn a_clone_is_another() {
    let mut c = full();
    let before = c.clone();
    c.remove(3).unwrap();
    assert_eq!(before.len(), 512);
    assert_ne!(c, before);
    // what stands behind the entries does not count
    c.add(-3..=9, 3).unwrap();
    assert_eq!(c, before);
}

/// What a reading of all entries says, and how far a walk comes.
fn asked(model: &BTreeSet<Entry>, first: i32, last: i32) -> AnyDated {
    let touches = |e: &Entry| e.first <= last && first <= e.last;
    let stop = model.iter().position(|e| touches(e) || last < e.first);
    AnyDated { found: model.iter().any(touches), read: stop.map_or(model.len(), |i| i + 1) }
}

#[test]
fn as_a_set_of_entries() {
    let mut seed = 7_u64;
    let mut next = |n: u64| {
        seed = seed.wrapping_mul(6364136223846793005).wrapping_add(1442695040888963407);
        (seed >> 33) % n
    };
    // few identifiers and days, so that they meet; then many; then enough to be full
    for (ids, days, adds) in [(20, 12, 5), (600, 400, 6), (1 << 32, 7_000_000, 7), (700, 30, 9)] {
        let (mut c, mut model) = (Chronology::new(), BTreeSet::<Entry>::new());
        for _ in 0..4000 {
            let id = next(ids) as u32;
            let first = next(days) as i32 - days as i32 / 2;
            let last = first + next(days) as i32 / 8 - 1;
            let good = Chronology::DAYS.contains(&first)
                && Chronology::DAYS.contains(&last)
                && first <= last;
            let live = model.iter().copied().find(|e| e.id == id);
            if next(10) < adds {
                let expected = if !good {
                    Err(BadPeriod)
                } else if live.is_some() {
                    Err(DuplicateEntry)
                } else if model.len() == Chronology::ENTRIES {
                    Err(ChronologyFull)
                } else {
                    model.insert(entry(first..=last, id));
                    Ok(model.len())
                };
                assert_eq!(c.add(first..=last, id).map_err(|e| e.kind), expected);
            } else {
                let expected = match live {
                    Some(e) => {
                        model.remove(&e);
                        Ok(model.len())
                    }
                    None => Err(UnknownEntry),
                };
                assert_eq!(c.remove(id).map_err(|e| e.kind), expected);
            }
            let expected = if good { Ok(asked(&model, first, last)) } else { Err(BadPeriod) };
            assert_eq!(c.any_dated(first..=last).map_err(|e| e.kind), expected);
            assert_eq!(c.len(), model.len());
            assert!(c.iter().eq(model.iter().copied()));
        }
    }
}
