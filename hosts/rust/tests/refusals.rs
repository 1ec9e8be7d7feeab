//! Every refusal that can be had here, and that it changes nothing. 21 cannot be had: a store keeps its state and its heap together.

mod common;

use common::{folder, memory, patch, place_of_number, rows};
use region_store::{Refusal, Store};
use std::fs;

/// A store of 2 pages with kind 1 (a free pointer, a number), kind 2 (a pointer to the same region), region 2, a frame of 3 slots, and an object of kind 1 in slot 0.
fn begun() -> Store {
    let mut store = Store::new(2).unwrap();
    store.declare(&[1, 0]).unwrap();
    store.declare(&[2]).unwrap();
    store.new_region().unwrap();
    store.push(3).unwrap();
    store.allocate(0, 1, 1).unwrap();
    store
}

/// The call is refused for this reason, and has changed nothing.
fn refused<T>(
    store: &mut Store,
    why: Refusal,
    call: impl FnOnce(&mut Store) -> Result<T, Refusal>,
) {
    let before = memory(store);
    assert_eq!(call(store).err(), Some(why));
    assert_eq!(memory(store), before, "{why}");
    assert!(store.audit());
}

#[test]
fn numbers_names_and_reasons_are_those_of_the_table() {
    let table = rows("refusal");
    assert_eq!(table.len(), Refusal::ALL.len());
    for (row, refusal) in table.iter().zip(Refusal::ALL) {
        let number = row[0].parse().unwrap();
        assert_eq!(refusal.number(), number);
        assert_eq!(Refusal::from_number(number), Some(refusal));
        assert_eq!(refusal.name(), row[1]);
        assert_eq!(refusal.reason(), row[2]);
        assert_eq!(
            refusal.to_string(),
            format!("refused by {number}: {}", row[2])
        );
    }
    for number in [0, table.len() as u32 + 1, u32::MAX] {
        assert_eq!(Refusal::from_number(number), None);
    }
}

#[test]
fn heap_length() {
    for pages in [0, 257, 1 << 26, u32::MAX] {
        assert_eq!(Store::new(pages).unwrap_err(), Refusal::HeapLength);
    }
}

#[test]
fn no_region() {
    let mut store = begun();
    for name in [0, 3, u32::MAX] {
        refused(&mut store, Refusal::NoRegion, |s| s.report(name));
        refused(&mut store, Refusal::NoRegion, |s| s.subregion(name));
        refused(&mut store, Refusal::NoRegion, |s| s.allocate(1, name, 1));
        refused(&mut store, Refusal::NoRegion, |s| s.first(1, name));
        refused(&mut store, Refusal::NoRegion, |s| s.delete(name, 0));
        refused(&mut store, Refusal::NoRegion, |s| {
            s.delete_all(&[2, name], 0)
        });
    }
}

#[test]
fn permanent() {
    let mut store = begun();
    refused(&mut store, Refusal::Permanent, |s| s.delete(1, 0));
    refused(&mut store, Refusal::Permanent, |s| s.delete_all(&[2, 1], 0));
}

#[test]
fn regions_full() {
    let mut store = begun();
    while store.totals().regions < 64 {
        store.new_region().unwrap();
    }
    refused(&mut store, Refusal::RegionsFull, Store::new_region);
    refused(&mut store, Refusal::RegionsFull, |s| s.subregion(2));
}

#[test]
fn names_out() {
    let file = folder("names_out").join("store");
    begun().save(&file).unwrap();
    let mut bytes = fs::read(&file).unwrap();
    patch(&mut bytes, place_of_number("given"), 999_999);
    fs::write(&file, bytes).unwrap();
    let mut store = Store::from_file(&file).unwrap();
    assert_eq!(store.new_region(), Ok(1_000_000));
    refused(&mut store, Refusal::NamesOut, Store::new_region);
    refused(&mut store, Refusal::NamesOut, |s| s.subregion(1));
}

#[test]
fn no_frame() {
    let mut store = begun();
    refused(&mut store, Refusal::NoFrame, |s| s.fetch(0, 0));
    refused(&mut store, Refusal::NoFrame, |s| s.hand_back(0, 0, 0));
    store.drop(0).unwrap();
    refused(&mut store, Refusal::NoFrame, |s| s.drop(0));
    refused(&mut store, Refusal::NoFrame, |s| s.clear(0));
    refused(&mut store, Refusal::NoFrame, |s| {
        s.view(0).map(<[u32]>::len)
    });
}

#[test]
fn frames_full() {
    let mut store = begun();
    while store.totals().frames < 32 {
        store.push(8).unwrap();
    }
    refused(&mut store, Refusal::FramesFull, |s| s.push(1));
}

#[test]
fn slot_count() {
    for slots in [0, 9, u32::MAX] {
        refused(&mut begun(), Refusal::SlotCount, |s| s.push(slots));
    }
}

#[test]
fn no_slot() {
    let mut store = begun();
    for slot in [3, 8, u32::MAX] {
        refused(&mut store, Refusal::NoSlot, |s| s.clear(slot));
        refused(&mut store, Refusal::NoSlot, |s| s.copy(0, slot));
        refused(&mut store, Refusal::NoSlot, |s| s.same(slot, 0));
        refused(&mut store, Refusal::NoSlot, |s| s.about(slot));
        refused(&mut store, Refusal::NoSlot, |s| s.locate(slot));
        refused(&mut store, Refusal::NoSlot, |s| {
            s.view(slot).map(<[u32]>::len)
        });
    }
}

#[test]
fn kinds_full() {
    let mut store = begun();
    for kind in 3..=16 {
        assert_eq!(store.declare(&[0; 16]), Ok(kind));
    }
    refused(&mut store, Refusal::KindsFull, |s| s.declare(&[0]));
}

#[test]
fn wrong_marks() {
    let mut store = begun();
    for marks in [&[][..], &[0; 17], &[0, 5], &[u32::MAX]] {
        refused(&mut store, Refusal::WrongMarks, |s| s.declare(marks));
    }
}

#[test]
fn no_kind() {
    for kind in [0, 3, u32::MAX] {
        refused(&mut begun(), Refusal::NoKind, |s| s.allocate(1, 2, kind));
    }
}

#[test]
fn no_page() {
    let mut store = begun();
    store.allocate(1, 2, 1).unwrap();
    let third = store.new_region().unwrap();
    refused(&mut store, Refusal::NoPage, |s| s.allocate(2, third, 1));
}

#[test]
fn null_object() {
    let mut store = begun();
    refused(&mut store, Refusal::NullObject, |s| s.get(1, 0));
    refused(&mut store, Refusal::NullObject, |s| s.put(1, 0, 1));
    refused(&mut store, Refusal::NullObject, |s| s.load(1, 0, 0));
    refused(&mut store, Refusal::NullObject, |s| {
        s.set_pointer(1, 0, 0, 0)
    });
    refused(&mut store, Refusal::NullObject, |s| {
        s.view(1).map(<[u32]>::len)
    });
}

#[test]
fn no_word() {
    for word in [2, 16, u32::MAX] {
        refused(&mut begun(), Refusal::NoWord, |s| s.get(0, word));
        refused(&mut begun(), Refusal::NoWord, |s| {
            s.set_pointer(0, word, 0, 0)
        });
    }
}

#[test]
fn wrong_word() {
    let mut store = begun();
    refused(&mut store, Refusal::WrongWord, |s| s.get(0, 0));
    refused(&mut store, Refusal::WrongWord, |s| s.put(0, 0, 1));
    refused(&mut store, Refusal::WrongWord, |s| s.load(0, 1, 1));
    refused(&mut store, Refusal::WrongWord, |s| {
        s.set_pointer(0, 1, 0, 0)
    });
    refused(&mut store, Refusal::WrongWord, |s| {
        s.view(0).map(<[u32]>::len)
    });
}

#[test]
fn breaks_mark() {
    let mut store = begun();
    store.allocate(1, 2, 2).unwrap();
    refused(&mut store, Refusal::BreaksMark, |s| {
        s.set_pointer(1, 0, 0, 0)
    });
}

#[test]
fn subregion_lives() {
    let mut store = begun();
    store.subregion(2).unwrap();
    refused(&mut store, Refusal::SubregionLives, |s| s.delete(2, 0));
    refused(&mut store, Refusal::SubregionLives, |s| {
        s.delete_all(&[2], 0)
    });
}

#[test]
fn outside_pointer() {
    let mut store = begun();
    store.allocate(1, 2, 1).unwrap();
    refused(&mut store, Refusal::OutsidePointer, |s| s.delete(2, 0));
    store.set_pointer(0, 0, 1, 0).unwrap();
    store.clear(1).unwrap();
    refused(&mut store, Refusal::OutsidePointer, |s| s.delete(2, 3));
    refused(&mut store, Refusal::OutsidePointer, |s| {
        s.delete_all(&[2], 0)
    });
}

#[test]
fn too_deep() {
    let mut store = begun();
    let mut region = 2;
    for _ in 1..16 {
        region = store.subregion(region).unwrap();
    }
    refused(&mut store, Refusal::TooDeep, |s| s.subregion(region));
}

#[test]
fn wrong_names() {
    let mut store = begun();
    for names in [&[][..], &[2; 17], &[2, 2], &[9, 9]] {
        refused(&mut store, Refusal::WrongNames, |s| s.delete_all(names, 0));
    }
}

#[test]
fn no_filler() {
    let mut store = begun();
    for filler in [4, u32::MAX] {
        refused(&mut store, Refusal::NoFiller, |s| s.drop(filler));
        refused(&mut store, Refusal::NoFiller, |s| s.hand_back(0, 0, filler));
        refused(&mut store, Refusal::NoFiller, |s| {
            s.set_pointer(0, 0, 0, filler)
        });
        refused(&mut store, Refusal::NoFiller, |s| s.delete(2, filler));
        refused(&mut store, Refusal::NoFiller, |s| {
            s.delete_all(&[2], filler)
        });
    }
}

#[test]
fn no_call() {
    let mut store = begun();
    let before = memory(&store);
    let past = rows("call").len() as u32 + 1;
    for number in [0, 1, past, u32::MAX] {
        let reply = store.call(number, 0, 0, 0, 0, &[1]);
        assert_eq!(reply, [Refusal::NoCall.number(), 0, 0, 0, 0]);
        assert_eq!(memory(&store), before);
    }
}
