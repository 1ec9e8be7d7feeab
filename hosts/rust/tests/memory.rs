//! State, heap and views, as Rust sees them.

mod by_name;
mod common;

use common::{folder, memory, rows};
use region_store::{Refusal, Store};
use std::thread;

/// A store of one page with an object of three numbers in slot 0.
fn begun() -> Result<Store, Refusal> {
    let mut store = Store::new(1)?;
    store.declare(&[0, 0, 0])?;
    store.push(2)?;
    store.allocate(0, 1, 1)?;
    Ok(store)
}

#[test]
fn a_view_is_the_heap_itself() -> Result<(), Refusal> {
    let mut store = begun()?;
    store.put(0, 2, 5)?;
    let part = store.view(0)?;
    let at = store.locate(0)?;
    let word = (64 * at.page + at.word) as usize;
    assert!(std::ptr::eq(part, &store.heap()[word + 1..word + 4]));
    assert_eq!(part, [0, 0, 5]);
    // Rust lets no view be held over a put, so the address is kept.
    let place = part.as_ptr();
    store.put(0, 0, 9)?;
    let part = store.view(0)?;
    assert_eq!(part.as_ptr(), place);
    assert_eq!(part, [9, 0, 5]);
    Ok(())
}

#[test]
fn what_asks_changes_nothing() -> Result<(), Refusal> {
    let store = begun()?;
    let before = memory(&store);
    let (heap, part) = (store.heap(), store.view(0)?);
    for n in 0..4 {
        let _ = (store.get(0, n), store.same(0, n), store.about(n));
        let _ = (store.report(n), store.totals(), store.locate(n));
        let _ = (store.view(n), store.audit());
        assert_eq!(memory(&store), before);
    }
    assert_eq!(heap, before.1);
    assert_eq!(part, [0, 0, 0]);
    Ok(())
}

#[test]
fn the_table_says_which_calls_only_ask() -> Result<(), Refusal> {
    let mut store = begun()?;
    store.put(0, 0, 5)?;
    for row in rows("call").iter().filter(|row| row[2] == "asks") {
        let number = row[0].parse().unwrap();
        for a in 0..3 {
            let before = memory(&store);
            by_name::by_name(&mut store, number, [a, a, 0, 0], &[]);
            store.call(number, a, a, 0, 0, &[]);
            assert_eq!(memory(&store), before, "{}", row[1]);
        }
    }
    Ok(())
}

#[test]
fn a_clone_is_a_store_of_its_own() -> Result<(), Refusal> {
    let mut store = begun()?;
    let before = memory(&store);
    let mut copy = store.clone();
    assert_eq!(memory(&copy), before);
    copy.put(0, 0, 9)?;
    copy.new_region()?;
    assert_eq!(memory(&store), before);
    store.put(0, 0, 9)?;
    store.new_region()?;
    assert_eq!(memory(&copy), memory(&store));
    Ok(())
}

#[test]
fn a_store_moves_to_another_thread() -> Result<(), Refusal> {
    let mut store = begun()?;
    let moved = thread::spawn(move || store.put(0, 0, 9).map(|()| store));
    let store = moved.join().unwrap()?;
    assert_eq!(store.get(0, 0)?, 9);
    Ok(())
}

#[test]
fn debug_is_short() -> Result<(), Refusal> {
    let told = format!("{:?}", Store::new(256)?);
    assert!(
        told.starts_with("Store { pages: 256, totals: Totals {"),
        "{told}"
    );
    assert!(told.len() < 120, "{told}");
    Ok(())
}

/// Numbers that look random, the same at each run.
fn numbers() -> impl FnMut(u32) -> u32 {
    let mut last = 0x2545_F491_4F6C_DD1D_u64;
    move |below| {
        last ^= last << 13;
        last ^= last >> 7;
        last ^= last << 17;
        ((last >> 32) % u64::from(below)) as u32
    }
}

#[test]
fn by_name_and_by_number_agree() {
    let mut next = numbers();
    let mut named = Store::new(6).unwrap();
    let mut numbered = named.clone();
    for i in 0..50_000 {
        let number = 2 + next(by_name::CALLS.len() as u32 - 1);
        let n = [next(5), next(5), next(5), next(5)];
        let list: Vec<u32> = (0..next(4)).map(|_| next(5)).collect();
        let reply = by_name::by_name(&mut named, number, n, &list);
        let mut again = numbered.call(number, n[0], n[1], n[2], n[3], &list);
        if by_name::CALLS[number as usize - 1].0 == "view" {
            again[1] = reply[1];
        }
        assert_eq!(reply, again, "call {i}, number {number}");
        if i % 1000 == 0 {
            assert_eq!(memory(&named), memory(&numbered));
        }
    }
    assert_eq!(memory(&named), memory(&numbered));
    assert!(named.audit());
    let file = folder("agree").join("store");
    named.save(&file).unwrap();
    assert_eq!(memory(&Store::from_file(&file).unwrap()), memory(&numbered));
}
