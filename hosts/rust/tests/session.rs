//! The session of 16 calls, by method, against the lines that the repository's own program prints.

mod by_name;

use by_name::{accepted, answer};
use region_store::{Refusal, Store};

const EXPECTED: &str = include_str!("../../../crates/session/stdout");

#[test]
fn the_session_prints_its_lines() -> Result<(), Refusal> {
    let mut store = Store::new(2)?;
    let replies = [
        accepted(()),
        answer(store.declare(&[1, 0])),
        answer(store.push(2)),
        answer(store.new_region()),
        answer(store.allocate(0, 1, 1)),
        answer(store.allocate(1, 2, 1)),
        answer(store.set_pointer(0, 0, 1, 0)),
        answer(store.report(2)),
        answer(store.clear(1)),
        answer(store.delete(2, 0)),
        answer(store.set_pointer(0, 0, 1, 0)),
        answer(store.delete(2, 0)),
        answer(store.new_region()),
        answer(store.report(2)),
        answer(store.allocate(1, 3, 1)),
        answer(store.drop(0)),
    ];
    let mut lines = String::new();
    for (place, [refusal, a, b, c, d]) in (1..).zip(replies) {
        lines += &format!("{place} {refusal} {a} {b} {c} {d}\n");
    }
    assert_eq!(lines, EXPECTED);
    assert!(store.audit());
    Ok(())
}
