//! What a call costs from Rust.
//!
//!     cost            for each call a line `NAME NS`, nanoseconds of processor time for one, the least of five rounds
//!     cost NAME N     makes it N times and prints nothing, for a program that counts instructions: those of 2 N less those of N
//!
//! The stores and the names are those of bench/bench.c. What uses its store up can be made once, and is not timed; there is room for some 5,000 of allocate.

use region_store::{Refusal, Store};
use std::ffi::c_long;
use std::hint::black_box;
use std::process::ExitCode;

const ROUNDS: u32 = 5;

/// Kinds by their numbers, and their marks.
const PAIR: u32 = 1;
const POINTER: u32 = 2;
const DATA: u32 = 3;
const POINTERS: u32 = 4;
const LINK: u32 = 6;
const KINDS: [&[u32]; 5] = [&[1, 0], &[1], &[0, 0, 0], &[1, 1, 1], &[3]];

extern "C" {
    /// The processor time of the program, in millionths of a second: C's own clock, since Rust's library has none.
    fn clock() -> c_long;
}

fn processor_time() -> c_long {
    // SAFETY: it takes nothing and only gives a number.
    unsafe { clock() }
}

type Made = Result<Store, Refusal>;

/// The kinds, a frame of 8 slots, and so many regions, named from 2 on.
fn made(regions: u32) -> Made {
    let mut s = Store::new(256)?;
    for marks in KINDS {
        s.declare(marks)?;
    }
    s.push(8)?;
    for _ in 0..regions {
        s.new_region()?;
    }
    Ok(s)
}

/// Objects in slots 0 to 4, in regions 2 to 6: three of a pointer and a number, the first two of which lead to the third and hold 7, and two of three numbers.
fn plain() -> Made {
    let mut s = made(5)?;
    s.allocate(2, 4, PAIR)?;
    for i in 0..2 {
        s.allocate(i, 2 + i, PAIR)?;
        s.set_pointer(i, 0, 2, 0)?;
        s.put(i, 1, 7)?;
    }
    s.allocate(3, 5, DATA)?;
    s.allocate(4, 6, DATA)?;
    Ok(s)
}

/// The plain store with a frame more.
fn stacked() -> Made {
    let mut s = plain()?;
    s.push(8)?;
    Ok(s)
}

/// The plain store with the kind of the cycle.
fn linked() -> Made {
    let mut s = plain()?;
    s.declare(&[2, 2, 1, 0])?;
    Ok(s)
}

/// 255 pages full of objects with a pointer each into another region.
fn full() -> Made {
    let mut s = made(2)?;
    s.allocate(0, 2, POINTER)?;
    for _ in 0..8160 {
        s.allocate(1, 3, POINTER)?;
        s.set_pointer(1, 0, 0, 0)?;
    }
    Ok(s)
}

/// Region 5 with 16 pages full of objects of three pointers, one into each of regions 2 to 4; no slot leads into it.
fn heavy() -> Made {
    let mut s = made(4)?;
    for w in 0..3 {
        s.allocate(w, 2 + w, PAIR)?;
    }
    for _ in 0..256 {
        s.allocate(3, 5, POINTERS)?;
        for w in 0..3 {
            s.set_pointer(3, w, w, 0)?;
        }
        s.clear(3)?;
    }
    Ok(s)
}

/// Regions 2 to 17 with 16 pages each, full of objects of three pointers, which lead into the region before; those of region 2 are null. No slot leads anywhere.
fn filled() -> Made {
    let mut s = made(16)?;
    for _ in 0..256 {
        for r in 0..16 {
            s.allocate(r % 2, 2 + r, POINTERS)?;
            for w in 0..3 {
                s.set_pointer(r % 2, w, 1 - r % 2, 0)?;
            }
        }
        s.clear(0)?;
        s.clear(1)?;
    }
    Ok(s)
}

/// A region made, filled with 200 objects in a list that leads both ways, some with a pointer out of the region, and deleted: of each object in slot 6, what was made before it in slot 5.
fn cycle(s: &mut Store) -> Result<u32, Refusal> {
    let list = s.new_region()?;
    for i in 0..200 {
        s.allocate(6, list, LINK)?;
        s.put(6, 3, i)?;
        s.set_pointer(6, 1, 5, 0)?;
        if i > 0 {
            s.set_pointer(5, 0, 6, 0)?;
        }
        if i % 7 == 0 {
            s.set_pointer(6, 2, 0, 0)?;
        }
        if i % 10 == 0 {
            s.load(6, 1, 7)?;
        }
        s.copy(6, 5)?;
    }
    for slot in 5..8 {
        s.clear(slot)?;
    }
    s.delete(list, 0)
}

/// What is measured: with no words all of it, else what the words name, so many times.
struct Costs {
    asked: Option<(String, u32)>,
    found: bool,
}

impl Costs {
    /// One of them: its store, and how many are made in a round.
    fn of<T>(
        &mut self,
        name: &str,
        store: fn() -> Made,
        calls: u32,
        mut call: impl FnMut(&mut Store, u32) -> Result<T, Refusal>,
    ) -> Result<(), Refusal> {
        let mut many = |s: &mut Store, n: u32| -> Result<(), Refusal> {
            for i in 0..n {
                black_box(call(s, i)?);
            }
            Ok(())
        };
        if let Some((asked, n)) = &self.asked {
            if asked == name {
                self.found = true;
                many(&mut store()?, *n)?;
            }
        } else if calls > 0 {
            let mut s = store()?;
            let mut least = c_long::MAX;
            for _ in 0..ROUNDS {
                let before = processor_time();
                many(&mut s, calls)?;
                least = least.min(processor_time() - before);
            }
            println!("{name} {:.1}", 1000.0 * least as f64 / f64::from(calls));
        }
        Ok(())
    }

    fn all(&mut self) -> Result<(), Refusal> {
        self.of("clear", plain, 200_000, |s, _| s.clear(0))?;
        self.of("copy", plain, 200_000, |s, _| s.copy(0, 5))?;
        self.of("fetch", stacked, 200_000, |s, _| s.fetch(0, 0))?;
        self.of("first", plain, 200_000, |s, _| s.first(5, 2))?;
        self.of("load", plain, 200_000, |s, _| s.load(0, 0, 5))?;
        self.of("put", plain, 200_000, |s, _| s.put(0, 1, 7))?;
        self.of("get", plain, 200_000, |s, _| s.get(0, 1))?;
        self.of("view", plain, 200_000, |s, _| Ok(s.view(3)?.len()))?;
        self.of("set_pointer", plain, 200_000, |s, i| {
            s.set_pointer(0, 0, 1 + i % 2, 0)
        })?;
        self.of("allocate", plain, 1_000, |s, _| s.allocate(5, 2, PAIR))?;
        self.of("push_drop", plain, 200_000, |s, _| {
            s.push(8).and_then(|_| s.drop(0))
        })?;
        self.of("push_hand_back", plain, 200_000, |s, _| {
            s.push(8).and_then(|_| s.hand_back(0, 5, 0))
        })?;
        self.of("same", plain, 200_000, |s, _| s.same(0, 1))?;
        self.of("about", plain, 200_000, |s, _| s.about(0))?;
        self.of("locate", plain, 200_000, |s, _| s.locate(0))?;
        self.of("totals", plain, 200_000, |s, _| Ok(s.totals()))?;
        self.of("report", plain, 200_000, |s, _| s.report(2))?;
        self.of("region_delete", plain, 20_000, |s, _| {
            s.new_region().and_then(|r| s.delete(r, 0))
        })?;
        self.of("subregion_delete", plain, 20_000, |s, _| {
            s.subregion(2).and_then(|r| s.delete(r, 0))
        })?;
        self.of("cycle", linked, 200, |s, _| cycle(s))?;
        self.of("delete_pages", heavy, 0, |s, _| s.delete(5, 0))?;
        self.of("delete_all", filled, 0, |s, _| {
            s.delete_all(&[17, 16, 15, 14, 13, 12, 11, 10, 9, 8, 7, 6, 5, 4, 3, 2], 0)
        })?;
        self.of("audit", plain, 20_000, |s, _| Ok(assert!(s.audit())))?;
        self.of("audit_full", full, 200, |s, _| Ok(assert!(s.audit())))
    }
}

fn main() -> Result<ExitCode, Refusal> {
    let words: Vec<String> = std::env::args().collect();
    let mut costs = Costs {
        asked: None,
        found: words.len() == 1,
    };
    if let [_, name, n] = &words[..] {
        costs.asked = Some((name.clone(), n.parse().unwrap_or(0)));
    }
    if words.len() == 1 || words.len() == 3 {
        costs.all()?;
    }
    if !costs.found {
        eprintln!("cost, or cost NAME N");
        return Ok(ExitCode::from(2));
    }
    Ok(ExitCode::SUCCESS)
}
