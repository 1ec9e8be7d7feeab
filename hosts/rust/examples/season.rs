//! A small season: rounds are regions, grids are regions inside them, clues are objects.
//!
//! `season.out` beside this file is what it prints.

use region_store::{NotLoaded, Refusal, Store};
use std::error::Error;
use std::{env, fs, process};

/// One program has the store to itself, so it acts as filler 0.
const FILLER: u32 = 0;

/// The permanent region.
const SEASON: u32 = 1;

/// The slots of the one frame: objects are reached through them.
const CLUE: u32 = 0;
const ANSWER: u32 = 1;
const SCORE: u32 = 2;

/// A round with a grid in it, a clue in each, and a score of the season. Gives the names of both regions.
fn begin(store: &mut Store) -> Result<(u32, u32), Refusal> {
    let clue = store.declare(&[1, 0])?; // a free pointer and a number
    let score = store.declare(&[0, 0])?; // two numbers
    let round = store.new_region()?;
    let grid = store.subregion(round)?;
    println!("round {round}, and grid {grid} in it");

    store.push(3)?;
    store.allocate(CLUE, round, clue)?;
    store.allocate(ANSWER, grid, clue)?;
    store.put(ANSWER, 1, 17)?;
    store.set_pointer(CLUE, 0, ANSWER, FILLER)?; // the round's clue leads to the grid's
    println!("the answer is {}", store.get(ANSWER, 1)?);

    store.allocate(SCORE, SEASON, score)?;
    store.put(SCORE, 0, 3)?;
    store.put(SCORE, 1, 1)?;
    let part = store.view(SCORE)?; // the part of the heap itself
    println!("the score is {} to {}", part[0], part[1]);
    Ok((round, grid))
}

/// Saved, and loaded again: by another program, perhaps in another language.
fn overnight(store: Store) -> Result<Store, Box<dyn Error>> {
    let file = env::temp_dir().join(format!("season-{}", process::id()));
    store.save(&file)?;
    let loaded: Result<Store, NotLoaded> = Store::from_file(&file);
    fs::remove_file(&file)?;
    Ok(loaded?)
}

fn main() -> Result<(), Box<dyn Error>> {
    let mut store = Store::new(4)?;
    let (round, grid) = begin(&mut store)?;

    // Neither region can go: a pointer leads into the grid, and the grid lies in the round.
    let report = store.report(grid)?;
    println!("{} pointers lead into the grid", report.outside);
    for region in [grid, round] {
        if let Err(refusal) = store.delete(region, FILLER) {
            println!("region {region} stays: {}", refusal.reason());
        }
    }

    let mut store = overnight(store)?;
    let totals = store.totals();
    println!("loaded, with {} live regions", totals.regions);

    // The slot and the clue let go of the grid, and it can be deleted; then the round.
    store.clear(ANSWER)?;
    store.set_pointer(CLUE, 0, ANSWER, FILLER)?;
    println!("the grid goes, pages: {}", store.delete(grid, FILLER)?);
    store.clear(CLUE)?;
    println!("the round goes, pages: {}", store.delete(round, FILLER)?);
    println!("the store is sound: {}", store.audit());
    Ok(())
}
