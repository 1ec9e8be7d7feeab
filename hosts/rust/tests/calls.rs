//! Every call by its method, with the values that a user sees.

use region_store::{About, Locate, Refusal, Report, Store, Totals};

/// A store of 4 pages with kind 1 (a free pointer, a number), kind 2 (two numbers), region 2, and a frame of 3 slots.
fn begun() -> Result<Store, Refusal> {
    let mut store = Store::new(4)?;
    assert_eq!(store.declare(&[1, 0])?, 1);
    assert_eq!(store.declare(&[0, 0])?, 2);
    assert_eq!(store.new_region()?, 2);
    assert_eq!(store.push(3)?, 1);
    Ok(store)
}

#[test]
fn make() -> Result<(), Refusal> {
    for pages in [1, 2, 255, 256] {
        let store = Store::new(pages)?;
        assert_eq!(store.pages(), pages);
        assert_eq!(store.heap().len(), 64 * pages as usize);
        assert!(store.heap().iter().all(|&word| word == 0));
        assert_eq!(store.totals().free_pages, pages);
        assert!(store.audit());
    }
    Ok(())
}

#[test]
fn regions() -> Result<(), Refusal> {
    let mut store = begun()?;
    assert_eq!(store.subregion(2)?, 3);
    assert_eq!(store.subregion(3)?, 4);
    assert_eq!(store.new_region()?, 5);
    assert_eq!(store.report(2)?.subregions, 1);
    assert_eq!(store.totals().regions, 5);
    assert_eq!(store.delete(4, 0)?, 0);
    assert_eq!(store.delete_all(&[3, 2], 1)?, 0);
    assert_eq!(store.totals().regions, 2);
    assert_eq!(store.new_region()?, 6);
    Ok(())
}

#[test]
fn frames() -> Result<(), Refusal> {
    let mut store = begun()?;
    store.allocate(0, 2, 2)?;
    assert_eq!(store.push(2)?, 2);
    store.fetch(0, 1)?;
    assert_eq!(store.about(1)?, About { region: 2, kind: 2 });
    assert_eq!(store.hand_back(1, 2, 0)?, 1);
    assert!(store.same(0, 2)?);
    assert!(!store.same(0, 1)?);
    assert_eq!(store.drop(3)?, 0);
    assert_eq!(store.totals().frames, 0);
    Ok(())
}

#[test]
fn slots() -> Result<(), Refusal> {
    let mut store = begun()?;
    store.allocate(0, 2, 1)?;
    store.allocate(1, 2, 2)?;
    store.copy(1, 2)?;
    assert!(store.same(1, 2)?);
    store.clear(2)?;
    assert_eq!(store.about(2)?, About { region: 0, kind: 0 });
    store.first(2, 2)?;
    assert!(store.same(0, 2)?);
    store.first(2, 1)?;
    assert_eq!(store.about(2)?.region, 0);
    assert_eq!(store.locate(0)?, Locate { page: 0, word: 0 });
    assert_eq!(store.locate(1)?, Locate { page: 0, word: 3 });
    assert_eq!(store.locate(2)?, Locate { page: 256, word: 0 });
    Ok(())
}

#[test]
fn words() -> Result<(), Refusal> {
    let mut store = begun()?;
    store.allocate(0, 2, 1)?;
    store.allocate(1, 2, 2)?;
    assert_eq!(store.get(0, 1)?, 0);
    store.put(0, 1, u32::MAX)?;
    assert_eq!(store.get(0, 1)?, u32::MAX);
    store.set_pointer(0, 0, 1, 0)?;
    store.load(0, 0, 2)?;
    assert!(store.same(1, 2)?);
    store.put(2, 1, 17)?;
    assert_eq!(store.view(1)?, [0, 17]);
    Ok(())
}

#[test]
fn counts() -> Result<(), Refusal> {
    let mut store = begun()?;
    store.allocate(0, 1, 1)?;
    store.allocate(1, 2, 1)?;
    store.set_pointer(0, 0, 1, 2)?;
    let report = Report {
        count: 1,
        outside: 2,
        pages: 1,
        subregions: 0,
    };
    assert_eq!(store.report(2)?, report);
    let totals = Totals {
        free_pages: 2,
        regions: 2,
        frames: 1,
        counted: 0,
    };
    assert_eq!(store.totals(), totals);
    store.clear(1)?;
    store.set_pointer(0, 0, 1, 3)?;
    assert_eq!(store.delete(2, 0)?, 1);
    assert_eq!(store.totals().free_pages, 3);
    assert!(store.audit());
    Ok(())
}

#[test]
fn regions_that_lead_into_each_other_go_together() -> Result<(), Refusal> {
    let mut store = begun()?;
    let drafts = store.new_region()?;
    store.allocate(0, 2, 1)?;
    store.allocate(1, drafts, 1)?;
    store.set_pointer(0, 0, 1, 0)?;
    store.set_pointer(1, 0, 0, 1)?;
    store.clear(0)?;
    store.clear(1)?;
    assert_eq!(store.delete(drafts, 0), Err(Refusal::OutsidePointer));
    assert_eq!(store.delete_all(&[drafts, 2], 2)?, 2);
    assert_eq!(store.totals().regions, 1);
    assert!(store.audit());
    Ok(())
}
