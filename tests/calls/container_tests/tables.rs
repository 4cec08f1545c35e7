//! What is kept for each page of a machine: marks, numbers, releases and placements.

use balloon_ledger::Ledger;
use migration_types::{Geometry, PageNo};
use page_store::Table;
use residency::Residency;
use std::test::Fail;

#[test]
fn marks_are_kept(rt: HostRuntime) -> Result<(), Fail> {
    let (first, second) = (PageNo::new(0), PageNo::new(1));
    let mut marks = Table::no_marks(rt.alloc(), 2)?;
    marks.set(second, true);
    assert!(rt; !marks.at(first) && marks.at(second));
    marks.mark_if(first, false);
    assert!(rt; !marks.at(first));
    marks.mark_if(first, true);
    assert!(rt; marks.at(first));
    Ok(())
}

#[test]
fn numbers_are_kept(rt: HostRuntime) -> Result<(), Fail> {
    let (first, second) = (PageNo::new(0), PageNo::new(1));
    let mut numbers = Table::no_numbers(rt.alloc(), 2)?;
    numbers.set(first, Some(7));
    numbers.set(first, Some(3));
    assert!(rt; numbers.at(first) == Some(3) && numbers.at(second).is_none());
    numbers.note(first, 5);
    numbers.note(second, 5);
    assert!(rt; numbers.at(first) == Some(3) && numbers.at(second) == Some(5));
    Ok(())
}

#[test]
fn a_ledger_follows_releases(rt: HostRuntime) -> Result<(), Fail> {
    let (first, third) = (PageNo::new(0), PageNo::new(2));
    let geometry = Geometry::new(3, 1)?;
    let mut ledger = Ledger::new(rt.alloc(), geometry)?;
    ledger.release(third);
    ledger.release(first);
    assert!(rt; ledger.geometry() == geometry && ledger.owed_count() == 1);
    ledger.wrote(third);
    assert!(rt; !ledger.holds(third) && ledger.holds(first) && ledger.owed_count() == 2);
    let list = ledger.released_list()?;
    assert!(rt; list.as_slice() == [first].as_slice());
    Ok(())
}

#[test]
fn residency_follows_placements(rt: HostRuntime) -> Result<(), Fail> {
    let (first, second) = (PageNo::new(0), PageNo::new(1));
    let geometry = Geometry::new(2, 1)?;
    let mut residency = Residency::new(rt.alloc(), geometry)?;
    assert!(rt; residency.geometry() == geometry && residency.frontier().is_none());
    residency.mark(second, 5);
    assert!(rt;
        residency.resident(second) && !residency.resident(first) && !residency.covers(second)
    );
    residency.saw(4);
    assert!(rt; !residency.covers(second));
    residency.saw(6);
    assert!(rt; residency.covers(second));
    residency.saw(2);
    assert!(rt; residency.frontier() == Some(6));
    assert!(rt; residency.placed_at(second) == Some(5) && residency.placed_at(first).is_none());
    Ok(())
}

#[test]
fn released_pages_are_resident(rt: HostRuntime) -> Result<(), Fail> {
    let (first, second) = (PageNo::new(0), PageNo::new(1));
    let mut residency = Residency::new(rt.alloc(), Geometry::new(2, 1)?)?;
    residency.release(first);
    assert!(rt; residency.resident(first) && residency.placed_at(first).is_none());
    assert!(rt; residency.covers(first) && residency.frontier().is_none());
    assert!(rt; !residency.resident(second) && !residency.covers(second));
    Ok(())
}
