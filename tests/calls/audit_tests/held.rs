//! What is held of recordings that make no session, or none of the first version.

use migration_types::{Contents, Size, Version};
use recordings::{Visitor, Wide, WideInit, WideLane, WideMachine, WidePager};
use std::alloc::{AllocError, Global};
use std::test::Fail;
use walked_sessions::{HeldRecording, Room};

/// A recording of a machine of one page of one cell, of which the machine is met.
fn begun(alloc: Global) -> Result<HeldRecording, AllocError> {
    let room = Room {
        guest: 0,
        source: 0,
        link: 0,
        lane: 0,
        pager: 0,
    };
    let mut held = HeldRecording::new(alloc, room);
    held.machine(&WideMachine {
        version: Version::Two,
        size: Size::Small,
        pages: 1,
        cells: 1,
    })?;
    Ok(held)
}

/// Whether the machine makes a session where its page begins with each of these values.
fn may_begin_with(alloc: Global, values: &[u64]) -> Result<bool, AllocError> {
    let mut init = Vec::new(alloc);
    for value in values {
        init.push(WideInit {
            page: 0,
            cells: Contents::one(*value),
        })?;
    }
    let made = begun(alloc)?.into_session(Version::One, Size::Small, init)?;
    Ok(made.is_some())
}

#[test]
fn a_page_begins_once_and_not_as_zeros(rt: HostRuntime) -> Result<(), Fail> {
    let alloc = rt.alloc();
    assert_eq!(rt; may_begin_with(alloc, &[5])?, true);
    assert_eq!(rt; may_begin_with(alloc, &[0])?, false);
    assert_eq!(rt; may_begin_with(alloc, &[5, 5])?, false);
    Ok(())
}

/// Whether what is held makes a session in each version.
fn versions_of(alloc: Global, held: [HeldRecording; 2]) -> Result<[bool; 2], AllocError> {
    let [first, second] = held;
    let first = first.into_session(Version::One, Size::Small, Vec::new(alloc))?;
    let second = second.into_session(Version::Two, Size::Small, Vec::new(alloc))?;
    Ok([first.is_some(), second.is_some()])
}

/// A recording with one delivery of the lane.
fn delivered(alloc: Global) -> Result<HeldRecording, AllocError> {
    let mut held = begun(alloc)?;
    held.record(0, Wide::Lane(WideLane::Down { sending: 0 }))?;
    Ok(held)
}

/// A recording with one packet that the pager took of the lane.
fn pulled(alloc: Global) -> Result<HeldRecording, AllocError> {
    let mut held = begun(alloc)?;
    held.record(0, Wide::Pager(WidePager::Pull { down: 0 }))?;
    Ok(held)
}

#[test]
fn the_first_version_has_no_lane_and_is_small(rt: HostRuntime) -> Result<(), Fail> {
    let alloc = rt.alloc();
    let held = [delivered(alloc)?, delivered(alloc)?];
    assert_eq!(rt; versions_of(alloc, held)?, [false, true]);
    let held = [pulled(alloc)?, pulled(alloc)?];
    assert_eq!(rt; versions_of(alloc, held)?, [false, true]);
    let large = begun(alloc)?.into_session(Version::One, Size::Large, Vec::new(alloc))?;
    assert_eq!(rt; large.is_some(), false);
    Ok(())
}
