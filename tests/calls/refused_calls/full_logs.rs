//! Calls that find a log full: they take no memory.

use crate::refusing::Refuser;
use book_events::EventFault;
use book_events::paging::pager_tick;
use link_book::LinkBook;
use migration_events::Op;
use migration_types::{Contents, Geometry, GuestRec, MOST_RECORDS, PageNo, Shared};
use page_stream::Packet;
use std::alloc::Global;
use target_side::{PagerBook, TargetBook};

/// A log of the guest at the source that has no room for the halt.
fn full_log(alloc: Global) -> Option<Vec<GuestRec>> {
    let release = GuestRec::Release {
        vcpu: 0,
        page: PageNo::new(0),
    };
    vec![in alloc; release; MOST_RECORDS as usize].ok()
}

/// The pager's book, with a log that is full of what it asked for, and the target's: somebody waits for page 0, which has come,
/// and page 1 was released there.
fn full_pager(alloc: Global, geometry: Geometry) -> Option<(PagerBook, TargetBook)> {
    let (first, last) = (PageNo::new(0), PageNo::new(1));
    let mut pager = PagerBook::new(alloc, geometry).ok()?;
    let mut target = TargetBook::halted(alloc, geometry, Vec::new(alloc)).ok()?;
    let state = Packet::State {
        number: 1,
        released: Shared::from_vec(Vec::new(alloc)).ok()?,
    };
    let page = Packet::Page {
        number: 2,
        page: first,
        cells: Contents::one(5),
    };
    pager.pop(0, &state).ok()?;
    pager.deliver(&mut target).ok()?;
    let read = Op::Read {
        page: first,
        cell: 0,
    };
    target.access(0, read).ok()?;
    pager.next_fault(&mut target).ok()?;
    pager.pop(1, &page).ok()?;
    target.access(1, Op::Release { page: last }).ok()?;
    for _ in pager.pager_log().len()..MOST_RECORDS as usize {
        pager.tick().ok()?;
    }
    Some((pager, target))
}

/// Makes the calls.
pub fn make(refuser: Refuser) -> Option<()> {
    let (alloc, geometry) = (refuser.alloc(), Geometry::new(2, 1).ok()?);
    let log = full_log(alloc)?;
    let halted = refuser.none("full_log::TargetBook::halted", || {
        TargetBook::halted(alloc, geometry, log)
    });
    refuser.right(matches!(halted, Err((_, EventFault::LogFull))));
    let (mut pager, mut target) = full_pager(alloc, geometry)?;
    let ticked = refuser.none("full_log::PagerBook::tick", || pager.tick());
    refuser.right(matches!(ticked, Err(EventFault::LogFull)));
    let mut link = LinkBook::new(alloc);
    let ticked = refuser.none("full_log::pager_tick", || pager_tick(&mut link, &mut pager));
    refuser.right(matches!(ticked, Err(EventFault::LogFull)));
    let woken = refuser.none(
        "full_log::PagerBook::deliver",
        || pager.deliver(&mut target),
    );
    refuser.right(matches!(woken, Err(EventFault::LogFull)));
    Some(())
}
