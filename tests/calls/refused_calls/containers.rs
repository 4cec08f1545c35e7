//! The calls of geometries and of the containers.

use crate::refusing::{Refuser, all};
use balloon_ledger::Ledger;
use bubbling::Bubbles;
use fault_queue::{Asked, FaultQueue, QueueFault};
use migration_types::{Contents, Geometry, InitPage, PageNo};
use page_store::Store;
use residency::Residency;

/// Two pages of one cell, of which the second begins as 7.
fn init() -> [InitPage; 1] {
    [InitPage {
        page: PageNo::new(1),
        cells: Contents::one(7),
    }]
}

fn frames(refuser: Refuser, geometry: Geometry) -> Option<()> {
    let alloc = refuser.alloc();
    let (first, second) = (PageNo::new(0), PageNo::new(1));
    refuser.each(
        "page_store::Store::zeroed",
        || Store::zeroed(alloc, geometry),
        |store: &Store| store.page(first) == [0].as_slice() && store.page(second) == [0].as_slice(),
    )?;
    let init = init();
    let mut store = refuser.each(
        "page_store::Store::from_init",
        || Store::from_init(alloc, geometry, &init),
        |store: &Store| store.page(first) == [0].as_slice() && store.page(second) == [7].as_slice(),
    )?;
    let read = refuser.none("page_store::Store::read", || store.read(second, 0));
    refuser.right(read == 7);
    refuser.none("page_store::Store::write", || store.write(first, 0, 9));
    refuser.right(store.read(first, 0) == 9);
    refuser.none("page_store::Store::release", || store.release(first));
    refuser.right(store.read(first, 0) == 0);
    refuser.none("page_store::Store::install", || store.install(first, &[4]));
    let page = refuser.none("page_store::Store::page", || store.page(first));
    refuser.right(page == [4].as_slice());
    Some(())
}

fn released(refuser: Refuser, geometry: Geometry) -> Option<()> {
    let alloc = refuser.alloc();
    let (first, second) = (PageNo::new(0), PageNo::new(1));
    let mut ledger = refuser.each(
        "balloon_ledger::Ledger::new",
        || Ledger::new(alloc, geometry),
        |ledger: &Ledger| ledger.owed_count() == 2,
    )?;
    refuser.none("balloon_ledger::Ledger::release", || {
        ledger.release(first);
        ledger.release(second)
    });
    refuser.each(
        "balloon_ledger::Ledger::released_list",
        || ledger.released_list(),
        |list: &Vec<PageNo>| list.as_slice() == [first, second].as_slice(),
    )?;
    refuser.none("balloon_ledger::Ledger::wrote", || ledger.wrote(first));
    let holds = refuser.none("balloon_ledger::Ledger::holds", || ledger.holds(first));
    refuser.right(!holds && ledger.holds(second));
    let owed = refuser.none("balloon_ledger::Ledger::owed_count", || ledger.owed_count());
    refuser.right(owed == 1);
    Some(())
}

fn placed(refuser: Refuser, geometry: Geometry) -> Option<()> {
    let alloc = refuser.alloc();
    let (first, second) = (PageNo::new(0), PageNo::new(1));
    let mut pages = refuser.each(
        "residency::Residency::new",
        || Residency::new(alloc, geometry),
        |pages: &Residency| !pages.resident(first) && pages.frontier().is_none(),
    )?;
    refuser.none("residency::Residency::mark", || pages.mark(second, 5));
    let is_resident = refuser.none("residency::Residency::resident", || pages.resident(second));
    refuser.right(is_resident && !pages.resident(first));
    let at = refuser.none(
        "residency::Residency::placed_at",
        || pages.placed_at(second),
    );
    refuser.right(at == Some(5));
    refuser.none("residency::Residency::saw", || pages.saw(6));
    let frontier = refuser.none("residency::Residency::frontier", || pages.frontier());
    refuser.right(frontier == Some(6));
    let covers = refuser.none("residency::Residency::covers", || pages.covers(second));
    refuser.right(covers);
    Some(())
}

/// Eight owed pages and two pivots.
fn pushed(refuser: Refuser) -> Option<()> {
    let alloc = refuser.alloc();
    let geometry = Geometry::new(8, 1).ok()?;
    let ledger = Ledger::new(alloc, geometry).ok()?;
    let mut bubbles = refuser.each(
        "bubbling::Bubbles::new",
        || Bubbles::new(alloc, geometry, 2, &ledger),
        |bubbles: &Bubbles| bubbles.left() == 8,
    )?;
    refuser.right(bubbles.next() == Some(PageNo::new(0)));
    let was_unsent = refuser.none("bubbling::Bubbles::mark_sent", || {
        bubbles.mark_sent(PageNo::new(5))
    });
    refuser.right(was_unsent);
    refuser.none(
        "bubbling::Bubbles::fault_at",
        || bubbles.fault_at(PageNo::new(5)),
    );
    let left = refuser.none("bubbling::Bubbles::left", || bubbles.left());
    refuser.right(left == 6);
    for wanted in [6, 1, 4, 2, 7, 3] {
        let page = refuser.none("bubbling::Bubbles::next", || bubbles.next());
        refuser.right(page == Some(PageNo::new(wanted)));
    }
    Some(())
}

/// Whether a page is asked for once, and joined from then on.
fn is_asked(asked: Asked, vcpu: u8) -> bool {
    match asked {
        Asked::New => vcpu < 3,
        Asked::Joined => vcpu >= 3,
    }
}

/// Eighteen virtual processors wait for three pages.
fn waiting(refuser: Refuser) -> Option<()> {
    let mut queue = refuser.none("fault_queue::FaultQueue::new", || {
        FaultQueue::new(refuser.alloc())
    });
    refuser.right(queue.pages() == 0);
    for vcpu in 0..18u8 {
        let page = PageNo::new(u32::from(vcpu % 3));
        let (pages, first) = (queue.pages(), queue.first());
        let asked = refuser.each_on(
            "fault_queue::FaultQueue::fault",
            &mut queue,
            |queue: &mut FaultQueue| queue.fault(page, vcpu),
            |queue: &FaultQueue| {
                queue.pages() == pages && queue.first() == first && !queue.is_waiting(vcpu)
            },
        )?;
        refuser.right(is_asked(asked, vcpu));
    }
    let again = queue.fault(PageNo::new(0), 17);
    refuser.none("fault_queue::FaultQueue::pages", || queue.pages());
    refuser.right(again == Err(QueueFault::AlreadyWaiting) && queue.pages() == 3);
    let first = refuser.none("fault_queue::FaultQueue::first", || queue.first());
    refuser.right(first == Some(PageNo::new(0)));
    let served = refuser.none("fault_queue::FaultQueue::served", || {
        queue.served(PageNo::new(1))
    })?;
    refuser.right(served.as_slice() == [1, 4, 7, 10, 13, 16].as_slice() && queue.pages() == 2);
    Some(())
}

/// Makes the calls.
pub fn make(refuser: Refuser) -> Option<()> {
    let made = refuser.none("migration_types::Geometry::new", || Geometry::new(2, 1));
    refuser.right(made.is_ok());
    let geometry = made.ok()?;
    all(&[
        frames(refuser, geometry),
        released(refuser, geometry),
        placed(refuser, geometry),
        pushed(refuser),
        waiting(refuser),
    ])
}
