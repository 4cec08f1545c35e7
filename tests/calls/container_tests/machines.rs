//! Frames of small machines, through each call.

use balloon_ledger::Ledger;
use flat_machine::Machine;
use migration_types::{Contents, Geometry, GuestRec, InitPage, PageNo};
use page_store::Store;
use std::test::Fail;

#[test]
fn frames_keep_values(rt: HostRuntime) -> Result<(), Fail> {
    let (first, second) = (PageNo::new(0), PageNo::new(1));
    let geometry = Geometry::new(2, 2)?;
    let cells = Contents::from_vec(vec![in rt.alloc(); 5, 0]?);
    let init = vec![in rt.alloc(); InitPage { page: first, cells }]?;
    let mut store = Store::from_init(rt.alloc(), geometry, init.as_slice())?;
    assert!(rt; store.geometry() == geometry && store.page(first) == [5, 0].as_slice());
    store.write(second, 1, 9);
    assert!(rt; store.page(second) == [0, 9].as_slice());
    store.release(first);
    store.install(second, &[3, 4]);
    assert!(rt; store.read(first, 0) == 0 && store.read(second, 1) == 4);
    Ok(())
}

/// Whether each cell of a page is 0.
fn is_blank(store: &Store, page: PageNo) -> bool {
    page.number() < store.geometry().pages() && store.page(page).iter().all(|value| *value == 0)
}

#[test]
fn a_release_leaves_no_value_and_no_other_page(rt: HostRuntime) -> Result<(), Fail> {
    let (first, second, third) = (PageNo::new(0), PageNo::new(1), PageNo::new(2));
    let mut store = Store::zeroed(rt.alloc(), Geometry::new(3, 200)?)?;
    store.write(first, 199, 1);
    store.write(third, 0, 3);
    store.write(second, 0, 2);
    store.write(second, 56, 2);
    store.write(second, 199, 2);
    store.release(second);
    assert!(rt;
        is_blank(&store, second) && store.read(first, 199) == 1 && store.read(third, 0) == 3
    );
    store.write(second, 120, 5);
    assert!(rt; store.read(second, 120) == 5);
    store.release(second);
    store.release(second);
    assert!(rt;
        is_blank(&store, second) && store.read(first, 199) == 1 && store.read(third, 0) == 3
    );
    store.install(second, vec![in rt.alloc(); 7; 200]?.as_slice());
    store.release(second);
    store.release(first);
    assert!(rt; is_blank(&store, second) && is_blank(&store, first) && store.read(third, 0) == 3);
    Ok(())
}

#[test]
fn frames_begin_with_zeros(rt: HostRuntime) -> Result<(), Fail> {
    let first = PageNo::new(0);
    let store = Store::zeroed(rt.alloc(), Geometry::new(1, 2)?)?;
    assert!(rt; store.page(first) == [0, 0].as_slice());
    Ok(())
}

#[test]
fn a_machine_follows_writes_and_releases(rt: HostRuntime) -> Result<(), Fail> {
    let second = PageNo::new(1);
    let geometry = Geometry::new(2, 1)?;
    let frames = Store::zeroed(rt.alloc(), geometry)?;
    let ledger = Ledger::new(rt.alloc(), geometry)?;
    let mut machine = Machine { frames, ledger };
    machine.write(second, 0, 7);
    assert!(rt; machine.frames.read(second, 0) == 7);
    machine.release(second);
    assert!(rt; machine.frames.read(second, 0) == 0 && machine.ledger.holds(second));
    machine.step(&GuestRec::Write {
        vcpu: 0,
        page: second,
        cell: 0,
        value: 9,
    });
    assert!(rt; machine.frames.read(second, 0) == 9 && !machine.ledger.holds(second));
    machine.step(&GuestRec::Release {
        vcpu: 0,
        page: second,
    });
    assert!(rt; machine.ledger.holds(second));
    Ok(())
}
