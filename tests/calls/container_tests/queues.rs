//! Faults of four virtual processors on three pages, taken in and served.

use fault_queue::{Asked, FaultQueue, QueueFault};
use migration_types::PageNo;
use std::test::Fail;

/// Whether a fault is taken in and answered so.
fn is_asked(queue: &mut FaultQueue, page: u32, vcpu: u8, wanted: Asked) -> bool {
    matches!(queue.fault(PageNo::new(page), vcpu), Ok(asked) if asked == wanted)
}

/// Whether a page's waiters are handed over, and are these.
fn hands_over(queue: &mut FaultQueue, page: u32, wanted: &[u8]) -> bool {
    match queue.served(PageNo::new(page)) {
        Some(waiters) => waiters.as_slice() == wanted,
        None => false,
    }
}

/// Whether the fault of one that waits already is refused.
fn is_refused(queue: &mut FaultQueue, page: u32, vcpu: u8) -> bool {
    matches!(
        queue.fault(PageNo::new(page), vcpu),
        Err(QueueFault::AlreadyWaiting)
    )
}

/// Whether faults on the pages 3, 5 and 4 are taken in.
fn takes_in(queue: &mut FaultQueue) -> bool {
    queue.first().is_none()
        && is_asked(queue, 3, 0, Asked::New)
        && is_asked(queue, 3, 1, Asked::Joined)
        && is_refused(queue, 5, 1)
        && is_asked(queue, 5, 2, Asked::New)
        && is_asked(queue, 4, 3, Asked::New)
}

/// Whether they are served, and the oldest of the others comes next.
fn serves(queue: &mut FaultQueue) -> bool {
    queue.first() == Some(PageNo::new(3))
        && queue.pages() == 3
        && hands_over(queue, 3, &[0, 1])
        && queue.first() == Some(PageNo::new(5))
        && queue.is_waiting(2)
        && hands_over(queue, 5, &[2])
        && !queue.is_waiting(2)
        && queue.served(PageNo::new(5)).is_none()
        && hands_over(queue, 4, &[3])
        && queue.pages() == 0
}

#[test]
fn takes_in_and_serves(rt: HostRuntime) -> Result<(), Fail> {
    let mut queue = FaultQueue::new(rt.alloc());
    assert!(rt; takes_in(&mut queue) && serves(&mut queue));
    Ok(())
}
