//! The plain programs on the handover, on a session with a released page, and on faulty changes of both.

use crate::plain::{names_of, page_fault, shape_fault};
use crate::texts::{FOUND, FRESH, HANDOVER, OVER, PULLED, RELEASED, SEEN, ZEROED, changed_session};
use audit_model::{Home, PageReason, ShapeReason};
use cert_text::read_runs;
use migration_types::{LogName, PageNo, Session};
use plain_audit::{
    Spot, demand_holds, first_broken, flat_value, halt_place, home_before, is_freed, is_merging,
    is_page_fault, is_released, is_touched, spot_after,
};
use std::alloc::Global;

/// What is said of a session.
enum Said {
    /// The line of its first fault of shape, and the reason.
    ShapeFault(u32, ShapeReason),
    /// It is of the right shape; the line of its first fault of a page, and the reason.
    PageFault(u32, PageReason),
    /// It is of the right shape, and has no fault of a page.
    Clean,
    /// It places page 0 a second time.
    SecondPlacement,
    /// Its guest goes through the steps of a released page.
    Steps,
    /// The found order is safe, and the delayed one is none.
    Waits,
    /// The found order is safe, and the delayed one breaks.
    Breaks,
    /// This order is a merging, which breaks at this record, or nowhere.
    Ordered(&'static str, Option<(LogName, u32)>),
    /// This order is no merging, since it leaves records out.
    Unfinished(&'static str),
    /// Its guest releases page 0 at the target, where it never comes.
    Freed,
}

/// A session with a change, and what is said of it.
struct Case {
    is: &'static str,
    session: &'static str,
    old: &'static str,
    new: &'static str,
    said: Said,
}

static CASES: [Case; 27] = [
    Case {
        is: "a fault that names no miss",
        session: HANDOVER,
        old: "fault 3",
        new: "fault 4",
        said: Said::ShapeFault(30, ShapeReason::Named),
    },
    Case {
        is: "a release at the target",
        session: HANDOVER,
        old: "r 0 1 0 9",
        new: "z 0 1",
        said: Said::ShapeFault(15, ShapeReason::Phases),
    },
    Case {
        is: "a second send of a page",
        session: HANDOVER,
        old: "send 1 0000000000000007",
        new: "send 0 0000000000000005",
        said: Said::ShapeFault(21, ShapeReason::SecondSend),
    },
    Case {
        is: "a second state",
        session: HANDOVER,
        old: "send 1 0000000000000007",
        new: "state",
        said: Said::ShapeFault(21, ShapeReason::Start),
    },
    Case {
        is: "an access before the look that covers it",
        session: HANDOVER,
        old: "see 7",
        new: "see 5",
        said: Said::PageFault(14, PageReason::Early),
    },
    Case {
        is: "a read of another value than was written",
        session: HANDOVER,
        old: "r 0 1 0 9",
        new: "r 0 1 0 8",
        said: Said::PageFault(15, PageReason::Read),
    },
    Case {
        is: "a send of other contents than at the halt",
        session: HANDOVER,
        old: "send 1 0000000000000007",
        new: "send 1 0000000000000008",
        said: Said::PageFault(21, PageReason::Stale),
    },
    Case {
        is: "a placement of other contents than at the halt",
        session: HANDOVER,
        old: "place 1 6 0000000000000007",
        new: "place 1 6 0000000000000008",
        said: Said::PageFault(35, PageReason::Altered),
    },
    Case {
        is: "a send of a released page",
        session: RELEASED,
        old: "source 2\nhalted 1\nstate",
        new: "source 3\nhalted 1\nstate\nsend 1 0000000000000000",
        said: Said::PageFault(17, PageReason::Given),
    },
    Case {
        is: "zeros for a page that was not released",
        session: RELEASED,
        old: "z 0 1",
        new: "w 0 1 0 0",
        said: Said::PageFault(23, PageReason::Unfit),
    },
    Case {
        is: "a second placement",
        session: HANDOVER,
        old: "place 1 6 0000000000000007",
        new: "zero 0",
        said: Said::SecondPlacement,
    },
    Case {
        is: "a page that is released",
        session: RELEASED,
        old: "see 3",
        new: "see 3",
        said: Said::Steps,
    },
    Case {
        is: "a look that waits for the last placement",
        session: HANDOVER,
        old: "see 7",
        new: "see 7",
        said: Said::Waits,
    },
    Case {
        is: "a look that does not wait for it",
        session: HANDOVER,
        old: "see 7",
        new: "see 5",
        said: Said::Breaks,
    },
    Case {
        is: "a release at the target, of a page that is never placed",
        session: FRESH,
        old: "skip 2",
        new: "skip 2",
        said: Said::Clean,
    },
    Case {
        is: "a release at the target, which frees its page",
        session: FRESH,
        old: "skip 2",
        new: "skip 2",
        said: Said::Freed,
    },
    Case {
        is: "a write in place of the release",
        session: FRESH,
        old: "z 0 0",
        new: "w 0 0 0 0",
        said: Said::PageFault(9, PageReason::Early),
    },
    Case {
        is: "a placement that may come after a release",
        session: OVER,
        old: "z 0 0",
        new: "z 0 0",
        said: Said::PageFault(23, PageReason::Over),
    },
    Case {
        is: "that placement before the release",
        session: OVER,
        old: "z 0 0",
        new: "z 0 0",
        said: Said::Ordered(AT_ONCE, None),
    },
    Case {
        is: "that placement after the release",
        session: OVER,
        old: "z 0 0",
        new: "z 0 0",
        said: Said::Ordered(AT_LAST, Some((LogName::Pager, 3))),
    },
    Case {
        is: "zeros after a release at the target",
        session: ZEROED,
        old: "z 0 0",
        new: "z 0 0",
        said: Said::Ordered(ZEROS_AT_LAST, Some((LogName::Pager, 2))),
    },
    Case {
        is: "an order that leaves the lane's record out",
        session: OVER,
        old: "lane 0\n",
        new: "lane 1\ndown 2\n",
        said: Said::Unfinished(AT_ONCE),
    },
    Case {
        is: "a release after a look",
        session: SEEN,
        old: "z 0 0",
        new: "z 0 0",
        said: Said::Clean,
    },
    Case {
        is: "a release before the look",
        session: SEEN,
        old: "see 3\nz 0 0",
        new: "z 0 0\nsee 3",
        said: Said::PageFault(24, PageReason::Over),
    },
    Case {
        is: "a page that comes over the lane",
        session: PULLED,
        old: "pull 0",
        new: "pull 0",
        said: Said::Clean,
    },
    Case {
        is: "a pull of nothing that the lane delivered",
        session: PULLED,
        old: "pull 0",
        new: "pull 1",
        said: Said::ShapeFault(22, ShapeReason::Named),
    },
    Case {
        is: "a delivery of the lane that nothing sent",
        session: PULLED,
        old: "lane 1\ndown 2",
        new: "lane 1\ndown 0",
        said: Said::ShapeFault(18, ShapeReason::Named),
    },
];

/// Whether zeros for a page that was placed are a second placement, and its first placement is none.
fn is_second_placement(session: &Session) -> bool {
    is_page_fault(session, PageReason::Twice, LogName::Pager, 7)
        && !is_page_fault(session, PageReason::Twice, LogName::Pager, 5)
}

/// What the guest has before one of its records: the value in page 1, whether that page is released, and where the guest
/// is.
struct Step {
    place: usize,
    value: u64,
    is_released: bool,
    home: Home,
}

static STEPS: [Step; 4] = [
    Step {
        place: 0,
        value: 6,
        is_released: false,
        home: Home::AtSource,
    },
    Step {
        place: 1,
        value: 0,
        is_released: true,
        home: Home::AtSource,
    },
    Step {
        place: 2,
        value: 0,
        is_released: true,
        home: Home::Nowhere,
    },
    Step {
        place: 3,
        value: 0,
        is_released: true,
        home: Home::AtTarget,
    },
];

/// Whether a session is at this step before that record.
fn is_at_step(session: &Session, step: &Step) -> bool {
    let page = PageNo::new(1);
    step.place <= session.guest().len()
        && flat_value(session, step.place, page, 0) == step.value
        && is_released(session, step.place, page) == step.is_released
        && home_before(session, step.place) == step.home
}

/// Whether a session is halted at its second record, and goes through all steps.
fn goes_through_steps(session: &Session) -> bool {
    halt_place(session) == 1 && STEPS.iter().all(|step| is_at_step(session, step))
}

/// This order with the last placement as late as it can be.
const DELAYED: &str = "postcopy-runs 1
runs 12
run guest 2
run source 2
run link 1
run pager 2
run guest 2
run pager 2
run link 1
run source 3
run link 2
run pager 3
run guest 5
run pager 1
end
";

/// An order of the sessions with a release at the target: the guest comes behind the pager.
const AT_ONCE: &str = "postcopy-runs 1
runs 5
run guest 1
run source 3
run link 2
run pager 4
run guest 3
end
";

/// The same with the pager's last record as late as it can be.
const AT_LAST: &str = "postcopy-runs 1
runs 6
run guest 1
run source 3
run link 2
run pager 3
run guest 3
run pager 1
end
";

/// The order of the session with zeros for a page that is released at the target, where they come as late as they can.
const ZEROS_AT_LAST: &str = "postcopy-runs 1
runs 6
run guest 2
run source 2
run link 1
run pager 2
run guest 3
run pager 1
end
";

/// The names that an order's text spells; none where it is refused, or there is no memory.
fn names_in(alloc: Global, text: &str) -> Option<Vec<(LogName, u32)>> {
    let runs = read_runs(alloc, text.as_bytes()).ok()?;
    names_of(alloc, runs.as_slice()).ok()
}

/// Whether an order is told as a merging of a session that breaks at this record, or nowhere.
fn is_order_told(
    alloc: Global,
    session: &Session,
    order: &str,
    broken: Option<(LogName, u32)>,
) -> bool {
    match names_in(alloc, order) {
        Some(names) => is_merging(session, &names) && first_broken(session, &names) == broken,
        None => false,
    }
}

/// Whether an order is told as no merging of a session.
fn is_unfinished(alloc: Global, session: &Session, order: &str) -> bool {
    match names_in(alloc, order) {
        Some(names) => !is_merging(session, &names),
        None => false,
    }
}

/// Page 0 when all was done: zeros at the target, where it was released and never placed.
const WHEN_FREED: Spot = Spot {
    home: Home::AtTarget,
    source: 6,
    target: 0,
    resident: true,
    placed: false,
    touched: true,
    released: false,
};

/// Whether page 0 is freed and touched by the guest's third record, and by no earlier one, and released at the end.
fn is_freed_by_release(session: &Session) -> bool {
    let page = PageNo::new(0);
    session.guest().len() == 4
        && !is_freed(session, 2, page)
        && !is_touched(session, 2, page)
        && is_freed(session, 3, page)
        && is_touched(session, 3, page)
        && is_released(session, 4, page)
}

/// Whether page 0 is freed so, and zeros at the end.
fn is_freed_page(alloc: Global, session: &Session) -> bool {
    match names_in(alloc, AT_ONCE) {
        Some(names) => {
            is_freed_by_release(session)
                && spot_after(session, &names, PageNo::new(0), 0) == WHEN_FREED
        }
        None => false,
    }
}

/// Page 1 when all was done: written at the target after it was placed there.
const AT_END: Spot = Spot {
    home: Home::AtTarget,
    source: 7,
    target: 9,
    resident: true,
    placed: true,
    touched: true,
    released: false,
};

/// Whether a safe order is told as such, and what stands at its end; its first half alone is none.
fn is_safe_order(session: &Session, found: &[(LogName, u32)]) -> bool {
    is_merging(session, found)
        && first_broken(session, found) == None
        && !is_merging(session, &found[..found.len() / 2])
        && !demand_holds(session, found, LogName::Pager, 5)
        && spot_after(session, found, PageNo::new(1), 0) == AT_END
}

/// Whether the order with the last placement late is told as one that breaks where the guest does not wait for the
/// placement, and as no merging where it does.
fn is_delay_told(session: &Session, delayed: &[(LogName, u32)], waits: bool) -> bool {
    if waits {
        return !is_merging(session, delayed);
    }
    is_merging(session, delayed) && first_broken(session, delayed) == Some((LogName::Guest, 7))
}

/// Whether the found order is told on a session.
fn is_found_told(alloc: Global, session: &Session) -> bool {
    match names_in(alloc, FOUND) {
        Some(found) => is_safe_order(session, &found),
        None => false,
    }
}

/// Whether the delayed order is told on a session.
fn is_delayed_told(alloc: Global, session: &Session, waits: bool) -> bool {
    match names_in(alloc, DELAYED) {
        Some(delayed) => is_delay_told(session, &delayed, waits),
        None => false,
    }
}

/// Whether both orders are told: the found one is safe, and the delayed one breaks unless the guest waits.
fn are_orders_told(alloc: Global, session: &Session, waits: bool) -> bool {
    is_found_told(alloc, session) && is_delayed_told(alloc, session, waits)
}

/// Whether that holds of a session which is said of it.
fn holds(alloc: Global, session: &Session, said: &Said) -> bool {
    match said {
        Said::ShapeFault(line, reason) => shape_fault(session) == Some((*line, *reason)),
        Said::PageFault(line, reason) => {
            shape_fault(session) == None && page_fault(session) == Some((*line, *reason))
        }
        Said::Clean => shape_fault(session) == None && page_fault(session) == None,
        Said::SecondPlacement => is_second_placement(session),
        Said::Steps => goes_through_steps(session),
        Said::Waits => are_orders_told(alloc, session, true),
        Said::Breaks => are_orders_told(alloc, session, false),
        Said::Ordered(order, broken) => is_order_told(alloc, session, order, *broken),
        Said::Unfinished(order) => is_unfinished(alloc, session, order),
        Said::Freed => is_freed_page(alloc, session),
    }
}

/// Whether that holds of the case's session which the case says.
fn is_met(alloc: Global, case: &Case) -> bool {
    match changed_session(alloc, case.session, case.old, case.new) {
        Some(session) => holds(alloc, &session, &case.said),
        None => false,
    }
}

#[test]
fn tells_what_sessions_mean(rt: HostRuntime) {
    for case in &CASES {
        assert!(rt; is_met(rt.alloc(), case), "{}", case.is);
    }
}
