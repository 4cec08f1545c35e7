//! Runs of scripts that release pages at the target.

use crate::gates::{Board, Flags, MISSED, Releases};
use crate::runs::{Carrier, has_answers, has_value, run};
use guest_script::read_script;
use host_threads::{Migrated, Open};
use migration_types::{PageNo, PagerRec, Version};
use std::alloc::Global;
use std::net::{Net, TcpListener, TcpStream};
use std::sync::Wait;
use std::thread::Threads;

/// One that releases the only page at the target and reads it.
const RELEASED: &str = "postcopy-script 2
pages 1
cells 1
init 1
page 0 0000000000000006
pivots 1
window 4
down -
up -
lanes 1
vcpus 1
vcpu 0 2
z 0
r 0 0
end
";

/// The script of one that writes into the page that it has released there, over a link with these fates on the way
/// down.
macro_rules! written_text {
    ($down:literal) => {
        concat!(
            "postcopy-script 2
pages 1
cells 2
init 1
page 0 00000000000000060000000000000007
pivots 1
window 4
down ",
            $down,
            "
up -
lanes 1
vcpus 1
vcpu 0 4
z 0
w 0 0 9
r 0 0
r 0 1
end
"
        )
    };
}

/// It over a link that delivers all.
const WRITTEN: &str = written_text!("-");

/// It over a link that loses what the source sends, but for the state.
const LOST: &str = written_text!("dllllllllllllllllllllllllllllllll");

/// One that releases a page which it has read there.
const READ_BEFORE: &str = "postcopy-script 2
pages 2
cells 1
init 1
page 0 0000000000000005
pivots 1
window 4
down bdr
up lr
lanes 1
vcpus 1
vcpu 0 3
r 0 0
z 0
r 0 0
end
";

/// One that releases a page on both sides.
const TWICE: &str = "postcopy-script 2
pages 2
cells 1
init 1
page 0 0000000000000005
pivots 1
window 4
down -
up -
lanes 1
vcpus 1
vcpu 1 3
z 0
z 0
r 0 0
w 0 0 4
end
";

/// One that reads page 1, and one that releases it behind other releases.
const WAITED_FOR: &str = "postcopy-script 2
pages 3
cells 1
init 1
page 1 0000000000000007
pivots 1
window 4
down -
up -
lanes 1
vcpus 2
vcpu 0 1
r 1 0
vcpu 0 9
z 2
z 2
z 2
z 2
z 2
z 2
z 2
z 2
z 1
end
";

/// What a run has to come to: the answers of the first two virtual processors, and the value in the first cell of a page.
#[derive(Clone, Copy)]
struct Expected<'a> {
    answers: [&'a [u64]; 2],
    page: u32,
    value: u64,
}

/// Whether a run came to that.
fn is_as(migrated: &Migrated, expected: Expected<'_>) -> bool {
    let [first, second] = expected.answers;
    migrated.session.version() == Version::Two
        && has_answers(migrated, first, second)
        && has_value(migrated, expected.page, expected.value)
}

/// Whether a run of a script comes to that, over a gate that never waits.
fn comes_to<R: Threads + Wait + Sync + Net<Listener = TcpListener, Stream = TcpStream>>(
    rt: &R,
    alloc: Global,
    carrier: Carrier,
    text: &str,
    expected: Expected<'_>,
) -> bool {
    let Ok(script) = read_script(alloc, text.as_bytes()) else {
        return false;
    };
    match run(rt, alloc, &script, &Open, carrier) {
        Ok(migrated) => is_as(&migrated, expected),
        Err(_) => false,
    }
}

/// Scripts, and what each comes to.
const COMING: [(&str, Expected<'static>); 5] = [
    (
        RELEASED,
        Expected {
            answers: [&[0, 0], &[]],
            page: 0,
            value: 0,
        },
    ),
    (
        WRITTEN,
        Expected {
            answers: [&[0, 9, 9, 0], &[]],
            page: 0,
            value: 9,
        },
    ),
    (
        LOST,
        Expected {
            answers: [&[0, 9, 9, 0], &[]],
            page: 0,
            value: 9,
        },
    ),
    (
        READ_BEFORE,
        Expected {
            answers: [&[5, 0, 0], &[]],
            page: 0,
            value: 0,
        },
    ),
    (
        TWICE,
        Expected {
            answers: [&[0, 0, 0, 4], &[]],
            page: 0,
            value: 4,
        },
    ),
];

#[test]
fn releases_at_the_target(rt: HostRuntime) {
    for carrier in [Carrier::Memory, Carrier::Loopback] {
        for (text, expected) in COMING {
            assert!(rt; comes_to(&rt, rt.alloc(), carrier, text, expected));
        }
    }
}

/// Whether the pager placed a page.
fn is_placed(pager: &[PagerRec], page: PageNo) -> bool {
    pager.iter().any(|rec| matches!(rec, PagerRec::Place { page: p, .. } if *p == page))
}

/// A run of a script in which nothing is placed before the first virtual processor was answered, and what its gate has
/// seen. None: it is refused.
fn run_late<R: Threads + Wait + Sync + Net<Listener = TcpListener, Stream = TcpStream>>(
    rt: &R,
    alloc: Global,
    carrier: Carrier,
    text: &str,
) -> Option<(Migrated, Flags)> {
    let script = read_script(alloc, text.as_bytes()).ok()?;
    let gate = Releases {
        board: Board::new(rt),
    };
    let migrated = run(rt, alloc, &script, &gate, carrier).ok()?;
    let Releases { board } = gate;
    Some((migrated, board.into_flags()))
}

/// Whether a page that comes behind its release is never placed.
fn is_dropped<R: Threads + Wait + Sync + Net<Listener = TcpListener, Stream = TcpStream>>(
    rt: &R,
    alloc: Global,
    carrier: Carrier,
) -> bool {
    let Some((migrated, flags)) = run_late(rt, alloc, carrier, WRITTEN) else {
        return false;
    };
    let expected = Expected {
        answers: [&[0, 9, 9, 0], &[]],
        page: 0,
        value: 9,
    };
    is_as(&migrated, expected)
        && !is_placed(migrated.session.pager(), PageNo::new(0))
        && !flags.gave_up
}

#[test]
fn a_page_that_comes_behind_its_release(rt: HostRuntime) {
    for carrier in [Carrier::Memory, Carrier::Loopback] {
        assert!(rt; is_dropped(&rt, rt.alloc(), carrier));
    }
}

/// Whether the release of a page wakes the virtual processor that waits for it, while the pager does nothing.
fn is_woken<R: Threads + Wait + Sync + Net<Listener = TcpListener, Stream = TcpStream>>(
    rt: &R,
    alloc: Global,
    carrier: Carrier,
) -> bool {
    let Some((migrated, flags)) = run_late(rt, alloc, carrier, WAITED_FOR) else {
        return false;
    };
    let expected = Expected {
        answers: [&[0], &[0; 9]],
        page: 1,
        value: 0,
    };
    is_as(&migrated, expected) && flags.set[MISSED] && !flags.gave_up
}

#[test]
fn a_release_wakes_who_waits(rt: HostRuntime) {
    for carrier in [Carrier::Memory, Carrier::Loopback] {
        assert!(rt; is_woken(&rt, rt.alloc(), carrier));
    }
}
