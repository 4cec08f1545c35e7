//! Runs of scripts with a lane, over which pages are pushed.

use crate::gates::{Board, Offers};
use crate::runs::{Carrier, has_answers, run};
use guest_script::read_script;
use host_threads::{Migrated, Open};
use std::alloc::Global;
use std::net::{Net, TcpListener, TcpStream};
use std::sync::Wait;
use std::thread::Threads;

/// One that reads the only page at the target.
const READ: &str = "postcopy-script 2
pages 1
cells 1
init 1
page 0 0000000000000006
pivots 1
window 4
down -
up -
lanes 2
lane -
vcpus 1
vcpu 0 1
r 0 0
end
";

/// Two that write and read pages of their own at the target, over a lane that repeats, loses and sends back.
const BAD_LANE: &str = "postcopy-script 2
pages 4
cells 1
init 3
page 0 0000000000000005
page 1 0000000000000007
page 3 0000000000000008
pivots 2
window 2
down -
up -
lanes 2
lane rlb
vcpus 2
vcpu 1 3
r 0 0
r 1 0
w 1 0 4
r 1 0
vcpu 0 2
r 3 0
z 3
end
";

/// Whether a run of the one that reads is answered what the page holds.
fn reads_the_page<R: Threads + Wait + Sync + Net<Listener = TcpListener, Stream = TcpStream>>(
    rt: &R,
    alloc: Global,
    carrier: Carrier,
) -> bool {
    let Ok(script) = read_script(alloc, READ.as_bytes()) else {
        return false;
    };
    match run(rt, alloc, &script, &Open, carrier) {
        Ok(migrated) => has_answers(&migrated, &[6], &[]),
        Err(_) => false,
    }
}

#[test]
fn a_read_behind_a_lane(rt: HostRuntime) {
    for carrier in [Carrier::Memory, Carrier::Relay, Carrier::Loopback] {
        assert!(rt; reads_the_page(&rt, rt.alloc(), carrier));
    }
}

/// Whether a run of the two has their answers, and something came over the lane.
fn is_as_read(migrated: &Migrated) -> bool {
    has_answers(migrated, &[5, 7, 4, 4], &[8, 0]) && !migrated.session.lane().is_empty()
}

/// Whether a run of the two comes out. Nothing is placed before each page was offered, and until then three pages at
/// most can be asked for: one by each of the two, and one by the pager. So a page is pushed.
fn comes_over_the_lane<R: Threads + Wait + Sync + Net<Listener = TcpListener, Stream = TcpStream>>(
    rt: &R,
    alloc: Global,
    carrier: Carrier,
) -> bool {
    let Ok(script) = read_script(alloc, BAD_LANE.as_bytes()) else {
        return false;
    };
    let gate = Offers {
        board: Board::new(rt),
    };
    let is_right = match run(rt, alloc, &script, &gate, carrier) {
        Ok(migrated) => is_as_read(&migrated),
        Err(_) => false,
    };
    let Offers { board } = gate;
    is_right && !board.into_flags().gave_up
}

#[test]
fn over_a_bad_lane(rt: HostRuntime) {
    for carrier in [Carrier::Memory, Carrier::Relay, Carrier::Loopback] {
        assert!(rt; comes_over_the_lane(&rt, rt.alloc(), carrier));
    }
}
