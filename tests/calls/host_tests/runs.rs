//! Runs of scripts.

use crate::are_answers;
use crate::gates::{Board, Readers};
use crate::relays::run_over_relay;
use guest_script::{Script, read_script};
use host_threads::{Gate, Migrated, Open, RunFault, migrate, migrate_tcp};
use migration_types::PageNo;
use std::alloc::Global;
use std::net::{Net, TcpListener, TcpStream};
use std::sync::Wait;
use std::thread::Threads;

/// Two virtual processors that read page 0 at the target, and one of them page 3 too.
const TWO_READERS: &str = "postcopy-script 1
pages 4
cells 1
init 2
page 0 0000000000000005
page 3 0000000000000008
pivots 1
window 4
down -
up -
vcpus 2
vcpu 0 2
r 0 0
r 3 0
vcpu 0 1
r 0 0
end
";

/// Two that read page 1 at the target, over a link that delivers all.
pub(crate) const TWO_MISSES: &str = "postcopy-script 1
pages 2
cells 1
init 1
page 1 0000000000000007
pivots 1
window 4
down -
up -
vcpus 2
vcpu 0 1
r 1 0
vcpu 0 1
r 1 0
end
";

/// The same two over a link that loses, sends back and repeats.
const BAD_LINK: &str = "postcopy-script 1
pages 2
cells 1
init 1
page 1 0000000000000007
pivots 1
window 4
down ldbr
up lr
vcpus 2
vcpu 0 1
r 1 0
vcpu 0 1
r 1 0
end
";

/// One that releases page 1 at the source and reads it at the target.
const RELEASED: &str = "postcopy-script 1
pages 2
cells 1
init 0
pivots 1
window 2
down -
up -
vcpus 1
vcpu 1 1
z 1
r 1 0
end
";

/// One that writes at the source and at the target.
const WRITTEN: &str = "postcopy-script 1
pages 2
cells 2
init 1
page 0 00000000000000050000000000000006
pivots 2
window 1
down rrbb
up r
vcpus 1
vcpu 2 3
w 0 1 9
r 0 1
w 1 0 3
r 0 0
r 0 1
end
";

/// A run of a script over any gate has these answers, of the first two virtual processors.
pub(crate) fn has_answers(migrated: &Migrated, first: &[u64], second: &[u64]) -> bool {
    let transcripts = migrated.transcripts.as_slice();
    let is_first = match transcripts.get(0) {
        Some(transcript) => are_answers(transcript.as_slice(), first),
        None => false,
    };
    let is_second = match transcripts.get(1) {
        Some(transcript) => are_answers(transcript.as_slice(), second),
        None => second.is_empty(),
    };
    is_first && is_second
}

/// The frames that a run left have this value in the first cell of a page.
pub(crate) fn has_value(migrated: &Migrated, page: u32, value: u64) -> bool {
    let geometry = migrated.store.geometry();
    geometry.keeps_limits();
    page < geometry.pages() && migrated.store.read(PageNo::new(page), 0) == value
}

/// What carries a run's packets.
#[derive(Clone, Copy)]
pub(crate) enum Carrier {
    Memory,
    Relay,
    Loopback,
}

/// A run of a script over this carrier.
pub(crate) fn run<
    R: Threads + Wait + Sync + Net<Listener = TcpListener, Stream = TcpStream>,
    G: Gate,
>(
    rt: &R,
    alloc: Global,
    script: &Script,
    gate: &G,
    carrier: Carrier,
) -> Result<Migrated, RunFault> {
    match carrier {
        Carrier::Memory => migrate(rt, alloc, script, gate),
        Carrier::Relay => run_over_relay(rt, alloc, script, gate),
        Carrier::Loopback => migrate_tcp(rt, alloc, script, gate),
    }
}

/// Whether the gate sees two threads at once, and more than one lock.
fn runs_at_once<R: Threads + Wait + Sync + Net<Listener = TcpListener, Stream = TcpStream>>(
    rt: &R,
    alloc: Global,
    carrier: Carrier,
) -> bool {
    let Ok(script) = read_script(alloc, TWO_READERS.as_bytes()) else {
        return false;
    };
    let gate = Readers {
        board: Board::new(rt),
    };
    let is_right = match run(rt, alloc, &script, &gate, carrier) {
        Ok(migrated) => has_answers(&migrated, &[5, 8], &[5]),
        Err(_) => false,
    };
    let Readers { board } = gate;
    is_right && !board.into_flags().gave_up
}

#[test]
fn two_readers_at_once(rt: HostRuntime) {
    assert!(rt; runs_at_once(&rt, rt.alloc(), Carrier::Memory));
}

#[test]
fn two_readers_at_once_over_loopback(rt: HostRuntime) {
    assert!(rt; runs_at_once(&rt, rt.alloc(), Carrier::Loopback));
}

/// Whether a run of a script has these answers, and leaves this value in the first cell of page 1.
fn comes_out<R: Threads + Wait + Sync + Net<Listener = TcpListener, Stream = TcpStream>>(
    rt: &R,
    alloc: Global,
    carrier: Carrier,
    text: &str,
    answers: [&[u64]; 2],
    value: u64,
) -> bool {
    let Ok(script) = read_script(alloc, text.as_bytes()) else {
        return false;
    };
    match run(rt, alloc, &script, &Open, carrier) {
        Ok(migrated) => {
            has_answers(&migrated, answers[0], answers[1]) && has_value(&migrated, 1, value)
        }
        Err(_) => false,
    }
}

#[test]
fn over_a_bad_link(rt: HostRuntime) {
    for carrier in [Carrier::Memory, Carrier::Loopback] {
        assert!(rt; comes_out(&rt, rt.alloc(), carrier, BAD_LINK, [&[7], &[7]], 7));
    }
}

#[test]
fn a_released_page(rt: HostRuntime) {
    assert!(rt;
        comes_out(
            &rt,
            rt.alloc(),
            Carrier::Memory,
            RELEASED,
            [&[0, 0], &[]],
            0
        )
    );
}

#[test]
fn writes_on_both_sides(rt: HostRuntime) {
    assert!(rt;
        comes_out(
            &rt,
            rt.alloc(),
            Carrier::Memory,
            WRITTEN,
            [&[9, 9, 3, 5, 9], &[]],
            3
        )
    );
}

/// Sixteen that read and write three pages over a link that loses, sends back and repeats.
const SIXTEEN: &str = "postcopy-script 1
pages 3
cells 1
init 1
page 1 0000000000000007
pivots 2
window 2
down lrbdlb
up rlb
vcpus 16
";

/// What each of the sixteen does.
const ONE_OF_SIXTEEN: &str = "vcpu 2 3
w 0 0 4
r 1 0
r 0 0
w 2 0 6
r 1 0
";

/// The script of the sixteen.
fn sixteen(alloc: Global) -> Option<Script> {
    let mut text = Vec::new(alloc);
    text.extend_from_slice(SIXTEEN.as_bytes()).ok()?;
    for _ in 0..16 {
        text.extend_from_slice(ONE_OF_SIXTEEN.as_bytes()).ok()?;
    }
    text.extend_from_slice(b"end\n").ok()?;
    read_script(alloc, text.as_slice()).ok()
}

/// Whether a run of the sixteen comes out.
fn sixteen_come_out<R: Threads + Wait + Sync>(rt: &R, alloc: Global, script: &Script) -> bool {
    match migrate(rt, alloc, script, &Open) {
        Ok(migrated) => has_answers(&migrated, &[4, 7, 4, 6, 7], &[4, 7, 4, 6, 7]),
        Err(_) => false,
    }
}

/// Whether each of so many runs does.
fn all_come_out<R: Threads + Wait + Sync>(rt: &R, alloc: Global, runs: u32) -> bool {
    let Some(script) = sixteen(alloc) else {
        return false;
    };
    for _ in 0..runs {
        if !sixteen_come_out(rt, alloc, &script) {
            return false;
        }
    }
    true
}

#[test]
fn a_thousand_runs(rt: HostRuntime) {
    assert!(rt; all_come_out(&rt, rt.alloc(), 1_000));
}
