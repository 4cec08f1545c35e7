//! Runs over relays that go wrong.

use crate::runs::{TWO_MISSES, has_answers};
use guest_script::{Script, read_script};
use host_threads::{Gate, Migrated, Open, Relay, RelayFault, RunFault, migrate_over};
use std::alloc::Global;
use std::sync::atomic::{AtomicU32, Ordering};
use std::sync::{Arc, Wait};
use std::thread::Threads;

/// What a relay does.
#[derive(Clone, Copy)]
enum Conduct {
    /// The call of this number fails; the first is 1.
    FailsAt(u32),
    /// It inverts the last bit of each byte.
    Inverts,
    /// It takes and gives back one byte at a time.
    Trickles,
    /// It takes one byte more than there are.
    TakesMore,
    /// It gives back one byte more than were asked for.
    GivesMore,
    /// It takes nothing.
    Refuses,
    /// It has ended: it gives nothing back.
    Ends,
}

/// A relay in memory, which counts its calls.
#[derive(Drop)]
struct Fake {
    calls: Arc<AtomicU32, Global>,
    conduct: Conduct,
    held: Vec<u8>,
}

impl Fake {
    /// Counts a call, and fails where it is the one that fails.
    fn call(&self) -> Result<(), RelayFault> {
        let earlier = self.calls.fetch_add(1, Ordering::SeqCst);
        match self.conduct {
            Conduct::FailsAt(failing) if earlier.saturating_add(1) == failing => Err(RelayFault),
            _ => Ok(()),
        }
    }

    /// How many of so many bytes it takes or gives back at a time.
    fn most_of(&self, count: usize) -> usize {
        match self.conduct {
            Conduct::Trickles => count.min(1),
            _ => count,
        }
    }

    /// A byte as it comes back.
    fn returned(&self, byte: u8) -> u8 {
        match self.conduct {
            Conduct::Inverts => byte ^ 1,
            _ => byte,
        }
    }
}

impl Relay for Fake {
    fn write(&mut self, bytes: &[u8]) -> Result<usize, RelayFault> {
        self.call()?;
        let count = self.most_of(bytes.len());
        self.held
            .extend_from_slice(&bytes[..count])
            .map_err(|_| RelayFault)?;
        match self.conduct {
            Conduct::TakesMore => Ok(count.saturating_add(1)),
            Conduct::Refuses => Ok(0),
            _ => Ok(count),
        }
    }

    fn read(&mut self, into: &mut [u8]) -> Result<usize, RelayFault> {
        self.call()?;
        let count = self.most_of(into.len().min(self.held.len()));
        for k in 0..count {
            into[k] = self.returned(self.held[k]);
        }
        self.held.drain(..count);
        match self.conduct {
            Conduct::GivesMore => Ok(into.len().saturating_add(1)),
            Conduct::Ends => Ok(0),
            _ => Ok(count),
        }
    }
}

/// A run over a relay that gives each byte back as it was, one at a time.
pub(crate) fn run_over_relay<R: Threads + Wait + Sync, G: Gate>(
    rt: &R,
    alloc: Global,
    script: &Script,
    gate: &G,
) -> Result<Migrated, RunFault> {
    let Ok(calls) = Arc::new(alloc, AtomicU32::new(0)) else {
        return Err(RunFault::Memory);
    };
    let relay = Fake {
        calls,
        conduct: Conduct::Trickles,
        held: Vec::new(alloc),
    };
    migrate_over(rt, alloc, script, gate, relay)
}

/// What a run comes to.
#[derive(Clone, Copy, PartialEq, Eq)]
enum Outcome {
    /// It has the right answers.
    Right,
    /// The link failed.
    LinkFails,
    /// It has none of these.
    Wrong,
}

/// What a run has come to.
fn outcome_from(run: &Result<Migrated, RunFault>) -> Outcome {
    match run {
        Ok(migrated) if has_answers(migrated, &[7], &[7]) => Outcome::Right,
        Err(RunFault::Link) => Outcome::LinkFails,
        _ => Outcome::Wrong,
    }
}

/// What a run of the script comes to over such a relay, and how many calls it made. None: there is no memory.
fn outcome_of<R: Threads + Wait + Sync>(
    rt: &R,
    alloc: Global,
    script: &Script,
    conduct: Conduct,
) -> Option<(Outcome, u32)> {
    let calls = Arc::new(alloc, AtomicU32::new(0)).ok()?;
    let relay = Fake {
        calls: Arc::try_clone(&calls).ok()?,
        conduct,
        held: Vec::new(alloc),
    };
    let run = migrate_over(rt, alloc, script, &Open, relay);
    Some((outcome_from(&run), calls.load(Ordering::SeqCst)))
}

/// Relays, and what a run over each of them comes to.
const CONDUCTS: [(Conduct, Outcome); 6] = [
    (Conduct::Inverts, Outcome::LinkFails),
    (Conduct::Trickles, Outcome::Right),
    (Conduct::TakesMore, Outcome::LinkFails),
    (Conduct::GivesMore, Outcome::LinkFails),
    (Conduct::Refuses, Outcome::LinkFails),
    (Conduct::Ends, Outcome::LinkFails),
];

/// Whether a run over each of the relays comes to what it should.
fn come_out_so<R: Threads + Wait + Sync>(rt: &R, alloc: Global) -> bool {
    let Ok(script) = read_script(alloc, TWO_MISSES.as_bytes()) else {
        return false;
    };
    for (conduct, outcome) in CONDUCTS {
        match outcome_of(rt, alloc, &script, conduct) {
            Some((found, _)) if found == outcome => {}
            _ => return false,
        }
    }
    true
}

#[test]
fn relays_that_go_wrong(rt: HostRuntime) {
    assert!(rt; come_out_so(&rt, rt.alloc()));
}

/// How many calls of a relay are made to fail, one in each run.
const FAILING: u32 = 40;

/// Whether the link fails in each run that makes the failing call, the first among them, and each other comes out.
fn each_failure_shows<R: Threads + Wait + Sync>(rt: &R, alloc: Global) -> bool {
    let Ok(script) = read_script(alloc, TWO_MISSES.as_bytes()) else {
        return false;
    };
    for failing in 1..=FAILING {
        let Some((outcome, calls)) = outcome_of(rt, alloc, &script, Conduct::FailsAt(failing))
        else {
            return false;
        };
        let expected = if calls >= failing {
            Outcome::LinkFails
        } else {
            Outcome::Right
        };
        if outcome != expected || calls == 0 {
            return false;
        }
    }
    true
}

#[test]
fn relays_whose_call_fails(rt: HostRuntime) {
    assert!(rt; each_failure_shows(&rt, rt.alloc()));
}
