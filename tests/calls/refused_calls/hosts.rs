//! The calls that migrate in threads.

use crate::examples::Examples;
use crate::refusing::Refuser;
use cert_check::{Verdict, check};
use host_threads::{
    Migrated, Open, Relay, RelayFault, Transcript, migrate, migrate_over, migrate_tcp,
};
use std::alloc::Global;
use std::marker::Sync;
use std::net::{Net, TcpListener, TcpStream};
use std::sync::Wait;
use std::thread::Threads;

/// Whether a virtual processor had this one answer.
fn has_answer(transcript: &Transcript, answer: u64) -> bool {
    match transcript.as_slice() {
        [answered] => answered.answer == answer,
        _ => false,
    }
}

/// Whether two read page 1, which begins as 7, and what was recorded is certified.
fn is_migrated(alloc: Global, migrated: &Migrated) -> bool {
    let have_read = match migrated.transcripts.as_slice() {
        [first, second] => has_answer(first, 7) && has_answer(second, 7),
        _ => false,
    };
    have_read && check(alloc, &migrated.session, &migrated.cert) == Ok(Verdict::Yes)
}

/// A relay that gives back what it was given, and takes no memory.
#[derive(Drop)]
struct Held {
    bytes: [u8; 4_096],
    from: usize,
    to: usize,
}

impl Relay for Held {
    fn write(&mut self, bytes: &[u8]) -> Result<usize, RelayFault> {
        if self.from == self.to {
            self.from = 0;
            self.to = 0;
        }
        let count = bytes.len().min(self.bytes.len() - self.to);
        for k in 0..count {
            self.bytes[self.to + k] = bytes[k];
        }
        self.to += count;
        Ok(count)
    }

    fn read(&mut self, into: &mut [u8]) -> Result<usize, RelayFault> {
        let count = into.len().min(self.to - self.from);
        for k in 0..count {
            into[k] = self.bytes[self.from + k];
        }
        self.from += count;
        Ok(count)
    }
}

/// A relay that holds nothing yet.
fn empty_relay() -> Held {
    Held {
        bytes: [0; 4_096],
        from: 0,
        to: 0,
    }
}

/// Makes the calls.
pub fn make<R: Threads + Wait + Sync + Net<Listener = TcpListener, Stream = TcpStream>>(
    rt: &R,
    refuser: Refuser,
    examples: &Examples,
) -> Option<()> {
    let alloc = refuser.alloc();
    let script = examples.script("two-wait-for-a-page/script")?;
    refuser.each(
        "host_threads::migrate",
        || migrate(rt, alloc, &script, &Open),
        |migrated: &Migrated| is_migrated(alloc, migrated),
    )?;
    refuser.each(
        "host_threads::migrate_over",
        || migrate_over(rt, alloc, &script, &Open, empty_relay()),
        |migrated: &Migrated| is_migrated(alloc, migrated),
    )?;
    refuser.each(
        "host_threads::migrate_tcp",
        || migrate_tcp(rt, alloc, &script, &Open),
        |migrated: &Migrated| is_migrated(alloc, migrated),
    )?;
    Some(())
}
