//! Scripts of the second version whose operations and fates are drawn by a number, as is whether there is a lane.

use crate::runs::{Carrier, run};
use guest_script::{Script, read_script};
use host_threads::Open;
use std::alloc::{AllocError, Global};
use std::net::{Net, TcpListener, TcpStream};
use std::sync::Wait;
use std::thread::Threads;

/// How many pages a drawn machine has, of two cells each.
const PAGES: u32 = 4;

/// How many virtual processors.
const VCPUS: u32 = 3;

/// How many operations each of them has before its move, and after it.
const OPS: (u32, u32) = (3, 6);

/// How many fates each line has.
const FATES: u32 = 6;

/// What is drawn next follows from a number.
#[derive(Clone, Copy)]
struct Draws {
    seed: u32,
}

impl Draws {
    /// A number below a limit.
    fn below(&mut self, limit: u32) -> u32 {
        self.seed = self.seed.wrapping_mul(1_103_515_245).wrapping_add(12_345);
        self.seed / 65_536 % limit
    }

    /// The letter of a fate.
    fn fate(&mut self) -> u8 {
        match self.below(4) {
            0 => b'd',
            1 => b'l',
            2 => b'r',
            _ => b'b',
        }
    }
}

/// Adds an operation's line.
fn push_op(alloc: Global, text: &mut Vec<u8>, draws: &mut Draws) -> Result<(), AllocError> {
    let page = draws.below(PAGES);
    let cell = draws.below(2);
    let value = draws.below(9);
    let line = match draws.below(3) {
        0 => format!(in alloc; "r {page} {cell}\n")?,
        1 => format!(in alloc; "w {page} {cell} {value}\n")?,
        _ => format!(in alloc; "z {page}\n")?,
    };
    text.extend_from_slice(line.as_bytes())
}

/// Adds a line of fates behind this word.
fn push_fates(text: &mut Vec<u8>, word: &str, draws: &mut Draws) -> Result<(), AllocError> {
    text.extend_from_slice(word.as_bytes())?;
    for _ in 0..FATES {
        text.push(draws.fate())?;
    }
    text.push(b'\n')?;
    Ok(())
}

/// Adds how many links carry packets down: one, or two, with a line of fates on the lane.
fn push_lanes(text: &mut Vec<u8>, draws: &mut Draws) -> Result<(), AllocError> {
    if draws.below(2) == 0 {
        return text.extend_from_slice(b"lanes 1\n");
    }
    text.extend_from_slice(b"lanes 2\n")?;
    push_fates(text, "lane ", draws)
}

/// The text of a drawn script.
fn text_of(alloc: Global, seed: u32) -> Result<Vec<u8>, AllocError> {
    let mut draws = Draws { seed };
    let mut text = Vec::new(alloc);
    text.extend_from_slice(b"postcopy-script 2\npages 4\ncells 2\ninit 2\n")?;
    text.extend_from_slice(b"page 0 00000000000000110000000000000012\n")?;
    text.extend_from_slice(b"page 2 00000000000000130000000000000000\n")?;
    let (pivots, window) = (1 + draws.below(3), 1 + draws.below(4));
    let limits = format!(in alloc; "pivots {pivots}\nwindow {window}\n")?;
    text.extend_from_slice(limits.as_bytes())?;
    push_fates(&mut text, "down ", &mut draws)?;
    push_fates(&mut text, "up ", &mut draws)?;
    push_lanes(&mut text, &mut draws)?;
    let (before, after) = OPS;
    let counts = format!(in alloc; "vcpus {VCPUS}\n")?;
    text.extend_from_slice(counts.as_bytes())?;
    for _ in 0..VCPUS {
        let line = format!(in alloc; "vcpu {before} {after}\n")?;
        text.extend_from_slice(line.as_bytes())?;
        for _ in 0..before + after {
            push_op(alloc, &mut text, &mut draws)?;
        }
    }
    text.extend_from_slice(b"end\n")?;
    Ok(text)
}

/// A drawn script.
fn drawn(alloc: Global, seed: u32) -> Option<Script> {
    let text = text_of(alloc, seed).ok()?;
    read_script(alloc, text.as_slice()).ok()
}

/// Whether the runs of so many drawn scripts come out.
fn come_out<R: Threads + Wait + Sync + Net<Listener = TcpListener, Stream = TcpStream>>(
    rt: &R,
    alloc: Global,
    carrier: Carrier,
    scripts: u32,
) -> bool {
    for seed in 0..scripts {
        let Some(script) = drawn(alloc, seed) else {
            return false;
        };
        if run(rt, alloc, &script, &Open, carrier).is_err() {
            return false;
        }
    }
    true
}

#[test]
fn drawn_scripts(rt: HostRuntime) {
    assert!(rt; come_out(&rt, rt.alloc(), Carrier::Memory, 300));
}

#[test]
fn drawn_scripts_over_loopback(rt: HostRuntime) {
    assert!(rt; come_out(&rt, rt.alloc(), Carrier::Loopback, 30));
}
