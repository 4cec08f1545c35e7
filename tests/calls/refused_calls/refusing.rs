//! What has growths refused, and tells what came of them. Something else stands before the system's calls: it hears what is
//! written here, refuses the growth that is named, and answers what is read here.

use cert_maker::MakeFault;
use fault_queue::QueueFault;
use host_threads::RunFault;
use merge_runs::MergeFault;
use migration_events::EventFault;
use page_stream::{PumpFault, StreamFault, StreamFaultKind};
use std::alloc::{AllocError, Global};
use std::io::{Read, Write};
use text_lines::{FaultKind, TextFault};

/// More growths than any call has.
pub const MOST: u32 = 5_000;

/// What a call answers that does not do its work.
pub trait Fault: Drop {
    /// Whether it says that there was no memory, and nothing else.
    fn is_memory(&self) -> bool;
}

impl Fault for AllocError {
    fn is_memory(&self) -> bool {
        true
    }
}

impl Fault for TextFault {
    fn is_memory(&self) -> bool {
        self.kind == FaultKind::Memory && self.line == 0
    }
}

impl Fault for QueueFault {
    fn is_memory(&self) -> bool {
        *self == QueueFault::Memory
    }
}

impl Fault for EventFault {
    fn is_memory(&self) -> bool {
        *self == EventFault::Memory
    }
}

impl Fault for StreamFault {
    fn is_memory(&self) -> bool {
        self.kind == StreamFaultKind::Memory && self.before.as_slice().is_empty()
    }
}

impl Fault for PumpFault {
    fn is_memory(&self) -> bool {
        *self == PumpFault::Memory
    }
}

impl Fault for MergeFault {
    fn is_memory(&self) -> bool {
        matches!(self, MergeFault::Memory)
    }
}

impl Fault for MakeFault {
    fn is_memory(&self) -> bool {
        matches!(self, MakeFault::Memory)
    }
}

impl Fault for RunFault {
    fn is_memory(&self) -> bool {
        matches!(self, RunFault::Memory | RunFault::Threads)
    }
}

/// Which growths are refused.
#[derive(Clone, Copy)]
pub enum Which {
    /// One with each later one of the call.
    AndLater,
    /// One alone.
    Alone,
}

/// Both, one after the other.
pub const WHICH: [Which; 2] = [Which::AndLater, Which::Alone];

/// What became of a call of which a growth was to be refused.
#[derive(Drop)]
pub enum Outcome<T, E> {
    /// It answered, and no growth of it was refused.
    Answered(T),
    /// It answered all the same.
    WentOn(T),
    /// It answered a fault.
    Refused(E),
    /// It answered a fault, and no growth of it was refused.
    GaveUp(E),
}

/// Whether all of these were made. Where one was not, the others were all the same.
pub fn all(made: &[Option<()>]) -> Option<()> {
    if made.iter().all(|made| made.is_some()) {
        Some(())
    } else {
        None
    }
}

/// Has growths refused.
#[derive(Clone, Copy)]
pub struct Refuser {
    rt: HostRuntime,
}

impl Refuser {
    /// By the system's own input and output.
    pub fn new(rt: HostRuntime) -> Refuser {
        Refuser { rt }
    }

    /// Memory.
    pub fn alloc(self) -> Global {
        self.rt.alloc()
    }

    /// Writes a line.
    pub fn tell(self, line: &[u8]) {
        let _ = self.rt.stdout().write_all(line);
    }

    /// From here on the growth of this number is refused, or none for 0.
    fn refuse(self, name: &str, n: u32, which: Which) {
        let more = match which {
            Which::Alone => "",
            Which::AndLater => " on",
        };
        if let Ok(line) = format!(in self.rt.alloc(); "refuse {name} {n}{more}\n") {
            self.tell(line.as_bytes());
        }
    }

    /// From here on no growth is refused. Whether one was.
    fn has_refused(self) -> bool {
        self.tell(b"made\n");
        let mut answer = [0u8; 1];
        let _ = self.rt.stdin().read(&mut answer);
        answer == *b"1"
    }

    /// Makes a call, of which the growth of this number is refused.
    pub fn once<T, E, C: FnOnce() -> Result<T, E>>(
        self,
        name: &str,
        n: u32,
        which: Which,
        call: C,
    ) -> Outcome<T, E> {
        self.refuse(name, n, which);
        let answer = call();
        match (answer, self.has_refused()) {
            (Ok(answer), false) => {
                self.tell(b"answered\n");
                Outcome::Answered(answer)
            }
            (Ok(answer), true) => {
                self.tell(b"went on\n");
                Outcome::WentOn(answer)
            }
            (Err(fault), true) => Outcome::Refused(fault),
            (Err(fault), false) => {
                self.tell(b"gave up\n");
                Outcome::GaveUp(fault)
            }
        }
    }

    /// Tells what a call answered that was refused, and whether what is to stay stayed.
    pub fn refused<E: Fault>(self, fault: &E, stays: bool) {
        self.tell(if !fault.is_memory() {
            b"another fault\n"
        } else if stays {
            b"memory\n"
        } else {
            b"memory, and something changed\n"
        });
    }

    /// Tells whether an answer is the right one.
    pub fn right(self, is_right: bool) {
        self.tell(if is_right { b"right\n" } else { b"wrong\n" });
    }

    /// Makes a call on a value over and over, of which first the first growth is refused, then the second, until none is; each
    /// of them alone, and with all later ones. What it then answers, or where it goes on. After each refusal something has
    /// to have stayed.
    pub fn each_on<B, T: Drop, E: Fault, C: Fn(&mut B) -> Result<T, E>, S: Fn(&B) -> bool>(
        self,
        name: &str,
        value: &mut B,
        call: C,
        stays: S,
    ) -> Option<T> {
        for n in 1..MOST {
            for which in WHICH {
                match self.once(name, n, which, || call(value)) {
                    Outcome::Answered(answer) | Outcome::WentOn(answer) => return Some(answer),
                    Outcome::Refused(fault) => self.refused(&fault, stays(value)),
                    Outcome::GaveUp(_) => return None,
                }
            }
        }
        None
    }

    /// The same of a call that changes nothing, and is made on where it went on. What it answers where no growth is refused.
    pub fn each<T: Drop, E: Fault, C: Fn() -> Result<T, E>, R: Fn(&T) -> bool>(
        self,
        name: &str,
        call: C,
        is_right: R,
    ) -> Option<T> {
        self.each_of(name, &WHICH, call, is_right)
    }

    /// The same, where just these growths are refused.
    pub fn each_of<T: Drop, E: Fault, C: Fn() -> Result<T, E>, R: Fn(&T) -> bool>(
        self,
        name: &str,
        each: &[Which],
        call: C,
        is_right: R,
    ) -> Option<T> {
        for n in 1..MOST {
            for which in each {
                match self.once(name, n, *which, || call()) {
                    Outcome::Answered(answer) => {
                        self.right(is_right(&answer));
                        return Some(answer);
                    }
                    Outcome::WentOn(answer) => self.right(is_right(&answer)),
                    Outcome::Refused(fault) => self.refused(&fault, true),
                    Outcome::GaveUp(_) => return None,
                }
            }
        }
        None
    }

    /// Makes a call that takes no memory. What it answers.
    pub fn none<T, C: FnOnce() -> T>(self, name: &str, call: C) -> T {
        self.refuse(name, 0, Which::Alone);
        let answer = call();
        self.has_refused();
        self.tell(b"answered\n");
        answer
    }
}
