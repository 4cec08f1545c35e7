//! What a gate is told: each page before it is placed, each page that was offered, and each operation, one at a time.

use crate::runs::{Carrier, run};
use guest_script::read_script;
use host_threads::Gate;
use migration_types::{LinkRec, PageNo, PagerRec, Session, SourceRec};
use std::alloc::Global;
use std::net::{Net, TcpListener, TcpStream};
use std::sync::{Mutex, Wait};
use std::thread::Threads;
use target_side::TargetBook;

/// Two virtual processors that use all of four pages at the target.
const TWO_USERS: &str = "postcopy-script 1
pages 4
cells 1
init 2
page 0 0000000000000005
page 3 0000000000000008
pivots 1
window 4
down -
up -
vcpus 2
vcpu 0 4
r 3 0
w 1 0 2
r 0 0
r 1 0
vcpu 0 3
r 2 0
w 2 0 7
r 3 0
end
";

/// How many pages are noted at most.
const MOST: usize = 32;

/// Pages, in the order in which they were told.
#[derive(Clone, Copy, PartialEq, Eq)]
struct Pages {
    numbers: [u32; MOST],
    count: usize,
}

impl Pages {
    fn none() -> Self {
        Pages {
            numbers: [0; MOST],
            count: 0,
        }
    }

    fn note(&mut self, page: PageNo) {
        if self.count < MOST {
            self.numbers[self.count] = page.number();
            self.count += 1;
        }
    }
}

/// What a gate was told.
#[derive(Clone, Copy)]
struct Notes {
    placing: Pages,
    offered: Pages,
    /// Which virtual processors were told as holding the lock, and not yet as answered.
    holding: [bool; 2],
    /// Whether one was told twice in a row as either.
    is_twice: bool,
}

/// A gate that never waits, and notes what it is told.
#[derive(Drop)]
struct Notebook<'a, R: Wait> {
    rt: &'a R,
    notes: Mutex<Notes>,
}

impl<'a, R: Wait> Notebook<'a, R> {
    fn new(rt: &'a R) -> Self {
        Notebook {
            rt,
            notes: Mutex::new(Notes {
                placing: Pages::none(),
                offered: Pages::none(),
                holding: [false; 2],
                is_twice: false,
            }),
        }
    }

    fn into_notes(self) -> Notes {
        let Notebook { notes, .. } = self;
        notes.into_inner()
    }

    fn note_hold(&self, vcpu: u8, holds: bool) {
        let mut notes = self.notes.lock(self.rt);
        let notes = &mut *notes;
        let vcpu = usize::from(vcpu);
        if vcpu < 2 {
            notes.is_twice = notes.is_twice || notes.holding[vcpu] == holds;
            notes.holding[vcpu] = holds;
        }
    }
}

impl<R: Wait + Sync> Gate for Notebook<'_, R> {
    fn placing(&self, page: PageNo) {
        let mut notes = self.notes.lock(self.rt);
        notes.placing.note(page);
    }

    fn offered(&self, page: PageNo) {
        let mut notes = self.notes.lock(self.rt);
        notes.offered.note(page);
    }

    fn answered(&self, vcpu: u8, _page: PageNo) {
        self.note_hold(vcpu, false);
    }

    fn held(&self, vcpu: u8, _page: PageNo, _book: &TargetBook) {
        self.note_hold(vcpu, true);
    }
}

/// The page that a record of the source sends, first or again.
fn sent_by(source: &[SourceRec], rec: &SourceRec) -> Option<PageNo> {
    match rec {
        SourceRec::Send { page, .. } => Some(*page),
        SourceRec::Again { sending } => match source.get(*sending as usize) {
            Some(SourceRec::Send { page, .. }) => Some(*page),
            _ => None,
        },
        _ => None,
    }
}

/// The page of the packet that the pager took by its record of this number.
fn taken_by(session: &Session, got: u32) -> Option<PageNo> {
    let Some(PagerRec::Got { down }) = session.pager().get(got as usize) else {
        return None;
    };
    let Some(LinkRec::Down { sending }) = session.link().get(*down as usize) else {
        return None;
    };
    sent_by(session.source(), session.source().get(*sending as usize)?)
}

/// The pages that the pager placed or dropped, by its log.
fn placed_in(session: &Session) -> Pages {
    let mut pages = Pages::none();
    for rec in session.pager() {
        let page = match rec {
            PagerRec::Place { page, .. } => Some(*page),
            PagerRec::Skip { got } => taken_by(session, *got),
            _ => None,
        };
        if let Some(page) = page {
            pages.note(page);
        }
    }
    pages
}

/// The pages that the source offered, by its log.
fn offered_in(session: &Session) -> Pages {
    let mut pages = Pages::none();
    for rec in session.source() {
        if let Some(page) = sent_by(session.source(), rec) {
            pages.note(page);
        }
    }
    pages
}

/// Whether a gate is told what the logs of its run say: the pages in their order, and each operation by itself.
fn is_told<R: Threads + Wait + Sync + Net<Listener = TcpListener, Stream = TcpStream>>(
    rt: &R,
    alloc: Global,
) -> bool {
    let Ok(script) = read_script(alloc, TWO_USERS.as_bytes()) else {
        return false;
    };
    let gate = Notebook::new(rt);
    let Ok(migrated) = run(rt, alloc, &script, &gate, Carrier::Memory) else {
        return false;
    };
    let notes = gate.into_notes();
    !notes.is_twice
        && notes.placing == placed_in(&migrated.session)
        && notes.offered == offered_in(&migrated.session)
}

#[test]
fn a_gate_is_told_of_each_moment(rt: HostRuntime) {
    for _ in 0..20 {
        assert!(rt; is_told(&rt, rt.alloc()));
    }
}
