//! Gates that show whether threads run at once, whether the books have locks of their own, and who wakes whom.

use host_threads::Gate;
use migration_types::{GuestRec, PageNo};
use std::sync::{Mutex, Wait};
use target_side::TargetBook;

/// How often a gate looks before it gives up.
const MOST_LOOKS: u32 = 3_000_000;

/// How often a gate looks where it goes on all the same.
const SOME_LOOKS: u32 = 1_000_000;

/// What a gate has seen.
#[derive(Clone, Copy)]
pub(crate) struct Flags {
    pub set: [bool; 4],
    pub gave_up: bool,
}

/// What a gate has seen, behind a lock of its own.
#[derive(Drop)]
pub(crate) struct Board<'a, R: Wait> {
    rt: &'a R,
    flags: Mutex<Flags>,
}

impl<'a, R: Wait> Board<'a, R> {
    /// Nothing was seen.
    pub(crate) fn new(rt: &'a R) -> Self {
        Board {
            rt,
            flags: Mutex::new(Flags {
                set: [false; 4],
                gave_up: false,
            }),
        }
    }

    /// What was seen.
    pub(crate) fn into_flags(self) -> Flags {
        let Board { flags, .. } = self;
        flags.into_inner()
    }

    fn set(&self, flag: usize) {
        let mut flags = self.flags.lock(self.rt);
        let flags = &mut *flags;
        flags.set[flag] = true;
    }

    /// Looks for a flag so often at most. Whether it was set.
    fn finds(&self, flag: usize, looks: u32) -> bool {
        for _ in 0..looks {
            let flags = self.flags.lock(self.rt);
            if flags.set[flag] {
                return true;
            }
        }
        false
    }

    fn hold(&self, flag: usize) {
        if !self.finds(flag, MOST_LOOKS) {
            self.flags.lock(self.rt).gave_up = true;
        }
    }
}

/// Four flags, for which the calls of two virtual processors wait: that the first read page 0 at the target, that the
/// second did, that the target's lock is held for page 0, and that another page was offered.
#[derive(Drop)]
pub(crate) struct Readers<'a, R: Wait> {
    pub board: Board<'a, R>,
}

impl<R: Wait + Sync> Gate for Readers<'_, R> {
    fn placing(&self, page: PageNo) {
        if page.number() == 3 {
            self.board.hold(1);
        }
    }

    fn offered(&self, page: PageNo) {
        if page.number() == 0 {
            self.board.hold(2);
        } else {
            self.board.set(3);
        }
    }

    fn answered(&self, vcpu: u8, page: PageNo) {
        if page.number() == 0 {
            if vcpu == 0 {
                self.board.set(0);
                self.board.hold(1);
            } else {
                self.board.set(1);
                self.board.hold(0);
            }
        }
    }

    fn held(&self, _vcpu: u8, page: PageNo, book: &TargetBook) {
        if page.number() == 0 && book.geometry().pages() == 4 {
            self.board.set(2);
            self.board.hold(3);
        }
    }
}

/// A gate under which no page is placed before each of four pages was offered. Its flags are those of the pages.
#[derive(Drop)]
pub(crate) struct Offers<'a, R: Wait> {
    pub board: Board<'a, R>,
}

impl<R: Wait + Sync> Gate for Offers<'_, R> {
    fn placing(&self, _page: PageNo) {
        for page in 0..4 {
            self.board.hold(page);
        }
    }

    fn offered(&self, page: PageNo) {
        let page = page.index();
        if page < 4 {
            self.board.set(page);
        }
    }

    fn answered(&self, _vcpu: u8, _page: PageNo) {}

    fn held(&self, _vcpu: u8, _page: PageNo, _book: &TargetBook) {}
}

/// The first virtual processor was answered.
const ANSWERED: usize = 0;

/// The pager waits to place a page.
const PLACING: usize = 1;

/// The first virtual processor has missed a page.
pub(crate) const MISSED: usize = 2;

/// A gate under which no page is placed before the first virtual processor was answered at the target. The second one
/// waits behind each operation on page 2 until the pager waits to place a page, and for a while until the first has
/// missed its page. Behind one on another page it waits until the first was answered.
#[derive(Drop)]
pub(crate) struct Releases<'a, R: Wait> {
    pub board: Board<'a, R>,
}

/// Whether the first virtual processor has missed a page.
fn has_missed(log: &[GuestRec]) -> bool {
    log.iter()
        .any(|rec| matches!(rec, GuestRec::Miss { vcpu: 0, .. }))
}

impl<R: Wait + Sync> Gate for Releases<'_, R> {
    fn placing(&self, _page: PageNo) {
        self.board.set(PLACING);
        self.board.hold(ANSWERED);
    }

    fn offered(&self, _page: PageNo) {}

    fn answered(&self, vcpu: u8, page: PageNo) {
        if vcpu == 0 {
            self.board.set(ANSWERED);
        } else if page.number() == 2 {
            self.board.hold(PLACING);
            self.board.finds(MISSED, SOME_LOOKS);
        } else {
            self.board.hold(ANSWERED);
        }
    }

    fn held(&self, _vcpu: u8, _page: PageNo, book: &TargetBook) {
        if has_missed(book.guest_log()) {
            self.board.set(MISSED);
        }
    }
}
