//! The calls of the books, by the events of a migration.

use crate::examples::Examples;
use crate::full_logs;
use crate::refusing::{MOST, Outcome, Refuser, WHICH};
use active_push::{SourceBook, SourceFault};
use balloon_ledger::Ledger;
use guest_script::Script;
use link_book::LinkBook;
use migration_events::{Direction, Event, Fate, Op};
use migration_types::{Contents, Geometry, Logs, PageNo, Seq, Session, Shared, Version};
use page_store::Store;
use page_stream::Packet;
use session_log::write_session;
use std::alloc::Global;
use target_side::{Access, GuestBook, PagerBook, TargetBook};

/// What each virtual processor has done of its operations before its move, and of those after it.
#[derive(Clone, Copy)]
struct Done {
    before: [usize; 2],
    after: [usize; 2],
}

/// The next operation of a virtual processor at the source, if there is one.
fn next_before(script: &Script, done: &Done, vcpu: u8) -> Option<Op> {
    let vcpu = usize::from(vcpu);
    script
        .vcpus()
        .get(vcpu)?
        .before_move
        .as_slice()
        .get(done.before[vcpu])
        .copied()
}

/// The next operation of a virtual processor at the target, if there is one.
fn next_after(script: &Script, done: &Done, vcpu: u8) -> Option<Op> {
    let vcpu = usize::from(vcpu);
    script
        .vcpus()
        .get(vcpu)?
        .after_move
        .as_slice()
        .get(done.after[vcpu])
        .copied()
}

/// The books at the target.
#[derive(Drop)]
struct AtTarget {
    pager: PagerBook,
    target: TargetBook,
}

/// What is seen of them.
#[derive(Clone, Copy, PartialEq, Eq)]
struct SeenAtTarget {
    guest: usize,
    pager: usize,
    miss: Option<u32>,
    page: Option<PageNo>,
    is_resumed: bool,
    is_ready: bool,
    residents: u32,
}

impl AtTarget {
    fn seen(&self) -> SeenAtTarget {
        let mut residents = 0;
        for page in 0..self.target.geometry().pages() {
            residents += u32::from(self.target.resident(PageNo::new(page)));
        }
        SeenAtTarget {
            guest: self.target.guest_log().len(),
            pager: self.pager.pager_log().len(),
            miss: match self.target.next_miss() {
                Some(miss) => Some(miss.number),
                None => None,
            },
            page: self.pager.next_page(),
            is_resumed: self.target.is_resumed(),
            is_ready: self.pager.is_ready(),
            residents,
        }
    }
}

/// What is seen of the source's book.
#[derive(Clone, Copy, PartialEq, Eq)]
struct SeenAtSource {
    log: usize,
    is_done: bool,
    sent: u32,
}

fn seen_at_source(source: &SourceBook) -> SeenAtSource {
    let mut sent = 0;
    for page in 0..source.geometry().pages() {
        sent += u32::from(source.sent(PageNo::new(page)).is_some());
    }
    SeenAtSource {
        log: source.source_log().len(),
        is_done: source.is_done(),
        sent,
    }
}

/// What is seen of the link's book.
#[derive(Clone, Copy, PartialEq, Eq)]
struct SeenOnLink {
    log: usize,
    down: usize,
    is_quiet: bool,
    heads: [Option<u32>; 2],
    arrived: [Option<u32>; 2],
}

fn number_of(packet: Option<&Packet>) -> Option<u32> {
    match packet {
        Some(packet) => Some(packet.number()),
        None => None,
    }
}

fn number_in(arrival: Option<(u32, &Packet)>) -> Option<u32> {
    match arrival {
        Some((number, _)) => Some(number),
        None => None,
    }
}

fn seen_on_link(link: &LinkBook) -> SeenOnLink {
    SeenOnLink {
        log: link.link_log().len(),
        down: link.down_len(),
        is_quiet: link.quiet(),
        heads: [
            number_of(link.head(Direction::Down)),
            number_of(link.head(Direction::Up)),
        ],
        arrived: [number_in(link.peek_down()), number_in(link.peek_up())],
    }
}

/// Takes room for one offer.
fn room(refuser: Refuser, link: &mut LinkBook) -> Option<()> {
    let seen = seen_on_link(link);
    refuser.each_on(
        "link_book::LinkBook::room",
        link,
        |link: &mut LinkBook| link.room(),
        |link: &LinkBook| seen_on_link(link) == seen,
    )?;
    refuser.right(seen_on_link(link) == seen);
    Some(())
}

fn offer_down(refuser: Refuser, link: &mut LinkBook, packet: Packet, front: bool) -> Option<()> {
    room(refuser, link)?;
    let len = link.down_len();
    refuser.none(
        "link_book::LinkBook::offer_down",
        || link.offer_down(packet, front),
    );
    let after = refuser.none("link_book::LinkBook::down_len", || link.down_len());
    refuser.right(after == len + 1);
    Some(())
}

fn offer_up(refuser: Refuser, link: &mut LinkBook, packet: Packet) -> Option<()> {
    room(refuser, link)?;
    refuser.none("link_book::LinkBook::offer_up", || link.offer_up(packet));
    let is_quiet = refuser.none("link_book::LinkBook::quiet", || link.quiet());
    refuser.right(!is_quiet);
    Some(())
}

/// A packet meets its fate.
fn turn(refuser: Refuser, link: &mut LinkBook, event: Event) -> Option<()> {
    let Event::LinkTurn { direction, fate } = event else {
        return None;
    };
    refuser.none(
        "link_book::LinkBook::head",
        || link.head(direction).is_some(),
    );
    let seen = seen_on_link(link);
    refuser.each_on(
        "link_book::LinkBook::turn",
        link,
        |link: &mut LinkBook| link.turn(direction, fate),
        |link: &LinkBook| seen_on_link(link) == seen,
    )?;
    refuser.right(true);
    Some(())
}

/// A call of the source's book that may offer a packet.
fn offered<C: Fn(&mut SourceBook) -> Result<Option<Packet>, SourceFault>>(
    refuser: Refuser,
    name: &str,
    source: &mut SourceBook,
    call: C,
) -> Option<Option<Packet>> {
    let seen = seen_at_source(source);
    let packet = refuser.each_on(name, source, call, |source: &SourceBook| {
        seen_at_source(source) == seen
    })?;
    refuser.right(true);
    Some(packet)
}

/// The migration before its halt: the guest's book, and the pager's.
#[derive(Drop)]
struct Before {
    guest: GuestBook,
    pager: PagerBook,
}

/// The migration from its halt on.
#[derive(Drop)]
struct After {
    source: SourceBook,
    there: AtTarget,
}

/// One migration.
#[derive(Drop)]
struct Migration<'a> {
    refuser: Refuser,
    script: &'a Script,
    done: Done,
    link: LinkBook,
}

impl<'a> Migration<'a> {
    /// A migration of a script before its first event.
    fn begin(refuser: Refuser, script: &'a Script) -> Option<(Migration<'a>, Before)> {
        let (alloc, geometry) = (refuser.alloc(), script.geometry());
        let guest = refuser.each(
            "target_side::GuestBook::new",
            || GuestBook::new(alloc, geometry, script.init()),
            |guest: &GuestBook| guest.geometry() == geometry,
        )?;
        let len = refuser.none(
            "target_side::GuestBook::guest_log",
            || guest.guest_log().len(),
        );
        refuser.right(len == 0);
        let pager = refuser.each(
            "target_side::PagerBook::new",
            || PagerBook::new(alloc, geometry),
            |pager: &PagerBook| !pager.is_ready() && pager.geometry() == geometry,
        )?;
        let link = refuser.none("link_book::LinkBook::new", || LinkBook::new(alloc));
        refuser.right(link.quiet());
        let done = Done {
            before: [0; 2],
            after: [0; 2],
        };
        let migration = Migration {
            refuser,
            script,
            done,
            link,
        };
        Some((migration, Before { guest, pager }))
    }

    fn step_before(&mut self, guest: &mut GuestBook, vcpu: u8) -> Option<()> {
        let Some(op) = next_before(self.script, &self.done, vcpu) else {
            return Some(());
        };
        let len = guest.guest_log().len();
        self.refuser.each_on(
            "target_side::GuestBook::access",
            guest,
            |guest: &mut GuestBook| guest.access(vcpu, op),
            |guest: &GuestBook| guest.guest_log().len() == len,
        )?;
        self.refuser.right(guest.guest_log().len() == len + 1);
        self.done.before[usize::from(vcpu)] += 1;
        Some(())
    }

    fn step_after(&mut self, there: &mut AtTarget, vcpu: u8) -> Option<()> {
        let Some(op) = next_after(self.script, &self.done, vcpu) else {
            return Some(());
        };
        let seen = there.seen();
        let access = self.refuser.each_on(
            "target_side::TargetBook::access",
            there,
            |there: &mut AtTarget| there.target.access(vcpu, op),
            |there: &AtTarget| there.seen() == seen,
        )?;
        self.refuser.right(true);
        if let Access::Done(_) = access {
            self.done.after[usize::from(vcpu)] += 1;
        }
        Some(())
    }

    /// The guest halts. A refusal gives its book back.
    fn halt(&mut self, before: Before) -> Option<After> {
        room(self.refuser, &mut self.link)?;
        let pivots = self.script.pivots();
        let Before { mut guest, pager } = before;
        let (name, len) = ("target_side::GuestBook::halt", guest.guest_log().len());
        for n in 1..MOST {
            for which in WHICH {
                match self.refuser.once(name, n, which, || guest.halt(pivots)) {
                    Outcome::Answered((source, target, packet))
                    | Outcome::WentOn((source, target, packet)) => {
                        self.refuser.right(target.guest_log().len() == len + 1);
                        self.link.offer_down(packet, false);
                        let there = AtTarget { pager, target };
                        return Some(After { source, there });
                    }
                    Outcome::Refused((back, fault)) => {
                        self.refuser.refused(&fault, back.guest_log().len() == len);
                        guest = back;
                    }
                    Outcome::GaveUp(_) => return None,
                }
            }
        }
        None
    }

    fn push(&mut self, source: &mut SourceBook) -> Option<()> {
        if self.link.down_len() as u32 >= self.script.window() {
            return Some(());
        }
        let name = "active_push::SourceBook::push";
        match offered(
            self.refuser,
            name,
            source,
            |source: &mut SourceBook| source.push(),
        )? {
            Some(packet) => offer_down(self.refuser, &mut self.link, packet, false),
            None => Some(()),
        }
    }

    fn source_tick(&mut self, source: &mut SourceBook) -> Option<()> {
        let name = "active_push::SourceBook::tick";
        match offered(
            self.refuser,
            name,
            source,
            |source: &mut SourceBook| source.tick(),
        )? {
            Some(packet) => offer_down(self.refuser, &mut self.link, packet, false),
            None => Some(()),
        }
    }

    fn serve(&mut self, source: &mut SourceBook) -> Option<()> {
        let name = "active_push::SourceBook::serve";
        let refuser = self.refuser;
        let Some((number, packet)) = refuser.none("link_book::LinkBook::peek_up", || {
            self.link.peek_up()
        }) else {
            return Some(());
        };
        let answer = offered(refuser, name, source, |source: &mut SourceBook| {
            source.serve(number, packet)
        })?;
        refuser.none(
            "link_book::LinkBook::pop_up",
            || self.link.pop_up().is_some(),
        );
        match answer {
            Some(packet) => offer_down(refuser, &mut self.link, packet, true),
            None => Some(()),
        }
    }

    fn pop(&mut self, there: &mut AtTarget) -> Option<()> {
        let refuser = self.refuser;
        let Some((number, packet)) = refuser.none("link_book::LinkBook::peek_down", || {
            self.link.peek_down()
        }) else {
            return Some(());
        };
        let seen = there.seen();
        refuser.each_on(
            "target_side::PagerBook::pop",
            there,
            |there: &mut AtTarget| there.pager.pop(number, packet),
            |there: &AtTarget| there.seen() == seen,
        )?;
        refuser.right(true);
        refuser.none(
            "link_book::LinkBook::pop_down",
            || self.link.pop_down().is_some(),
        );
        Some(())
    }

    fn fault(&mut self, there: &mut AtTarget) -> Option<()> {
        let seen = there.seen();
        self.refuser.each_on(
            "target_side::PagerBook::next_fault",
            there,
            |there: &mut AtTarget| there.pager.next_fault(&mut there.target),
            |there: &AtTarget| there.seen() == seen,
        )?;
        self.refuser.right(true);
        Some(())
    }

    fn deliver(&mut self, there: &mut AtTarget) -> Option<()> {
        let page = self.refuser.none("target_side::PagerBook::next_page", || {
            there.pager.next_page()
        });
        let seen = there.seen();
        let woken = self.refuser.each_on(
            "target_side::PagerBook::deliver",
            there,
            |there: &mut AtTarget| there.pager.deliver(&mut there.target),
            |there: &AtTarget| there.seen() == seen,
        )?;
        self.refuser
            .right(page.is_some() || woken.as_slice().is_empty());
        Some(())
    }

    fn pager_tick(&mut self, there: &mut AtTarget) -> Option<()> {
        let seen = there.seen();
        let packet = self.refuser.each_on(
            "target_side::PagerBook::tick",
            there,
            |there: &mut AtTarget| there.pager.tick(),
            |there: &AtTarget| there.seen() == seen,
        )?;
        self.refuser.right(true);
        match packet {
            Some(packet) => offer_up(self.refuser, &mut self.link, packet),
            None => Some(()),
        }
    }

    fn flush(&mut self, there: &mut AtTarget) -> Option<()> {
        let name = "target_side::PagerBook::flush";
        match self.refuser.none(name, || there.pager.flush()) {
            Some(packet) => offer_up(self.refuser, &mut self.link, packet),
            None => Some(()),
        }
    }

    /// An event from the halt on.
    fn event(&mut self, after: &mut After, event: Event) -> Option<()> {
        match event {
            Event::GuestStep { vcpu } => self.step_after(&mut after.there, vcpu),
            Event::Halt | Event::PagerPull => Some(()),
            Event::Push => self.push(&mut after.source),
            Event::Serve => self.serve(&mut after.source),
            Event::SourceTick => self.source_tick(&mut after.source),
            Event::LinkTurn { .. } => turn(self.refuser, &mut self.link, event),
            Event::PagerPop => self.pop(&mut after.there),
            Event::PagerFault => self.fault(&mut after.there),
            Event::PagerFlush => self.flush(&mut after.there),
            Event::PagerDeliver => self.deliver(&mut after.there),
            Event::PagerTick => self.pager_tick(&mut after.there),
        }
    }

    /// The events up to the halt, and how many they are.
    fn to_halt(&mut self, before: Before, events: &[Event]) -> Option<(After, usize)> {
        let mut before = before;
        for k in 0..events.len() {
            match events[k] {
                Event::GuestStep { vcpu } => self.step_before(&mut before.guest, vcpu)?,
                Event::Halt => return Some((self.halt(before)?, k + 1)),
                _ => {}
            }
        }
        None
    }
}

/// The books' logs are looked at without memory. Their lengths.
fn looked_at(refuser: Refuser, after: &After, link: &LinkBook) -> [usize; 4] {
    let AtTarget { pager, target } = &after.there;
    let guest = refuser.none(
        "target_side::TargetBook::guest_log",
        || target.guest_log().len(),
    );
    let pager = refuser.none(
        "target_side::PagerBook::pager_log",
        || pager.pager_log().len(),
    );
    let source = refuser.none("active_push::SourceBook::source_log", || {
        after.source.source_log().len()
    });
    let sent = refuser.none("active_push::SourceBook::sent", || {
        after.source.sent(PageNo::new(0))
    });
    refuser.right(match sent {
        Some(number) => (number as usize) < source,
        None => true,
    });
    let geometry = refuser.none("active_push::SourceBook::geometry", || {
        after.source.geometry()
    });
    refuser.right(geometry == target.geometry());
    let geometry = refuser.none("target_side::TargetBook::geometry", || target.geometry());
    refuser.right(geometry == after.there.pager.geometry());
    let link = refuser.none("link_book::LinkBook::link_log", || link.link_log().len());
    [guest, source, link, pager]
}

/// The session of the books' logs.
fn session_of(refuser: Refuser, script: &Script, after: After, link: LinkBook) -> Option<Session> {
    let alloc = refuser.alloc();
    let lens = looked_at(refuser, &after, &link);
    let After { source, there } = after;
    let AtTarget { pager, target } = there;
    let (guest, _frames) = refuser.none("target_side::TargetBook::into_parts", || {
        target.into_parts()
    });
    let (link, lane) = link.into_logs();
    refuser.right(
        lens == [
            guest.len(),
            source.source_log().len(),
            link.len(),
            pager.pager_log().len(),
        ],
    );
    let logs = Logs {
        guest: Seq::from_vec(guest),
        source: Seq::from_vec(source.into_log()),
        link: Seq::from_vec(link),
        lane: Seq::from_vec(lane),
        pager: Seq::from_vec(pager.into_log()),
    };
    let init = script.copied_init(alloc).ok()?;
    Some(Session::new(Version::One, script.geometry(), init, logs))
}

/// A migration by the calls of its books, each of them refused: what its books record is this.
fn migrated(refuser: Refuser, script: &Script, events: &[Event], text: &[u8]) -> Option<()> {
    let (mut migration, before) = Migration::begin(refuser, script)?;
    let (mut after, count) = migration.to_halt(before, events)?;
    for event in &events[count..] {
        migration.event(&mut after, *event)?;
    }
    let Migration { link, .. } = migration;
    let session = session_of(refuser, script, after, link)?;
    refuser.right(write_session(refuser.alloc(), &session).ok()?.as_slice() == text);
    Some(())
}

/// Twelve ticks of the source and twelve of the pager, so that their logs grow.
fn ticked(refuser: Refuser, script: &Script) -> Option<()> {
    let (mut migration, before) = Migration::begin(refuser, script)?;
    let (mut after, _) = migration.to_halt(before, &[Event::Halt])?;
    for _ in 0..12 {
        migration.event(&mut after, Event::SourceTick)?;
    }
    let turn = Event::LinkTurn {
        direction: Direction::Down,
        fate: Fate::Deliver,
    };
    migration.event(&mut after, turn)?;
    migration.event(&mut after, Event::PagerPop)?;
    for _ in 0..12 {
        migration.event(&mut after, Event::PagerTick)?;
    }
    refuser.right(looked_at(refuser, &after, &migration.link) == [1, 14, 1, 14]);
    Some(())
}

/// The source's book by itself. A refusal gives the frames and the ledger back.
fn halted(refuser: Refuser, script: &Script) -> Option<()> {
    let (alloc, geometry) = (refuser.alloc(), script.geometry());
    let (first, last) = (PageNo::new(0), PageNo::new(geometry.pages() - 1));
    let mut store = Store::from_init(alloc, geometry, script.init()).ok()?;
    let mut ledger = Ledger::new(alloc, geometry).ok()?;
    ledger.release(last);
    store.release(last);
    store.write(first, 0, 3);
    let name = "active_push::SourceBook::halted";
    for n in 1..MOST {
        for which in WHICH {
            match refuser.once(
                name,
                n,
                which,
                || SourceBook::halted(alloc, store, ledger, 7, 2),
            ) {
                Outcome::Answered((book, packet)) | Outcome::WentOn((book, packet)) => {
                    refuser.right(is_state(&packet, last) && book.source_log().len() == 2);
                    return Some(());
                }
                Outcome::Refused((frames, released, fault)) => {
                    let is_first = frames.read(first, 0) == 3;
                    refuser.refused(&fault, is_first && released.holds(last));
                    store = frames;
                    ledger = released;
                }
                Outcome::GaveUp(_) => return None,
            }
        }
    }
    None
}

/// Whether a packet is the state with this released page.
fn is_state(packet: &Packet, page: PageNo) -> bool {
    match packet {
        Packet::State { number, released } => {
            *number == 1 && released.as_slice() == [page].as_slice()
        }
        _ => false,
    }
}

/// A pager that has the state takes the page that has arrived over the lane.
fn pulled(refuser: Refuser, link: &LinkBook) -> Option<()> {
    let alloc = refuser.alloc();
    let mut pager = PagerBook::new(alloc, Geometry::new(1, 1).ok()?).ok()?;
    let state = Packet::State {
        number: 0,
        released: Shared::from_vec(Vec::new(alloc)).ok()?,
    };
    pager.pop(0, &state).ok()?;
    let len = pager.pager_log().len();
    let (number, packet) = link.peek_lane()?;
    refuser.each_on(
        "target_side::PagerBook::pull",
        &mut pager,
        |pager: &mut PagerBook| pager.pull(number, packet),
        |pager: &PagerBook| pager.pager_log().len() == len && pager.next_page().is_none(),
    )?;
    refuser.right(pager.pager_log().len() == len + 1 && pager.next_page().is_some());
    Some(())
}

/// A packet goes over the lane.
fn over_the_lane(refuser: Refuser) -> Option<()> {
    let mut link = LinkBook::new(refuser.alloc());
    room(refuser, &mut link)?;
    let packet = Packet::Page {
        number: 1,
        page: PageNo::new(0),
        cells: Contents::one(5),
    };
    refuser.none(
        "link_book::LinkBook::offer_lane",
        || link.offer_lane(packet),
    );
    let len = refuser.none("link_book::LinkBook::lane_len", || link.lane_len());
    refuser.right(len == 1 && !link.quiet());
    let event = Event::LinkTurn {
        direction: Direction::Lane,
        fate: Fate::Deliver,
    };
    turn(refuser, &mut link, event)?;
    let has_arrived = refuser.none("link_book::LinkBook::peek_lane", || {
        link.peek_lane().is_some()
    });
    refuser.right(has_arrived);
    pulled(refuser, &link)?;
    let is_taken = refuser.none("link_book::LinkBook::pop_lane", || {
        link.pop_lane().is_some()
    });
    refuser.right(is_taken && link.quiet());
    Some(())
}

/// Makes the calls.
pub fn make(refuser: Refuser, examples: &Examples) -> Option<()> {
    ticked(refuser, &examples.script("two-wait-for-a-page/script")?)?;
    over_the_lane(refuser)?;
    full_logs::make(refuser)?;
    for folder in [
        "two-wait-for-a-page",
        "released-and-pushed",
        "lost-and-repeated",
    ] {
        let alloc = refuser.alloc();
        let script = examples.script(format!(in alloc; "{folder}/script").ok()?.as_str())?;
        let events = examples.events(format!(in alloc; "{folder}/events").ok()?.as_str())?;
        let text = examples.text(format!(in alloc; "{folder}/stdout").ok()?.as_str())?;
        migrated(refuser, &script, events.as_slice(), text.as_slice())?;
        halted(refuser, &script)?;
    }
    Some(())
}
