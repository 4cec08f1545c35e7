//! Pages that are pushed in turn, compared with a search over all pages.

use crate::nearest;
use arrayvec::ArrayVec;
use balloon_ledger::Ledger;
use bubbling::Bubbles;
use migration_types::{Geometry, PageNo};
use std::test::Fail;

/// The guest faults at a page of the machine.
fn fault_at(bubbles: &mut Bubbles, number: u32) {
    if number < bubbles.geometry().pages() {
        bubbles.fault_at(PageNo::new(number));
    }
}

/// Counts a page of the machine as sent.
fn mark_sent(bubbles: &mut Bubbles, number: u32) -> bool {
    number < bubbles.geometry().pages() && bubbles.mark_sent(PageNo::new(number))
}

/// Whether these pages are pushed next, one after another.
fn pushes(bubbles: &mut Bubbles, numbers: &[u32]) -> bool {
    for number in numbers {
        if bubbles.next() != Some(PageNo::new(*number)) {
            return false;
        }
    }
    true
}

/// Whether no page is left.
fn is_done(bubbles: &mut Bubbles) -> bool {
    bubbles.left() == 0 && bubbles.next().is_none()
}

#[test]
fn takes_turns(rt: HostRuntime) -> Result<(), Fail> {
    let geometry = Geometry::new(8, 1)?;
    let ledger = Ledger::new(rt.alloc(), geometry)?;
    let mut bubbles = Bubbles::new(rt.alloc(), geometry, 2, &ledger)?;
    assert!(rt; bubbles.geometry() == geometry && bubbles.left() == 8);
    assert!(rt; pushes(&mut bubbles, &[0]) && bubbles.left() == 7);
    assert!(rt; mark_sent(&mut bubbles, 5) && !mark_sent(&mut bubbles, 5));
    fault_at(&mut bubbles, 5);
    assert!(rt; pushes(&mut bubbles, &[6, 1, 4, 2, 7, 3]) && is_done(&mut bubbles));
    Ok(())
}

#[test]
fn keeps_one_pivot(rt: HostRuntime) -> Result<(), Fail> {
    let geometry = Geometry::new(8, 1)?;
    let ledger = Ledger::new(rt.alloc(), geometry)?;
    let mut bubbles = Bubbles::new(rt.alloc(), geometry, 1, &ledger)?;
    fault_at(&mut bubbles, 6);
    assert!(rt; pushes(&mut bubbles, &[6, 7, 5]));
    fault_at(&mut bubbles, 0);
    assert!(rt; pushes(&mut bubbles, &[0]));
    fault_at(&mut bubbles, 0);
    assert!(rt; pushes(&mut bubbles, &[1]));
    Ok(())
}

#[test]
fn moves_edges_past_a_released_page(rt: HostRuntime) -> Result<(), Fail> {
    let geometry = Geometry::new(8, 1)?;
    let mut ledger = Ledger::new(rt.alloc(), geometry)?;
    ledger.release(PageNo::new(4));
    let mut bubbles = Bubbles::new(rt.alloc(), geometry, 2, &ledger)?;
    assert!(rt; bubbles.left() == 7 && bubbles.edges(PageNo::new(3)).is_none());
    fault_at(&mut bubbles, 3);
    assert!(rt; pushes(&mut bubbles, &[3]) && bubbles.edges(PageNo::new(3)) == Some((3, 3)));
    assert!(rt; pushes(&mut bubbles, &[0, 2]) && bubbles.edges(PageNo::new(3)) == Some((2, 5)));
    assert!(rt; pushes(&mut bubbles, &[1, 5, 6, 7]) && is_done(&mut bubbles));
    Ok(())
}

/// The pages that are left and the pivots, for a search over all pages.
#[derive(Drop)]
struct Search {
    unsent: [bool; 64],
    most: usize,
    pivots: ArrayVec<usize, 16>,
    turn: usize,
}

impl Search {
    fn new(most: usize) -> Search {
        let mut pivots = ArrayVec::new();
        pivots.push(0);
        Search {
            unsent: [true; 64],
            most,
            pivots,
            turn: 0,
        }
    }

    fn fault_at(&mut self, page: usize) {
        if !self.pivots.as_slice().contains(&page) {
            self.pivots.truncate(self.most.saturating_sub(1));
            let _ = self.pivots.try_insert(0, page);
            self.turn = 0;
        }
    }

    fn mark_sent(&mut self, page: usize) -> bool {
        let Some(unsent) = self.unsent.get_mut(page) else {
            return false;
        };
        let was_unsent = *unsent;
        *unsent = false;
        was_unsent
    }

    fn next(&mut self) -> Option<usize> {
        let pivot = *self.pivots.as_slice().get(self.turn)?;
        let nearest = nearest(&self.unsent, PageNo::new((pivot % 64) as u32))?.index();
        self.mark_sent(nearest);
        self.turn = self.turn.saturating_add(1).checked_rem(self.pivots.len())?;
        Some(nearest)
    }
}

/// Does the same with both, as a number chooses. Whether they answer alike.
fn agrees(bubbles: &mut Bubbles, search: &mut Search, choice: u32) -> bool {
    let page = PageNo::new(choice / 4 % 64);
    match choice % 4 {
        0 => {
            fault_at(bubbles, page.number());
            search.fault_at(page.index());
            true
        }
        1 => mark_sent(bubbles, page.number()) == search.mark_sent(page.index()),
        _ => bubbles.next().map(|p| p.index()) == search.next(),
    }
}

/// The same 300 times.
fn agree(bubbles: &mut Bubbles, search: &mut Search) -> bool {
    let mut seed: u32 = 1;
    for _ in 0..300 {
        seed = seed.wrapping_mul(1_103_515_245).wrapping_add(12_345);
        if !agrees(bubbles, search, seed / 65_536) {
            return false;
        }
    }
    is_done(bubbles)
}

#[test]
fn agrees_with_a_search(rt: HostRuntime) -> Result<(), Fail> {
    let geometry = Geometry::new(64, 1)?;
    let ledger = Ledger::new(rt.alloc(), geometry)?;
    for most in 1..17 {
        let mut bubbles = Bubbles::new(rt.alloc(), geometry, most, &ledger)?;
        let mut search = Search::new(most as usize);
        assert!(rt; agree(&mut bubbles, &mut search));
    }
    Ok(())
}

/// Faults at pages among those that were sent, one after another, and pushes a page after each. Now and then a page goes
/// that was not pushed.
fn agree_behind_new_pivots(bubbles: &mut Bubbles, search: &mut Search) -> bool {
    for turn in 0..64u32 {
        let page = 22 + turn * 7 % 20;
        fault_at(bubbles, page);
        search.fault_at(page as usize);
        if turn % 5 == 0 && mark_sent(bubbles, turn) != search.mark_sent(turn as usize) {
            return false;
        }
        if bubbles.next().map(|p| p.index()) != search.next() {
            return false;
        }
    }
    is_done(bubbles)
}

#[test]
fn agrees_with_a_search_behind_new_pivots(rt: HostRuntime) -> Result<(), Fail> {
    let geometry = Geometry::new(64, 1)?;
    let ledger = Ledger::new(rt.alloc(), geometry)?;
    for most in 1..17 {
        let mut bubbles = Bubbles::new(rt.alloc(), geometry, most, &ledger)?;
        let mut search = Search::new(most as usize);
        for page in 20..44u32 {
            assert!(rt; mark_sent(&mut bubbles, page) && search.mark_sent(page as usize));
        }
        assert!(rt; agree_behind_new_pivots(&mut bubbles, &mut search));
    }
    Ok(())
}
