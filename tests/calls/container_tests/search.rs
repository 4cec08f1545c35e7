//! The next page to push, by a search over all pages: what pushing by edges is compared with.

use migration_types::PageNo;

/// The marked page nearest to the pivot, of two the greater.
pub fn nearest(unsent: &[bool], pivot: PageNo) -> Option<PageNo> {
    let mut best = None;
    for n in 0..unsent.len() {
        let page = PageNo::new(n as u32);
        if unsent[n] {
            best = Some(nearer(best, pivot, page));
        }
    }
    best
}

/// The nearer page to the pivot, of two the later one.
fn nearer(best: Option<PageNo>, pivot: PageNo, page: PageNo) -> PageNo {
    match best {
        Some(best) if apart(pivot, best) < apart(pivot, page) => best,
        _ => page,
    }
}

/// How far apart two pages are.
fn apart(a: PageNo, b: PageNo) -> u32 {
    a.number().abs_diff(b.number())
}
