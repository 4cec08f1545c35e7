//! What the plain programs say of a whole session.

use audit_model::{PageReason, ShapeReason};
use migration_types::{LOG_COUNT, LogName, Run, Session, line_of, logs};
use plain_audit::{demand_holds, is_page_fault, is_right};
use std::alloc::{AllocError, Global};

/// The first fault of shape: its line and its reason.
pub fn shape_fault(session: &Session) -> Option<(u32, ShapeReason)> {
    session.keeps_limits();
    for log in logs() {
        for place in 0..session.len(log) {
            for reason in ShapeReason::ALL {
                if !is_right(session, reason, log, place) {
                    return Some((line_of(session, log, place as u32), reason));
                }
            }
        }
    }
    None
}

/// The first fault of a page: its line and its reason.
pub fn page_fault(session: &Session) -> Option<(u32, PageReason)> {
    session.keeps_limits();
    for log in logs() {
        for place in 0..session.len(log) {
            for reason in PageReason::ALL {
                if is_page_fault(session, reason, log, place) {
                    return Some((line_of(session, log, place as u32), reason));
                }
            }
        }
    }
    None
}

/// The names that runs spell.
pub fn names_of(alloc: Global, runs: &[Run]) -> Result<Vec<(LogName, u32)>, AllocError> {
    let mut taken = [0u32; LOG_COUNT];
    let mut names = Vec::new(alloc);
    for run in runs {
        let log = run.log.index();
        for _ in 0..run.count {
            names.push((run.log, taken[log]))?;
            taken[log] = taken[log].saturating_add(1);
        }
    }
    Ok(names)
}

/// Whether in this order the demand fails at the record of this line.
pub fn breaks_at(session: &Session, names: &[(LogName, u32)], line: u32) -> bool {
    for at in 0..names.len() {
        let (log, place) = names[at];
        if (place as usize) < session.len(log) && line_of(session, log, place) == line {
            return !demand_holds(session, &names[..at], log, place);
        }
    }
    false
}
