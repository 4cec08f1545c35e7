//! Which kind of fault a changed script or a changed text of events has, and at which line.

use crate::fault_of;
use crate::formats::none_is_wrong;
use FaultKind::{Ended, Form, Range};
use guest_script::{read_events, read_script};
use std::alloc::{AllocError, Global};
use std::test::Fail;
use text_lines::FaultKind;

/// Two virtual processors that read one page.
const OF_TWO: &[u8] =
    b"postcopy-script 1\npages 2\ncells 1\ninit 1\npage 1 0000000000000007\npivots 1\nwindow 4\ndown -\nup -\nvcpus 2\nvcpu 0 1\nr 1 0\nvcpu 0 1\nr 1 0\nend\n";

const EVENTS_OF_LANE: &[u8] =
    b"postcopy-events 1\nevents 5\npush\nlink lane deliver\npop-lane\nlink lane back\npop\nend\n";

/// A change of a text: the line at which it is then refused, the kind of the fault, what is changed, and what into.
struct Change(u32, FaultKind, &'static str, &'static str);

/// Changes of `OF_TWO`.
static SCRIPT_CHANGES: [Change; 17] = [
    Change(1, Form, "script 1", "script 3"),
    Change(2, Range, "pages 2", "pages 0"),
    Change(3, Range, "cells 1", "cells 513"),
    Change(4, Range, "init 1", "init 3"),
    Change(5, Range, "page 1 ", "page 2 "),
    Change(5, Form, "page 1 ", "page one "),
    Change(6, Range, "pivots 1", "pivots 0"),
    Change(6, Range, "pivots 1", "pivots 17"),
    Change(6, Form, "pivots 1", "pivot 1"),
    Change(7, Range, "window 4", "window 65537"),
    Change(8, Form, "down -", "down x"),
    Change(10, Range, "vcpus 2", "vcpus 65"),
    Change(12, Form, "r 1 0", "r 2 0"),
    Change(15, Form, "\nend\n", "\nEND\n"),
    Change(15, Ended, "\nend\n", "\nend"),
    Change(16, Ended, "\nend\n", "\nend\nend\n"),
    Change(16, Ended, "\nend\n", "\nend\nx"),
];

/// Changes of `EVENTS_OF_LANE`.
static EVENT_CHANGES: [Change; 8] = [
    Change(1, Form, "events 1", "events 2"),
    Change(2, Range, "events 5", "events 1048577"),
    Change(2, Form, "events 5", "events 05"),
    Change(4, Form, "link lane deliver", "link lane dropped"),
    Change(8, Form, "\nend\n", "\nEND\n"),
    Change(8, Ended, "\nend\n", "\nend"),
    Change(9, Ended, "\nend\n", "\nend\nend\n"),
    Change(9, Ended, "\nend\n", "\nend\nx"),
];

/// What is put in by a change with which a text is not refused as the change tells, by what reads such a text.
fn wrong_change(
    alloc: Global,
    fault_in: impl Fn(&str) -> Option<(u32, FaultKind)>,
    text: &[u8],
    changes: &[Change],
) -> Result<Option<&'static str>, AllocError> {
    let text = String::from_utf8_lossy(alloc, text)?;
    for change in changes {
        let Change(line, kind, old, new) = change;
        let changed = text.as_str().replacen(alloc, *old, new, 1)?;
        if fault_in(changed.as_str()) != Some((*line, *kind)) {
            return Ok(Some(*new));
        }
    }
    Ok(None)
}

#[test]
fn each_fault_has_its_kind(rt: HostRuntime) -> Result<(), Fail> {
    let alloc = rt.alloc();
    let in_script = |text: &str| fault_of(&read_script(alloc, text.as_bytes()));
    none_is_wrong(
        &rt,
        wrong_change(alloc, in_script, OF_TWO, &SCRIPT_CHANGES)?,
    );
    let in_events = |text: &str| fault_of(&read_events(alloc, text.as_bytes()));
    none_is_wrong(
        &rt,
        wrong_change(alloc, in_events, EVENTS_OF_LANE, &EVENT_CHANGES)?,
    );
    Ok(())
}
