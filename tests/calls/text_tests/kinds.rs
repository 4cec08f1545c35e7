//! Which kind of fault a changed text has, and at which line: a line that is not of the grammar's form, a number out of its
//! range, or an end that is too early or too late.

use crate::formats::{Format, fault_in, none_is_wrong};
use crate::texts::{FRESH, KINDS, LARGE, LATE, PULLED, PUSHED, RUNS, SENT};
use FaultKind::{Ended, Form, Range};
use std::alloc::Global;
use text_lines::FaultKind;

/// A change of a text: the line at which it is then refused, the kind of the fault, what is changed, and what into.
struct Change(u32, FaultKind, &'static str, &'static str);

/// Changes of `KINDS`.
static SESSION_CHANGES: [Change; 45] = [
    Change(1, Form, "session 1", "session 4"),
    Change(1, Form, "session 1", "session 0"),
    Change(25, Form, "session 1", "session 2"),
    Change(25, Form, "pager 9", "lane 0\npager 9"),
    Change(2, Form, "pages 3", "page 3"),
    Change(2, Form, "pages 3", "pages 03"),
    Change(2, Form, "pages 3", "pages  3"),
    Change(2, Range, "pages 3", "pages 0"),
    Change(2, Range, "pages 3", "pages 65537"),
    Change(3, Form, "cells 2", "cells two"),
    Change(3, Range, "cells 2", "cells 0"),
    Change(3, Range, "cells 2", "cells 513"),
    Change(3, Range, "pages 3\ncells 2", "pages 2049\ncells 512"),
    Change(3, Range, "pages 3\ncells 2", "pages 65536\ncells 17"),
    Change(4, Form, "init 2", "init 02"),
    Change(4, Range, "init 2", "init 4"),
    Change(
        7,
        Form,
        "pages 3\ncells 2\ninit 2",
        "pages 4\ncells 2\ninit 3",
    ),
    Change(6, Range, "init 2", "init 3"),
    Change(6, Form, "init 2", "init 1"),
    Change(5, Form, "page 0 ", "page 00 "),
    Change(5, Range, "page 0 ", "page 2 "),
    Change(
        5,
        Form,
        "page 0 0000000000000005",
        "page 0 0000000000000000",
    ),
    Change(
        5,
        Form,
        "page 0 0000000000000005",
        "page 0 000000000000000A",
    ),
    Change(5, Form, "page 0 0000000000000005", "page 0 000000000000005"),
    Change(6, Range, "page 2 ", "page 0 "),
    Change(6, Range, "page 2 ", "page 3 "),
    Change(7, Form, "guest 7", "guest 07"),
    Change(7, Range, "guest 7", "guest 1048577"),
    Change(15, Form, "guest 7", "guest 8"),
    Change(14, Form, "guest 7", "guest 6"),
    Change(15, Range, "source 6", "source 1048577"),
    Change(22, Form, "source 6", "source 7"),
    Change(21, Form, "source 6", "source 5"),
    Change(15, Form, "source 6", "link 6"),
    Change(22, Range, "link 2", "link 1048577"),
    Change(25, Form, "link 2", "link 3"),
    Change(24, Form, "link 2", "link 1"),
    Change(25, Range, "pager 9", "pager 1048577"),
    Change(26, Form, "got 1048575", "pull 1048575"),
    Change(35, Form, "pager 9", "pager 10"),
    Change(34, Form, "pager 9", "pager 8"),
    Change(35, Form, "end\n", "END\n"),
    Change(35, Ended, "end\n", "end"),
    Change(36, Ended, "end\n", "end\n\n"),
    Change(36, Ended, "end\n", "end\nx"),
];

/// Changes of `LATE`.
static LATE_CHANGES: [Change; 18] = [
    Change(1, Form, "session 2", "session 4"),
    Change(1, Form, "session 2", "session 02"),
    Change(1, Form, "session 2", "session 2 "),
    Change(18, Form, "session 2", "session 1"),
    Change(18, Form, "lane 0\n", ""),
    Change(19, Form, "lane 0", "lane 1"),
    Change(18, Range, "lane 0", "lane 1048577"),
    Change(18, Form, "lane 0", "lane 00"),
    Change(18, Form, "lane 0", "lane"),
    Change(18, Form, "lane 0", "lane 0 "),
    Change(18, Form, "lane 0\n", "pager 4\nlane 0\n"),
    Change(19, Form, "lane 0\n", "lane 0\nlane 0\n"),
    Change(17, Form, "link 2", "link 1"),
    Change(18, Form, "link 2", "link 3"),
    Change(19, Range, "pager 4", "pager 1048577"),
    Change(23, Form, "pager 4", "pager 3"),
    Change(24, Form, "pager 4", "pager 5"),
    Change(25, Ended, "end\n", "end\n\n"),
];

/// Changes of `PUSHED`.
static PUSHED_CHANGES: [Change; 18] = [
    Change(17, Form, "session 2", "session 1"),
    Change(17, Form, "lane 1\ndown 2\n", ""),
    Change(17, Form, "lane 1", "link 1"),
    Change(17, Form, "lane 1", "lane 01"),
    Change(17, Range, "lane 1", "lane 1048577"),
    Change(18, Form, "lane 1", "lane 0"),
    Change(19, Form, "lane 1", "lane 2"),
    Change(19, Form, "lane 1", "lane 1048576"),
    Change(18, Form, "down 2", "down 1048576"),
    Change(18, Form, "down 2", "down 02"),
    Change(18, Form, "down 2", "up 2"),
    Change(18, Form, "down 2", "pull 2"),
    Change(19, Range, "pager 4", "pager 1048577"),
    Change(22, Form, "pull 0", "pull 1048576"),
    Change(22, Form, "pull 0", "pull 00"),
    Change(22, Form, "pull 0", "down 0"),
    Change(24, Form, "pager 4", "pager 5"),
    Change(25, Ended, "end\n", "end\n\n"),
];

/// Changes of `PULLED`.
static PULLED_CHANGES: [Change; 5] = [
    Change(8, Form, "session 2", "session 1"),
    Change(10, Form, "down 1048575", "down 1048576"),
    Change(11, Form, "lane 2", "lane 3"),
    Change(13, Form, "pull 1048575", "pull 1048576"),
    Change(13, Form, "pull 1048575", "pull"),
];

/// Changes of `SENT`.
static CERT_CHANGES: [Change; 50] = [
    Change(1, Form, "certificate 1", "certificate 4"),
    Change(2, Form, "pages 2", "page 2"),
    Change(2, Form, "pages 2", "pages 02"),
    Change(2, Range, "pages 2", "pages 0"),
    Change(2, Range, "pages 2", "pages 65537"),
    Change(2, Form, "pages 2\n", "pages 2\r\n"),
    Change(4, Form, "pages 2", "pages 1"),
    Change(5, Form, "pages 2", "pages 65536"),
    Change(3, Form, "page 0 source", "page 00 source"),
    Change(3, Form, "page 0 source", "page 1 source"),
    Change(3, Form, "page 0 source", "page  0 source"),
    Change(3, Form, "page 0 source", "page 0 balloon"),
    Change(3, Form, "page 0 source", "page 0 none"),
    Change(3, Form, "page 0 source", "page 0 sent"),
    Change(3, Form, "3 5 5 4\n", "3 5 5 4 \n"),
    Change(3, Form, "3 5 5 4\n", "3 5 5 4 4\n"),
    Change(3, Form, "3 5 5 4\n", "3 5 5\n"),
    Change(3, Form, "3 5 5 4\n", "3 5 - 4\n"),
    Change(3, Form, "3 5 5 4\n", "3 5 5 -\n"),
    Change(3, Form, "3 5 5 4\n", "3 5 -\n"),
    Change(3, Form, "3 5 5 4\n", "3 - 5 4\n"),
    Change(3, Form, "3 5 5 4\n", "03 5 5 4\n"),
    Change(3, Form, "3 5 5 4\n", "3 5 5 04\n"),
    Change(3, Form, "3 5 5 4\n", "3 5 5 1048576\n"),
    Change(3, Form, "3 5 5 4\n", "3 5 1048576 4\n"),
    Change(3, Form, "3 5 5 4\n", "3 1048576 5 4\n"),
    Change(3, Form, "3 5 5 4\n", "1048576 5 5 4\n"),
    Change(3, Form, "3 5 5 4\n", "18446744073709551619 5 5 4\n"),
    Change(4, Form, "page 1 source 4 7 7 6\n", ""),
    Change(5, Form, "runs 11", "runs"),
    Change(5, Form, "runs 11", "runs 011"),
    Change(5, Range, "runs 11", "runs 4194305"),
    Change(16, Form, "runs 11", "runs 10"),
    Change(17, Form, "runs 11", "runs 12"),
    Change(17, Form, "runs 11", "runs 4194304"),
    Change(6, Form, "run guest 2", "guest 2"),
    Change(6, Form, "guest 2", "guest 02"),
    Change(6, Form, "guest 2", "guest 0"),
    Change(6, Form, "guest 2", "guest 1048577"),
    Change(6, Form, "guest 2", "target 2"),
    Change(6, Form, "guest 2", "guest  2"),
    Change(6, Form, "guest 2", "guest 2 "),
    Change(7, Form, "source 2", "guest 2"),
    Change(8, Form, "run link 1", "run lane 1"),
    Change(17, Form, "end\n", "END\n"),
    Change(17, Form, "end\n", "end\r\n"),
    Change(17, Ended, "end\n", ""),
    Change(17, Ended, "end\n", "end"),
    Change(18, Ended, "end\n", "end\nx"),
    Change(18, Ended, "end\n", "end\n\n"),
];

/// Changes of `FRESH`.
static FRESH_CHANGES: [Change; 16] = [
    Change(1, Form, "certificate 2", "certificate 4"),
    Change(6, Form, "certificate 2", "certificate 1"),
    Change(5, Form, "page 2 none", "page 2 fresh"),
    Change(6, Form, "fresh 1048575", "fresh 1048576"),
    Change(6, Form, "fresh 1048575", "fresh"),
    Change(6, Form, "fresh 1048575", "fresh "),
    Change(6, Form, "fresh 1048575", "fresh 02"),
    Change(6, Form, "fresh 1048575", "fresh  2"),
    Change(6, Form, "fresh 1048575", "fresh 2 "),
    Change(6, Form, "fresh 1048575", "fresh 2 1"),
    Change(6, Form, "fresh 1048575", "fresh -"),
    Change(7, Range, "runs 2", "runs 5242881"),
    Change(10, Form, "runs 2", "runs 5242880"),
    Change(9, Form, "lane 1048576", "lane 1048577"),
    Change(9, Form, "lane 1048576", "lane 0"),
    Change(9, Form, "lane 1048576", "guest 1"),
];

/// Changes of `LARGE`.
static LARGE_CHANGES: [Change; 11] = [
    Change(3, Form, "certificate 3", "certificate 2"),
    Change(1, Form, "certificate 3", "certificate 03"),
    Change(2, Range, "pages 2", "pages 16777217"),
    Change(5, Form, "pages 2", "pages 16777216"),
    Change(3, Form, "source 134217727", "source 134217728"),
    Change(
        3,
        Form,
        "source 134217727 1048576",
        "source 1048576 134217728",
    ),
    Change(4, Form, "fresh 134217727", "fresh 134217728"),
    Change(5, Range, "runs 2", "runs 671088641"),
    Change(8, Form, "runs 2", "runs 671088640"),
    Change(7, Form, "lane 134217728", "lane 134217729"),
    Change(7, Form, "lane 134217728", "lane 0"),
];

/// Changes of `RUNS`.
static RUN_CHANGES: [Change; 16] = [
    Change(1, Form, "runs 1", "runs 2"),
    Change(1, Form, "postcopy-runs 1\n", ""),
    Change(2, Form, "runs 5", "runs 05"),
    Change(2, Range, "runs 5", "runs 671088641"),
    Change(7, Form, "runs 5", "runs 4"),
    Change(8, Form, "runs 5", "runs 6"),
    Change(8, Form, "runs 5", "runs 671088640"),
    Change(3, Form, "guest 3", "guest 03"),
    Change(3, Form, "guest 3", "guest 0"),
    Change(3, Form, "guest 3", "guest 134217729"),
    Change(4, Form, "source 1", "guest 1"),
    Change(6, Form, "lane 2", "lane 134217729"),
    Change(6, Form, "lane 2", "link 2"),
    Change(7, Form, "pager 1", "lane 1"),
    Change(8, Ended, "end\n", "end"),
    Change(9, Ended, "end\n", "end\nend\n"),
];

/// Whether a text with a change is refused as the change tells.
fn is_refused(alloc: Global, format: Format, text: &str, change: &Change) -> bool {
    let Change(line, kind, old, new) = change;
    match text.replacen(alloc, *old, new, 1) {
        Ok(changed) => fault_in(alloc, format, changed.as_bytes()) == Some((*line, *kind)),
        Err(_) => false,
    }
}

/// What is put in by a change with which the text is not refused as the change tells.
fn wrong_change(
    alloc: Global,
    format: Format,
    text: &str,
    changes: &[Change],
) -> Option<&'static str> {
    for change in changes {
        if !is_refused(alloc, format, text, change) {
            return Some(change.3);
        }
    }
    None
}

#[test]
fn changed_sessions_are_refused(rt: HostRuntime) {
    let wrong = wrong_change(
        rt.alloc(),
        Format::Session,
        KINDS,
        SESSION_CHANGES.as_slice(),
    );
    none_is_wrong(&rt, wrong);
}

#[test]
fn changed_sessions_of_the_second_version_are_refused(rt: HostRuntime) {
    let wrong = wrong_change(rt.alloc(), Format::Session, LATE, LATE_CHANGES.as_slice());
    none_is_wrong(&rt, wrong);
}

#[test]
fn changed_lanes_are_refused(rt: HostRuntime) {
    let alloc = rt.alloc();
    let pushed = wrong_change(alloc, Format::Session, PUSHED, PUSHED_CHANGES.as_slice());
    none_is_wrong(&rt, pushed);
    let pulled = wrong_change(alloc, Format::Session, PULLED, PULLED_CHANGES.as_slice());
    none_is_wrong(&rt, pulled);
}

#[test]
fn changed_certificates_are_refused(rt: HostRuntime) {
    let wrong = wrong_change(rt.alloc(), Format::Cert, SENT, CERT_CHANGES.as_slice());
    none_is_wrong(&rt, wrong);
}

#[test]
fn changed_certificates_of_the_second_version_are_refused(rt: HostRuntime) {
    let wrong = wrong_change(rt.alloc(), Format::Cert, FRESH, FRESH_CHANGES.as_slice());
    none_is_wrong(&rt, wrong);
}

#[test]
fn changed_certificates_of_the_large_size_are_refused(rt: HostRuntime) {
    let wrong = wrong_change(rt.alloc(), Format::Cert, LARGE, LARGE_CHANGES.as_slice());
    none_is_wrong(&rt, wrong);
}

#[test]
fn changed_runs_are_refused(rt: HostRuntime) {
    let wrong = wrong_change(rt.alloc(), Format::Runs, RUNS, RUN_CHANGES.as_slice());
    none_is_wrong(&rt, wrong);
}

/// Whether a text is refused for its first line.
fn is_of_another_format(alloc: Global, format: Format, text: &str) -> bool {
    matches!(fault_in(alloc, format, text.as_bytes()), Some((1, Form)))
}

#[test]
fn formats_are_told_apart(rt: HostRuntime) {
    assert!(rt; is_of_another_format(rt.alloc(), Format::Cert, RUNS));
    assert!(rt; is_of_another_format(rt.alloc(), Format::Runs, SENT));
}
