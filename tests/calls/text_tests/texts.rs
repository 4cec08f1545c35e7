//! Whole texts of each format: they are written back as they were read, and no front of one is read.

use crate::formats::{Format, fault_in, is_kept, none_is_wrong};
use std::alloc::Global;
use text_lines::FaultKind;

/// A session with a page from the source, a page by request, and looks at both.
pub const FIRST: &str =
    "postcopy-session 1\npages 2\ncells 1\ninit 1\npage 0 0000000000000005\nguest 9\nw 0 1 0 7\nhalt\nresume 1\nmiss 0 0\nsee 5\nr 0 0 0 5\nsee 7\nw 0 1 0 9\nr 0 1 0 9\nsource 5\nhalted 1\nstate\nask 1\nsend 0 0000000000000005\nsend 1 0000000000000007\nlink 4\ndown 1\nup 3\ndown 3\ndown 4\npager 8\ngot 0\nready\nfault 3\nwant 0\ngot 2\nplace 0 4 0000000000000005\ngot 3\nplace 1 6 0000000000000007\nend\n";

/// A session with a released page.
pub const SECOND: &str =
    "postcopy-session 1\npages 2\ncells 1\ninit 2\npage 0 0000000000000005\npage 1 0000000000000006\nguest 6\nz 0 1\nhalt\nresume 1\nmiss 0 1\nsee 3\nr 0 1 0 0\nsource 2\nhalted 1\nstate\nlink 1\ndown 1\npager 4\ngot 0\nready\nfault 3\nzero 1\nend\n";

/// A record of each kind, at the limits of its fields, on a machine of two cells a page.
pub const KINDS: &str =
    "postcopy-session 1\npages 3\ncells 2\ninit 2\npage 0 00000000000000050000000000000000\npage 2 0000000000000000fedcba9876543210\nguest 7\nw 0 0 0 0\nr 63 2 1 18446744073709551615\nz 63 2\nmiss 63 2\nhalt\nresume 1048575\nsee 1048575\nsource 6\nhalted 1048575\nstate\nsend 2 0000000000000000ffffffffffffffff\nagain 1048575\nask 1048575\ndone\nlink 2\ndown 1048575\nup 1048575\npager 9\ngot 1048575\nready\nfault 1048575\njoin 1048575\nwant 2\nplace 2 1048575 ffffffffffffffff0000000000000000\nzero 2\nskip 1048575\nall\nend\n";

/// A session of the second version, in which a page is released behind the handover.
pub const LATE: &str =
    "postcopy-session 2\npages 1\ncells 1\ninit 1\npage 0 0000000000000006\nguest 4\nhalt\nresume 1\nz 0 0\nr 0 0 0 0\nsource 3\nhalted 0\nstate\nsend 0 0000000000000006\nlink 2\ndown 1\ndown 2\nlane 0\npager 4\ngot 0\nready\ngot 1\nskip 2\nend\n";

/// A session of the second version, with a page over the lane.
pub const PUSHED: &str =
    "postcopy-session 2\npages 1\ncells 1\ninit 1\npage 0 0000000000000006\nguest 4\nhalt\nresume 1\nsee 3\nr 0 0 0 6\nsource 3\nhalted 0\nstate\nsend 0 0000000000000006\nlink 1\ndown 1\nlane 1\ndown 2\npager 4\ngot 0\nready\npull 0\nplace 0 2 0000000000000006\nend\n";

/// Records of the lane and receipts for them, at the limits of their fields.
pub const PULLED: &str =
    "postcopy-session 2\npages 1\ncells 1\ninit 0\nguest 0\nsource 0\nlink 0\nlane 2\ndown 0\ndown 1048575\npager 2\npull 0\npull 1048575\nend\n";

/// A certificate of pages that were sent.
pub const SENT: &str =
    "postcopy-certificate 1\npages 2\npage 0 source 3 5 5 4\npage 1 source 4 7 7 6\nruns 11\nrun guest 2\nrun source 2\nrun link 1\nrun pager 2\nrun guest 2\nrun pager 2\nrun link 1\nrun source 3\nrun link 2\nrun pager 4\nrun guest 5\nend\n";

/// A certificate of a released page.
pub const RELEASED: &str =
    "postcopy-certificate 1\npages 2\npage 0 none\npage 1 balloon 3 5 4\nruns 0\nend\n";

/// A certificate of pages that were not used, at the limits of its numbers.
pub const UNUSED: &str =
    "postcopy-certificate 1\npages 3\npage 0 source 0 1048575 - -\npage 1 balloon 1048575 - -\npage 2 source 1048575 0 1048575 0\nruns 1\nrun link 1048576\nend\n";

/// A certificate of the second version, with a fresh page and a run of the lane at the limits of their numbers.
pub const FRESH: &str =
    "postcopy-certificate 2\npages 4\npage 0 source 3 5 5 4\npage 1 balloon 7 - -\npage 2 none\npage 3 fresh 1048575\nruns 2\nrun guest 3\nrun lane 1048576\nend\n";

/// A certificate of the large size, with a fresh page and a run of the lane at the limits of their numbers.
pub const LARGE: &str =
    "postcopy-certificate 3\npages 2\npage 0 source 134217727 1048576 134217727 0\npage 1 fresh 134217727\nruns 2\nrun guest 3\nrun lane 134217728\nend\n";

/// Runs of each log.
pub const RUNS: &str =
    "postcopy-runs 1\nruns 5\nrun guest 3\nrun source 1\nrun link 134217728\nrun lane 2\nrun pager 1\nend\n";

/// Texts of their formats.
static TEXTS: [(Format, &str); 13] = [
    (Format::Session, FIRST),
    (Format::Session, SECOND),
    (Format::Session, KINDS),
    (Format::Session, LATE),
    (Format::Session, PUSHED),
    (Format::Session, PULLED),
    (Format::Cert, SENT),
    (Format::Cert, RELEASED),
    (Format::Cert, UNUSED),
    (Format::Cert, FRESH),
    (Format::Cert, LARGE),
    (Format::Runs, RUNS),
    (Format::Runs, "postcopy-runs 1\nruns 0\nend\n"),
];

/// A text that is not written back as it was.
fn changed_text(alloc: Global) -> Option<&'static str> {
    for (format, text) in &TEXTS {
        if !is_kept(alloc, *format, text.as_bytes()) {
            return Some(*text);
        }
    }
    None
}

#[test]
fn texts_are_written_back(rt: HostRuntime) {
    none_is_wrong(&rt, changed_text(rt.alloc()));
}

/// The number of a text's last line: one more than its line feeds.
fn last_line(text: &[u8]) -> u32 {
    let mut line: u32 = 1;
    for byte in text {
        if *byte == b'\n' {
            line = line.saturating_add(1);
        }
    }
    line
}

/// Whether each front of a text is refused at its last line, since it ends too early.
fn fronts_are_refused(alloc: Global, format: Format, text: &[u8]) -> bool {
    for length in 0..text.len() {
        let front = &text[..length];
        if fault_in(alloc, format, front) != Some((last_line(front), FaultKind::Ended)) {
            return false;
        }
    }
    true
}

/// A text of which a front is not refused so.
fn text_with_a_front(alloc: Global) -> Option<&'static str> {
    for (format, text) in &TEXTS {
        if !fronts_are_refused(alloc, *format, text.as_bytes()) {
            return Some(*text);
        }
    }
    None
}

#[test]
fn fronts_end_too_early(rt: HostRuntime) {
    none_is_wrong(&rt, text_with_a_front(rt.alloc()));
}
