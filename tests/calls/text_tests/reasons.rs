//! What is said of a line that is refused: where, what was found there, and what may stand there.

use crate::reason_lines::{BYTES, Case, IN_FULL, LAST, WORDS};
use refusal_words::{Refused, push_why, push_why_in_full};
use std::alloc::{AllocError, Global};
use std::test::Fail;
use text_lines::{FaultKind, Refusal, TextFault, Wanted};

static GUEST: [&str; 7] = [
    "r V P C X",
    "w V P C X",
    "z V P",
    "miss V P",
    "halt",
    "resume I",
    "see I",
];

static SOURCE: [&str; 6] = [
    "halted I",
    "state",
    "send P HEX",
    "again I",
    "ask I",
    "done",
];

static ENTRIES: [&str; 5] = [
    "page Q none",
    "page Q source I I I I",
    "page Q source I I - -",
    "page Q balloon I I I",
    "page Q balloon I - -",
];

static ORDERS: [&str; 7] = [
    "postcopy-runs 1",
    "postcopy-certificate 1",
    "postcopy-certificate 2",
    "postcopy-certificate 3",
    "clean",
    "faulty line N read",
    "faulty line N over",
];

static LINKS: [&str; 3] = ["link down FATE", "link up FATE", "link lane FATE"];

/// A line of a machine of 64 pages of 2 cells, behind some items of a list of 9 that line 6 counts.
fn listed(what: &'static str, forms: &'static [&'static str], came: u32, count: u32) -> Wanted {
    Wanted {
        what,
        forms,
        rule: "",
        came,
        count,
        counted_at: 6,
        pages: 64,
        cells: 2,
        records: 0,
        least: 0,
        most: 0,
    }
}

/// A line that no list counts, with a number from `least` to `most`.
fn alone(what: &'static str, forms: &'static [&'static str], least: u32, most: u32) -> Wanted {
    Wanted {
        counted_at: 0,
        least,
        most,
        ..listed(what, forms, 0, 0)
    }
}

/// What may stand at a line.
#[derive(Clone, Copy)]
pub enum At {
    SessionHead,
    CertHead,
    RunsHead,
    OrderHead,
    EventsHead,
    Pages,
    InitialPage,
    Run,
    Guest,
    ThirdOfGuest,
    EleventhOfGuest,
    Source,
    LaneCount,
    LaneCountAfterOne,
    LaneCountAfterNone,
    End,
    Closed,
    Entry,
    Lanes,
    Link,
    Down,
    SmallestPage,
    LargeLogs,
    BigContents,
    Unknown,
}

fn wanted_at(at: At) -> Wanted {
    match at {
        At::SessionHead => alone(
            "the header of a session",
            &[
                "postcopy-session 1",
                "postcopy-session 2",
                "postcopy-session 3",
            ],
            0,
            0,
        ),
        At::CertHead => alone(
            "the header of a certificate",
            &[
                "postcopy-certificate 1",
                "postcopy-certificate 2",
                "postcopy-certificate 3",
            ],
            0,
            0,
        ),
        At::RunsHead => alone("the header of runs", &["postcopy-runs 1"], 0, 0),
        At::OrderHead => alone("the first line of an order", &ORDERS, 1, 4_294_967_295),
        At::EventsHead => alone("the header of events", &["postcopy-events 1"], 0, 0),
        At::Pages => Wanted {
            rule: "postcopy-session 3 has up to 16777216",
            ..alone("the number of pages", &["pages N"], 1, 65_536)
        },
        At::InitialPage => Wanted {
            rule: "no page has contents of zeros alone",
            least: 3,
            most: 7,
            ..listed("an initial page", &["page N HEX"], 1, 2)
        },
        At::Run => Wanted {
            rule: "two runs in a row take from different logs",
            least: 1,
            most: 9,
            ..listed(
                "a run",
                &["run source N", "run link N", "run pager N"],
                1,
                3,
            )
        },
        At::Guest => listed("a record of the guest", &GUEST, 8, 9),
        At::ThirdOfGuest => listed("a record of the guest", &GUEST, 2, 9),
        At::EleventhOfGuest => listed("a record of the guest", &GUEST, 10, 21),
        At::Source => listed("a record of the source", &SOURCE, 0, 9),
        At::LaneCount => Wanted {
            most: 1_048_576,
            ..listed("the number of the lane's records", &["lane N"], 4, 4)
        },
        At::LaneCountAfterOne => listed("the number of the lane's records", &["lane N"], 1, 1),
        At::LaneCountAfterNone => listed("the number of the lane's records", &["lane N"], 0, 0),
        At::End => alone("the closing line", &["end"], 0, 0),
        At::Closed => alone("nothing after the closing line", &[], 0, 0),
        At::Entry => Wanted {
            most: 3,
            ..listed("the entry of a page", &ENTRIES, 3, 64)
        },
        At::Lanes => alone("how many links go down", &["lanes 1", "lanes 2"], 0, 0),
        At::Link => listed("an event", &LINKS, 0, 9),
        At::Down => alone("the fates of packets down", &["down FATES"], 0, 0),
        At::SmallestPage => Wanted {
            pages: 1,
            ..listed("a record of the guest", &GUEST, 0, 9)
        },
        At::LargeLogs => Wanted {
            records: 134_217_728,
            ..listed("a record of the guest", &GUEST, 0, 9)
        },
        At::BigContents => Wanted {
            cells: 32,
            ..listed("a record of the source", &["send P HEX"], 0, 9)
        },
        At::Unknown => alone("", &[], 0, 0),
    }
}

fn refusal(alloc: Global, case: &Case, is_last: bool) -> Result<Refusal, AllocError> {
    Ok(Refusal {
        fault: TextFault {
            line: case.1,
            kind: FaultKind::Form,
        },
        line: case.2.to_vec(alloc)?,
        is_last,
        wanted: wanted_at(case.0),
    })
}

/// What is to be said of a line, whole.
fn sentence(alloc: Global, case: &Case) -> Result<String, AllocError> {
    let line = case.1;
    let said = case.3;
    format!(in alloc; "session:{line}:{said}\n")
}

/// What is said of a line.
fn said(alloc: Global, refusal: Refusal) -> Result<String, AllocError> {
    let mut out = Vec::new(alloc);
    push_why(&mut out, b"session", &Refused::new(refusal).of_two())?;
    String::from_utf8_lossy(alloc, out.as_slice())
}

/// What is said of a line in full.
fn said_in_full(alloc: Global, refusal: Refusal) -> Result<String, AllocError> {
    let mut out = Vec::new(alloc);
    push_why_in_full(&mut out, b"session", &Refused::new(refusal))?;
    String::from_utf8_lossy(alloc, out.as_slice())
}

/// What is said of the first line of which something else is said.
fn other(alloc: Global, cases: &[Case], is_last: bool) -> Result<Option<String>, AllocError> {
    for case in cases {
        let said = said(alloc, refusal(alloc, case, is_last)?)?;
        if said.as_str() != sentence(alloc, case)?.as_str() {
            return Ok(Some(said));
        }
    }
    Ok(None)
}

#[test]
fn each_line_of_bytes_has_its_sentence(rt: HostRuntime) -> Result<(), Fail> {
    assert_eq!(rt; other(rt.alloc(), &BYTES, false)?, None);
    Ok(())
}

#[test]
fn each_line_of_words_has_its_sentence(rt: HostRuntime) -> Result<(), Fail> {
    for group in &WORDS {
        let mut rows = group.2.lines();
        while let Some(line) = rows.next() {
            let case = Case(
                group.0,
                group.1,
                line.as_bytes(),
                rows.next().ok_or("no sentence")?,
            );
            assert_eq!(rt; other(rt.alloc(), &[case], false)?, None);
        }
    }
    Ok(())
}

#[test]
fn each_end_has_its_sentence(rt: HostRuntime) -> Result<(), Fail> {
    assert_eq!(rt; other(rt.alloc(), &LAST, true)?, None);
    Ok(())
}

#[test]
fn in_full_the_place_is_marked_and_the_forms_are_listed(rt: HostRuntime) -> Result<(), Fail> {
    for case in &IN_FULL {
        let refusal = refusal(rt.alloc(), case, false)?;
        assert_eq!(rt; said_in_full(rt.alloc(), refusal)?.as_str(), case.3);
    }
    Ok(())
}

#[test]
fn the_mark_may_stand_behind_the_line(rt: HostRuntime) -> Result<(), Fail> {
    let case = Case(At::Guest, 9, b"w 0 3 0", "");
    let refusal = refusal(rt.alloc(), &case, false)?;
    let said = said_in_full(rt.alloc(), refusal)?;
    let marked =
        r#"session:9:8: found the end of the line after "w 0 3 0"; expected X, a value from 0 to 18446744073709551615, as in "w V P C X"
  w 0 3 0
         ^
"#;
    assert!(rt; said.as_str().starts_with(marked), "{said}");
    Ok(())
}

#[test]
fn as_many_fates_as_there_may_be_fit(rt: HostRuntime) -> Result<(), Fail> {
    let letters = "d".repeat(rt.alloc(), 4_096)?;
    let line = format!(in rt.alloc(); "down {letters}")?;
    let mut refusal = refusal(rt.alloc(), &Case(At::Down, 9, b"", ""), true)?;
    refusal.line = line.as_bytes().to_vec(rt.alloc())?;
    let said = said(rt.alloc(), refusal)?;
    let wanted =
        "session:9:4102: the text ends in the middle of a line; expected a line feed after ";
    assert!(rt; said.as_str().starts_with(wanted), "{said}");
    Ok(())
}

/// Which item of a list is wanted.
fn promised(alloc: Global, number: u32) -> Result<String, AllocError> {
    let mut refusal = refusal(alloc, &Case(At::Source, 7, b"", ""), true)?;
    refusal.wanted.came = number.saturating_sub(1);
    refusal.wanted.count = 1_000;
    said(alloc, refusal)
}

#[test]
fn ordinal_numbers_end_as_they_do_in_english(rt: HostRuntime) -> Result<(), Fail> {
    for (number, end) in [
        (1, "1st"),
        (2, "2nd"),
        (3, "3rd"),
        (4, "4th"),
        (10, "10th"),
        (11, "11th"),
        (12, "12th"),
        (13, "13th"),
        (21, "21st"),
        (22, "22nd"),
        (33, "33rd"),
        (111, "111th"),
        (112, "112th"),
        (121, "121st"),
        (1_000, "1000th"),
    ] {
        let said = promised(rt.alloc(), number)?;
        let wanted = format!(in rt.alloc();
            "session:7:1: the text ends here; expected a record of the source, the {end} of 1000 that line 6 promises\n"
        )?;
        assert_eq!(rt; said.as_str(), wanted.as_str());
    }
    Ok(())
}

#[test]
fn what_was_there_stays_in_front(rt: HostRuntime) -> Result<(), Fail> {
    let case = Case(At::Closed, 31, b"x", "");
    let refusal = refusal(rt.alloc(), &case, false)?;
    let mut out = b"certificate-text line 31\n".to_vec(rt.alloc())?;
    push_why(&mut out, b"na\xc3\xafve", &Refused::new(refusal))?;
    let wanted =
        b"certificate-text line 31\nna\xc3\xafve:31:1: found \"x\"; expected nothing after the closing line\n";
    assert!(rt; out.as_slice() == wanted.as_slice());
    Ok(())
}

#[test]
fn want_of_memory_is_no_fault_of_the_text(rt: HostRuntime) -> Result<(), Fail> {
    let mut refusal = refusal(rt.alloc(), &Case(At::Guest, 0, b"", ""), false)?;
    refusal.fault.kind = FaultKind::Memory;
    assert_eq!(rt;
        said(rt.alloc(), refusal)?.as_str(),
        "session:0:1: out of memory\n"
    );
    Ok(())
}
