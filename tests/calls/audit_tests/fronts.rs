//! How far the logs of recordings go, beside a search of all fronts of small ones made at random.

use crate::numbers::Numbers;
use recorder_files::{Front, Naming};
use recordings::Visited;
use session_log::read_session;
use std::alloc::{AllocError, Global};
use text_lines::{push_keyed, push_line, push_number};

/// A kind of record: what it has in front of the number of another record, the log of that record, by its place among the logs,
/// and what stands behind the number. Five is the place of no log.
type Kind = (&'static str, usize, &'static str);

static GUEST: [Kind; 7] = [
    ("r 0 0 0 0", 5, ""),
    ("w 63 0 0 7", 5, ""),
    ("z 1 0", 5, ""),
    ("miss 2 0", 5, ""),
    ("halt", 5, ""),
    ("resume ", 4, ""),
    ("see ", 4, ""),
];

static SOURCE: [Kind; 6] = [
    ("halted ", 0, ""),
    ("state", 5, ""),
    ("send 0 00000000000000ff", 5, ""),
    ("again ", 1, ""),
    ("ask ", 2, ""),
    ("done", 5, ""),
];

static LINK: [Kind; 2] = [("down ", 1, ""), ("up ", 4, "")];

static LANE: [Kind; 1] = [("down ", 1, "")];

static PAGER: [Kind; 10] = [
    ("got ", 2, ""),
    ("pull ", 3, ""),
    ("ready", 5, ""),
    ("fault ", 0, ""),
    ("join ", 4, ""),
    ("want 0", 5, ""),
    ("place 0 ", 4, " 0000000000000001"),
    ("zero 0", 5, ""),
    ("skip ", 4, ""),
    ("all", 5, ""),
];

/// The kinds of record of a log.
fn kinds(log: usize) -> &'static [Kind] {
    match log {
        0 => &GUEST,
        1 => &SOURCE,
        2 => &LINK,
        3 => &LANE,
        _ => &PAGER,
    }
}

static KEYS: [&[u8]; 5] = [b"guest ", b"source ", b"link ", b"lane ", b"pager "];

/// The logs have fewer records than this.
const MOST: usize = 4;

/// What the records of the logs name: for each log how many records it has, and for each of these the log and the number.
#[derive(Clone, Copy)]
struct Logs {
    counts: [usize; 5],
    named: [[(usize, usize); MOST]; 5],
}

/// Adds the records of a log, and notes what they name.
fn push_log(
    out: &mut Vec<u8>,
    logs: &mut Logs,
    log: usize,
    numbers: &mut Numbers,
) -> Result<(), AllocError> {
    let count = numbers.below(MOST);
    logs.counts[log] = count;
    push_keyed(out, KEYS[log], count as u64)?;
    for place in 0..count {
        let kinds = kinds(log);
        let (front, other, behind) = kinds[numbers.below(kinds.len())];
        let number = numbers.below(MOST);
        logs.named[log][place] = (other, number);
        out.extend_from_slice(front.as_bytes())?;
        if other < 5 {
            push_number(out, number as u64)?;
        }
        push_line(out, behind.as_bytes())?;
    }
    Ok(())
}

/// The text of a recording, made at random, and what its records name.
fn recording(alloc: Global, numbers: &mut Numbers) -> Result<(Vec<u8>, Logs), AllocError> {
    let mut out = Vec::new(alloc);
    let mut logs = Logs {
        counts: [0; 5],
        named: [[(5, 0); MOST]; 5],
    };
    out.extend_from_slice(b"postcopy-session 2\npages 1\ncells 1\ninit 0\n")?;
    for log in 0..5usize {
        push_log(&mut out, &mut logs, log, numbers)?;
    }
    out.extend_from_slice(b"end\n")?;
    Ok((out, logs))
}

/// Whether the first records of each log name only such as are among them.
fn is_front(logs: &Logs, front: [usize; 5]) -> bool {
    for log in 0..5usize {
        for place in 0..front[log] {
            let (other, number) = logs.named[log][place];
            if other < 5 && number >= front[other] {
                return false;
            }
        }
    }
    true
}

/// The most records of each log that some front has. There is a front that has them all.
fn most_of_fronts(logs: &Logs) -> [usize; 5] {
    let mut most = [0; 5];
    let [guests, sources, links, lanes, pagers] = logs.counts;
    for guest in 0..=guests {
        for source in 0..=sources {
            for link in 0..=links {
                for lane in 0..=lanes {
                    for pager in 0..=pagers {
                        let front = [guest, source, link, lane, pager];
                        if is_front(logs, front) {
                            for log in 0..5usize {
                                most[log] = most[log].max(front[log]);
                            }
                        }
                    }
                }
            }
        }
    }
    most
}

fn told(front: Front) -> [usize; 5] {
    [
        front.guest as usize,
        front.source as usize,
        front.link as usize,
        front.lane as usize,
        front.pager as usize,
    ]
}

/// The greatest front of a recording, or none if its text is refused.
fn greatest_front(alloc: Global, text: &[u8]) -> Option<Front> {
    let mut naming = Naming::new(alloc);
    let session = read_session(alloc, text).ok()?;
    session.visit(alloc, &mut naming).ok()?;
    Some(naming.greatest_front())
}

/// The first round in which another front is found than the greatest, and in how many rounds something was left out.
fn disagreement(alloc: Global, rounds: usize) -> Result<(Option<usize>, usize), AllocError> {
    let mut numbers = Numbers::new(20_261_127);
    let mut cut = 0;
    for round in 0..rounds {
        let (text, logs) = recording(alloc, &mut numbers)?;
        let most = most_of_fronts(&logs);
        match greatest_front(alloc, text.as_slice()) {
            Some(front) if told(front) == most => {}
            _ => return Ok((Some(round), cut)),
        }
        if most != logs.counts {
            cut += 1;
        }
    }
    Ok((None, cut))
}

#[test]
fn finds_the_greatest_front(rt: HostRuntime) {
    let Ok((round, cut)) = disagreement(rt.alloc(), 60) else {
        unreachable!();
    };
    assert!(rt; round == None, "{round:?}");
    assert!(rt; cut > 15 && cut < 60, "{cut}");
}

/// A recording of which nothing is left out, and a recording of which one record more is named than there is.
static WHOLE: &[u8] =
    b"postcopy-session 1\npages 1\ncells 1\ninit 0\nguest 1\nhalt\nsource 2\nhalted 0\nstate\nlink 1\ndown 1\npager 2\ngot 0\nready\nend\n";

static LACKING: &[u8] =
    b"postcopy-session 1\npages 1\ncells 1\ninit 0\nguest 1\nhalt\nsource 2\nhalted 0\nstate\nlink 1\ndown 2\npager 2\ngot 0\nready\nend\n";

#[test]
fn cuts_only_what_names_a_record_that_is_not_there(rt: HostRuntime) {
    let whole = greatest_front(rt.alloc(), WHOLE);
    assert!(rt;
        whole
            == Some(Front {
                guest: 1,
                source: 2,
                link: 1,
                lane: 0,
                pager: 2
            })
    );
    let lacking = greatest_front(rt.alloc(), LACKING);
    assert!(rt;
        lacking
            == Some(Front {
                guest: 1,
                source: 2,
                link: 0,
                lane: 0,
                pager: 0
            })
    );
}

/// The greatest front of a recording of which so many records of each log are expected.
fn front_expecting(alloc: Global, text: &[u8], count: u64) -> Option<Front> {
    let expected = Front {
        guest: count,
        source: count,
        link: count,
        lane: count,
        pager: count,
    };
    let mut naming = Naming::expecting(alloc, expected);
    let session = read_session(alloc, text).ok()?;
    session.visit(alloc, &mut naming).ok()?;
    Some(naming.greatest_front())
}

#[test]
fn finds_the_front_whatever_is_expected(rt: HostRuntime) {
    for text in [WHOLE, LACKING] {
        let wanted = greatest_front(rt.alloc(), text);
        assert!(rt; wanted.is_some());
        assert!(rt; front_expecting(rt.alloc(), text, 0) == wanted);
        assert!(rt; front_expecting(rt.alloc(), text, 1) == wanted);
        assert!(rt; front_expecting(rt.alloc(), text, 1_000) == wanted);
        assert!(rt; front_expecting(rt.alloc(), text, u64::MAX) == wanted);
    }
}
