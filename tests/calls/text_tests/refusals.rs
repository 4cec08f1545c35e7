//! What a refusal tells: the line that stood there, and what may stand there.

use crate::formats::none_is_wrong;
use crate::refused_texts::{REFUSED, RULES, Text};
use Text::{Cert, Events, Runs, Script, Session};
use cert_text::{CertReader, RunsReader};
use guest_script::{EventParts, ScriptParts};
use session_log::SessionReader;
use std::alloc::Global;
use text_lines::{Refusal, Rewind, Staged, TextReader, Wanted, read_or_why};

/// Whether these forms, with bars between them, are those.
fn are_forms(forms: &[&str], joined: &str) -> bool {
    let mut rest = joined;
    for form in forms {
        let form = *form;
        let Some(after) = rest.strip_prefix(form) else {
            return false;
        };
        rest = after.strip_prefix('|').unwrap_or(after);
    }
    rest.is_empty()
}

/// What is wanted at a line: in words, its forms, and in numbers.
type Due = (&'static str, &'static str, [u32; 7]);

fn numbers_of(wanted: &Wanted) -> [u32; 7] {
    [
        wanted.came,
        wanted.count,
        wanted.counted_at,
        wanted.least,
        wanted.most,
        wanted.pages,
        wanted.cells,
    ]
}

fn is_due(wanted: &Wanted, due: Due) -> bool {
    let (what, forms, numbers) = due;
    wanted.what == what && are_forms(wanted.forms, forms) && numbers_of(wanted) == numbers
}

/// Whether a text is refused at its last line, and that line with what is wanted there is told.
fn tells(why: &Refusal, text: &str, due: Due) -> bool {
    let (ended, is_last) = match text.strip_suffix('\n') {
        Some(ended) => (ended, false),
        None => (text, true),
    };
    let (before, line) = ended.rsplit_once('\n').unwrap_or(("", ended));
    let lines = if before.is_empty() {
        1
    } else {
        before.split('\n').count() + 1
    };
    why.fault.line as usize == lines
        && why.line.as_slice() == line.as_bytes()
        && why.is_last == is_last
        && is_due(&why.wanted, due)
}

/// What is told of a text that comes in pieces of this size.
fn why_in_pieces<R: Rewind>(reader: TextReader<R>, text: &str, size: usize) -> Option<Refusal> {
    let mut reader = reader;
    let mut rest = text.as_bytes();
    for _ in 0..text.len() {
        let (piece, after) = rest.split_at(size.min(rest.len()));
        if reader.feed(piece).is_err() {
            return reader.finish_or_why().err();
        }
        rest = after;
    }
    reader.finish_or_why().err()
}

fn why(alloc: Global, kind: Text, text: &str, size: usize) -> Option<Refusal> {
    match kind {
        Session => why_in_pieces(SessionReader::new(alloc), text, size),
        Cert => why_in_pieces(CertReader::new(alloc), text, size),
        Runs => why_in_pieces(RunsReader::new(alloc), text, size),
        Script => read_or_why(Staged::<ScriptParts>::new(alloc), alloc, text.as_bytes()).err(),
        Events => read_or_why(Staged::<EventParts>::new(alloc), alloc, text.as_bytes()).err(),
    }
}

/// Sizes of pieces: the last is above that of each text.
static SIZES: [usize; 4] = [1, 7, 64, 65_536];

/// A text of which something else is told.
fn mistold_text(alloc: Global) -> Option<&'static str> {
    for (kind, text, what, forms, numbers) in &REFUSED {
        let due = (*what, *forms, *numbers);
        for size in &SIZES {
            let told = why(alloc, *kind, *text, *size);
            if !told.is_some_and(|why| tells(&why, *text, due)) {
                return Some(*text);
            }
        }
    }
    None
}

#[test]
fn refusals_tell_what_is_wanted(rt: HostRuntime) {
    none_is_wrong(&rt, mistold_text(rt.alloc()));
}

/// Whether a text that ends behind a line feed is refused at the line behind it, which is empty.
fn is_refused_at_its_end(alloc: Global) -> bool {
    let due = ("the number of cells", "cells N", [0, 0, 0, 1, 512, 2, 0]);
    why(alloc, Session, "postcopy-session 1\npages 2\n", 7).is_some_and(|why| {
        why.fault.line == 3 && why.line.is_empty() && why.is_last && is_due(&why.wanted, due)
    })
}

/// How many bytes are kept of a line of so many that is refused as the second, in pieces of this size.
fn kept_of(alloc: Global, length: usize, size: usize) -> Option<usize> {
    let letters = "x".repeat(alloc, length).ok()?;
    let text = format!(in alloc; "postcopy-session 1\n{letters}\n").ok()?;
    let why = why(alloc, Session, &text, size)?;
    Some(why.line.len())
}

#[test]
fn lines_are_kept(rt: HostRuntime) {
    assert!(rt; is_refused_at_its_end(rt.alloc()));
    for size in &SIZES {
        assert!(rt; kept_of(rt.alloc(), 8_448, *size) == Some(8_448));
        assert!(rt; kept_of(rt.alloc(), 20_000, *size) == Some(8_448));
    }
}

/// A text of which another rule is told.
fn text_of_another_rule(alloc: Global) -> Option<&'static str> {
    for (kind, text, rule) in &RULES {
        let rule = *rule;
        if !why(alloc, *kind, *text, 64).is_some_and(|why| why.wanted.rule == rule) {
            return Some(*text);
        }
    }
    None
}

/// Texts that are refused at their last line, and how many records each of their logs may have.
static LOGS: [(Text, &str, u32); 4] = [
    (
        Session,
        "postcopy-session 2\npages 2\ncells 1\ninit 0\nguest 1\nsee 1048576\n",
        1_048_576,
    ),
    (
        Session,
        "postcopy-session 3\npages 2\ncells 1\ninit 0\nguest 1\nsee 134217728\n",
        134_217_728,
    ),
    (
        Cert,
        "postcopy-certificate 2\npages 1\npage 0 fresh 1048576\n",
        1_048_576,
    ),
    (
        Cert,
        "postcopy-certificate 3\npages 1\npage 0 fresh 134217728\n",
        134_217_728,
    ),
];

/// A text of which other logs are told.
fn text_of_other_logs(alloc: Global) -> Option<&'static str> {
    for (kind, text, records) in &LOGS {
        let records = *records;
        if !why(alloc, *kind, *text, 64).is_some_and(|why| why.wanted.records == records) {
            return Some(*text);
        }
    }
    None
}

#[test]
fn refusals_tell_how_many_records_logs_may_have(rt: HostRuntime) {
    none_is_wrong(&rt, text_of_other_logs(rt.alloc()));
}

#[test]
fn refusals_tell_rules(rt: HostRuntime) {
    none_is_wrong(&rt, text_of_another_rule(rt.alloc()));
}
