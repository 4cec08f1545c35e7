//! The calls that read and write texts, whole and in pieces.

use crate::examples::Examples;
use crate::refusing::Refuser;
use cert_text::{CertReader, RunsReader, read_cert, read_runs, write_cert, write_runs};
use guest_script::{Script, read_events, read_script};
use migration_events::Event;
use migration_types::{Cert, Run, Seq, Session};
use session_log::{Room, SessionReader, read_session, write_in_pieces, write_session};
use std::alloc::AllocError;
use text_lines::{Rewind, TextReader, read_keyed};

/// Whether what was written is this.
fn is_text(written: Result<Vec<u8>, AllocError>, text: &[u8]) -> bool {
    match written {
        Ok(written) => written.as_slice() == text,
        Err(_) => false,
    }
}

/// The number that the second line of a text gives after this key.
fn number_of(refuser: Refuser, text: &[u8], key: &[u8]) -> Option<u32> {
    let text = String::from_utf8_lossy(refuser.alloc(), text).ok()?;
    let mut lines = text.lines();
    lines.next()?;
    read_keyed(lines.next()?.as_bytes(), key, u32::MAX).ok()
}

fn session(refuser: Refuser, text: &[u8]) -> Option<()> {
    let alloc = refuser.alloc();
    let session = refuser.each(
        "session_log::read_session",
        || read_session(alloc, text),
        |session: &Session| is_text(write_session(alloc, session), text),
    )?;
    refuser.each(
        "session_log::write_session",
        || write_session(alloc, &session),
        |written: &Vec<u8>| written.as_slice() == text,
    )?;
    in_pieces(refuser, &session, text)
}

/// Writes a session to as many bytes as its text has.
fn in_pieces(refuser: Refuser, session: &Session, text: &[u8]) -> Option<()> {
    let alloc = refuser.alloc();
    let mut room = refuser.each(
        "session_log::Room::new",
        || Room::new(alloc),
        |_: &Room| true,
    )?;
    let mut bytes = vec![in alloc; 0; text.len()].ok()?;
    let mut rest = bytes.as_mut_slice();
    let written = refuser.none("session_log::write_in_pieces", || {
        write_in_pieces(&mut room, session, &mut rest)
    });
    refuser.right(written.is_ok() && bytes.as_slice() == text);
    Some(())
}

fn cert(refuser: Refuser, text: &[u8]) -> Option<()> {
    let alloc = refuser.alloc();
    let cert = refuser.each(
        "cert_text::read_cert",
        || read_cert(alloc, text),
        |cert: &Cert| is_text(write_cert(alloc, cert), text),
    )?;
    refuser.each(
        "cert_text::write_cert",
        || write_cert(alloc, &cert),
        |written: &Vec<u8>| written.as_slice() == text,
    )?;
    Some(())
}

fn runs(refuser: Refuser, text: &[u8]) -> Option<()> {
    let alloc = refuser.alloc();
    let runs = refuser.each(
        "cert_text::read_runs",
        || read_runs(alloc, text),
        |runs: &Seq<Run>| is_text(write_runs(alloc, runs.as_slice()), text),
    )?;
    refuser.each(
        "cert_text::write_runs",
        || write_runs(alloc, runs.as_slice()),
        |written: &Vec<u8>| written.as_slice() == text,
    )?;
    Some(())
}

fn script(refuser: Refuser, text: &[u8]) -> Option<()> {
    let alloc = refuser.alloc();
    let pages = number_of(refuser, text, b"pages ")?;
    refuser.each(
        "guest_script::read_script",
        || read_script(alloc, text),
        |script: &Script| script.geometry().pages() == pages,
    )?;
    Some(())
}

fn events(refuser: Refuser, text: &[u8]) -> Option<()> {
    let alloc = refuser.alloc();
    let count = number_of(refuser, text, b"events ")?;
    refuser.each(
        "guest_script::read_events",
        || read_events(alloc, text),
        |events: &Seq<Event>| events.as_slice().len() as u32 == count,
    )?;
    Some(())
}

/// Feeds a text by pieces of this size.
fn feed<R: Rewind>(
    refuser: Refuser,
    name: &str,
    reader: &mut TextReader<R>,
    text: &[u8],
    size: usize,
) -> Option<()> {
    for piece in text.chunks(size) {
        refuser.each_on(
            name,
            reader,
            |reader: &mut TextReader<R>| reader.feed(piece),
            |_| true,
        )?;
        refuser.right(true);
    }
    Some(())
}

fn pieces(refuser: Refuser, examples: &Examples, size: usize) -> Option<()> {
    let alloc = refuser.alloc();
    let text = examples.text("handover/session")?;
    let mut reader = SessionReader::new(alloc);
    let name = "session_log::SessionReader::feed";
    feed(refuser, name, &mut reader, text.as_slice(), size)?;
    let read = refuser.none("session_log::SessionReader::finish", || reader.finish());
    refuser.right(is_text(write_session(alloc, &read.ok()?), text.as_slice()));
    let text = examples.text("handover/certificate")?;
    let mut reader = CertReader::new(alloc);
    feed(
        refuser,
        "cert_text::CertReader::feed",
        &mut reader,
        text.as_slice(),
        size,
    )?;
    refuser.right(is_text(write_cert(alloc, &reader.finish().ok()?), text.as_slice()));
    let text = examples.text("replayed/runs")?;
    let mut reader = RunsReader::new(alloc);
    feed(
        refuser,
        "cert_text::RunsReader::feed",
        &mut reader,
        text.as_slice(),
        size,
    )?;
    let runs = reader.finish().ok()?;
    refuser.right(is_text(write_runs(alloc, runs.as_slice()), text.as_slice()));
    Some(())
}

/// Makes the calls.
pub fn make(refuser: Refuser, examples: &Examples) -> Option<()> {
    session(refuser, examples.text("handover/session")?.as_slice())?;
    session(
        refuser,
        examples.text("two-wait-for-a-page/stdout")?.as_slice(),
    )?;
    cert(refuser, examples.text("handover/certificate")?.as_slice())?;
    cert(
        refuser,
        examples.text("released-page/certificate")?.as_slice(),
    )?;
    runs(refuser, examples.text("replayed/runs")?.as_slice())?;
    for folder in [
        "two-wait-for-a-page",
        "released-and-pushed",
        "lost-and-repeated",
    ] {
        let alloc = refuser.alloc();
        let name = format!(in alloc; "{folder}/script").ok()?;
        script(refuser, examples.text(name.as_str())?.as_slice())?;
        let name = format!(in alloc; "{folder}/events").ok()?;
        events(refuser, examples.text(name.as_str())?.as_slice())?;
    }
    for size in [1, 7, 10_000] {
        pieces(refuser, examples, size)?;
    }
    Some(())
}
