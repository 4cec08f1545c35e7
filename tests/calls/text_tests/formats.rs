//! What the three formats do with a text: it is read, the fault of it is told, and what was read is written back.

use crate::fault_of;
use cert_text::{read_cert, read_runs, write_cert, write_runs};
use migration_types::{Cert, Session};
use session_log::{read_session, write_session};
use std::alloc::Global;
use std::process::Abort;
use text_lines::FaultKind;

/// Fails the test where a case is wrong, which it names.
pub fn none_is_wrong(rt: &impl Abort, wrong: Option<&str>) {
    if let Some(case) = wrong {
        panic!(rt; "{case}");
    }
}

/// What a text is to be.
#[derive(Clone, Copy)]
pub enum Format {
    Session,
    Cert,
    Runs,
}

fn fault_in_session(alloc: Global, text: &[u8]) -> Option<(u32, FaultKind)> {
    fault_of(&read_session(alloc, text))
}

fn fault_in_cert(alloc: Global, text: &[u8]) -> Option<(u32, FaultKind)> {
    fault_of(&read_cert(alloc, text))
}

fn fault_in_runs(alloc: Global, text: &[u8]) -> Option<(u32, FaultKind)> {
    fault_of(&read_runs(alloc, text))
}

/// The line and the kind of a text's fault, where it has one.
pub fn fault_in(alloc: Global, format: Format, text: &[u8]) -> Option<(u32, FaultKind)> {
    match format {
        Format::Session => fault_in_session(alloc, text),
        Format::Cert => fault_in_cert(alloc, text),
        Format::Runs => fault_in_runs(alloc, text),
    }
}

/// Whether a session is written as this text.
pub fn is_session_text(alloc: Global, session: &Session, text: &[u8]) -> bool {
    match write_session(alloc, session) {
        Ok(written) => written.as_slice() == text,
        Err(_) => false,
    }
}

fn is_session_kept(alloc: Global, text: &[u8]) -> bool {
    match read_session(alloc, text) {
        Ok(session) => is_session_text(alloc, &session, text),
        Err(_) => false,
    }
}

/// Whether a certificate is written as this text.
pub fn is_cert_text(alloc: Global, cert: &Cert, text: &[u8]) -> bool {
    match write_cert(alloc, cert) {
        Ok(written) => written.as_slice() == text,
        Err(_) => false,
    }
}

fn is_cert_kept(alloc: Global, text: &[u8]) -> bool {
    match read_cert(alloc, text) {
        Ok(cert) => is_cert_text(alloc, &cert, text),
        Err(_) => false,
    }
}

fn are_runs_kept(alloc: Global, text: &[u8]) -> bool {
    let Ok(runs) = read_runs(alloc, text) else {
        return false;
    };
    match write_runs(alloc, runs.as_slice()) {
        Ok(written) => written.as_slice() == text,
        Err(_) => false,
    }
}

/// Whether a text is read, and written back as it was.
pub fn is_kept(alloc: Global, format: Format, text: &[u8]) -> bool {
    match format {
        Format::Session => is_session_kept(alloc, text),
        Format::Cert => is_cert_kept(alloc, text),
        Format::Runs => are_runs_kept(alloc, text),
    }
}
