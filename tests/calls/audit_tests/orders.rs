//! Replays along what an audit wrote: reports and certificates, as they stand.

use crate::texts::{EARLY_ACCESS, HANDOVER, STALE_PAGE, WRONG_SHAPE};
use audit_report::Report;
use cert_check::Verdict;
use judged_texts::{
    AuditPart, Outcome, TextAudit, audit_text, check_texts_alone, print_audited, replay_texts,
};
use page_facts::first_page_fault;
use session_log::read_session;
use std::alloc::{AllocError, Global};

/// What becomes of a session along what its audit wrote.
fn along(alloc: Global, session: &str, wanted: AuditPart) -> Result<Outcome, AllocError> {
    let audited = audit_text(alloc, session.as_bytes())?;
    let text = print_audited(alloc, &audited, wanted)?;
    replay_texts(alloc, session.as_bytes(), &text)
}

/// The line of the fault that the report on a session tells, where it tells one.
fn faulty_line(alloc: Global, session: &str) -> Option<u32> {
    match audit_text(alloc, session.as_bytes()) {
        Ok(TextAudit::Reported(Report::Faulty { line, .. })) => Some(line),
        _ => None,
    }
}

/// Whether the report on a session is replayed to the record that it names.
fn is_broken_along_its_report(alloc: Global, session: &str) -> bool {
    match along(alloc, session, AuditPart::Report) {
        Ok(Outcome::Broken(line)) => faulty_line(alloc, session) == Some(line),
        _ => false,
    }
}

#[test]
fn replays_along_reports(rt: HostRuntime) {
    let alloc = rt.alloc();
    assert!(rt; is_broken_along_its_report(alloc, STALE_PAGE));
    assert!(rt;
        matches!(
            along(alloc, EARLY_ACCESS, AuditPart::Report),
            Ok(Outcome::Broken(_))
        )
    );
    assert!(rt; matches!(along(alloc, HANDOVER, AuditPart::Report), Ok(Outcome::Safe)));
}

#[test]
fn replays_along_certificates(rt: HostRuntime) {
    assert!(rt;
        matches!(
            along(rt.alloc(), HANDOVER, AuditPart::Certificate),
            Ok(Outcome::Safe)
        )
    );
}

#[test]
fn other_reports_tell_no_order(rt: HostRuntime) {
    let alloc = rt.alloc();
    assert!(rt;
        matches!(
            along(alloc, WRONG_SHAPE, AuditPart::Report),
            Ok(Outcome::RunsText(1))
        )
    );
    assert!(rt;
        matches!(
            along(alloc, STALE_PAGE, AuditPart::FirstLine),
            Ok(Outcome::RunsText(2))
        )
    );
}

/// Whether a session's certificate is right by the check of texts alone, and no page of it has a fault.
fn is_found_right(alloc: Global, session: &str) -> Result<bool, AllocError> {
    let audited = audit_text(alloc, session.as_bytes())?;
    let cert = print_audited(alloc, &audited, AuditPart::Certificate)?;
    let verdict = check_texts_alone(alloc, session.as_bytes(), &cert)?;
    match read_session(alloc, session.as_bytes()) {
        Ok(read) => Ok(verdict == Verdict::Yes && first_page_fault(alloc, &read)?.is_none()),
        Err(_) => Ok(false),
    }
}

#[test]
fn certificates_are_right(rt: HostRuntime) {
    assert!(rt; matches!(is_found_right(rt.alloc(), HANDOVER), Ok(true)));
}
