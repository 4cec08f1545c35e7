//! The calls that judge a session.

use crate::examples::Examples;
use crate::refusing::{MOST, Outcome, Refuser, WHICH, Which};
use audit_report::{Report, audit, print_report};
use cert_check::{ShapeFault, Verdict, check, check_par, shape};
use cert_maker::{Order, find_order, make as make_cert};
use cert_text::read_runs;
use judged_texts::check_texts;
use merge_runs::{Replay, is_merging, replay};
use migration_types::{Cert, LogName, PageNo, Seq, Session, line_of};
use session_log::read_session;
use std::alloc::Global;
use std::marker::Sync;
use std::thread::Threads;

/// A session that threads judge side by side: a guest that reads two of its many pages.
const WIDE: &[u8] = b"postcopy-session 1
pages 33000
cells 1
init 0
guest 2
r 0 3 0 0
r 0 32999 0 0
source 0
link 0
pager 0
end
";

fn checked<R: Threads + Sync>(
    rt: &R,
    refuser: Refuser,
    session: &Session,
    cert: &Cert,
) -> Option<()> {
    let alloc = refuser.alloc();
    refuser.each(
        "cert_check::shape",
        || shape(alloc, session),
        |fault: &Option<ShapeFault>| fault.is_none(),
    )?;
    refuser.each(
        "cert_check::check",
        || check(alloc, session, cert),
        |verdict: &Verdict| *verdict == Verdict::Yes,
    )?;
    refuser.each(
        "cert_check::check_par",
        || check_par(rt, alloc, session, cert),
        |verdict: &Verdict| *verdict == Verdict::Yes,
    )?;
    Some(())
}

fn checked_texts<R: Threads + Sync>(
    rt: &R,
    refuser: Refuser,
    session: &[u8],
    cert: &[u8],
) -> Option<()> {
    refuser.each(
        "judged_texts::check_texts",
        || check_texts(rt, refuser.alloc(), session, cert),
        |verdict: &Verdict| *verdict == Verdict::Yes,
    )?;
    Some(())
}

/// Whether an order is that of a certificate.
fn is_order_of(order: &Order, cert: &Cert) -> bool {
    match order {
        Order::Found(runs) => runs.as_slice() == cert.runs(),
        Order::Knot { .. } => false,
    }
}

/// The order that is found is the certificate's.
fn ordered(refuser: Refuser, session: &Session, cert: &Cert) -> Option<()> {
    refuser.each(
        "cert_maker::find_order",
        || find_order(refuser.alloc(), session),
        |order: &Order| is_order_of(order, cert),
    )?;
    Some(())
}

/// Whether two certificates are the same.
fn are_same(one: &Cert, other: &Cert) -> bool {
    one.entries() == other.entries() && one.runs() == other.runs()
}

/// A refusal drops the runs.
fn certified(refuser: Refuser, session: &Session, cert: &Cert) -> Option<()> {
    let alloc = refuser.alloc();
    for n in 1..MOST {
        for which in WHICH {
            let runs = Seq::from_vec(Vec::from_slice(alloc, cert.runs()).ok()?);
            match refuser.once(
                "cert_maker::make",
                n,
                which,
                || make_cert(alloc, session, runs),
            ) {
                Outcome::Answered(made) | Outcome::WentOn(made) => {
                    refuser.right(are_same(&made, cert));
                    return Some(());
                }
                Outcome::Refused(fault) => refuser.refused(&fault, true),
                Outcome::GaveUp(_) => return None,
            }
        }
    }
    None
}

fn is_clean(report: &Report, cert: &Cert) -> bool {
    match report {
        Report::Clean(made) => are_same(made, cert),
        _ => false,
    }
}

/// Whether a report is told by this text.
fn is_told(alloc: Global, report: &Report, text: &[u8]) -> bool {
    match print_report(alloc, report) {
        Ok(printed) => printed.as_slice() == text,
        Err(_) => false,
    }
}

fn audited<R: Threads + Sync>(
    rt: &R,
    refuser: Refuser,
    session: &Session,
    text: &[u8],
) -> Option<()> {
    let alloc = refuser.alloc();
    let report = refuser.each(
        "audit_report::audit",
        || audit(rt, alloc, session),
        |report: &Report| is_told(alloc, report, text),
    )?;
    refuser.each(
        "audit_report::print_report",
        || print_report(alloc, &report),
        |printed: &Vec<u8>| printed.as_slice() == text,
    )?;
    Some(())
}

/// A merging of a session in which the demand of this record fails first, or none.
fn replayed(
    refuser: Refuser,
    session: &Session,
    text: &[u8],
    broken: Option<(LogName, u32)>,
) -> Option<()> {
    let alloc = refuser.alloc();
    let runs = read_runs(alloc, text).ok()?;
    let is_one = refuser.none("merge_runs::is_merging", || {
        is_merging(session, runs.as_slice())
    });
    refuser.right(is_one);
    refuser.each(
        "merge_runs::replay",
        || replay(alloc, session, runs.as_slice()),
        |replay: &Replay| {
            replay.first_broken == broken && replay.memory.read(PageNo::new(0), 0) == 5
        },
    )?;
    Some(())
}

/// The certificate of a session whose pages were never moved.
fn plain_cert(alloc: Global, session: &Session) -> Option<Cert> {
    match find_order(alloc, session).ok()? {
        Order::Found(runs) => make_cert(alloc, session, runs).ok(),
        Order::Knot { .. } => None,
    }
}

/// Makes the calls on the session that threads judge.
pub fn make_wide<R: Threads + Sync>(rt: &R, refuser: Refuser) -> Option<()> {
    let alloc = refuser.alloc();
    let session = read_session(alloc, WIDE).ok()?;
    let cert = plain_cert(alloc, &session)?;
    let alone = [Which::Alone];
    refuser.each_of(
        "cert_check::check_par",
        &alone,
        || check_par(rt, alloc, &session, &cert),
        |verdict: &Verdict| *verdict == Verdict::Yes,
    )?;
    refuser.each_of(
        "audit_report::audit",
        &alone,
        || audit(rt, alloc, &session),
        |report: &Report| is_clean(report, &cert),
    )?;
    Some(())
}

/// Makes the calls of a report.
pub fn make_report<R: Threads + Sync>(rt: &R, refuser: Refuser, examples: &Examples) -> Option<()> {
    let session = examples.session("early-access/session")?;
    let told = examples.text("early-access/stdout")?;
    audited(rt, refuser, &session, told.as_slice())
}

/// Makes the other calls.
pub fn make<R: Threads + Sync>(rt: &R, refuser: Refuser, examples: &Examples) -> Option<()> {
    for folder in ["handover", "released-page"] {
        let alloc = refuser.alloc();
        let session = examples.text(format!(in alloc; "{folder}/session").ok()?.as_str())?;
        let cert = examples.text(format!(in alloc; "{folder}/certificate").ok()?.as_str())?;
        checked_texts(rt, refuser, session.as_slice(), cert.as_slice())?;
        let session = read_session(alloc, session.as_slice()).ok()?;
        let cert = examples.cert(format!(in alloc; "{folder}/certificate").ok()?.as_str())?;
        checked(rt, refuser, &session, &cert)?;
        ordered(refuser, &session, &cert)?;
        certified(refuser, &session, &cert)?;
        let name = refuser.none("migration_types::Session::named", || {
            session.named((LogName::Link, 0))
        });
        refuser.right(name == Some((LogName::Source, 1)));
    }
    let runs = examples.text("replayed/runs")?;
    replayed(
        refuser,
        &examples.session("replayed/session")?,
        runs.as_slice(),
        None,
    )?;
    let runs = examples.text("replayed-too-early/runs")?;
    let session = examples.session("replayed-too-early/session")?;
    let line = refuser.none(
        "migration_types::line_of",
        || line_of(&session, LogName::Guest, 6),
    );
    refuser.right(line == 13);
    replayed(
        refuser,
        &session,
        runs.as_slice(),
        Some((LogName::Guest, 6)),
    )
}
