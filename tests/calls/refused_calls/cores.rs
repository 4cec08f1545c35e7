//! The calls of the core, and of a whole run of events.

use crate::examples::Examples;
use crate::refusing::Refuser;
use guest_script::Script;
use migration_events::Event;
use migration_types::Session;
use session_core::{Core, run};
use session_log::write_session;
use std::alloc::{AllocError, Global};

/// The text of what a core recorded so far.
fn text_of(alloc: Global, session: Result<Session, AllocError>) -> Option<Vec<u8>> {
    write_session(alloc, &session.ok()?).ok()
}

/// Whether a session has this text.
fn is_written(alloc: Global, session: &Session, text: &[u8]) -> bool {
    match write_session(alloc, session) {
        Ok(written) => written.as_slice() == text,
        Err(_) => false,
    }
}

/// Whether what a core recorded so far has this text.
fn is_at(alloc: Global, core: &Core<'_>, text: &[u8]) -> bool {
    match text_of(alloc, core.session()) {
        Some(now) => now.as_slice() == text,
        None => false,
    }
}

/// Steps through the events.
fn stepped(refuser: Refuser, script: &Script, events: &[Event], text: &[u8]) -> Option<()> {
    let alloc = refuser.alloc();
    let mut core = refuser.each(
        "session_core::Core::start",
        || Core::start(alloc, script),
        |core: &Core<'_>| text_of(alloc, core.session()).is_some(),
    )?;
    for event in events {
        let before = text_of(alloc, core.session())?;
        refuser.each_on(
            "session_core::Core::step",
            &mut core,
            |core: &mut Core<'_>| core.step(*event),
            |core: &Core<'_>| is_at(alloc, core, before.as_slice()),
        )?;
        refuser.right(true);
    }
    refuser.each(
        "session_core::Core::session",
        || core.session(),
        |session: &Session| is_written(alloc, session, text),
    )?;
    refuser.right(is_at(alloc, &core, text));
    Some(())
}

/// Makes the calls.
pub fn make(refuser: Refuser, examples: &Examples) -> Option<()> {
    for folder in [
        "two-wait-for-a-page",
        "released-and-pushed",
        "lost-and-repeated",
    ] {
        let alloc = refuser.alloc();
        let script = examples.script(format!(in alloc; "{folder}/script").ok()?.as_str())?;
        let events = examples.events(format!(in alloc; "{folder}/events").ok()?.as_str())?;
        let text = examples.text(format!(in alloc; "{folder}/stdout").ok()?.as_str())?;
        stepped(refuser, &script, events.as_slice(), text.as_slice())?;
        refuser.each(
            "session_core::run",
            || run(alloc, &script, events.as_slice()),
            |session: &Session| is_written(alloc, session, text.as_slice()),
        )?;
    }
    Some(())
}
