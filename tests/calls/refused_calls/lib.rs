//! Makes calls of which each growth is refused in turn, and writes what came of each.
//!
//! It takes the texts of the folder `examples`. For each growth it writes four lines: 'refuse NAME N', and another writes how many
//! growths the call had and how many of them were refused; what the call answered; and where it answered, whether the answer is
//! the right one.

mod books;
mod containers;
mod cores;
mod examples;
mod full_logs;
mod hosts;
mod judges;
mod packets;
mod refusing;
mod texts;

use crate::examples::Examples;
use crate::refusing::Refuser;

const FOLDER: &str = "examples";

/// Tells whether all calls were made. None says that some were not, as something that they need was not there.
fn tell(refuser: Refuser, made: Option<()>) {
    refuser.tell(match made {
        Some(()) => b"all were made\n",
        None => b"not all were made\n",
    });
}

#[test]
fn of_containers(rt: HostRuntime) {
    let refuser = Refuser::new(rt);
    tell(refuser, containers::make(refuser));
}

#[test]
fn of_packets(rt: HostRuntime) {
    let refuser = Refuser::new(rt);
    tell(refuser, packets::make(refuser));
}

#[test]
fn of_texts(rt: HostRuntime) {
    let refuser = Refuser::new(rt);
    tell(refuser, texts::make(refuser, &Examples::new(rt, FOLDER)));
}

#[test]
fn of_judges(rt: HostRuntime) {
    let refuser = Refuser::new(rt);
    tell(
        refuser,
        judges::make(&rt, refuser, &Examples::new(rt, FOLDER)),
    );
}

#[test]
fn of_reports(rt: HostRuntime) {
    let refuser = Refuser::new(rt);
    tell(
        refuser,
        judges::make_report(&rt, refuser, &Examples::new(rt, FOLDER)),
    );
}

#[test]
fn of_wide(rt: HostRuntime) {
    let refuser = Refuser::new(rt);
    tell(refuser, judges::make_wide(&rt, refuser));
}

#[test]
fn of_books(rt: HostRuntime) {
    let refuser = Refuser::new(rt);
    tell(refuser, books::make(refuser, &Examples::new(rt, FOLDER)));
}

#[test]
fn of_cores(rt: HostRuntime) {
    let refuser = Refuser::new(rt);
    tell(refuser, cores::make(refuser, &Examples::new(rt, FOLDER)));
}

#[test]
fn of_hosts(rt: HostRuntime) {
    let refuser = Refuser::new(rt);
    tell(
        refuser,
        hosts::make(&rt, refuser, &Examples::new(rt, FOLDER)),
    );
}
