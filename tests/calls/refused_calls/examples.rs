//! The texts of the examples.

use cert_text::read_cert;
use guest_script::{Script, read_events, read_script};
use migration_events::Event;
use migration_types::{Cert, Seq, Session};
use session_log::read_session;
use std::alloc::Global;
use std::fs;

/// The folder of the examples.
#[derive(Clone, Copy)]
pub struct Examples<'a> {
    rt: HostRuntime,
    folder: &'a str,
}

impl<'a> Examples<'a> {
    /// The examples of this folder.
    pub fn new(rt: HostRuntime, folder: &'a str) -> Examples<'a> {
        Examples { rt, folder }
    }

    fn alloc(&self) -> Global {
        self.rt.alloc()
    }

    /// A text of an example.
    pub fn text(&self, name: &str) -> Option<Vec<u8>> {
        let path = format!(in self.alloc(); "{}/{name}", self.folder).ok()?;
        fs::read(&self.rt, path.as_str()).ok()
    }

    /// A session of an example.
    pub fn session(&self, name: &str) -> Option<Session> {
        read_session(self.alloc(), self.text(name)?.as_slice()).ok()
    }

    /// A certificate of an example.
    pub fn cert(&self, name: &str) -> Option<Cert> {
        read_cert(self.alloc(), self.text(name)?.as_slice()).ok()
    }

    /// A script of an example.
    pub fn script(&self, name: &str) -> Option<Script> {
        read_script(self.alloc(), self.text(name)?.as_slice()).ok()
    }

    /// The events of an example.
    pub fn events(&self, name: &str) -> Option<Seq<Event>> {
        read_events(self.alloc(), self.text(name)?.as_slice()).ok()
    }
}
