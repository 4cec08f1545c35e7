//! Checks the certificate of a session, `postcopy-example SESSION CERT`, or prints the story of one, `postcopy-example SESSION`.

use std::io::Write;
use std::process::ExitCode;

/// `postcopy_answer` of `postcopy.h`.
#[repr(C)]
struct Answer {
    kind: u32,
    line: u32,
    reason: u32,
    text_len: usize,
}

const YES: u32 = 1;

const CLEAN: u32 = 2;

const NO_MEMORY: u32 = 11;

extern "C" {
    fn postcopy_check(session: *const u8, session_len: usize, cert: *const u8, cert_len: usize) -> Answer;
    fn postcopy_explain(session: *const u8, session_len: usize, room: *mut u8, room_len: usize) -> Answer;
}

/// Returns the verdict on a session and its certificate.
fn check(session: &[u8], cert: &[u8]) -> Answer {
    // A slice is never null, and nobody writes to it while it is borrowed.
    unsafe { postcopy_check(session.as_ptr(), session.len(), cert.as_ptr(), cert.len()) }
}

/// Returns the story of a session, in words. The first call says how much room they need.
fn explain(session: &[u8]) -> (Answer, Vec<u8>) {
    let mut room = Vec::new();
    loop {
        // A vector's pointer is never null, and nobody else uses its memory.
        let answer = unsafe { postcopy_explain(session.as_ptr(), session.len(), room.as_mut_ptr(), room.len()) };
        if answer.text_len <= room.len() {
            room.truncate(answer.text_len);
            return (answer, room);
        }
        room.resize(answer.text_len, 0);
    }
}

/// Writes a text, and returns the status: 0 for the kind that is wanted, 1 for another, 3 if the text was not written, 4 without memory.
fn tell(text: &[u8], kind: u32, wanted: u32) -> ExitCode {
    let mut output = std::io::stdout();
    match kind {
        NO_MEMORY => ExitCode::from(4),
        _ if output.write_all(text).and_then(|()| output.flush()).is_err() => ExitCode::from(3),
        _ => ExitCode::from(u8::from(kind != wanted)),
    }
}

fn main() -> ExitCode {
    let texts: Option<Vec<Vec<u8>>> = std::env::args_os().skip(1).map(|name| std::fs::read(name).ok()).collect();
    match texts.as_deref() {
        Some([session, cert]) => {
            let answer = check(session, cert);
            let words = format!("kind {} line {} reason {}\n", answer.kind, answer.line, answer.reason);
            tell(words.as_bytes(), answer.kind, YES)
        }
        Some([session]) => {
            let (answer, words) = explain(session);
            tell(&words, answer.kind, CLEAN)
        }
        _ => ExitCode::from(3),
    }
}
