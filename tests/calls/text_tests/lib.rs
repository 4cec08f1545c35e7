//! Tests of what reads and writes texts: the words of refusals, and which kind of fault a text has. No clause has either.

#[cfg(test)]
mod errors;
#[cfg(test)]
mod formats;
#[cfg(test)]
mod kinds;
#[cfg(test)]
mod reason_lines;
#[cfg(test)]
mod reasons;
#[cfg(test)]
mod refusals;
#[cfg(test)]
mod refused_texts;
#[cfg(test)]
mod scripts;
#[cfg(test)]
mod texts;

use text_lines::{FaultKind, TextFault};

/// The line and the kind of the fault, where there is one.
pub fn fault_of<T>(answer: &Result<T, TextFault>) -> Option<(u32, FaultKind)> {
    match answer {
        Ok(_) => None,
        Err(fault) => Some((fault.line, fault.kind)),
    }
}
