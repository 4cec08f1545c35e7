//! Tests of migrations in threads, over links that fail too, and of the checks of what a run leaves.

#[cfg(test)]
mod checks;
#[cfg(test)]
mod draws;
#[cfg(test)]
mod errors;
#[cfg(test)]
mod gates;
#[cfg(test)]
mod lanes;
#[cfg(test)]
mod limits;
#[cfg(test)]
mod moments;
#[cfg(test)]
mod relays;
#[cfg(test)]
mod releases;
#[cfg(test)]
mod runs;

use host_threads::Answered;

/// Whether a transcript's answers are these.
pub fn are_answers(transcript: &[Answered], answers: &[u64]) -> bool {
    if transcript.len() != answers.len() {
        return false;
    }
    for k in 0..answers.len() {
        if transcript[k].answer != answers[k] {
            return false;
        }
    }
    true
}
