//! Tests of the containers: the frames, the machine that never moved, tables by page, the queue of faults, and
//! what is pushed next.

#[cfg(test)]
mod bubbles;
#[cfg(test)]
mod errors;
#[cfg(test)]
mod machines;
#[cfg(test)]
mod queues;
mod search;
#[cfg(test)]
mod tables;

pub use search::nearest;
