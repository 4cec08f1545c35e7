//! Tests of the crates that judge a session: what the definitions say of worked sessions, by the plain programs; calls that no command
//! makes; and what errors say of themselves.

#[cfg(test)]
mod errors;
#[cfg(test)]
mod fronts;
#[cfg(test)]
mod held;
pub mod numbers;
#[cfg(test)]
mod orders;
pub mod plain;
#[cfg(test)]
mod texts;
#[cfg(test)]
mod worked;
