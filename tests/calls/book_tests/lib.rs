//! Tests of packets and of the parties' books: what errors say of themselves.

#[cfg(test)]
mod errors;
