//! Tests of the stored view over a device in memory: outside vectors, pairs of version 1 and of other clusters, stops at each
//! device call, each call failing in turn.
mod tests;
