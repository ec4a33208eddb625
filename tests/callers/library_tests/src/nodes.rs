//! Tests of nodes over a device in memory: starts over pairs of both versions and of other clusters, what becomes of a request, and each device call
//! of an event failing and stopping in turn with a crash and a recovery after it. Events flow in, as frames; what a node gives out, as frames too, is
//! compared with what was worked out by hand.
mod frames;
mod memory;
mod player;
mod requests;
mod sample;
mod starting;
mod stopping;
mod telling;
