//! Tests of what no command shows of a running replica: two sessions held at once, clients and strangers that misbehave, links over this machine's own
//! loopback that are closed and made again, frames of streams that end early, standard error that nobody reads, and a stored view in a real file. What
//! clauses say already is not here.
mod clients;
mod files;
mod links;
mod peers;
mod reports;
mod sessions;
mod short;
mod signal;
