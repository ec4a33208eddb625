//! Tests of what no command shows, which call the libraries themselves, a room for each layer: devices, readers, writers and links that fail, threads,
//! directories that answer as replicas may, plans over made-up lists, and the counts that are measured. They are one crate, so that the libraries are
//! compiled for them once. What clauses say already is not here.
#![tactic(auto)]

#[cfg(test)]
mod frames;
#[cfg(test)]
mod journals;
#[cfg(test)]
mod machines;
#[cfg(test)]
mod measured;
#[cfg(test)]
mod nodes;
#[cfg(test)]
mod plans;
#[cfg(test)]
mod replication;
#[cfg(test)]
mod searches;
#[cfg(test)]
mod seats;
#[cfg(test)]
mod sessions;
#[cfg(test)]
mod stored_views;
#[cfg(test)]
mod threads;
