//! Tests of plans: worked rows over a made-up shelf of two posting lists and made-up values, against counts by hand; and bounds on a type over made-up
//! entries, against the filter itself.
//! Proofs, and what clauses say already, are not here.
mod ranges;
mod shelf;
mod tests;
