//! Tests of searches over the sample: the texts of filters flow in, and the names of the entries that are found are compared with those
//! worked out by hand, and how many entries were evaluated with a bound. Proofs, and what clauses say already, are not here.
mod asking;
mod rows;
mod sample;
