//! Tests of seats: what a seat finds before and after a publication, told of it and not told, compares through a seat, and seats that search while a
//! node publishes. What clauses say already is not here.
mod asking;
mod compares;
mod racing;
mod sample;
mod telling;
