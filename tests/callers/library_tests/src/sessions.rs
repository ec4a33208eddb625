//! Tests of what no command shows of a session: readers that fail or give little, writers that fail or take little, and directories that answer as
//! replicas may. Octets of requests flow in, and what is written is compared with octets worked out by hand from the standard. What a session answers
//! to each request is not here: that is shown by tables of rows.
mod cutting;
mod replicas;
mod sample;
