//! Tests of what no script of the lab reaches of replication: copies of messages and of logs whose records ask for something, and messages that no
//! other replica sent. Proofs, the steps themselves, and what scripts show are not here.
mod copies;
mod sample;
mod tests;
