//! Tests of journals: what a replica keeps is told again from octets that were changed, lost or cut, and from what a power cut leaves at each call.
mod damage;
mod fates;
mod reading;
mod sample;
