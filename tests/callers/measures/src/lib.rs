//! What the libraries cost: how many entries searches evaluate and how long they take, how long requests take in a session, how long events at a node take, and how long a log takes as a frame.
//! Numbers flow in; counts flow out, and times beside them. Rules of the directory, of replicas and of frames are not here.
#![tactic(auto)]

mod fault;
mod filling;
mod framing;
mod handling;
mod logs;
mod printing;
mod requests;
mod running;
mod searching;

pub use fault::Fault;
pub use filling::filled;
pub use framing::{Framed, frame};
pub use logs::{Kind, start_view};
pub use requests::{ASKS, Ask, messages};
pub use running::run;
pub use searching::{FILTERS, Measured, measure, narrow, range};
