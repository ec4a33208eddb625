//! Clients side by side, a thread each. A wish flows in; numbers are printed. What one client does is not here.
use crate::client::ask_until;
use crate::counts::Counts;
use crate::fault::Fault;
use crate::words::Wish;
use measures::messages;
use std::alloc::Global;
use std::io::Print;
use std::net::{Net, TcpListener, TcpStream};
use std::thread::{self, Threads};
use std::time::{Clock, Instant};

/// The places of so many clients.
fn places(alloc: Global, count: usize) -> Result<Vec<usize>, Fault> {
    let mut places = Vec::new(alloc);
    for place in 0..count {
        places.push(place)?;
    }
    Ok(places)
}

/// Loads the server as it is wished, and prints what came back.
pub fn load<R>(rt: &R, alloc: Global, wish: &Wish) -> Result<(), Fault>
where
    R: Net<Listener = TcpListener, Stream = TcpStream> + Clock + Threads + Print + Sync,
{
    let messages = messages(alloc, wish.ask, wish.items)?;
    let Some(until) = Instant::now(rt)?.checked_add(wish.time) else {
        return Err(Fault::NoSystem);
    };
    let asks = |_place: usize| {
        ask_until(
            rt,
            alloc,
            &wish.address,
            messages.as_slice(),
            wish.outstanding,
            until,
        )
    };
    let heard = thread::map_vec(rt, places(alloc, wish.clients)?, &asks)?;
    let mut counts = Counts::new(alloc);
    for one in heard {
        counts.join(one?)?;
    }
    counts.print(rt)
}
