//! A call that is made once more where it answers an error, and octets as they are printed. What is called is not here.
use crate::stop::Stop;
use std::io::Print;

/// What a call answers, or the same call again; it ends the function where that is an error too.
macro_rules! again {
    ($call:expr) => {
        match $call {
            Ok(found) => found,
            Err(_) => match $call {
                Ok(found) => found,
                Err(_) => return Err(Stop::Twice),
            },
        }
    };
}

pub(crate) use again;

/// Prints octets in hex, behind a word.
pub fn print_octets(rt: &impl Print, word: &str, octets: &[u8]) -> Result<(), Stop> {
    rt.print(word)?;
    for octet in octets {
        let shown = format_args!(" {octet:02x}");
        rt.print(shown)?;
    }
    rt.print("\n")?;
    Ok(())
}
