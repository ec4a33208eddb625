//! The names that clients use: a path below the suffix, and how it is spelled.

use std::alloc::{AllocError, Global};

/// The suffix of the directory.
pub const SUFFIX: &str = "dc=example,dc=com";

/// How many names right below an entry there are; those before `ITEMS` are units, the others items.
pub const PARTS: u64 = 10;

pub const ITEMS: u8 = 3;

/// The greatest depth below the suffix: renames may move names below the deepest that clients ask for.
pub const DEPTH: usize = 16;

/// A name below the suffix, from the suffix down.
#[derive(Clone, Copy, Debug, PartialEq, Eq)]
pub struct Path {
    pub depth: usize,
    parts: [u8; DEPTH],
}

impl Path {
    /// The suffix.
    pub const ROOT: Path = Path {
        depth: 0,
        parts: [0; DEPTH],
    };

    /// The name right below this one with this last part, if that isn't too deep.
    pub fn below(&self, part: u8) -> Option<Path> {
        if self.depth >= DEPTH {
            return None;
        }
        let mut parts = self.parts;
        parts[self.depth] = part;
        Some(Path {
            depth: self.depth + 1,
            parts,
        })
    }

    /// The name above; of the suffix none.
    pub fn above(&self) -> Option<Path> {
        if self.depth == 0 {
            return None;
        }
        let mut parts = self.parts;
        parts[self.depth - 1] = 0;
        Some(Path {
            depth: self.depth - 1,
            parts,
        })
    }

    /// Its last part; 0 of the suffix.
    pub fn last(&self) -> u8 {
        if self.depth == 0 {
            0
        } else {
            self.parts[self.depth - 1]
        }
    }

    /// Whether it is that name or below it.
    pub fn is_within(&self, other: &Path) -> bool {
        self.depth >= other.depth && self.parts[..other.depth] == other.parts[..other.depth]
    }

    /// The name that it has once that one is called this.
    pub fn moved(&self, from: &Path, to: &Path) -> Option<Path> {
        let mut now = *to;
        for at in from.depth..self.depth {
            now = now.below(self.parts[at])?;
        }
        Some(now)
    }

    /// Its text, in capitals where it is said so.
    pub fn text(&self, alloc: Global, is_loud: bool) -> Result<String, AllocError> {
        let mut text = String::new(alloc);
        for back in 0..self.depth {
            let part = rdn_text(alloc, self.parts[self.depth - 1 - back], is_loud)?;
            text.push_str(part.as_str())?;
            text.push_str(if is_loud { " , " } else { "," })?;
        }
        text.push_str(SUFFIX)?;
        Ok(text)
    }
}

/// Whether a part is an item's; the others are units'.
pub fn is_item(part: u8) -> bool {
    part >= ITEMS
}

/// The text of the last part of a name.
pub fn rdn_text(alloc: Global, part: u8, is_loud: bool) -> Result<String, AllocError> {
    match (is_item(part), is_loud) {
        (true, false) => format!(in alloc; "cn=c{part}"),
        (true, true) => format!(in alloc; "CN = C{part}"),
        (false, false) => format!(in alloc; "ou=c{part}"),
        (false, true) => format!(in alloc; "Ou= C{part}"),
    }
}

/// Small letters, and no spaces: what is left of a text where those don't count.
pub fn plain(alloc: Global, text: &[u8]) -> Result<Vec<u8>, AllocError> {
    let mut plain = Vec::new(alloc);
    for octet in text {
        if *octet != b' ' {
            plain.push(octet.to_ascii_lowercase())?;
        }
    }
    Ok(plain)
}
