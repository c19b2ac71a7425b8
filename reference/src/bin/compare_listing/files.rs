//! The two files that the listing program reads.

use std::fmt;

use reference::left::Left;
use reference::listing;
use reference::packed::read_file;

#[derive(Clone)]
pub enum Content {
    Missing,
    /// A folder of that name: it opens, and cannot be read.
    Folder,
    Bytes(Vec<u8>),
}

impl Content {
    fn bytes(&self) -> &[u8] {
        match self {
            Content::Missing | Content::Folder => &[],
            Content::Bytes(bytes) => bytes,
        }
    }
}

impl fmt::Display for Content {
    fn fmt(&self, out: &mut fmt::Formatter) -> fmt::Result {
        match self {
            Content::Missing => write!(out, "missing"),
            Content::Folder => write!(out, "a folder"),
            Content::Bytes(bytes) => bytes.iter().try_for_each(|byte| write!(out, "{byte:02x}")),
        }
    }
}

pub struct Files {
    pub fabric: Content,
    pub proof: Content,
}

impl Files {
    pub fn of(fabric: Vec<u8>, proof: Vec<u8>) -> Files {
        Files {
            fabric: Content::Bytes(fabric),
            proof: Content::Bytes(proof),
        }
    }

    /// The second program's text.
    pub fn text(&self) -> String {
        listing(self.fabric.bytes(), self.proof.bytes())
    }

    /// Where the flows lie that the proposal leaves.
    pub fn left(&self) -> Left {
        let fabric = read_file(self.fabric.bytes());
        fabric.map_or(Left::Nothing, |fabric| {
            Left::of(&fabric, self.proof.bytes())
        })
    }
}

impl fmt::Display for Files {
    fn fmt(&self, out: &mut fmt::Formatter) -> fmt::Result {
        write!(out, "fabric.bin {}, proof.bin {}", self.fabric, self.proof)
    }
}
