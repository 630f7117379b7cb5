// Stands for `position.rs`: where an error was found, as a count of bytes. It decodes nothing.

use std::fmt;

#[derive(Clone, Debug, PartialEq, Eq)]
pub struct Position {
    pub byte_offset: usize,
}

impl From<usize> for Position {
    fn from(byte_offset: usize) -> Self {
        Position { byte_offset }
    }
}

impl fmt::Display for Position {
    fn fmt(&self, f: &mut fmt::Formatter<'_>) -> fmt::Result {
        write!(f, "{}", self.byte_offset)
    }
}
