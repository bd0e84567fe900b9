//! A refusal: its number, the layer that found it, and where.

use std::fmt;

#[derive(Clone, Copy, PartialEq, Eq, Debug)]
pub struct Fault {
    pub number: u32,
    pub layer: &'static str,
    /// The memory place for 1, the line for text and admission, else 0.
    pub place: u64,
    /// The column of a text's fault, else 0.
    pub column: u64,
}

impl Fault {
    /// A fault that names no place.
    pub fn of(layer: &'static str, number: u32) -> Fault {
        Fault { number, layer, place: 0, column: 0 }
    }

    pub fn at(layer: &'static str, number: u32, place: u64, column: u64) -> Fault {
        Fault { number, layer, place, column }
    }
}

impl fmt::Display for Fault {
    fn fmt(&self, f: &mut fmt::Formatter) -> fmt::Result {
        write!(f, "fault {} {} {} {}", self.number, self.layer, self.place, self.column)
    }
}
