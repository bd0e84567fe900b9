//! Word memories: words, or bytes taken four to a word, the most significant first.

use crate::fault::Fault;

#[derive(Clone, PartialEq, Debug)]
pub enum Memory {
    Words(Vec<u32>),
    Bytes(Vec<u8>),
}

impl Memory {
    pub fn length(&self) -> usize {
        match self {
            Memory::Words(words) => words.len(),
            Memory::Bytes(bytes) => bytes.len() / 4,
        }
    }

    fn within(&self, place: usize) -> Result<(), Fault> {
        if place < self.length() {
            Ok(())
        } else {
            Err(Fault::at("memory", 1, place as u64, 0))
        }
    }

    pub fn word(&self, place: usize) -> Result<u32, Fault> {
        self.within(place)?;
        Ok(match self {
            Memory::Words(words) => words[place],
            Memory::Bytes(bytes) => (0..4).fold(0, |word, i| word * 256 + bytes[4 * place + i] as u32),
        })
    }

    pub fn set(&mut self, place: usize, value: u32) -> Result<(), Fault> {
        self.within(place)?;
        match self {
            Memory::Words(words) => words[place] = value,
            Memory::Bytes(bytes) => {
                for i in 0..4 {
                    bytes[4 * place + i] = (value >> (24 - 8 * i)) as u8;
                }
            }
        }
        Ok(())
    }

    /// All words, in order.
    pub fn words(&self) -> Vec<u32> {
        (0..self.length()).map(|place| self.word(place).unwrap()).collect()
    }
}

#[cfg(test)]
mod tests {
    use super::*;

    #[test]
    fn bytes_are_words_most_significant_first() {
        let mut memory = Memory::Bytes(vec![1, 2, 3, 4, 5, 6, 7, 8, 9, 10, 11]);
        assert_eq!(memory.words(), [0x01020304, 0x05060708]);
        memory.set(1, 0xa0b0c0d0).unwrap();
        assert_eq!(memory, Memory::Bytes(vec![1, 2, 3, 4, 0xa0, 0xb0, 0xc0, 0xd0, 9, 10, 11]));
        assert_eq!(memory.word(2), Err(Fault::at("memory", 1, 2, 0)));
        assert_eq!(memory.set(7, 0), Err(Fault::at("memory", 1, 7, 0)));
    }
}
