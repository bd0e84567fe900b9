//! The object graph: what the calls mean, with neither handles nor places nor memory.

use crate::call::{Answer, Call};
use crate::heap::SLOTS;
use crate::table::Kind;
use std::collections::BTreeSet;

#[derive(Clone)]
pub struct Object {
    pub kind: u64,
    /// Numbers, and in reference words object numbers, 0 for none.
    pub words: Vec<u32>,
}

#[derive(Clone)]
pub struct Graph {
    pub kinds: Vec<Kind>,
    /// Objects are numbered from 1 by birth; nothing leaves.
    pub objects: Vec<Object>,
    /// 0 for none.
    pub slots: Vec<usize>,
}

impl Graph {
    pub fn new(kinds: &[Kind]) -> Graph {
        Graph { kinds: kinds.to_vec(), objects: vec![], slots: vec![0; SLOTS] }
    }

    pub fn object(&self, number: usize) -> &Object {
        &self.objects[number - 1]
    }

    /// The object and the word that a call reaches; the number of the refusal where there is none.
    fn word(&mut self, s: u64, j: u64, reference: bool) -> Result<&mut u32, u32> {
        let number = self.slots[s as usize];
        if number == 0 {
            return Err(14);
        }
        let kind = self.kinds[self.object(number).kind as usize - 1];
        if j >= kind.size {
            return Err(15);
        }
        if kind.is_reference(j) != reference {
            return Err(16);
        }
        Ok(&mut self.objects[number - 1].words[j as usize])
    }

    pub fn call(&mut self, call: Call) -> Result<Answer, u32> {
        if call.slots().iter().any(|&slot| slot >= SLOTS as u64) {
            return Err(13);
        }
        match call {
            Call::New { s, k } => {
                let kind = *k.checked_sub(1).and_then(|k| self.kinds.get(k as usize)).ok_or(17u32)?;
                self.objects.push(Object { kind: k, words: vec![0; kind.size as usize] });
                self.slots[s as usize] = self.objects.len();
            }
            Call::Copy { s, t } => self.slots[t as usize] = self.slots[s as usize],
            Call::Drop { s } => self.slots[s as usize] = 0,
            Call::Fetch { s, j, t } => self.slots[t as usize] = *self.word(s, j, true)? as usize,
            Call::Put { s, j, t } => *self.word(s, j, true)? = self.slots[t as usize] as u32,
            Call::Read { s, j } => return Ok(Answer::Number(*self.word(s, j, false)?)),
            Call::Write { s, j, v } => *self.word(s, j, false)? = v,
            Call::Same { s, t } => return Ok(Answer::Same(self.slots[s as usize] == self.slots[t as usize])),
            Call::Kind { s } => match self.slots[s as usize] {
                0 => return Ok(Answer::Absent),
                number => return Ok(Answer::Kind(self.object(number).kind)),
            },
        }
        Ok(Answer::Done)
    }

    /// The objects that the slots lead to.
    pub fn reachable(&self) -> BTreeSet<usize> {
        let mut reached = BTreeSet::new();
        let mut open = self.slots.clone();
        while let Some(number) = open.pop() {
            if number != 0 && reached.insert(number) {
                let object = self.object(number);
                let kind = self.kinds[object.kind as usize - 1];
                let references = (0..kind.size).filter(|&j| kind.is_reference(j));
                open.extend(references.map(|j| object.words[j as usize] as usize));
            }
        }
        reached
    }

    /// The words of a set of objects.
    pub fn words_of(&self, objects: &BTreeSet<usize>) -> u64 {
        objects.iter().map(|&number| self.object(number).words.len() as u64).sum()
    }
}
