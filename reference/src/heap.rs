//! The heap: objects behind handles in two spaces, and the collector that moves them step by step.

use crate::call::{Answer, Call, Report};
use crate::fault::Fault;
use crate::memory::Memory;
use crate::table::Kind;

pub const SLOTS: usize = 192;

#[derive(Clone, Copy, PartialEq, Eq, Debug)]
pub enum State {
    Spare,
    Old,
    Marked,
    Moving,
    New,
}

#[derive(Clone, Copy, PartialEq, Eq, Debug)]
pub struct Handle {
    pub kind: u64,
    pub place: usize,
    pub state: State,
}

#[derive(Clone, Copy, PartialEq, Eq, Debug)]
pub enum Phase {
    Idle,
    Tracing,
    /// The next handle to look at.
    Sweeping(usize),
    /// The next word of the other space to clear.
    Clearing(usize),
}

#[derive(Clone, PartialEq, Eq, Debug)]
pub struct Measures {
    pub space: u64,
    pub handles: u64,
    pub live_words: u64,
    pub live_objects: u64,
    pub kinds: Vec<Kind>,
}

/// The object on the move: its handle, where its copy begins, how many words are copied.
#[derive(Clone, Copy, PartialEq, Eq, Debug)]
pub struct Moving {
    pub handle: usize,
    pub copy: usize,
    pub done: usize,
}

#[derive(Clone, PartialEq, Debug)]
pub struct Heap {
    pub measures: Measures,
    /// Row 0 is never used.
    pub table: Vec<Handle>,
    /// Spare handles, the next to be taken last.
    pub spare: Vec<usize>,
    /// Marked handles, the next to be moved last.
    pub marked: Vec<usize>,
    /// 0 for none.
    pub slots: Vec<usize>,
    /// Where the current space begins.
    pub base: usize,
    pub flipped: bool,
    pub born: u64,
    pub copied: u64,
    pub phase: Phase,
    pub moving: Option<Moving>,
    pub taken: Report,
}

fn fault(number: u32) -> Fault {
    Fault::of("heap", number)
}

impl Measures {
    fn within_limits(&self) -> bool {
        let kind_fits = |k: &Kind| (1..=32).contains(&k.size) && k.map < 1 << k.size;
        (1..=8192).contains(&self.space)
            && (1..=256).contains(&self.handles)
            && self.live_words <= self.space
            && self.live_objects <= self.handles
            && (1..=32).contains(&self.kinds.len())
            && self.kinds.iter().all(kind_fits)
    }

    pub fn has_kind(&self, k: u64) -> bool {
        1 <= k && k <= self.kinds.len() as u64
    }

    pub fn kind(&self, k: u64) -> Kind {
        self.kinds[k as usize - 1]
    }
}

/// A fresh heap over the given measures.
fn fresh(measures: Measures) -> Heap {
    let handles = measures.handles as usize;
    Heap {
        measures,
        table: vec![Handle { kind: 0, place: 0, state: State::Spare }; handles + 1],
        spare: (1..=handles).rev().collect(),
        marked: vec![],
        slots: vec![0; SLOTS],
        base: 0,
        flipped: false,
        born: 0,
        copied: 0,
        phase: Phase::Idle,
        moving: None,
        taken: Report { steps: 0, objects: 0, words: 0 },
    }
}

impl Heap {
    /// An unprepared heap: it has no space.
    pub fn bare() -> Heap {
        fresh(Measures { space: 0, handles: 0, live_words: 0, live_objects: 0, kinds: vec![] })
    }

    pub fn prepared(&self) -> bool {
        self.measures.space > 0
    }

    pub fn prepare(&mut self, memory: &mut Memory, measures: Measures) -> Result<Answer, Fault> {
        if !measures.within_limits() {
            return Err(fault(11));
        }
        *self = Heap::bare();
        for place in 0..2 * measures.space as usize {
            memory.set(place, 0)?;
        }
        *self = fresh(measures);
        Ok(Answer::Done)
    }

    pub fn spare_handles(&self) -> u64 {
        self.spare.len() as u64
    }

    pub fn free_words(&self) -> u64 {
        self.measures.space - self.born - self.copied
    }

    pub fn in_use(&self, handle: u64) -> bool {
        1 <= handle && handle <= self.measures.handles && self.table[handle as usize].state != State::Spare
    }

    pub fn kind_of(&self, handle: usize) -> Kind {
        self.measures.kind(self.table[handle].kind)
    }

    /// Where word j of an object stands: in the copy if it is copied already, else at the handle's place.
    pub fn location(&self, handle: usize, j: u64) -> usize {
        match self.moving {
            Some(m) if m.handle == handle && (j as usize) < m.done => m.copy + j as usize,
            _ => self.table[handle].place + j as usize,
        }
    }

    /// The handle in a reference word: 0 for none; 20 where it names no handle in use.
    fn named(&self, word: u32) -> Result<usize, Fault> {
        if word == 0 || self.in_use(word as u64) {
            Ok(word as usize)
        } else {
            Err(fault(20))
        }
    }

    fn mark_if_old(&mut self, handle: usize) {
        if handle != 0 && self.table[handle].state == State::Old {
            self.table[handle].state = State::Marked;
            self.marked.push(handle);
        }
    }

    /// The location of word j of the object in slot s, which is to be a reference or a number.
    fn word_of(&self, s: u64, j: u64, reference: bool) -> Result<usize, Fault> {
        let handle = self.slots[s as usize];
        if handle == 0 {
            return Err(fault(14));
        }
        let kind = self.kind_of(handle);
        if j >= kind.size {
            return Err(fault(15));
        }
        if kind.is_reference(j) != reference {
            return Err(fault(16));
        }
        Ok(self.location(handle, j))
    }

    pub fn call(&mut self, memory: &mut Memory, call: Call) -> Result<Answer, Fault> {
        if !self.prepared() {
            return Err(fault(12));
        }
        if call.slots().iter().any(|&slot| slot >= SLOTS as u64) {
            return Err(fault(13));
        }
        match call {
            Call::New { s, k } => self.new_object(s, k)?,
            Call::Copy { s, t } => self.slots[t as usize] = self.slots[s as usize],
            Call::Drop { s } => self.slots[s as usize] = 0,
            Call::Fetch { s, j, t } => {
                let word = memory.word(self.word_of(s, j, true)?)?;
                self.slots[t as usize] = self.named(word)?;
            }
            Call::Put { s, j, t } => {
                let location = self.word_of(s, j, true)?;
                let value = self.slots[t as usize] as u32;
                if self.phase == Phase::Tracing {
                    let overwritten = self.named(memory.word(location)?)?;
                    memory.set(location, value)?;
                    self.mark_if_old(overwritten);
                } else {
                    memory.set(location, value)?;
                }
            }
            Call::Read { s, j } => return Ok(Answer::Number(memory.word(self.word_of(s, j, false)?)?)),
            Call::Write { s, j, v } => memory.set(self.word_of(s, j, false)?, v)?,
            Call::Same { s, t } => return Ok(Answer::Same(self.slots[s as usize] == self.slots[t as usize])),
            Call::Kind { s } => match self.slots[s as usize] {
                0 => return Ok(Answer::Absent),
                handle => return Ok(Answer::Kind(self.table[handle].kind)),
            },
        }
        Ok(Answer::Done)
    }

    /// Births go downward from the top of the current space.
    fn new_object(&mut self, s: u64, k: u64) -> Result<(), Fault> {
        if !self.measures.has_kind(k) {
            return Err(fault(17));
        }
        let size = self.measures.kind(k).size;
        let room = self.measures.space - if self.flipped { self.measures.live_words } else { 0 };
        if self.born + size > room {
            return Err(fault(18));
        }
        let handle = self.spare.pop().ok_or(fault(19))?;
        self.born += size;
        let place = self.base + (self.measures.space - self.born) as usize;
        self.table[handle] = Handle { kind: k, place, state: State::New };
        self.slots[s as usize] = handle;
        Ok(())
    }

    /// One step of the collector; a refused one changes nothing.
    pub fn step(&mut self, memory: &mut Memory) -> Result<Answer, Fault> {
        if !self.prepared() {
            return Err(fault(12));
        }
        match (self.phase, self.moving) {
            (Phase::Idle, _) => self.flip(),
            (Phase::Tracing, None) => self.take_up()?,
            (Phase::Tracing, Some(moving)) => self.copy_word(memory, moving)?,
            (Phase::Sweeping(handle), _) => self.sweep(handle),
            (Phase::Clearing(word), _) => self.clear(memory, word)?,
        }
        self.taken.steps += 1;
        Ok(if self.phase == Phase::Idle { Answer::Report(self.taken) } else { Answer::Absent })
    }

    fn flip(&mut self) {
        self.base = self.other_base();
        self.flipped = true;
        self.born = 0;
        self.copied = 0;
        self.taken = Report { steps: 0, objects: 0, words: 0 };
        for handle in &mut self.table {
            if handle.state != State::Spare {
                handle.state = State::Old;
            }
        }
        for slot in 0..SLOTS {
            self.mark_if_old(self.slots[slot]);
        }
        self.phase = Phase::Tracing;
        self.begin_sweeping_if_traced();
    }

    fn other_base(&self) -> usize {
        if self.base == 0 {
            self.measures.space as usize
        } else {
            0
        }
    }

    fn begin_sweeping_if_traced(&mut self) {
        if self.marked.is_empty() && self.moving.is_none() {
            self.phase = Phase::Sweeping(1);
        }
    }

    /// Copies go upward from the bottom of the current space.
    fn take_up(&mut self) -> Result<(), Fault> {
        let handle = *self.marked.last().unwrap();
        let size = self.kind_of(handle).size;
        let (objects, words) = (self.taken.objects + 1, self.taken.words + size);
        if objects > self.measures.live_objects || words > self.measures.live_words {
            return Err(fault(21));
        }
        self.marked.pop();
        self.taken.objects = objects;
        self.taken.words = words;
        self.table[handle].state = State::Moving;
        self.moving = Some(Moving { handle, copy: self.base + self.copied as usize, done: 0 });
        Ok(())
    }

    fn copy_word(&mut self, memory: &mut Memory, moving: Moving) -> Result<(), Fault> {
        let Moving { handle, copy, done } = moving;
        let kind = self.kind_of(handle);
        let word = memory.word(self.table[handle].place + done)?;
        let named = if kind.is_reference(done as u64) { self.named(word)? } else { 0 };
        memory.set(copy + done, word)?;
        self.mark_if_old(named);
        self.copied += 1;
        self.moving = Some(Moving { handle, copy, done: done + 1 });
        if done as u64 + 1 == kind.size {
            self.table[handle].place = copy;
            self.table[handle].state = State::New;
            self.moving = None;
            self.begin_sweeping_if_traced();
        }
        Ok(())
    }

    fn sweep(&mut self, handle: usize) {
        if self.table[handle].state == State::Old {
            self.table[handle].state = State::Spare;
            self.spare.push(handle);
        }
        let last = handle as u64 == self.measures.handles;
        self.phase = if last { Phase::Clearing(0) } else { Phase::Sweeping(handle + 1) };
    }

    fn clear(&mut self, memory: &mut Memory, word: usize) -> Result<(), Fault> {
        memory.set(self.other_base() + word, 0)?;
        let last = word as u64 + 1 == self.measures.space;
        self.phase = if last { Phase::Idle } else { Phase::Clearing(word + 1) };
        Ok(())
    }

    /// How many objects, of how many words, the slots lead to.
    pub fn census(&self, memory: &Memory) -> Result<(u64, u64), Fault> {
        let refused = |number| Fault::of("census", number);
        if !self.prepared() {
            return Err(refused(12));
        }
        if (memory.length() as u64) < 2 * self.measures.space {
            return Err(Fault::at("census", 1, memory.length() as u64, 0));
        }
        let mut reached: Vec<usize> = Vec::new();
        let mut open: Vec<usize> = self.slots.clone();
        let mut words = 0;
        while let Some(handle) = open.pop() {
            if handle == 0 || reached.contains(&handle) {
                continue;
            }
            reached.push(handle);
            let kind = self.kind_of(handle);
            words += kind.size;
            for j in (0..kind.size).filter(|&j| kind.is_reference(j)) {
                let word = memory.word(self.location(handle, j)).unwrap();
                open.push(self.named(word).map_err(|_| refused(20))?);
            }
        }
        Ok((reached.len() as u64, words))
    }
}
