//! The dashboard: stages, the clock, releases, turns and allowances over one heap.

use crate::admission::Plan;
use crate::call::{Answer, Call};
use crate::fault::Fault;
use crate::heap::{Heap, Measures, Phase};
use crate::memory::Memory;

/// Where the clock ends.
pub const CLOCK_END: u64 = 1_000_000_000_000;
/// Slots that all tasks see, and slots of each task's own.
pub const SHARED: u64 = 64;
pub const OWN: u64 = 8;

#[derive(Clone, Copy, PartialEq, Eq, Debug)]
pub enum Stage {
    Bare,
    SetUp,
    Running,
    Halted,
}

#[derive(Clone, Copy, PartialEq, Eq, Debug)]
pub enum Turn {
    Task(usize),
    Collector,
    Nobody,
}

/// What may still be born.
#[derive(Clone, Copy, PartialEq, Eq, Debug)]
pub struct Allowance {
    pub words: u64,
    pub objects: u64,
}

#[derive(Clone, Copy, PartialEq, Eq, Debug)]
pub struct Job {
    pub units: u64,
    pub left: Allowance,
}

#[derive(Clone, PartialEq, Debug)]
pub struct Dashboard {
    pub stage: Stage,
    pub plan: Option<Plan>,
    pub heap: Heap,
    pub clock: u64,
    /// In table order.
    pub jobs: Vec<Job>,
    pub due: bool,
    /// What set-up may still bear.
    pub setup: Allowance,
}

fn fault(number: u32) -> Fault {
    Fault::of("dashboard", number)
}

impl Dashboard {
    pub fn bare() -> Dashboard {
        let nothing = Allowance { words: 0, objects: 0 };
        let (stage, heap) = (Stage::Bare, Heap::bare());
        Dashboard { stage, plan: None, heap, clock: 0, jobs: vec![], due: false, setup: nothing }
    }

    fn plan(&self) -> &Plan {
        self.plan.as_ref().unwrap()
    }

    /// `None` is the blank plan.
    pub fn prepare(&mut self, memory: &mut Memory, plan: Option<&Plan>) -> Result<Answer, Fault> {
        self.at(Stage::Bare)?;
        let plan = plan.ok_or(Fault::of("heap", 11))?;
        let table = &plan.table;
        let measures = Measures {
            space: table.space,
            handles: table.handles,
            live_words: plan.live_words,
            live_objects: plan.live_objects,
            kinds: table.kinds.clone(),
        };
        self.heap.prepare(memory, measures)?;
        let nothing = Job { units: 0, left: Allowance { words: 0, objects: 0 } };
        self.jobs = vec![nothing; table.tasks.len()];
        self.setup = Allowance { words: table.static_words, objects: table.static_objects };
        self.plan = Some(plan.clone());
        self.stage = Stage::SetUp;
        Ok(Answer::Done)
    }

    fn at(&self, stage: Stage) -> Result<(), Fault> {
        if self.stage == stage {
            Ok(())
        } else {
            Err(fault(22))
        }
    }

    /// Running, and a tick can pass.
    fn can_tick(&self) -> Result<(), Fault> {
        self.at(Stage::Running)?;
        if self.clock < CLOCK_END {
            Ok(())
        } else {
            Err(fault(23))
        }
    }

    pub fn turn(&self) -> Result<Turn, Fault> {
        self.at(Stage::Running)?;
        let waiting = self.plan().ranks.iter().find(|&&i| self.jobs[i - 1].units > 0);
        Ok(match waiting {
            Some(&i) => Turn::Task(i),
            None if self.due || self.heap.phase != Phase::Idle => Turn::Collector,
            None => Turn::Nobody,
        })
    }

    fn task_on_turn(&self) -> Result<usize, Fault> {
        if let Turn::Task(i) = self.turn()? {
            Ok(i)
        } else {
            Err(fault(24))
        }
    }

    /// Slots, kind and allowance of a call; for a birth, what is left of the allowance then.
    fn allowed(&self, call: Call, slots: u64, left: Allowance) -> Result<Allowance, Fault> {
        if call.slots().iter().any(|&slot| slot >= slots) {
            return Err(fault(13));
        }
        let Call::New { k, .. } = call else { return Ok(left) };
        if !self.heap.measures.has_kind(k) {
            return Err(fault(17));
        }
        let size = self.heap.measures.kind(k).size;
        if size > left.words || left.objects == 0 {
            return Err(fault(25));
        }
        Ok(Allowance { words: left.words - size, objects: left.objects - 1 })
    }

    pub fn setup(&mut self, memory: &mut Memory, call: Call) -> Result<Answer, Fault> {
        self.at(Stage::SetUp)?;
        let left = self.allowed(call, SHARED, self.setup)?;
        let answer = self.heap.call(memory, call)?;
        self.setup = left;
        Ok(answer)
    }

    pub fn start(&mut self, memory: &mut Memory) -> Result<Answer, Fault> {
        self.at(Stage::SetUp)?;
        loop {
            let answer = self.collect(memory)?;
            if answer != Answer::Absent {
                self.stage = Stage::Running;
                self.clock = 0;
                self.release();
                return Ok(answer);
            }
        }
    }

    /// A step of the heap's collector; a passed live bound halts.
    fn collect(&mut self, memory: &mut Memory) -> Result<Answer, Fault> {
        let answer = self.heap.step(memory);
        if answer.is_err_and(|fault| fault.number == 21) {
            self.stage = Stage::Halted;
        }
        answer
    }

    /// What the clock's present value releases.
    fn release(&mut self) {
        let plan = self.plan.as_ref().unwrap();
        for (task, job) in plan.table.tasks.iter().zip(&mut self.jobs) {
            if self.clock % task.period == 0 {
                *job = Job { units: task.units, left: Allowance { words: task.words, objects: task.objects } };
            }
        }
        if self.clock % plan.period == 0 {
            self.due = true;
        }
    }

    fn tick(&mut self) {
        self.clock += 1;
        self.release();
    }

    /// The slot that task i sees under a number.
    pub fn seen(i: usize, slot: u64) -> u64 {
        if slot < SHARED {
            slot
        } else {
            56 + OWN * i as u64 + (slot - SHARED)
        }
    }

    fn job_over(&mut self, i: usize) {
        for slot in 0..OWN {
            self.heap.slots[Dashboard::seen(i, SHARED + slot) as usize] = 0;
        }
    }

    pub fn act(&mut self, memory: &mut Memory, call: Call) -> Result<Answer, Fault> {
        self.can_tick()?;
        let i = self.task_on_turn()?;
        let left = self.allowed(call, SHARED + OWN, self.jobs[i - 1].left)?;
        let answer = self.heap.call(memory, call.renamed(|slot| Dashboard::seen(i, slot)))?;
        let units = self.jobs[i - 1].units - 1;
        self.jobs[i - 1] = Job { units, left };
        if units == 0 {
            self.job_over(i);
        }
        self.tick();
        Ok(answer)
    }

    pub fn finish(&mut self) -> Result<Answer, Fault> {
        let i = self.task_on_turn()?;
        self.jobs[i - 1].units = 0;
        self.job_over(i);
        Ok(Answer::Done)
    }

    pub fn step(&mut self, memory: &mut Memory) -> Result<Answer, Fault> {
        self.can_tick()?;
        if self.turn()? != Turn::Collector {
            return Err(fault(24));
        }
        let flips = self.heap.phase == Phase::Idle;
        let answer = self.collect(memory)?;
        if flips {
            self.due = false;
        }
        self.tick();
        Ok(answer)
    }

    pub fn rest(&mut self) -> Result<Answer, Fault> {
        self.can_tick()?;
        if self.turn()? != Turn::Nobody {
            return Err(fault(24));
        }
        self.tick();
        Ok(Answer::Done)
    }
}
