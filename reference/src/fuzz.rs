//! A search for a history that breaks the promise: random heaps and rides beside a book of what they mean.

use crate::admission::Plan;
use crate::call::{Answer, Call, Report};
use crate::dashboard::{Dashboard, Stage, Turn, OWN, SHARED};
use crate::fault::Fault;
use crate::graph::Graph;
use crate::heap::{Heap, Measures, Phase};
use crate::memory::Memory;
use crate::random::{self, Random};
use std::collections::{BTreeMap, BTreeSet};

/// Fails with a sentence unless the condition holds.
macro_rules! ensure {
    ($holds:expr, $($sentence:tt)*) => {
        if !$holds {
            return Err(format!($($sentence)*));
        }
    };
}

type Checked = Result<(), String>;

/// The book of a history: its object graph, the listed objects, and the open collection.
struct Book {
    graph: Graph,
    listed: BTreeSet<usize>,
    /// The object behind each handle, by the last birth that took it.
    object_of: BTreeMap<usize, usize>,
    /// What was reachable at the open collection's flip.
    open: Option<BTreeSet<usize>>,
}

impl Book {
    fn new(measures: &Measures) -> Book {
        Book { graph: Graph::new(&measures.kinds), listed: BTreeSet::new(), object_of: BTreeMap::new(), open: None }
    }

    /// A call that the heap made and answered: the graph answers the same. A birth took the handle `next`.
    fn called(&mut self, next: Option<usize>, call: Call, answer: Result<Answer, Fault>) -> Checked {
        let meant = match answer {
            Err(Fault { number: 12 | 18..=20, .. }) => return Ok(()),
            _ => self.graph.call(call),
        };
        ensure!(meant == answer.map_err(|f| f.number), "{call}: the heap answers {answer:?}, the graph {meant:?}");
        if let (Call::New { .. }, Ok(_)) = (call, answer) {
            let number = self.graph.objects.len();
            self.listed.insert(number);
            self.object_of.insert(next.unwrap(), number);
        }
        Ok(())
    }

    fn flip(&mut self) {
        let reachable = self.graph.reachable();
        self.listed.retain(|number| reachable.contains(number));
        self.open = Some(reachable);
    }

    /// Whether what was reachable at the open collection's flip passes the live bounds.
    fn passes_bounds(&self, measures: &Measures) -> bool {
        let reachable = self.open.as_ref().unwrap();
        reachable.len() as u64 > measures.live_objects || self.graph.words_of(reachable) > measures.live_words
    }

    /// A step's answer, in an open collection.
    fn stepped(&mut self, heap: &Heap, memory: &Memory, answer: Result<Answer, Fault>) -> Checked {
        let m = &heap.measures;
        match answer {
            Ok(Answer::Absent) => Ok(()),
            Ok(Answer::Report(report)) => {
                ensure!(!self.passes_bounds(m), "a collection over its bounds ended");
                let reachable = self.open.take().unwrap();
                let (objects, words) = (reachable.len() as u64, self.graph.words_of(&reachable));
                let meant = Report { steps: 1 + objects + words + m.handles + m.space, objects, words };
                ensure!(report == meant, "{report:?} where {meant:?} was meant");
                self.agrees(heap, memory)
            }
            Err(Fault { number: 21, .. }) => {
                ensure!(self.passes_bounds(m), "21 within the bounds");
                Ok(())
            }
            _ => Err(format!("a step answers {answer:?}")),
        }
    }

    /// After a collection: handles in use and listed objects pair one to one; kinds, slots and words are equal.
    fn agrees(&self, heap: &Heap, memory: &Memory) -> Checked {
        let m = &heap.measures;
        ensure!(heap.spare_handles() == m.handles - self.listed.len() as u64, "spare handles");
        ensure!(heap.free_words() == m.space - self.graph.words_of(&self.listed), "free words");
        let in_use: Vec<usize> = (1..=m.handles as usize).filter(|&h| heap.in_use(h as u64)).collect();
        let paired: BTreeSet<usize> = in_use.iter().map(|handle| self.object_of[handle]).collect();
        ensure!(paired == self.listed && paired.len() == in_use.len(), "handles in use and listed objects");
        let object = |handle: usize| if handle == 0 { 0 } else { self.object_of[&handle] };
        for &handle in &in_use {
            let meant = self.graph.object(object(handle));
            ensure!(heap.table[handle].kind == meant.kind, "kind behind handle {handle}");
            for j in 0..heap.kind_of(handle).size {
                let word = memory.word(heap.location(handle, j)).map_err(|f| f.to_string())?;
                let reference = heap.kind_of(handle).is_reference(j);
                let stands = if reference { object(word as usize) as u32 } else { word };
                ensure!(stands == meant.words[j as usize], "word {j} behind handle {handle}");
            }
        }
        let slots: Vec<usize> = heap.slots.iter().map(|&handle| object(handle)).collect();
        ensure!(slots == self.graph.slots, "slots");
        Ok(())
    }
}

#[derive(Default, Debug)]
pub struct Tally {
    pub ticks: u64,
    pub calls: u64,
    pub births: u64,
    pub collections: u64,
    pub halts: u64,
    pub refusals: u64,
    /// Flips as late, and collections as long, as admission reckons.
    pub latest_flips: u64,
    pub longest: u64,
    /// Births that took the last word that 18 leaves, and the last handle.
    pub last_words: u64,
    pub last_handles: u64,
}

impl Tally {
    fn birth(&mut self, heap: &Heap) {
        self.births += 1;
        self.last_words += u64::from(heap.flipped && heap.born == heap.measures.space - heap.measures.live_words);
        self.last_handles += u64::from(heap.spare.is_empty());
    }
}

/// A heap under random calls and steps in any order.
pub fn heap_history(seed: u64, tally: &mut Tally) -> Checked {
    let random = &mut Random::new(seed);
    let measures = random::measures(random);
    let mut memory = Memory::Bytes(vec![7; 8 * measures.space as usize + 3]);
    let mut heap = Heap::bare();
    heap.prepare(&mut memory, measures.clone()).map_err(|f| f.to_string())?;
    let mut book = Book::new(&measures);
    let slots: Vec<u64> = (0..random.range(1, 6)).collect();
    let mut step_share = 50;
    for _ in 0..2000 {
        if random.percent(2) {
            step_share = random.pick(&[5, 30, 60, 95]);
        }
        if random.percent(step_share) {
            if heap.phase == Phase::Idle {
                book.flip();
                if book.passes_bounds(&measures) && random.percent(95) {
                    book.open = None;
                    let call = Call::Drop { s: random.pick(&slots) };
                    let answer = heap.call(&mut memory, call);
                    book.called(None, call, answer)?;
                    continue;
                }
            }
            let answer = heap.step(&mut memory);
            book.stepped(&heap, &memory, answer)?;
            if answer.is_err() {
                tally.halts += 1;
                return Ok(());
            }
            tally.collections += u64::from(answer != Ok(Answer::Absent));
        } else {
            let odd = random.percent(4);
            let pick = if odd { random::odd_call } else { random::call };
            let call = pick(random, &heap, &slots, |slot| slot);
            let before = (heap.clone(), memory.clone());
            let next = heap.spare.last().copied();
            let answer = heap.call(&mut memory, call);
            ensure!(
                answer.is_ok() || before == (heap.clone(), memory.clone()),
                "{call}: refused and changed something"
            );
            ensure!(!answer.is_err_and(|f| matches!(f.number, 1 | 12 | 20)), "{call}: {answer:?}");
            book.called(next, call, answer)?;
            if matches!((call, answer), (Call::New { .. }, Ok(_))) {
                tally.birth(&heap);
            }
            tally.calls += 1;
        }
        let reachable = book.graph.reachable();
        let census = Ok((reachable.len() as u64, book.graph.words_of(&reachable)));
        ensure!(heap.census(&memory) == census, "census");
    }
    Ok(())
}

/// A ride: a dashboard, its book, and a ledger of what every job has left.
struct Ride<'a> {
    plan: &'a Plan,
    dashboard: Dashboard,
    memory: Memory,
    book: Book,
    units: Vec<u64>,
    words: Vec<u64>,
    objects: Vec<u64>,
    due: bool,
    /// When the collection that is due or open became due.
    since: u64,
}

impl Ride<'_> {
    /// What the clock's new value ends and releases.
    fn tick(&mut self, tally: &mut Tally) -> Checked {
        let clock = self.dashboard.clock;
        tally.ticks += 1;
        for (i, task) in self.plan.table.tasks.iter().enumerate() {
            let deadline = clock >= task.deadline && (clock - task.deadline) % task.period == 0;
            ensure!(!deadline || self.units[i] == 0, "task {} is late at {clock}", i + 1);
            if clock % task.period == 0 {
                (self.units[i], self.words[i], self.objects[i]) = (task.units, task.words, task.objects);
            }
        }
        if clock % self.plan.period == 0 {
            ensure!(!self.due && self.book.open.is_none(), "the collector is late at {clock}");
            (self.due, self.since) = (true, clock);
        }
        Ok(())
    }

    fn turn(&self) -> Turn {
        match self.plan.ranks.iter().find(|&&i| self.units[i - 1] > 0) {
            Some(&i) => Turn::Task(i),
            None if self.due || self.book.open.is_some() => Turn::Collector,
            None => Turn::Nobody,
        }
    }

    fn job_over(&mut self, i: usize) {
        for slot in SHARED..SHARED + OWN {
            self.book.graph.slots[Dashboard::seen(i, slot) as usize] = 0;
        }
    }

    /// Whether a call leaves the shared slots within the live bounds.
    fn stays_within(&self, call: Call) -> bool {
        let mut graph = self.book.graph.clone();
        let _ = graph.call(call);
        graph.slots[SHARED as usize..].fill(0);
        let reachable = graph.reachable();
        reachable.len() as u64 <= self.plan.live_objects && graph.words_of(&reachable) <= self.plan.live_words
    }

    /// A birth, if the allowance has room for the kind picked: kept in a shared slot if the live bounds allow it.
    fn birth(&self, random: &mut Random, i: usize) -> Option<Call> {
        let k = random.range(1, self.plan.table.kinds.len() as u64);
        if self.plan.table.kinds[k as usize - 1].size > self.words[i - 1] || self.objects[i - 1] == 0 {
            return None;
        }
        let empty = (0..SHARED).find(|&slot| self.dashboard.heap.slots[slot as usize] == 0);
        let kept = empty.map(|s| Call::New { s, k }).filter(|&call| self.stays_within(call));
        kept.or(Some(Call::New { s: SHARED + random.range(0, OWN - 1), k }))
    }

    /// A task's call: of a polite task one that keeps the live bounds.
    fn choose(&self, random: &mut Random, i: usize, slots: &[u64], polite: bool) -> Call {
        for _ in 0..6 {
            let call = random::call(random, &self.dashboard.heap, slots, |slot| Dashboard::seen(i, slot));
            if !polite || self.stays_within(call.renamed(|slot| Dashboard::seen(i, slot))) {
                return call;
            }
        }
        Call::Drop { s: random.pick(slots) }
    }

    fn act(&mut self, i: usize, call: Call, tally: &mut Tally) -> Checked {
        tally.calls += 1;
        let size = match call {
            Call::New { k, .. } => self.plan.table.kinds[k as usize - 1].size,
            _ => 0,
        };
        let over = size > 0 && (size > self.words[i - 1] || self.objects[i - 1] == 0);
        let next = self.dashboard.heap.spare.last().copied();
        let answer = self.dashboard.act(&mut self.memory, call);
        ensure!(over == (answer == Err(Fault::of("dashboard", 25))), "{call}: {answer:?} with allowance over: {over}");
        if over {
            return Ok(());
        }
        ensure!(!answer.is_err_and(|f| !matches!(f.number, 14..=16)), "task {i} calls {call}: {answer:?}");
        self.book.called(next, call.renamed(|slot| Dashboard::seen(i, slot)), answer)?;
        if answer.is_err() {
            return Ok(());
        }
        self.units[i - 1] -= 1;
        if size > 0 {
            self.words[i - 1] -= size;
            self.objects[i - 1] -= 1;
            tally.birth(&self.dashboard.heap);
        }
        if self.units[i - 1] == 0 {
            self.job_over(i);
        }
        self.tick(tally)
    }

    fn step(&mut self, tally: &mut Tally) -> Checked {
        if self.book.open.is_none() {
            self.book.flip();
            self.due = false;
            let late = self.dashboard.clock - self.since;
            ensure!(late < self.plan.lateness, "a flip {late} after it was due");
            tally.latest_flips += u64::from(late + 1 == self.plan.lateness);
        }
        let answer = self.dashboard.step(&mut self.memory);
        self.book.stepped(&self.dashboard.heap, &self.memory, answer)?;
        if answer.is_err() {
            ensure!(self.dashboard.stage == Stage::Halted, "21 without a halt");
            tally.halts += 1;
            return Ok(());
        }
        if answer != Ok(Answer::Absent) {
            tally.collections += 1;
            let length = self.dashboard.clock - self.since;
            ensure!(length <= self.plan.finish, "a collection ends {length} after it was due");
            tally.longest += u64::from(length == self.plan.finish);
        }
        self.tick(tally)
    }

    /// A move out of turn or with something wrong in it: refused, and nothing changes.
    fn odd_move(&self, random: &mut Random, slots: &[u64], tally: &mut Tally) -> Checked {
        let (mut dashboard, mut memory) = (self.dashboard.clone(), self.memory.clone());
        let call = random::odd_call(random, &dashboard.heap, slots, |slot| slot);
        let answer = match random.range(1, 6) {
            1 => dashboard.step(&mut memory),
            2 => dashboard.rest(),
            3 => dashboard.finish(),
            4 => dashboard.setup(&mut memory, call),
            5 => dashboard.start(&mut memory),
            _ => dashboard.act(&mut memory, call),
        };
        let halted = answer.is_err_and(|f| f.number == 21);
        ensure!(
            answer.is_ok() || halted || (dashboard == self.dashboard && memory == self.memory),
            "refused and changed something"
        );
        tally.refusals += u64::from(answer.is_err());
        Ok(())
    }

    fn set_up(&mut self, random: &mut Random) -> Checked {
        let slots: Vec<u64> = (0..10).collect();
        for _ in 0..random.pick(&[0, 5, 60]) {
            let call = random::call(random, &self.dashboard.heap, &slots, |slot| slot);
            let next = self.dashboard.heap.spare.last().copied();
            let answer = self.dashboard.setup(&mut self.memory, call);
            if answer != Err(Fault::of("dashboard", 25)) {
                ensure!(!answer.is_err_and(|f| !matches!(f.number, 14..=16)), "set-up calls {call}: {answer:?}");
                self.book.called(next, call, answer)?;
            }
        }
        self.book.flip();
        let answer = self.dashboard.start(&mut self.memory);
        ensure!(answer.is_ok(), "start answers {answer:?}");
        self.book.stepped(&self.dashboard.heap, &self.memory, answer)?;
        self.tick(&mut Tally::default())
    }
}

pub fn ride_history(seed: u64, tally: &mut Tally) -> Checked {
    let random = &mut Random::new(seed);
    let most_tasks = random.pick(&[1, 2, 3, 5, 16]);
    let plan = random::admitted(random, most_tasks, 600);
    let length = 2 * plan.table.space as usize;
    let mut memory =
        if random.percent(50) { Memory::Words(vec![9; length]) } else { Memory::Bytes(vec![9; 4 * length + 2]) };
    let mut dashboard = Dashboard::bare();
    dashboard.prepare(&mut memory, Some(&plan)).map_err(|f| f.to_string())?;
    let book = Book::new(&dashboard.heap.measures);
    let tasks = plan.table.tasks.len();
    let nothing = vec![0; tasks];
    let (units, words, objects) = (nothing.clone(), nothing.clone(), nothing);
    let mut ride = Ride { plan: &plan, dashboard, memory, book, units, words, objects, due: false, since: 0 };
    ride.set_up(random)?;
    let early = random.pick(&[0, 0, 1, 5, 20]);
    let greedy = random.pick(&[0, 50, 100]);
    let rude = random.pick(&[0, 0, 1, 10, 50]);
    let mut slots: Vec<u64> = (0..random.range(1, 8)).collect();
    slots.extend(SHARED..SHARED + random.range(1, OWN));
    for _ in 0..random.range(2000, 20000) {
        ensure!(
            ride.dashboard.turn() == Ok(ride.turn()),
            "turn {:?} where {:?} was meant",
            ride.dashboard.turn(),
            ride.turn()
        );
        if random.percent(1) {
            ride.odd_move(random, &slots, tally)?;
        }
        match ride.turn() {
            Turn::Task(i) if random.percent(early) => {
                ensure!(ride.dashboard.finish() == Ok(Answer::Done), "finish of task {i}");
                ride.units[i - 1] = 0;
                ride.job_over(i);
            }
            Turn::Task(i) => {
                let polite = !random.percent(rude);
                let birth = if random.percent(greedy) { ride.birth(random, i) } else { None };
                let call = birth.unwrap_or_else(|| ride.choose(random, i, &slots, polite));
                ride.act(i, call, tally)?;
            }
            Turn::Collector => ride.step(tally)?,
            Turn::Nobody => {
                ensure!(ride.dashboard.rest() == Ok(Answer::Done), "rest");
                ride.tick(tally)?;
            }
        }
        if ride.dashboard.stage == Stage::Halted {
            break;
        }
    }
    Ok(())
}

/// `count` heap histories and rides from as many seeds; what was done, or the first breach.
pub fn fuzz(seed: u64, count: u64) -> Result<String, String> {
    let (mut heaps, mut rides) = (Tally::default(), Tally::default());
    for seed in seed..seed + count {
        heap_history(seed, &mut heaps).map_err(|sentence| format!("heap, seed {seed}: {sentence}"))?;
        ride_history(seed, &mut rides).map_err(|sentence| format!("ride, seed {seed}: {sentence}"))?;
    }
    Ok(format!("heaps {heaps:?}\nrides {rides:?}\n"))
}
