//! Random numbers, calls and tables from a fixed seed.

use crate::admission::{admit, up, Plan};
use crate::call::Call;
use crate::heap::{Heap, Measures};
use crate::table::{Kind, Table, Task};

/// A 64-bit xorshift generator.
pub struct Random(u64);

impl Random {
    pub fn new(seed: u64) -> Random {
        let mut random = Random(seed.wrapping_mul(0x9e3779b97f4a7c15) ^ 0x2545f4914f6cdd1d | 1);
        for _ in 0..8 {
            random.next();
        }
        random
    }

    fn next(&mut self) -> u64 {
        self.0 ^= self.0 << 13;
        self.0 ^= self.0 >> 7;
        self.0 ^= self.0 << 17;
        self.0.wrapping_mul(0x2545f4914f6cdd1d) >> 16
    }

    /// From `least` to `most`, both included.
    pub fn range(&mut self, least: u64, most: u64) -> u64 {
        least + self.next() % (most - least + 1)
    }

    pub fn percent(&mut self, chance: u64) -> bool {
        self.range(1, 100) <= chance
    }

    pub fn pick<T: Copy>(&mut self, list: &[T]) -> T {
        list[self.range(0, list.len() as u64 - 1) as usize]
    }
}

/// A call that mostly can be taken: over the slots given, seen by the heap under other numbers.
pub fn call(random: &mut Random, heap: &Heap, slots: &[u64], seen: impl Fn(u64) -> u64) -> Call {
    let in_slot = |slot: u64| heap.slots.get(seen(slot) as usize).copied().unwrap_or(0);
    let t = random.pick(slots);
    let full = (0..6).map(|_| random.pick(slots)).find(|&slot| in_slot(slot) != 0).unwrap_or(t);
    let empty = (0..3).map(|_| random.pick(slots)).find(|&slot| in_slot(slot) == 0).unwrap_or(t);
    let s = (0..6).map(|_| random.pick(slots)).find(|&s| in_slot(s) != 0).unwrap_or(t);
    let kind = if in_slot(s) != 0 { heap.kind_of(in_slot(s)) } else { Kind { size: 2, map: 2 } };
    let mut verb = random.range(1, 100);
    if (21..=86).contains(&verb) && in_slot(s) == 0 && random.percent(90) {
        verb = random.pick(&[1, 1, 1, 1, 1, 1, 90, 95, 98]);
    }
    if verb <= 20 && is_full(heap) && random.percent(80) {
        verb = if in_slot(s) == 0 { 95 } else { random.range(21, 86) };
    }
    let reference = verb <= 64;
    let good: Vec<u64> = (0..kind.size).filter(|&j| kind.is_reference(j) == reference).collect();
    let j = if good.is_empty() || random.percent(2) { random.range(0, kind.size) } else { random.pick(&good) };
    let sorted = !good.is_empty() || random.percent(5);
    match verb {
        1..=20 => Call::New { s: empty, k: random.range(1, (heap.measures.kinds.len() as u64).max(1)) },
        21..=34 if sorted => Call::Fetch { s, j, t: if random.percent(80) { empty } else { t } },
        35..=64 if sorted => Call::Put { s, j, t: if random.percent(85) { full } else { t } },
        65..=75 if sorted => Call::Read { s, j },
        76..=86 if sorted => {
            let v = random.pick(&[0, 1, 2, 3, u32::MAX, 0x8000_0000, heap.measures.handles as u32 + 1]);
            Call::Write { s, j, v: if random.percent(50) { v } else { random.next() as u32 } }
        }
        87..=90 => Call::Copy { s, t },
        91..=93 => Call::Drop { s },
        96.. => Call::Kind { s },
        _ => Call::Same { s, t },
    }
}

/// Whether not even an object of the smallest kind can be born.
fn is_full(heap: &Heap) -> bool {
    let m = &heap.measures;
    let room = m.space - if heap.flipped { m.live_words } else { 0 };
    heap.spare.is_empty() || m.kinds.iter().all(|kind| heap.born + kind.size > room)
}

/// A call with something wrong in it, perhaps.
pub fn odd_call(random: &mut Random, heap: &Heap, slots: &[u64], seen: impl Fn(u64) -> u64) -> Call {
    let good = call(random, heap, slots, seen);
    let odd_slot = random.pick(&[63, 64, 71, 72, 191, 192, 4294967295]);
    match random.range(1, 6) {
        1 => {
            Call::New { s: random.pick(slots), k: random.pick(&[0, heap.measures.kinds.len() as u64 + 1, 4294967295]) }
        }
        2 => good.renamed(|_| odd_slot),
        3 => match good {
            Call::Fetch { s, j, .. } => Call::Fetch { s, j, t: odd_slot },
            Call::Put { s, j, .. } => Call::Put { s, j, t: odd_slot },
            Call::Copy { s, .. } => Call::Copy { s, t: odd_slot },
            _ => Call::Same { s: odd_slot, t: random.pick(slots) },
        },
        4 => Call::Read { s: random.pick(slots), j: random.pick(&[0, 1, 31, 32, 4294967295]) },
        5 => Call::Write { s: random.pick(slots), j: random.range(0, 32), v: 1 },
        _ => Call::Put { s: random.pick(slots), j: random.range(0, 32), t: random.pick(slots) },
    }
}

pub fn kinds(random: &mut Random, most: u64, largest: u64) -> Vec<Kind> {
    (0..random.range(1, most))
        .map(|_| {
            let size = random.range(1, largest);
            let sparse = random.next() & if random.percent(50) { u64::MAX } else { random.next() };
            Kind { size, map: (if random.percent(60) { !sparse } else { sparse }) % (1 << size) }
        })
        .collect()
}

/// Measures of a heap: mostly one with room for many linked objects, sometimes one at the edge of the limits.
pub fn measures(random: &mut Random) -> Measures {
    if random.percent(12) {
        let (space, handles) = (random.pick(&[1, 2, 3, 8, 20]), random.pick(&[1, 2, 3, 8]));
        let (live_words, live_objects) = (random.range(0, space), random.range(0, handles));
        return Measures { space, handles, live_words, live_objects, kinds: kinds(random, 3, space.min(8)) };
    }
    let (space, handles) = (random.range(24, 90), random.range(5, 24));
    let mut kinds = kinds(random, 4, 6);
    kinds.push(Kind { size: 3, map: random.pick(&[3, 5, 6, 7]) });
    let live_words = space * random.range(40, 80) / 100;
    let live_objects = handles * random.range(50, 90) / 100;
    Measures { space, handles, live_words, live_objects, kinds }
}

/// A table as a text.
pub fn render(table: &Table) -> String {
    let mut text =
        format!("heap,{},{}\nstatic,{},{}\n", table.space, table.handles, table.static_words, table.static_objects);
    for kind in &table.kinds {
        text += &format!("kind,{},{}\n", kind.size, kind.map);
    }
    for t in &table.tasks {
        text += &format!(
            "task,{},{},{},{},{},{},{}\n",
            t.period, t.deadline, t.units, t.words, t.objects, t.life, t.consumer
        );
    }
    text
}

/// Tasks that keep the limits and together leave some ticks; mostly they may bear objects of one of the kinds.
pub fn tasks(random: &mut Random, count: u64, longest: u64, kinds: &[Kind]) -> Vec<Task> {
    let mut tasks: Vec<Task> = Vec::new();
    let load = random.pick(&[5, 20, 50, 80, 95]);
    for number in 1..=count {
        let period = random.range(4, longest);
        let units = (period * load / 100 * random.range(20, 150) / 100 / count).clamp(1, period);
        let deadline = if random.percent(40) { period } else { random.range(units, period) };
        let few = if count > 4 { &[0, 0, 0, 1, 2] } else { &[0, 1, 1, 2, 3] };
        let objects = random.pick(few).min(units + 1);
        let words = objects * random.pick(kinds).size + random.pick(&[0, 0, 0, 0, 1]);
        let other = random.range(1, 16).min(count);
        let consumer = if random.percent(30) && other != number { other } else { 0 };
        let life = if consumer == 0 { random.pick(&[1, 1, 1, 2, 3]) } else { 0 };
        tasks.push(Task { period, deadline, units, words, objects, life, consumer });
    }
    tasks
}

/// Space and handles raised until a collection and its births fit, or `None`.
fn fitted(mut table: Table) -> Option<Table> {
    let demand =
        |table: &Table, own: u64, r: u64| own + table.tasks.iter().map(|t| up(r, t.period) * t.units).sum::<u64>();
    let settled = |table: &Table, own: u64| {
        let mut r = 1;
        while r <= 1_000_000 && demand(table, own, r) > r {
            r = demand(table, own, r);
        }
        (r <= 1_000_000).then_some(r)
    };
    let life = |t: &Task| match t.consumer {
        0 => t.life,
        c => up(2 * table.tasks[c as usize - 1].period, t.period),
    };
    let words = table.static_words + table.tasks.iter().map(|t| life(t) * t.words).sum::<u64>();
    let objects = table.static_objects + table.tasks.iter().map(|t| life(t) * t.objects).sum::<u64>();
    for _ in 0..200 {
        let late = settled(&table, 1)?;
        let span = late + settled(&table, 1 + words + objects + table.space + table.handles)?;
        let space = words + table.tasks.iter().map(|t| up(span, t.period) * t.words).sum::<u64>();
        let handles = objects + 2 * table.tasks.iter().map(|t| up(span, t.period) * t.objects).sum::<u64>();
        if space <= table.space && handles <= table.handles {
            return Some(table);
        }
        table.space = space.max(table.space);
        table.handles = handles.max(table.handles);
        if table.space > 8192 || table.handles > 256 {
            return None;
        }
    }
    None
}

/// A table that is admitted, often with nothing to spare, of a space of at most `largest` words.
pub fn admitted(random: &mut Random, most_tasks: u64, largest: u64) -> Plan {
    let count = if random.percent(25) { most_tasks } else { random.range(1, most_tasks) };
    loop {
        let longest = random.pick(&[20, 60, 200, 1000]);
        let most_kinds = random.pick(&[1, 3, 32]);
        let largest_kind = random.pick(&[2, 4, 7]);
        let kinds = kinds(random, most_kinds, largest_kind);
        let tasks = tasks(random, count, longest, &kinds);
        let static_objects = random.range(0, 4);
        let static_words = static_objects * random.pick(&kinds).size;
        let (mut space, mut handles) = (1, 1);
        match random.range(1, 4) {
            1 => space = random.range(1, largest),
            2 => handles = random.range(1, 256),
            _ => {}
        }
        let table = Table { space, handles, static_words, static_objects, kinds, tasks };
        let Some(table) = fitted(table) else { continue };
        if table.space > largest {
            continue;
        }
        if let Ok(plan) = admit(&table) {
            return plan;
        }
    }
}
