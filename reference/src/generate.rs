//! Script inputs from a fixed seed: tables, heaps and rides that meet the edges of every rule.

use crate::call::Call;
use crate::dashboard::{Dashboard, Stage, Turn, OWN, SHARED};
use crate::heap::{Heap, Phase, State};
use crate::random::{self, render, Random};
use crate::script::{HeapScript, RideScript};
use crate::table::{Kind, Table, Task};

// ---- tables ----

/// `count` table texts in the form that `table_cases` reads.
pub fn tables(seed: u64, count: u64) -> Vec<u8> {
    let random = &mut Random::new(seed);
    let mut out = Vec::new();
    for number in 1..=count {
        let (name, text) = table_case(random);
        out.extend(format!("== {name}-{number} {}\n", text.len()).bytes());
        out.extend(text);
        out.push(b'\n');
    }
    out
}

fn table_case(random: &mut Random) -> (&'static str, Vec<u8>) {
    let small = random::admitted(random, 5, 600).table;
    match random.range(1, 12) {
        1 => ("admitted", render(&small).into_bytes()),
        2 => ("sixteen", render(&random::admitted(random, 16, 2000).table).into_bytes()),
        3 | 4 => ("nudged", render(&nudged(random, small)).into_bytes()),
        5 => ("wide", render(&wide(random)).into_bytes()),
        6 => ("consumers", render(&consumers(random, small)).into_bytes()),
        7 | 8 => ("field", changed_field(random, &render(&small))),
        9 => ("lines", changed_lines(random, &render(&small))),
        10 | 11 => ("bytes", changed_bytes(random, render(&small).into_bytes())),
        _ => {
            let text = render(&full(random));
            ("full", if random.percent(50) { text.into_bytes() } else { changed_lines(random, &text) })
        }
    }
}

/// One measure a little more or less.
fn nudged(random: &mut Random, mut table: Table) -> Table {
    let i = random.range(0, table.tasks.len() as u64 - 1) as usize;
    let task = &mut table.tasks[i];
    match random.range(1, 8) {
        1 => table.space = table.space.saturating_sub(1).max(1),
        2 => table.handles = table.handles.saturating_sub(1).max(1),
        3 => task.units = (task.units + random.range(1, 4)).min(task.deadline),
        4 => task.units = task.deadline,
        5 => task.deadline = task.units,
        6 => task.words += 1,
        7 => task.objects += 1,
        _ => table.static_words += random.range(1, 30),
    }
    table
}

/// Measures anywhere within the limits.
fn wide(random: &mut Random) -> Table {
    let kinds = random::kinds(random, 4, 32);
    let count = random.pick(&[1, 2, 3, 16]);
    let longest = random.pick(&[100, 10_000, 1_000_000]);
    let mut tasks = random::tasks(random, count, longest, &kinds);
    for task in &mut tasks {
        if random.percent(20) {
            task.words = random.pick(&[0, 1, 100, 8192]);
            task.objects = random.pick(&[0, 1, 10, 256]);
        }
        if task.life != 0 && random.percent(10) {
            task.life = random.range(1, 64);
        }
    }
    let (space, handles) = (random.pick(&[1, 500, 8191, 8192]), random.pick(&[1, 60, 255, 256]));
    let (static_words, static_objects) = (random.pick(&[0, 5, 50, 8192]), random.pick(&[0, 1, 20, 256]));
    Table { space, handles, static_words, static_objects, kinds, tasks }
}

/// Every task has a consumer: the next one, or any, itself and none of the table included.
fn consumers(random: &mut Random, mut table: Table) -> Table {
    let count = table.tasks.len() as u64;
    let chain = random.percent(60);
    for (task, number) in table.tasks.iter_mut().zip(1..) {
        task.life = 0;
        task.consumer = if chain { number % count + 1 } else { random.range(1, (count + 1).min(16)) };
    }
    table.space = 8192;
    table.handles = 256;
    table
}

/// As many kinds and tasks as there may be, or one more.
fn full(random: &mut Random) -> Table {
    let count = random.range(31, 33);
    let kinds: Vec<Kind> = (0..count).map(|n| Kind { size: n % 32 + 1, map: (1 << (n % 32)) - 1 }).collect();
    let count = random.range(15, 17);
    let task = |n: u64| Task { period: 400 + n, deadline: 400, units: 2, words: n, objects: 1, life: 1, consumer: 0 };
    let tasks = (0..count).map(task).collect();
    Table { space: 8192, handles: 256, static_words: 32, static_objects: 1, kinds, tasks }
}

/// One field of one line replaced, dropped or doubled.
fn changed_field(random: &mut Random, text: &str) -> Vec<u8> {
    let mut lines: Vec<Vec<String>> =
        text.lines().map(|line| line.split(',').map(|field| field.to_string()).collect()).collect();
    let at = random.range(0, lines.len() as u64 - 1) as usize;
    let line = &mut lines[at];
    let field = random.range(1, line.len() as u64 - 1) as usize;
    let odd = [
        "0",
        "1",
        "2",
        "16",
        "17",
        "32",
        "33",
        "64",
        "65",
        "256",
        "257",
        "8192",
        "8193",
        "1000000",
        "1000001",
        "4294967295",
        "4294967296",
        "9999999999",
        "10000000000",
        "",
        "00",
        "07",
        "x",
        "-1",
        "1x",
        " 1",
    ];
    match random.range(1, 8) {
        1 => drop(line.remove(field)),
        2 => line.insert(field, "1".to_string()),
        3 => line.push(random.pick(&["", "1", "x"]).to_string()),
        _ => line[field] = random.pick(&odd).to_string(),
    }
    lines.iter().flat_map(|line| (line.join(",") + "\n").into_bytes()).collect()
}

/// A line dropped, doubled, moved or emptied, or nothing changed.
fn changed_lines(random: &mut Random, text: &str) -> Vec<u8> {
    let mut lines: Vec<&str> = text.lines().collect();
    let at = random.range(0, lines.len() as u64 - 1) as usize;
    match random.range(1, 7) {
        1 => drop(lines.remove(at)),
        2 => lines.insert(at, lines[at]),
        3 => lines.swap(at, random.range(0, text.lines().count() as u64 - 1) as usize),
        4 => lines.insert(at, ""),
        5 => lines.truncate(at),
        6 => lines[at] = random.pick(&["heap", "static,", "kind,1", "task", "Kind,1,0", "kinds,1,0", ",1,2"]),
        _ => {}
    }
    lines.iter().flat_map(|line| format!("{line}\n").into_bytes()).collect()
}

/// One byte changed, dropped or put in.
fn changed_bytes(random: &mut Random, mut text: Vec<u8>) -> Vec<u8> {
    let at = random.range(0, text.len() as u64 - 1) as usize;
    let byte = random.pick(b",,0019ahkst\n\n \r-/:`{\x00\xff");
    match random.range(1, 3) {
        1 => text[at] = byte,
        2 => drop(text.remove(at)),
        _ => text.insert(at, byte),
    }
    text
}

// ---- heaps ----

struct HeapMaker {
    script: HeapScript,
    lines: Vec<String>,
    /// Refused steps in a row.
    refused: u64,
}

impl HeapMaker {
    fn put(&mut self, line: String) {
        self.script.line(&line);
        self.lines.push(line);
    }

    fn flip_would_pass_bounds(&self) -> bool {
        let (heap, memory) = (&self.script.heap, &self.script.memory);
        let passes = |(objects, words)| objects > heap.measures.live_objects || words > heap.measures.live_words;
        heap.phase == Phase::Idle && heap.census(memory).is_ok_and(passes)
    }

    /// A step; a slot gives up a handle that the sweep would take from it, which only a foreign memory can bring about.
    fn step(&mut self, random: &mut Random) {
        while let Some(slot) = doomed(&self.script.heap) {
            self.put(format!("drop {slot}"));
        }
        while self.flip_would_pass_bounds() && random.percent(90) {
            self.put(format!("drop {}", random.range(0, 7)));
        }
        let length = self.script.memory.length() as u64;
        if random.percent(2) {
            self.put(format!("short {} step", random.range(0, length)));
        } else {
            let taken = self.script.heap.taken;
            self.put("step".to_string());
            self.refused = if self.script.heap.taken == taken { self.refused + 1 } else { 0 };
        }
    }
}

/// A slot that names an old handle while the sweep goes on.
pub fn doomed(heap: &Heap) -> Option<usize> {
    let Phase::Sweeping(_) = heap.phase else { return None };
    (0..heap.slots.len()).find(|&slot| heap.slots[slot] != 0 && heap.table[heap.slots[slot]].state == State::Old)
}

/// A heap script of about so many lines.
pub fn heap(seed: u64, count: u64) -> String {
    let random = &mut Random::new(seed);
    let mut maker = HeapMaker { script: HeapScript::new(), lines: vec![], refused: 0 };
    let mut slots: Vec<u64> = vec![0];
    let mut steps = 50;
    maker.put(format!("# heap, seed {seed}"));
    while (maker.lines.len() as u64) < count {
        let (heap, length) = (&maker.script.heap, maker.script.memory.length() as u64);
        if (!heap.prepared() || maker.refused > 3) && random.percent(60) || random.range(1, 1000) <= 2 {
            maker.refused = 0;
            prepare(random, &mut maker);
            slots = (0..random.pick(&[2, 3, 4, 5, 8])).collect();
        } else if random.percent(2) {
            steps = random.pick(&[5, 40, 80, 95]);
        } else if random.percent(2) && maker.lines.len() > 60 {
            poke(random, &mut maker);
        } else if random.percent(5) {
            ask(random, &mut maker);
        } else if random.percent(if heap.phase == Phase::Tracing { steps.min(30) } else { steps }) {
            maker.step(random);
        } else {
            let pick = if random.percent(5) { random::odd_call } else { random::call };
            let mut call = pick(random, heap, &slots, |slot| slot);
            while heap.phase == Phase::Tracing && !is_on_reference(call) && random.percent(60) {
                call = random::call(random, heap, &slots, |slot| slot);
            }
            let over = if random.percent(2) { format!("short {} ", random.range(0, length)) } else { String::new() };
            maker.put(format!("{over}{call}"));
        }
    }
    maker.lines.iter().map(|line| format!("{line}\n")).collect()
}

fn is_on_reference(call: Call) -> bool {
    matches!(call, Call::Fetch { .. } | Call::Put { .. })
}

fn prepare(random: &mut Random, maker: &mut HeapMaker) {
    let good = random::measures(random);
    let space = good.space;
    let mut measures = [space, good.handles, good.live_words, good.live_objects];
    if random.percent(10) {
        let at = random.range(0, 3) as usize;
        measures[at] = random.pick(&[0, 257, 8193, 4294967295]);
    }
    let kinds: Vec<String> = good.kinds.iter().map(|kind| format!("{}:{}", kind.size, kind.map)).collect();
    let fill = random.pick(&[0, 0, 1, 3, 255]);
    let length = 2 * space + random.pick(&[0, 0, 0, 1, 5]);
    let memory = match random.range(1, 12) {
        1 => format!("memory words {} {fill}", random.range(0, 2 * space - 1)),
        2..=5 => format!("memory bytes {} {fill}", 4 * length + random.range(0, 3)),
        _ => format!("memory words {length} {fill}"),
    };
    maker.put(memory);
    let kinds = if random.percent(4) { random.pick(&["-", "0:0", "33:0", "2:4"]).to_string() } else { kinds.join(",") };
    let [s, n, lw, lh] = measures;
    maker.put(format!("prepare {s} {n} {lw} {lh} {kinds}"));
}

/// A word set from outside, and set back where it held up a copying step.
fn poke(random: &mut Random, maker: &mut HeapMaker) {
    let heap = &maker.script.heap;
    let handles = heap.measures.handles;
    let value = random.pick(&[0, 1, handles, handles + 1, 4294967295]);
    let place = match heap.moving {
        Some(moving) => heap.table[moving.handle].place + moving.done,
        None => random.range(0, 2 * heap.measures.space + 1) as usize,
    };
    let before = maker.script.memory.word(place);
    maker.put(format!("poke {place} {value}"));
    if let (Some(_), Ok(before)) = (maker.script.heap.moving, before) {
        maker.step(random);
        maker.put(format!("poke {place} {before}"));
    }
}

fn ask(random: &mut Random, maker: &mut HeapMaker) {
    let length = maker.script.memory.length() as u64;
    let place = random.range(0, length.max(1) - 1);
    let line = match random.range(1, 12) {
        1 => "# a line to be passed over".to_string(),
        2 => String::new(),
        3 => random.pick(&["new 1", "read 0 x", "steps", "fetch 0 0", "copy 0 1 2"]).to_string(),
        4 => format!("short {} census", random.range(0, length + 2)),
        5 if length > 0 => format!("? word {place}"),
        6 if length > 0 => format!("? words {place} {}", (place + 10).min(length)),
        7 | 8 => "? free".to_string(),
        9 | 10 => "? spare".to_string(),
        _ => "census".to_string(),
    };
    maker.put(line);
}

// ---- rides ----

/// A ride script of about so many lines; it ends early where the ride halts.
pub fn ride(seed: u64, count: u64) -> String {
    let random = &mut Random::new(seed);
    let most_tasks = random.pick(&[1, 2, 3, 5, 16]);
    let plan = random::admitted(random, most_tasks, 150);
    let mut maker = RideMaker { script: RideScript::new(), lines: vec![] };
    maker.put(format!("# ride, seed {seed}"));
    if random.percent(10) {
        maker.put("plan blank".to_string());
        maker.put("prepare".to_string());
    }
    for row in render(&plan.table).lines() {
        maker.put(format!("| {row}"));
    }
    maker.prepare(random, 2 * plan.table.space);
    maker.set_up(random);
    maker.put("start".to_string());
    maker.put("? state".to_string());
    let early = random.pick(&[0, 1, 5, 20]);
    let polite = random.pick(&[0, 95, 100]);
    let mut slots: Vec<u64> = (0..random.range(1, 4)).collect();
    slots.extend(SHARED..SHARED + random.pick(&[1, 2, 3, OWN]));
    let mut after_halt = 0;
    while (maker.lines.len() as u64) < count && after_halt < 12 {
        maker.go_on(random, &slots, early, polite);
        after_halt += u64::from(maker.script.dashboard.stage == Stage::Halted);
    }
    maker.put("? state".to_string());
    maker.put("end".to_string());
    maker.lines.iter().map(|line| format!("{line}\n")).collect()
}

struct RideMaker {
    script: RideScript,
    lines: Vec<String>,
}

impl RideMaker {
    fn put(&mut self, line: String) {
        self.script.line(&line);
        self.lines.push(line);
    }

    /// Perhaps over a short memory first, then over one that is long enough.
    fn prepare(&mut self, random: &mut Random, length: u64) {
        if random.percent(20) {
            self.put(format!("memory words {} 5", random.range(0, length - 1)));
            self.put("prepare".to_string());
            self.put("? state".to_string());
        }
        let fill = random.range(0, 255);
        if random.percent(50) {
            self.put(format!("memory words {} {fill}", length + random.pick(&[0, 0, 3])));
        } else {
            self.put(format!("memory bytes {} {fill}", 4 * length + random.range(0, 6)));
        }
        self.put("prepare".to_string());
    }

    fn set_up(&mut self, random: &mut Random) {
        let slots: Vec<u64> = (0..random.range(1, 8)).collect();
        for _ in 0..random.pick(&[0, 6, 40]) {
            let odd = if random.percent(5) { random::odd_call } else { random::call };
            let call = odd(random, &self.script.dashboard.heap, &slots, |slot| slot);
            self.put(format!("setup {call}"));
            if random.percent(3) {
                self.put(random.pick(&["prepare", "step", "rest", "finish", "act drop 0", "? state"]).to_string());
            }
        }
    }

    /// Whether a birth passes what task i has left.
    fn is_over(&self, i: usize, call: Call) -> bool {
        let Call::New { k, .. } = call else { return false };
        let (kinds, left) = (&self.script.dashboard.heap.measures.kinds, self.script.dashboard.jobs[i - 1].left);
        k.checked_sub(1)
            .and_then(|k| kinds.get(k as usize))
            .is_some_and(|kind| kind.size > left.words || left.objects == 0)
    }

    /// Whether what the shared slots lead to passes the live bounds after an act.
    fn passes_bounds(&self, call: Call) -> bool {
        let (mut dashboard, mut memory) = (self.script.dashboard.clone(), self.script.memory.clone());
        let _ = dashboard.act(&mut memory, call);
        dashboard.heap.slots[SHARED as usize..].fill(0);
        let m = &dashboard.heap.measures;
        dashboard.heap.census(&memory).is_ok_and(|(objects, words)| objects > m.live_objects || words > m.live_words)
    }

    fn go_on(&mut self, random: &mut Random, slots: &[u64], early: u64, polite: u64) {
        let odd = random.percent(4);
        let turn = self.script.dashboard.turn();
        let i = if let Ok(Turn::Task(i)) = turn { i } else { 1 };
        let pick = if odd { random::odd_call } else { random::call };
        let mut call = pick(random, &self.script.dashboard.heap, slots, |slot| Dashboard::seen(i, slot));
        while self.is_over(i, call) && random.percent(85) {
            call = random::call(random, &self.script.dashboard.heap, slots, |slot| Dashboard::seen(i, slot));
        }
        if self.passes_bounds(call) && random.percent(polite) {
            call = Call::Drop { s: random.pick(slots) };
        }
        let line = match turn {
            _ if random.percent(3) => "? state".to_string(),
            _ if random.percent(2) => random.pick(&["step", "rest", "finish", "start", "prepare", "act"]).to_string(),
            _ if random.percent(1) => format!("setup {call}"),
            Ok(Turn::Collector) if !odd => "step".to_string(),
            Ok(Turn::Nobody) if !odd => "rest".to_string(),
            Ok(Turn::Task(_)) if random.percent(early) => "finish".to_string(),
            _ => format!("act {call}"),
        };
        self.put(line);
    }
}
