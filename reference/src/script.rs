//! Scripts: one line read, one line written, which repeats it and tells the answer.

use crate::admission::{admit, forecast};
use crate::call::{Answer, Call};
use crate::dashboard::{Dashboard, Turn};
use crate::fault::Fault;
use crate::heap::{Heap, Measures};
use crate::memory::Memory;
use crate::table::{read, Kind};

type Told = Result<Answer, Fault>;

/// A decimal number below 2^32.
fn number(word: &str) -> Option<u64> {
    let digits = !word.is_empty() && word.bytes().all(|byte| byte.is_ascii_digit());
    let value: u64 = if digits { word.parse().ok()? } else { return None };
    (value < 1 << 32).then_some(value)
}

fn numbers(words: &[&str]) -> Option<Vec<u64>> {
    words.iter().map(|word| number(word)).collect()
}

/// One of the nine calls.
fn call(words: &[&str]) -> Option<Call> {
    let (name, operands) = words.split_first()?;
    let operands = numbers(operands)?;
    match (*name, &operands[..]) {
        ("new", &[s, k]) => Some(Call::New { s, k }),
        ("copy", &[s, t]) => Some(Call::Copy { s, t }),
        ("drop", &[s]) => Some(Call::Drop { s }),
        ("fetch", &[s, j, t]) => Some(Call::Fetch { s, j, t }),
        ("put", &[s, j, t]) => Some(Call::Put { s, j, t }),
        ("read", &[s, j]) => Some(Call::Read { s, j }),
        ("write", &[s, j, v]) => Some(Call::Write { s, j, v: v as u32 }),
        ("same", &[s, t]) => Some(Call::Same { s, t }),
        ("kind", &[s]) => Some(Call::Kind { s }),
        _ => None,
    }
}

/// `memory words L V` or `memory bytes L V`.
fn memory(words: &[&str]) -> Option<Memory> {
    match words {
        ["memory", "words", length, value] => {
            Some(Memory::Words(vec![number(value)? as u32; number(length)? as usize]))
        }
        ["memory", "bytes", length, value] => {
            Some(Memory::Bytes(vec![u8::try_from(number(value)?).ok()?; number(length)? as usize]))
        }
        _ => None,
    }
}

/// `size:map,size:map..` or `-` for none.
fn kinds(word: &str) -> Option<Vec<Kind>> {
    if word == "-" {
        return Some(vec![]);
    }
    let kind = |pair: &str| {
        let (size, map) = pair.split_once(':')?;
        Some(Kind { size: number(size)?, map: number(map)? })
    };
    word.split(',').map(kind).collect()
}

fn told(told: Told) -> String {
    match told {
        Ok(answer) => format!(" -> {answer}"),
        Err(fault) => format!(" -> {fault}"),
    }
}

fn shown<T: std::fmt::Display>(value: Result<T, Fault>) -> String {
    match value {
        Ok(value) => value.to_string(),
        Err(fault) => fault.to_string(),
    }
}

fn census(heap: &Heap, memory: &Memory) -> String {
    shown(heap.census(memory).map(|(objects, words)| format!("{objects} {words}")))
}

/// What a heap script acts on.
pub struct HeapScript {
    pub heap: Heap,
    pub memory: Memory,
}

impl HeapScript {
    pub fn new() -> HeapScript {
        HeapScript { heap: Heap::bare(), memory: Memory::Words(vec![]) }
    }

    /// The line to be written for a line read.
    pub fn line(&mut self, line: &str) -> String {
        let follows = if line.is_empty() || line.starts_with(['#', '|']) {
            Some(String::new())
        } else {
            self.follows(&line.split(' ').collect::<Vec<_>>())
        };
        line.to_string() + &follows.unwrap_or(" -> unknown".to_string())
    }

    fn follows(&mut self, words: &[&str]) -> Option<String> {
        match words {
            ["memory", ..] => self.memory = memory(words)?,
            ["plan", "blank"] => {}
            ["poke", place, value] => {
                let _ = self.memory.set(number(place)? as usize, number(value)? as u32);
            }
            ["?", question @ ..] => return self.asked(question),
            ["short", length, command @ ..] => {
                let length = number(length)?.min(self.memory.length() as u64) as usize;
                let mut short = Memory::Words(self.memory.words()[..length].to_vec());
                return self.command(&mut short, command);
            }
            _ => {
                let mut memory = std::mem::replace(&mut self.memory, Memory::Words(vec![]));
                let follows = self.command(&mut memory, words);
                self.memory = memory;
                return follows;
            }
        }
        Some(String::new())
    }

    fn command(&mut self, memory: &mut Memory, words: &[&str]) -> Option<String> {
        match words {
            ["prepare", space, handles, live_words, live_objects, list] => {
                let measures = Measures {
                    space: number(space)?,
                    handles: number(handles)?,
                    live_words: number(live_words)?,
                    live_objects: number(live_objects)?,
                    kinds: kinds(list)?,
                };
                Some(told(self.heap.prepare(memory, measures)))
            }
            ["step"] => Some(told(self.heap.step(memory))),
            ["census"] => Some(format!(" -> {}", census(&self.heap, memory))),
            _ => Some(told(self.heap.call(memory, call(words)?))),
        }
    }

    fn asked(&self, question: &[&str]) -> Option<String> {
        match question {
            ["spare"] => Some(format!(" {}", self.heap.spare_handles())),
            ["free"] => Some(format!(" {}", self.heap.free_words())),
            ["word", place] => Some(format!(" {}", shown(self.memory.word(number(place)? as usize)))),
            ["words", from, to] => {
                let places = number(from)? as usize..number(to)? as usize;
                Some(places.map(|place| format!(" {}", shown(self.memory.word(place)))).collect())
            }
            _ => None,
        }
    }
}

/// What a ride script acts on.
pub struct RideScript {
    pub dashboard: Dashboard,
    pub memory: Memory,
    /// The table text; the plan is blank if it is refused.
    pub text: Vec<u8>,
}

impl RideScript {
    pub fn new() -> RideScript {
        RideScript { dashboard: Dashboard::bare(), memory: Memory::Words(vec![]), text: vec![] }
    }

    pub fn line(&mut self, line: &str) -> String {
        if let Some(row) = line.strip_prefix('|') {
            self.text.extend(row.strip_prefix(' ').unwrap_or(row).bytes());
            self.text.push(b'\n');
            return line.to_string();
        }
        let words: Vec<&str> = line.split(' ').collect();
        match words[..] {
            ["plan", "blank"] => self.text.clear(),
            _ if line.is_empty() || line.starts_with('#') => {}
            ["memory", ..] => match memory(&words) {
                Some(memory) => self.memory = memory,
                None => return format!("{line} -> unknown"),
            },
            ["?", "state"] => return self.state(),
            ["end"] => return format!("end {}", self.turn()),
            _ => {
                let turn = self.turn();
                return match self.command(&words) {
                    Some(answer) => format!("{turn} {line}{}", told(answer)),
                    None => format!("{line} -> unknown"),
                };
            }
        }
        line.to_string()
    }

    fn turn(&self) -> String {
        match self.dashboard.turn() {
            Ok(Turn::Task(i)) => i.to_string(),
            Ok(Turn::Collector) => "c".to_string(),
            Ok(Turn::Nobody) => "n".to_string(),
            Err(fault) => format!("x{}", fault.number),
        }
    }

    fn command(&mut self, words: &[&str]) -> Option<Told> {
        let (dashboard, memory) = (&mut self.dashboard, &mut self.memory);
        Some(match words {
            ["prepare"] => {
                let plan = read(&self.text).and_then(|table| admit(&table)).ok();
                dashboard.prepare(memory, plan.as_ref())
            }
            ["setup", words @ ..] => dashboard.setup(memory, call(words)?),
            ["start"] => dashboard.start(memory),
            ["act", words @ ..] => dashboard.act(memory, call(words)?),
            ["finish"] => dashboard.finish(),
            ["step"] => dashboard.step(memory),
            ["rest"] => dashboard.rest(),
            _ => return None,
        })
    }

    fn state(&self) -> String {
        let heap = &self.dashboard.heap;
        format!(
            "? clock {} spare {} free {} census {} memory {:016x}",
            self.dashboard.clock,
            heap.spare_handles(),
            heap.free_words(),
            census(heap, &self.memory),
            fnv1a(&self.memory.words())
        )
    }
}

/// The 64-bit FNV-1a hash over words, each as four bytes, the most significant first.
pub fn fnv1a(words: &[u32]) -> u64 {
    let bytes = words.iter().flat_map(|word| word.to_be_bytes());
    bytes.fold(14695981039346656037, |hash: u64, byte| (hash ^ byte as u64).wrapping_mul(1099511628211))
}

/// Runs a script, whose lines end with byte 10.
pub fn run(input: &[u8], mut answer: impl FnMut(&str) -> String) -> String {
    let text = String::from_utf8_lossy(input);
    text.split_terminator('\n').map(|line| answer(line) + "\n").collect()
}

/// Many table texts: `== NAME BYTES`, so many bytes, a line end; for each `== NAME` and its forecast.
pub fn table_cases(input: &[u8]) -> String {
    let mut out = String::new();
    let mut rest = input;
    while !rest.is_empty() {
        let end = rest.iter().position(|&byte| byte == b'\n').expect("a case's first line ends");
        let head = String::from_utf8_lossy(&rest[..end]).to_string();
        let words: Vec<&str> = head.split(' ').collect();
        let ["==", name, bytes] = words[..] else { panic!("no case: {head}") };
        let bytes = number(bytes).expect("a case's length") as usize;
        let text = &rest[end + 1..end + 1 + bytes];
        out += &format!("== {name}\n{}", forecast(text));
        assert_eq!(rest[end + 1 + bytes], b'\n', "case {name} is longer than it says");
        rest = &rest[end + 2 + bytes..];
    }
    out
}
