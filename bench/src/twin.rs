//! Admission as the crates do it, in plain Rust with none of their checks proved: text, ranks, fixed points, bisection.

#[derive(Clone, Copy, Default)]
struct Task {
    number: u32,
    period: u32,
    deadline: u32,
    units: u32,
    words: u32,
    objects: u32,
    life: u32,
    consumer: u32,
}

const PARTS: u64 = 1 << 40;

fn up(p: u32, q: u32) -> u32 {
    (p + (q - 1)) / q
}

/// A line's first word and numbers, or the number of the refusal.
fn numbers(line: &[u8], word: &[u8], limits: &mut dyn FnMut(usize, u64) -> bool, out: &mut [u32]) -> Result<(), i32> {
    let mut fields = line.split(|b| *b == b',');
    if fields.next() != Some(word) {
        return Err(2);
    }
    for (i, place) in out.iter_mut().enumerate() {
        let field = fields.next().ok_or(5)?;
        if field.is_empty() || field.len() > 10 || !field.iter().all(u8::is_ascii_digit) || (field.len() > 1 && field[0] == b'0') {
            return Err(3);
        }
        let value = field.iter().fold(0u64, |n, b| 10 * n + u64::from(b - b'0'));
        if !limits(i, value) {
            return Err(4);
        }
        *place = value as u32;
    }
    if fields.next().is_some() { Err(5) } else { Ok(()) }
}

fn settle(own: u64, tasks: &[Task], bound: u32) -> Option<u32> {
    if own > u64::from(bound) {
        return None;
    }
    let taken: u64 = tasks.iter().map(|t| u64::from(t.units) * PARTS / u64::from(t.period)).sum();
    if taken >= PARTS {
        return None;
    }
    let mut r = (own * PARTS).div_ceil(PARTS - taken);
    while r <= u64::from(bound) {
        let demand = own + tasks.iter().map(|t| u64::from(up(r as u32, t.period)) * u64::from(t.units)).sum::<u64>();
        if demand <= r {
            return Some(r as u32);
        }
        r = demand;
    }
    None
}

pub fn period(text: &[u8]) -> i32 {
    match admit(text) {
        Ok(p) => p as i32,
        Err(number) => -number,
    }
}

fn admit(text: &[u8]) -> Result<u32, i32> {
    if text.is_empty() || text.len() > 8192 || text[text.len() - 1] != b'\n' {
        return Err(6);
    }
    let mut lines = text[..text.len() - 1].split(|b| *b == b'\n').peekable();
    let mut heap = [0; 2];
    numbers(lines.next().ok_or(2)?, b"heap", &mut |i, v| v >= 1 && v <= [8192, 256][i], &mut heap)?;
    let mut statics = [0; 2];
    numbers(lines.next().ok_or(2)?, b"static", &mut |i, v| v <= [8192, 256][i], &mut statics)?;
    let mut kinds = 0;
    while lines.peek().is_some_and(|l| l.starts_with(b"kind")) {
        let mut size = 0;
        let mut kind = [0; 2];
        numbers(lines.next().unwrap(), b"kind", &mut |i, v| if i == 0 { size = v; (1..=32).contains(&v) } else { v < 1 << size }, &mut kind)?;
        kinds += 1;
    }
    if kinds == 0 || kinds > 32 {
        return Err(2);
    }
    let mut tasks = [Task::default(); 16];
    let mut count = 0;
    for line in lines {
        if count == 16 {
            return Err(2);
        }
        let mut last = [0u64; 7];
        let mut row = [0; 7];
        let mut limits = |i: usize, v: u64| {
            last[i] = v;
            match i {
                0 => (1..=1_000_000).contains(&v),
                1 | 2 => v >= 1 && v <= last[i - 1],
                3 => v <= 8192,
                4 => v <= 256,
                5 => v <= 64,
                _ => if last[5] == 0 { (1..=16).contains(&v) } else { v == 0 },
            }
        };
        numbers(line, b"task", &mut limits, &mut row)?;
        let [period, deadline, units, words, objects, life, consumer] = row;
        tasks[count] = Task { number: count as u32 + 1, period, deadline, units, words, objects, life, consumer };
        count += 1;
    }
    if count == 0 {
        return Err(2);
    }
    for i in 0..count {
        let consumer = tasks[i].consumer as usize;
        if consumer > count || consumer == i + 1 {
            return Err(4);
        }
        if consumer != 0 {
            tasks[i].life = up(2 * tasks[consumer - 1].period, tasks[i].period);
        }
    }
    let tasks = &mut tasks[..count];
    tasks.sort_by_key(|t| (t.deadline, t.number));
    for i in 0..count {
        settle(u64::from(tasks[i].units), &tasks[..i], tasks[i].deadline).ok_or(7)?;
    }
    let late = settle(1, tasks, 1_000_000).ok_or(8)?;
    let words = u64::from(statics[0]) + tasks.iter().map(|t| u64::from(t.life) * u64::from(t.words)).sum::<u64>();
    let objects = u64::from(statics[1]) + tasks.iter().map(|t| u64::from(t.life) * u64::from(t.objects)).sum::<u64>();
    let steps = 1 + objects + words + u64::from(heap[1]) + u64::from(heap[0]);
    let span = settle(steps, tasks, 1_000_000).ok_or(8)?;
    let words_fit = |p: u32| words + tasks.iter().map(|t| u64::from(up(p + late, t.period)) * u64::from(t.words)).sum::<u64>() <= u64::from(heap[0]);
    let handles_fit = |p: u32| objects + 2 * tasks.iter().map(|t| u64::from(up(p + late, t.period)) * u64::from(t.objects)).sum::<u64>() <= u64::from(heap[1]);
    if !words_fit(span) {
        return Err(9);
    }
    if !handles_fit(span) {
        return Err(10);
    }
    let (mut good, mut bad) = (span, 1_000_001);
    while bad - good > 1 {
        let middle = good + (bad - good) / 2;
        if words_fit(middle) && handles_fit(middle) { good = middle } else { bad = middle }
    }
    Ok(good)
}
