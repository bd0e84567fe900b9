//! Admission of random tables by three programs: the proved library, the same algorithm in plain Rust, and the plain search of the
//! second program. `bench MODE SEED INDEX` admits one table and prints its period or minus the refusal; `run` counts instructions.

#[allow(dead_code)]
#[path = "../../reference/src/admission.rs"]
mod admission;
#[allow(dead_code)]
#[path = "../../reference/src/fault.rs"]
mod fault;
#[allow(dead_code)]
#[path = "../../reference/src/table.rs"]
mod table;
mod twin;

extern "C" {
    fn gudokpi_period(text: *const u8, length: usize) -> i32;
}

/// A table of sixteen tasks with periods up to 1,000,000 that together take a good part of the time.
fn random_table(seed: u64, index: u64) -> String {
    let mut state = seed.wrapping_mul(0x9e37_79b9_7f4a_7c15) ^ (index + 1).wrapping_mul(0xd1b5_4a32_d192_ed03);
    let mut next = move |n: u64| {
        state ^= state << 13;
        state ^= state >> 7;
        state ^= state << 17;
        (state >> 11) % n
    };
    let mut text = String::from("heap,8192,256\nstatic,100,10\nkind,4,3\n");
    for _ in 0..16 {
        let scale = 10u64.pow(2 + next(5) as u32);
        let period = (scale + next(scale * 9)).min(1_000_000);
        let units = (period * (30 + next(20)) / 1000).max(1);
        let deadline = period - next(period / 4);
        // only slow tasks allocate, so that there is a period to find
        let share = if period > 100_000 { 2 } else { 1 };
        text.push_str(&format!("task,{period},{},{units},{},{},1,0\n", deadline.max(units), next(share), next(share)));
    }
    text
}

fn main() {
    let words: Vec<String> = std::env::args().collect();
    let number = |i: usize| words.get(i).and_then(|w| w.parse().ok()).unwrap_or(0);
    let text = random_table(number(2), number(3));
    let answer = match words.get(1).map(String::as_str) {
        Some("proved") => unsafe { gudokpi_period(text.as_ptr(), text.len()) },
        Some("twin") => twin::period(text.as_bytes()),
        Some("naive") => match table::read(text.as_bytes()).and_then(|t| admission::admit(&t)) {
            Ok(plan) => plan.period as i32,
            Err(fault) => -(fault.number as i32),
        },
        Some("none") => 0,
        _ => {
            print!("{text}");
            return;
        }
    };
    println!("{answer}");
}
