//! The second program: memories, table text, admission, heap, collector and dashboard by their
//! definitions, with naive searches and plain data structures. The proved crates are compared with it.

mod admission;
mod call;
mod dashboard;
mod fault;
mod fuzz;
mod generate;
mod graph;
mod heap;
mod memory;
mod random;
mod script;
mod table;
#[cfg(test)]
mod tests;

use std::io::{Read, Write};

const USAGE: &str = "usage: reference forecast | table_cases | heap_script | ride_script
       reference generate tables SEED COUNT | generate heap SEED LINES | generate ride SEED LINES
       reference fuzz SEED COUNT";

fn input() -> Vec<u8> {
    let mut bytes = Vec::new();
    std::io::stdin().read_to_end(&mut bytes).expect("standard input can be read");
    bytes
}

fn output(bytes: &[u8]) {
    std::io::stdout().write_all(bytes).expect("standard output can be written");
}

fn number(word: &str) -> u64 {
    word.parse().unwrap_or_else(|_| panic!("{word} is no number"))
}

fn main() {
    let arguments: Vec<String> = std::env::args().skip(1).collect();
    let words: Vec<&str> = arguments.iter().map(|word| word.as_str()).collect();
    match words[..] {
        ["forecast"] => output(admission::forecast(&input()).as_bytes()),
        ["table_cases"] => output(script::table_cases(&input()).as_bytes()),
        ["heap_script"] => {
            let mut script = script::HeapScript::new();
            output(script::run(&input(), |line| script.line(line)).as_bytes());
        }
        ["ride_script"] => {
            let mut script = script::RideScript::new();
            output(script::run(&input(), |line| script.line(line)).as_bytes());
        }
        ["generate", "tables", seed, count] => output(&generate::tables(number(seed), number(count))),
        ["generate", "heap", seed, lines] => output(generate::heap(number(seed), number(lines)).as_bytes()),
        ["generate", "ride", seed, lines] => output(generate::ride(number(seed), number(lines)).as_bytes()),
        ["fuzz", seed, count] => match fuzz::fuzz(number(seed), number(count)) {
            Ok(tally) => output(tally.as_bytes()),
            Err(breach) => {
                eprintln!("{breach}");
                std::process::exit(1);
            }
        },
        _ => {
            eprintln!("{USAGE}");
            std::process::exit(2);
        }
    }
}
