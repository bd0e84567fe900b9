//! Worked examples, each named by what it shows.

use crate::admission::{admit, forecast, Plan};
use crate::dashboard::{Dashboard, Turn, CLOCK_END};
use crate::fault::Fault;
use crate::memory::Memory;
use crate::script::{HeapScript, RideScript};
use crate::table::read;

const TABLE: &str = "heap,64,40\nstatic,4,2\nkind,2,2\ntask,50,50,5,2,1,1,0\ntask,100,100,20,4,2,1,0\n";

fn first_line(text: &str) -> String {
    forecast(text.as_bytes()).lines().next().unwrap().to_string()
}

fn plan(text: &str) -> Plan {
    admit(&read(text.as_bytes()).unwrap()).unwrap()
}

#[test]
fn a_plan_and_its_first_eight_releases() {
    let expected = "plan,374,26,120,180\n0,1\n0,2\n0,0\n50,1\n100,1\n100,2\n150,1\n200,1\n";
    assert_eq!(forecast(TABLE.as_bytes()), expected);
}

#[test]
fn twenty_one_handles_are_enough_and_twenty_are_not() {
    assert_eq!(first_line(&TABLE.replace("64,40", "64,20")), "refused,10,0,0");
    assert_eq!(plan(&TABLE.replace("64,40", "64,21")).period, 174);
}

#[test]
fn twenty_six_words_are_enough_and_twenty_five_are_not() {
    assert_eq!(first_line(&TABLE.replace("64,40", "25,40")), "refused,9,0,0");
    assert_eq!(plan(&TABLE.replace("64,40", "26,40")).period, 174);
}

#[test]
fn a_task_without_response_time_and_tasks_without_a_tick_to_spare() {
    let busy = TABLE.replace("50,50,5", "50,50,30");
    assert_eq!(first_line(&busy.replace("100,100,20", "100,100,41")), "refused,7,5,0");
    assert_eq!(first_line(&busy.replace("100,100,20", "100,100,40")), "refused,8,0,0");
}

#[test]
fn with_all_units_used_the_flip_is_the_step_at_clock_25() {
    let plan = plan(TABLE);
    let mut memory = Memory::Words(vec![0; 128]);
    let mut dashboard = Dashboard::bare();
    dashboard.prepare(&mut memory, Some(&plan)).unwrap();
    dashboard.start(&mut memory).unwrap();
    while let Turn::Task(_) = dashboard.turn().unwrap() {
        dashboard.act(&mut memory, crate::call::Call::Drop { s: 0 }).unwrap();
    }
    assert_eq!((dashboard.clock, dashboard.turn()), (25, Ok(Turn::Collector)));
    assert!(dashboard.due);
    dashboard.step(&mut memory).unwrap();
    assert!(!dashboard.due);
}

/// Slot 0 names an object whose word 1 names a second one; a third is dropped.
fn linked_pair(live_objects: u64) -> HeapScript {
    let mut script = HeapScript::new();
    script.line("memory words 16 7");
    script.line(&format!("prepare 8 3 4 {live_objects} 2:2"));
    for line in ["new 0 1", "new 1 1", "put 0 1 1", "new 2 1", "drop 2", "drop 1"] {
        assert_eq!(script.line(line), format!("{line} -> ok"));
    }
    script
}

/// Steps until the collection's report, and that report's line.
fn collect(script: &mut HeapScript) -> (u64, String) {
    for steps in 1.. {
        let line = script.line("step");
        if line != "step -> absent" {
            return (steps, line);
        }
    }
    unreachable!()
}

#[test]
fn a_collection_moves_a_linked_pair_and_frees_the_rest() {
    let mut script = linked_pair(2);
    assert_eq!(collect(&mut script), (18, "step -> report 18 2 4".to_string()));
    assert_eq!(script.line("new 3 1"), "new 3 1 -> ok");
    assert_eq!(script.line("new 4 1"), "new 4 1 -> fault 19 heap 0 0");
}

#[test]
fn an_object_unlinked_after_the_flip_is_still_moved() {
    let mut script = linked_pair(2);
    for line in ["step", "fetch 0 1 5", "put 0 1 6", "drop 5"] {
        script.line(line);
    }
    assert_eq!(collect(&mut script), (17, "step -> report 18 2 4".to_string()));
}

#[test]
fn a_second_live_object_over_the_bound_refuses_the_fifth_step() {
    let mut script = linked_pair(1);
    assert_eq!(collect(&mut script), (5, "step -> fault 21 heap 0 0".to_string()));
    assert_eq!(script.line("step"), "step -> fault 21 heap 0 0");
}

#[test]
fn empty_slots_leave_only_flip_sweep_and_clearing() {
    let mut script = linked_pair(2);
    script.line("drop 0");
    assert_eq!(collect(&mut script), (12, "step -> report 12 0 0".to_string()));
}

#[test]
fn fields_are_refused_where_they_begin() {
    assert_eq!(first_line(&TABLE.replacen("task,50", "task,050", 1)), "refused,3,4,6");
    assert_eq!(first_line(&TABLE.replace("kind,2,2", "kind,2,4")), "refused,4,3,8");
    assert!(first_line(&TABLE.replace("kind,2,2", "kind,2,3")).starts_with("plan,"));
}

#[test]
fn ranks_go_by_deadline_and_not_by_period() {
    let text = TABLE.replace("100,100,20", "100,40,20");
    assert_eq!(plan(&text).ranks, [2, 1]);
    assert_eq!(plan(&text).responses, [25, 20]);
}

#[test]
fn the_clock_ends() {
    let plan = plan(TABLE);
    let mut memory = Memory::Words(vec![0; 128]);
    let mut dashboard = Dashboard::bare();
    dashboard.prepare(&mut memory, Some(&plan)).unwrap();
    dashboard.start(&mut memory).unwrap();
    while dashboard.turn() != Ok(Turn::Nobody) {
        let _ = dashboard.finish();
        let _ = dashboard.step(&mut memory);
    }
    dashboard.clock = CLOCK_END - 1;
    dashboard.rest().unwrap();
    assert_eq!(dashboard.turn(), Ok(Turn::Task(1)), "releases at the clock's end still happen");
    let ended = Err(Fault::of("dashboard", 23));
    assert_eq!(dashboard.act(&mut memory, crate::call::Call::Drop { s: 99 }), ended);
    assert_eq!(dashboard.step(&mut memory), ended);
    assert_eq!(dashboard.rest(), ended);
    assert!(dashboard.finish().is_ok());
    assert_eq!(dashboard.turn(), Ok(Turn::Task(2)));
}

#[test]
fn a_ride_script_tells_the_turn_before_each_command() {
    let mut script = RideScript::new();
    for row in TABLE.lines() {
        script.line(&format!("| {row}"));
    }
    script.line("memory words 128 9");
    assert_eq!(script.line("prepare"), "x22 prepare -> ok");
    assert_eq!(script.line("start"), "x22 start -> report 105 0 0");
    assert_eq!(script.line("act drop 0"), "1 act drop 0 -> ok");
    assert_eq!(script.line("end"), "end 1");
}

/// The lines of each stored case whose name begins so.
fn stored(kind: &str) -> Vec<(String, Vec<String>)> {
    let folder = concat!(env!("CARGO_MANIFEST_DIR"), "/../cases");
    let paths = std::fs::read_dir(folder).unwrap().map(|entry| entry.unwrap().path());
    let inputs = paths.filter(|path| path.extension().is_some_and(|extension| extension == "in"));
    let named = inputs.map(|path| (path.file_stem().unwrap().to_str().unwrap().to_string(), path));
    let wanted = named.filter(|(name, _)| name.starts_with(kind));
    let lines = |path| std::fs::read_to_string(path).unwrap().lines().map(|line| line.to_string()).collect();
    wanted.map(|(name, path)| (name, lines(path))).collect()
}

/// Whether no slot names a spare handle: what stands behind one is nobody's promise.
fn slots_are_in_use(heap: &crate::heap::Heap) -> bool {
    heap.slots.iter().all(|&handle| handle == 0 || heap.in_use(handle as u64))
}

#[test]
fn stored_scripts_rest_on_no_spare_handle() {
    let (heaps, rides) = (stored("heap-"), stored("ride-"));
    assert!(heaps.len() > 12 && rides.len() > 12);
    for (name, lines) in heaps {
        let mut script = HeapScript::new();
        for line in lines {
            script.line(&line);
            assert!(slots_are_in_use(&script.heap), "{name}: {line}");
        }
    }
    for (name, lines) in rides {
        let mut script = RideScript::new();
        for line in lines {
            script.line(&line);
            assert!(slots_are_in_use(&script.dashboard.heap), "{name}: {line}");
        }
    }
}

#[test]
fn short_fuzz_finds_no_breach() {
    crate::fuzz::fuzz(1, 10).unwrap();
}
