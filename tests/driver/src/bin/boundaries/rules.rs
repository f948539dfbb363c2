//! The rules of plan and event list: each one broken, and next to it what is still accepted.
use crate::fits::midway;
use crate::plans::{plant, BELL, DOOR, LATE, SUPERVISOR, WRITER};
use crate::run::Run;
use reference::gen::{largest_file, sample, to_bytes, PlanFields};
use reference::State;

type Field = (u32, u32, &'static str, fn(&mut PlanFields));

/// Number, place, and an edit of `plant`: each rule of 5..8 broken, and next to it what is still accepted.
const FIELDS: &[Field] = &[
    (5, 0, "priority 0", |p| p.tasks[SUPERVISOR].priority = 0),
    (0, 0, "priority 15", |p| p.tasks[SUPERVISOR].priority = 15),
    (5, 0, "priority 17", |p| p.tasks[SUPERVISOR].priority = 17),
    (5, 4, "execution 0", |p| p.tasks[LATE].execution = 0),
    (0, 0, "execution 1,000,000", |p| p.tasks[LATE].execution = 1_000_000),
    (5, 4, "execution 1,000,001", |p| p.tasks[LATE].execution = 1_000_001),
    (0, 0, "period 1,000,000", |p| p.tasks[LATE].period = 1_000_000),
    (5, 4, "period 1,000,001", |p| p.tasks[LATE].period = 1_000_001),
    (0, 0, "event-driven, deadline 1,000,000", |p| p.tasks[DOOR].deadline = 1_000_000),
    (5, 2, "event-driven, deadline 1,000,001", |p| p.tasks[DOOR].deadline = 1_000_001),
    (5, 2, "event-driven, offset 1", |p| p.tasks[DOOR].offset = 1),
    (0, 0, "deadline = period", |p| p.tasks[SUPERVISOR].deadline = 10),
    (5, 0, "deadline above the period", |p| p.tasks[SUPERVISOR].deadline = 11),
    (0, 0, "offset just below the period", |p| p.tasks[SUPERVISOR].offset = 9),
    (5, 0, "offset = period", |p| p.tasks[SUPERVISOR].offset = 10),
    (6, 1, "kind 0", |p| p.tasks[WRITER].kind = 0),
    (6, 1, "kind 3", |p| p.tasks[WRITER].kind = 3),
    (6, 0, "a supervisor's initial state 0", |p| p.tasks[SUPERVISOR].initial = 0),
    (0, 0, "a supervisor's initial state 16", |p| p.tasks[SUPERVISOR].initial = 16),
    (6, 0, "a supervisor's initial state 17", |p| p.tasks[SUPERVISOR].initial = 17),
    (6, 3, "a supervisor with one output", |p| p.tasks[BELL].outputs = vec![5]),
    (6, 1, "a controller's initial state 1", |p| p.tasks[WRITER].initial = 1),
    (6, 1, "a controller with a transition", |p| p.tasks[WRITER].transitions = vec![[1, 0, 1, 1]]),
    (6, 2, "a controller with one input", |p| p.tasks[DOOR].inputs = vec![0]),
    (0, 0, "input S - 1", |p| p.tasks[DOOR].inputs = vec![8, 8]),
    (6, 2, "input S", |p| p.tasks[DOOR].inputs = vec![0, 9]),
    (0, 0, "output S - 1", |p| p.tasks[WRITER].outputs = vec![4, 8]),
    (6, 1, "output S", |p| p.tasks[WRITER].outputs = vec![4, 9]),
    (6, 0, "a transition from 0", |p| p.tasks[SUPERVISOR].transitions[0][0] = 0),
    (6, 0, "a transition from 17", |p| p.tasks[SUPERVISOR].transitions[0][0] = 17),
    (6, 0, "a transition's input position ni", |p| p.tasks[SUPERVISOR].transitions[0][1] = 1),
    (6, 0, "order 0", |p| p.tasks[SUPERVISOR].transitions[0][2] = 0),
    (0, 0, "order 32", |p| p.tasks[SUPERVISOR].transitions[0][2] = 32),
    (6, 0, "order 33", |p| p.tasks[SUPERVISOR].transitions[0][2] = 33),
    (6, 0, "one order twice from one state", |p| p.tasks[SUPERVISOR].transitions[1][0] = 1),
    (6, 0, "a transition to 0", |p| p.tasks[SUPERVISOR].transitions[0][3] = 0),
    (0, 0, "a transition to 16", |p| p.tasks[SUPERVISOR].transitions[0][3] = 16),
    (6, 0, "a transition to 17", |p| p.tasks[SUPERVISOR].transitions[0][3] = 17),
    (6, 1, "an action of state 0", |p| p.tasks[WRITER].actions[0][0] = 0),
    (0, 0, "an action of state 16", |p| p.tasks[WRITER].actions[0][0] = 16),
    (6, 1, "an action of state 17", |p| p.tasks[WRITER].actions[0][0] = 17),
    (6, 1, "action kind 0", |p| p.tasks[WRITER].actions[0][1] = 0),
    (6, 1, "action kind 5", |p| p.tasks[WRITER].actions[0][1] = 5),
    (6, 1, "a = no", |p| p.tasks[WRITER].actions[0][2] = 1),
    (6, 1, "an add with b = 1", |p| p.tasks[WRITER].actions[0][3] = 1),
    (6, 0, "a set with b = 2", |p| p.tasks[SUPERVISOR].actions[0][3] = 2),
    (6, 1, "a copy with b = 1", |p| p.tasks[WRITER].actions[0] = [2, 2, 0, 1, 0]),
    (6, 1, "an add with c = ni", |p| p.tasks[WRITER].actions[0][4] = 2),
    (6, 1, "a copy with c = ni", |p| p.tasks[WRITER].actions[0] = [2, 2, 0, 0, 2]),
    (6, 0, "a move with c = ni", |p| p.tasks[SUPERVISOR].actions[1][4] = 1),
    (0, 0, "a set of the largest word", |p| p.tasks[SUPERVISOR].actions[0][4] = u32::MAX),
    (6, 0, "a supervisor's a = 1", |p| p.tasks[SUPERVISOR].actions[0][2] = 1),
    (6, 0, "a supervisor's move to b = 1", |p| p.tasks[SUPERVISOR].actions[1][3] = 1),
    (6, 0, "a move to b = no", |p| p.tasks[SUPERVISOR].actions[1][3] = 4),
    (6, 0, "a move to itself", |p| p.tasks[SUPERVISOR].actions[1][3] = 2),
    (7, 4, "one priority twice", |p| p.tasks[LATE].priority = 2),
    (7, 2, "two priorities twice: the smallest later task", |p| {
        p.tasks[DOOR].priority = p.tasks[WRITER].priority;
        p.tasks[LATE].priority = p.tasks[SUPERVISOR].priority;
    }),
    (8, 4, "a signal among the outputs of two tasks", |p| p.tasks[LATE].outputs = vec![8, 0]),
    (8, 1, "a signal twice among one task's outputs", |p| p.tasks[WRITER].outputs = vec![8, 8]),
    (7, 4, "7 of a later task before 8", |p| {
        p.tasks[WRITER].outputs = vec![8, 8];
        p.tasks[LATE].priority = 3;
    }),
    (6, 0, "6 of task 0 before 5 of task 1", |p| {
        p.tasks[SUPERVISOR].initial = 0;
        p.tasks[WRITER].execution = 0;
    }),
    (5, 1, "5 before 6 in one task", |p| {
        p.tasks[WRITER].execution = 0;
        p.tasks[WRITER].kind = 0;
    }),
];

type Words = (u32, u32, &'static str, fn(&mut Vec<u32>));

/// Number, place, and an edit of the sample's words: 2, 3 and 4. Task 0 stands at 14 to 34, task 1 at 35 to 47.
const WORDS: &[Words] = &[
    (2, 0, "version 0", |w| w[0] = 0),
    (2, 0, "version 2", |w| w[0] = 2),
    (2, 0, "no signals", |w| w[1] = 0),
    (2, 0, "no tasks", |w| w[2] = 0),
    (3, 0, "contents cut short", |w| w.truncate(8)),
    (3, 0, "the head alone", |w| w.truncate(3)),
    (3, 0, "the signals start a word later", |w| w[3] = 10),
    (3, 0, "the signals have a word less", |w| w[4] = 4),
    (3, 0, "S is not the signals' length", |w| w[1] = 4),
    (3, 0, "a task starts a word later", |w| w[7] = 36),
    (3, 0, "the last body ends before the file", |w| w.push(0)),
    (3, 0, "the last body ends behind the file", |w| w.truncate(47)),
    (3, 0, "a length that fits only if the sum wraps", |w| (w[6], w[7], w[8]) = (u32::MAX, 13, 35)),
    (4, 1, "a body of 10 words", |w| {
        w[8] = 10;
        w.truncate(45);
    }),
    (4, 1, "a body of 12 words where 13 are counted", |w| {
        w[8] = 12;
        w.truncate(47);
    }),
    (4, 1, "a body of 14 words where 13 are counted", |w| {
        w[8] = 14;
        w.push(0);
    }),
    (4, 0, "a count one less than the list", |w| w[21] = 2),
    (4, 0, "a count that fits only if the formula wraps", |w| w[23] = 1 << 30),
    (4, 1, "9 inputs", |w| {
        (w[8], w[42]) = (20, 9);
        w.extend([0; 7]);
    }),
    (0, 0, "8 inputs", |w| {
        (w[8], w[42]) = (19, 8);
        w.extend([0; 6]);
    }),
    (4, 1, "9 outputs", |w| {
        (w[8], w[43]) = (22, 9);
        w.extend([0; 9]);
    }),
    (4, 1, "33 transitions", |w| {
        (w[8], w[44]) = (13 + 4 * 33, 33);
        w.extend([0; 4 * 33]);
    }),
    (4, 1, "33 actions", |w| {
        (w[8], w[45]) = (13 + 5 * 33, 33);
        w.extend([0; 5 * 33]);
    }),
    (4, 0, "4 of task 0 before 5 of task 1", |w| (w[21], w[38]) = (2, 0)),
    (5, 0, "5 of task 0 before 4 of task 1", |w| (w[17], w[42]) = (0, 9)),
];

pub fn plans() -> Vec<Run> {
    let mut runs = vec![];
    for (number, place, name, edit) in FIELDS {
        let mut plan = plant();
        edit(&mut plan);
        runs.push(Run::of(name, &plan).says(*number, *place));
    }
    for (number, place, name, edit) in WORDS {
        let mut words = sample().words();
        edit(&mut words);
        runs.push(Run::of_bytes(name, to_bytes(&words)).says(*number, *place));
    }
    let bytes = |size: usize| {
        let mut plan = largest_file().bytes();
        plan.resize(size, 0);
        plan
    };
    for size in [0, 8, 11, 13, 191, 20_563, 20_565, 20_568, 41_752] {
        runs.push(Run::of_bytes(&format!("a plan of {size} bytes"), bytes(size)).says(1, 0));
    }
    runs.push(Run::of_bytes("a plan of 12 bytes", bytes(12)).says(3, 0));
    runs
}

/// Number, place, and an event list for `plant`.
const LISTS: &[(u32, u32, &str, &[u32])] = &[
    (0, 0, "no events", &[]),
    (0, 0, "an event at 999,999", &[999_999, 1, 2, 0]),
    (0, 0, "a set to the largest word", &[5, 2, 8, u32::MAX]),
    (0, 0, "one instant twice", &[5, 1, 2, 0, 5, 1, 2, 0]),
    (9, 0, "three words of a record", &[5, 1, 2]),
    (9, 0, "five words", &[5, 1, 2, 0, 5]),
    (10, 0, "an event at 1,000,000", &[1_000_000, 1, 2, 0]),
    (10, 1, "an instant falls", &[5, 1, 2, 0, 4, 1, 2, 0]),
    (11, 0, "event kind 0", &[5, 0, 2, 0]),
    (11, 0, "event kind 3", &[5, 3, 2, 0]),
    (11, 0, "a release with a value", &[5, 1, 2, 1]),
    (11, 0, "a release of a periodic task", &[5, 1, 1, 0]),
    (11, 0, "a release of task T", &[5, 1, 5, 0]),
    (11, 0, "a set of a written signal", &[5, 2, 6, 0]),
    (11, 0, "a set of signal S", &[5, 2, 9, 0]),
    (10, 0, "10 before 11 in one record", &[1_000_000, 0, 2, 0]),
    (11, 0, "11 of record 0 before 10 of record 1", &[5, 0, 2, 0, 4, 1, 2, 0]),
];

pub fn events() -> Vec<Run> {
    let run = |name: &str, words: &[u32]| Run::of(name, &plant()).events(words);
    let mut runs: Vec<Run> = LISTS.iter().map(|(number, place, name, words)| run(name, words).says(*number, *place)).collect();
    // A run of 20 ticks does not come to instant 20.
    runs.push(run("1,024 events", &[20, 1, 2, 0].repeat(1024)).says(0, 0));
    runs.push(run("1,025 events", &[20, 1, 2, 0].repeat(1025)).says(9, 0));
    let mut clash = plant();
    clash.tasks[LATE].outputs = vec![0];
    runs.push(Run::of("8 before 9", &clash).events(&[5]).says(8, 4));
    let unfit = State { tick: 1, ..midway() };
    runs.push(run("11 before 12", &[5, 0, 2, 0]).from(unfit).says(11, 0));
    runs
}
