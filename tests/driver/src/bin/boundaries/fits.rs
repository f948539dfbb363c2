//! The clauses of 'A state fits': for each of them states just within it, and states that break it.
use crate::plans::{plant, BELL, DOOR, LATE, NO_SIGNAL, NO_TASK, SUPERVISOR, WRITER};
use crate::run::{Run, SOME_WORDS};
use reference::Status::{self, Active, Error, Finished, Ready};
use reference::{simple, State, LAST_TICK};

/// Sets of signals 7 and 8, releases of the bell and the door: two records before tick 18, two of it, one after.
const EVENTS: [u32; 20] = [3, 2, 7, 1, 17, 1, 3, 0, 18, 2, 8, 2, 18, 1, 2, 0, 25, 1, 2, 0];

/// A fitting state of `plant` at tick 18, with a task in each of the four task states.
pub fn midway() -> State {
    let mut state = State { tick: 18, place: 2, ..simple::fresh(&plant().bytes()).2 };
    put(&mut state, SUPERVISOR, Active, 2, 12);
    put(&mut state, WRITER, Active, 4, 9);
    put(&mut state, DOOR, Finished, 0, 14);
    put(&mut state, LATE, Error, 0, 0);
    state
}

fn put(state: &mut State, task: usize, status: Status, remaining: u32, release: u32) {
    let task = &mut state.tasks[task];
    (task.status, task.remaining, task.release) = (status, remaining, release);
}

/// No task in flight, so that only tick and event place speak of the time; all events are past.
fn at_rest(state: &mut State, tick: u32) {
    (state.tick, state.place) = (tick, 5);
    for task in 0..NO_TASK {
        put(state, task, Ready, 0, 0);
    }
}

/// What is done to the state `midway`.
type Edit = (&'static str, fn(&mut State));

/// A clause, edits that are just within it, and edits that break it and no other clause.
type Clause = (&'static str, &'static [Edit], &'static [Edit]);

/// In the order of document 01.
const CLAUSES: &[Clause] = &[
    (
        "tick <= 1,000,000",
        &[("1,000,000", |s| at_rest(s, LAST_TICK))],
        &[("1,000,001", |s| at_rest(s, LAST_TICK + 1)), ("the largest word", |s| at_rest(s, u32::MAX))],
    ),
    (
        "event place = number of events with instant < tick",
        &[
            ("both events of 18 past", |s| {
                (s.tick, s.place) = (19, 4);
                s.tasks[WRITER].release = 18;
            }),
            ("no event past", |s| {
                at_rest(s, 3);
                s.place = 0;
            }),
        ],
        &[("one too few", |s| s.place = 1), ("an event of this tick", |s| s.place = 3), ("beyond the list", |s| s.place = 6)],
    ),
    (
        "ACTIVE has remaining 1..execution",
        &[
            ("1", |s| s.tasks[SUPERVISOR].remaining = 1),
            ("the execution time", |s| s.tasks[SUPERVISOR].remaining = 3),
            ("1,000,000", |s| put(s, BELL, Active, 1_000_000, 17)),
        ],
        &[("0", |s| s.tasks[SUPERVISOR].remaining = 0), ("one more", |s| s.tasks[SUPERVISOR].remaining = 4)],
    ),
    (
        "the others have remaining 0",
        &[],
        &[
            ("READY", |s| s.tasks[BELL].remaining = 1),
            ("FINISHED", |s| s.tasks[DOOR].remaining = 1),
            ("ERROR", |s| s.tasks[LATE].remaining = 1),
        ],
    ),
    (
        "ACTIVE and FINISHED have r < tick",
        &[
            ("ACTIVE, the tick before", |s| put(s, BELL, Active, 1, 17)),
            ("FINISHED, the tick before", |s| s.tasks[DOOR].release = 17),
        ],
        &[
            ("ACTIVE, this tick", |s| put(s, BELL, Active, 1, 18)),
            ("FINISHED, this tick", |s| s.tasks[DOOR].release = 18),
            ("ACTIVE and periodic, this tick", |s| put(s, WRITER, Active, 1, 18)),
            ("FINISHED, the largest word", |s| s.tasks[DOOR].release = u32::MAX),
        ],
    ),
    (
        "with deadline D > 0, tick <= r + D",
        &[
            ("ACTIVE, tick = r + D", |s| put(s, DOOR, Active, 1, 12)),
            ("FINISHED, tick = r + D", |s| put(s, DOOR, Finished, 0, 12)),
            ("no deadline, long ago", |s| put(s, BELL, Active, 1, 0)),
        ],
        &[
            ("ACTIVE, tick = r + D + 1", |s| put(s, DOOR, Active, 1, 11)),
            ("FINISHED, tick = r + D + 1", |s| put(s, DOOR, Finished, 0, 11)),
        ],
    ),
    (
        "FINISHED only where D > 0",
        &[("periodic, with a deadline", |s| put(s, SUPERVISOR, Finished, 0, 12))],
        &[("periodic", |s| put(s, WRITER, Finished, 0, 9)), ("event-driven", |s| put(s, BELL, Finished, 0, 17))],
    ),
    // A difference below 0 and above -period is no multiple either, but it would be one if it were cut off at 0.
    (
        "a periodic task in flight has r >= offset",
        &[("ACTIVE, r = offset", |s| put(s, LATE, Active, 1, 17)), ("FINISHED, r = offset", |s| put(s, LATE, Finished, 0, 17))],
        &[
            ("ACTIVE, the tick before", |s| put(s, LATE, Active, 1, 16)),
            ("FINISHED, the tick before", |s| put(s, LATE, Finished, 0, 16)),
            ("r = 0", |s| put(s, LATE, Active, 1, 0)),
        ],
    ),
    (
        "r - offset is a multiple of the period",
        &[("event-driven, anywhere", |s| s.tasks[DOOR].release = 13)],
        &[
            ("ACTIVE, one less", |s| s.tasks[SUPERVISOR].release = 11),
            ("FINISHED, one more", |s| put(s, SUPERVISOR, Finished, 0, 13)),
            ("a multiple without the offset", |s| s.tasks[SUPERVISOR].release = 10),
        ],
    ),
    (
        "tick <= r + period",
        &[("tick = r + period", |s| s.tasks[WRITER].release = 9), ("event-driven, long ago", |s| put(s, BELL, Active, 7, 1))],
        &[
            ("tick = r + period + 1", |s| (s.tick, s.place) = (19, 4)),
            ("two periods ago", |s| s.tasks[WRITER].release = 0),
        ],
    ),
    (
        "READY and ERROR have r = 0",
        &[],
        &[
            ("READY, event-driven", |s| s.tasks[BELL].release = 17),
            ("READY, periodic", |s| put(s, SUPERVISOR, Ready, 0, 12)),
            ("ERROR", |s| s.tasks[LATE].release = 17),
        ],
    ),
    (
        "signals from S on are 0",
        &[("the last signal", |s| s.signals[NO_SIGNAL - 1] = u32::MAX)],
        &[("signal S", |s| s.signals[NO_SIGNAL] = 1), ("signal 63", |s| s.signals[63] = 1)],
    ),
    (
        "latched inputs beyond ni are 0",
        &[("the last input", |s| s.tasks[DOOR].latched[1] = u32::MAX)],
        &[
            ("input ni", |s| s.tasks[DOOR].latched[2] = 1),
            ("input 7", |s| s.tasks[WRITER].latched[7] = 1),
            ("input 0 where ni = 0", |s| s.tasks[BELL].latched[0] = 1),
        ],
    ),
    (
        "held outputs beyond no are 0",
        &[("the last output", |s| s.tasks[SUPERVISOR].held[3] = u32::MAX)],
        &[
            ("output no", |s| s.tasks[SUPERVISOR].held[4] = 1),
            ("output 7", |s| s.tasks[WRITER].held[7] = 1),
            ("output 0 where no = 0", |s| s.tasks[DOOR].held[0] = 1),
        ],
    ),
    (
        "machine state 1..16 for a supervisor",
        &[("1", |s| s.tasks[BELL].machine = 1), ("16", |s| s.tasks[SUPERVISOR].machine = 16)],
        &[("0", |s| s.tasks[BELL].machine = 0), ("17", |s| s.tasks[SUPERVISOR].machine = 17)],
    ),
    ("machine state 0 for a controller", &[], &[("1", |s| s.tasks[WRITER].machine = 1)]),
    (
        "tasks from T on are all-zero READY",
        &[],
        &[
            ("status", |s| s.tasks[NO_TASK].status = Error),
            ("remaining", |s| s.tasks[NO_TASK].remaining = 1),
            ("release", |s| s.tasks[NO_TASK].release = 1),
            ("machine state", |s| s.tasks[NO_TASK].machine = 1),
            ("latched input", |s| s.tasks[NO_TASK].latched[0] = 1),
            ("held output", |s| s.tasks[NO_TASK].held[7] = 1),
            ("task 15", |s| s.tasks[15].status = Error),
        ],
    ),
];

/// A fitting state is run for no tick, so that the check alone answers, and then for some, which tick 1,000,000 refuses.
pub fn clauses() -> Vec<Run> {
    let run = |name: &str, state: &State| Run::of(name, &plant()).events(&EVENTS).from(state.clone());
    let mut runs = vec![run("midway", &midway()).says(0, 0)];
    for (clause, within, beyond) in CLAUSES {
        let edited = |(what, edit): &Edit| {
            let mut state = midway();
            edit(&mut state);
            (format!("fits: {clause}: {what}"), state)
        };
        for (name, state) in within.iter().map(edited) {
            runs.push(run(&name, &state).asks(0, SOME_WORDS).gives(0, 0, 0));
            let number = if state.tick == LAST_TICK { 13 } else { 0 };
            runs.push(run(&format!("{name}, and on"), &state).says(number, 0));
        }
        for (name, state) in beyond.iter().map(edited) {
            runs.push(run(&name, &state).says(12, 0));
        }
    }
    runs
}
