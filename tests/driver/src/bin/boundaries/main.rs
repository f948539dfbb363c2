//! `boundaries LAUNCH`: asks the built program `cases` for runs on both sides of the limits of document 01, and compares each
//! line with the reference kernel's and with what document 01 fixes of it. LAUNCH is the script that starts a built program.
mod fits;
mod plans;
mod rules;
mod run;

use driver::{print_of, Tally};
use plans::many;
use reference::gen::{largest_accepted, largest_file, sample};
use reference::lines::join;
use reference::{simple, State, LAST_TICK};
use run::Run;

/// How much of everything: tasks, signals, ticks, trace words.
fn sizes() -> Vec<Run> {
    let late = |tick| State { tick, ..simple::fresh(&sample().bytes()).2 };
    let mut last_signal = many(1, 64);
    last_signal.tasks[0].outputs = vec![63];
    let mut eight_outputs = many(1, 8);
    eight_outputs.tasks[0].outputs = (0..8).collect();
    let mut silent_at_first = many(1, 1);
    silent_at_first.tasks[0].offset = 3;
    // The sample records at ticks 0 (two), 5, 8 (two) and 10 (two).
    vec![
        Run::of("16 tasks, their 32 releases in 160 words", &many(16, 64)).asks(17, 160).gives(0, 17, 32),
        Run::of("17 tasks", &many(17, 64)).says(2, 0),
        Run::of("64 signals, the last one written", &last_signal).asks(17, 15).gives(0, 17, 3),
        Run::of("65 signals", &many(1, 65)).says(2, 0),
        Run::of("8 outputs, written at 16", &eight_outputs).asks(17, 50).gives(0, 17, 10),
        Run::of("1 task, 1 signal", &many(1, 1)).asks(17, 10).gives(0, 17, 2),
        Run::of("the largest accepted file", &largest_accepted()).asks(40, 2000).says(0, 0),
        Run::of("the largest file", &largest_file()).says(8, 8),
        Run::of("0 ticks", &sample()).asks(0, 100).gives(0, 0, 0),
        Run::of("0 ticks, no trace", &sample()).asks(0, 0).gives(0, 0, 0),
        Run::of("12 ticks, no trace", &sample()).asks(12, 0).gives(14, 0, 0),
        Run::of("one word short of the first tick's records", &sample()).asks(12, 9).gives(14, 0, 0),
        // Runs of 1 tick are asked of both entries that run (crates/cases).
        Run::of("1 tick, no trace", &sample()).asks(1, 0).gives(14, 0, 0),
        Run::of("1 tick, one word short of its records", &sample()).asks(1, 9).gives(14, 0, 0),
        Run::of("1 tick, exactly full", &sample()).asks(1, 10).gives(0, 1, 2),
        Run::of("1 tick, the longest trace", &sample()).asks(1, 15_000).gives(0, 1, 2),
        Run::of("1 tick of a plan that is refused", &many(17, 64)).asks(1, 10).says(2, 0),
        Run::of("full after the first tick, and five asked", &sample()).asks(5, 10).gives(0, 5, 2),
        Run::of("full after the first tick, and six asked", &sample()).asks(6, 10).gives(14, 5, 2),
        Run::of("four words beyond the first tick's records", &sample()).asks(6, 14).gives(14, 5, 2),
        Run::of("one word short of the two writes", &sample()).asks(12, 24).gives(14, 8, 3),
        Run::of("one word short of the last tick's records", &sample()).asks(12, 34).gives(14, 10, 5),
        Run::of("exactly full", &sample()).asks(12, 35).gives(0, 12, 7),
        Run::of("one word more than full", &sample()).asks(12, 36).gives(0, 12, 7),
        Run::of("the longest trace", &sample()).asks(12, 15_000).gives(0, 12, 7),
        Run::of("no trace, and no record yet", &silent_at_first).asks(3, 0).gives(0, 3, 0),
        Run::of("no trace, and a record in the last tick", &silent_at_first).asks(4, 0).gives(14, 3, 0),
        Run::of("tick 1,000,000, 0 ticks", &sample()).from(late(LAST_TICK)).asks(0, 100).gives(0, 0, 0),
        Run::of("tick 1,000,000, 1 tick", &sample()).from(late(LAST_TICK)).asks(1, 100).says(13, 0),
        Run::of("tick 999,999, 1 tick", &sample()).from(late(LAST_TICK - 1)).asks(1, 100).gives(0, 1, 0),
        Run::of("tick 999,999, 2 ticks", &sample()).from(late(LAST_TICK - 1)).asks(2, 100).says(13, 0),
        Run::of("1,000,001 ticks", &sample()).asks(LAST_TICK + 1, 100).says(13, 0),
        Run::of("1,000,000 ticks, until the trace is full", &sample()).asks(LAST_TICK, 35).gives(14, 15, 7),
        Run::of("a sum that wraps to 0", &sample()).from(late(1)).asks(u32::MAX, 100).says(13, 0),
        Run::of("12 before 13", &sample()).from(late(LAST_TICK + 1)).asks(1, 100).says(12, 0),
        Run::of("13 before 14", &sample()).asks(LAST_TICK + 1, 0).says(13, 0),
    ]
}

/// Where a line differs, by its first four words and the place of the first word that the reference has otherwise.
fn told(got: &str, line: &[u32], wanted: &[u32]) -> String {
    let opening = |words: &[u32]| join(&words[..words.len().min(4)]);
    let printed: Vec<u32> = got.split(' ').map_while(|word| word.parse().ok()).collect();
    let same = printed.iter().zip(line).take_while(|(a, b)| a == b).count();
    format!(
        "printed {} .., the reference has {} .., document 01 {} ..; the first {same} words are the reference's",
        opening(&printed),
        opening(line),
        opening(wanted)
    )
}

fn main() {
    let launch = std::env::args().nth(1).expect("LAUNCH");
    let runs: Vec<Run> = [sizes(), fits::clauses(), rules::plans(), rules::events()].into_iter().flatten().collect();
    let stream: Vec<u8> = runs.iter().flat_map(Run::bytes).collect();
    let printed = String::from_utf8(print_of(&launch, "cases", &stream)).expect("text");
    let mut lines = printed.lines();
    let mut tally = Tally::default();
    for run in &runs {
        let got = lines.next().unwrap_or("nothing");
        let line = run.line();
        let good = got == join(&line) && line.starts_with(&run.wanted);
        tally.record(&run.name, good, || told(got, &line, &run.wanted));
    }
    tally.record("after the last case", lines.next().is_none(), || "more lines than cases".to_string());
    for number in 0..=14 {
        let asked = runs.iter().any(|run| run.wanted.first() == Some(&number));
        tally.record(&format!("number {number}"), asked, || "no case must give it".to_string());
    }
    tally.close();
}
