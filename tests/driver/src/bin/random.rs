//! `random LAUNCH COUNT FRESH [SEED]`: COUNT random cases from a fixed seed and FRESH cases from a fresh one (or from SEED). The
//! built program `cases` is asked for all of them, and the built program `vault` for some; each line is compared with the
//! reference kernel's. A case that differs is kept in target/differences. LAUNCH is the script that starts a built program.
use driver::{run, Ended, Tally};
use reference::gen::{self, to_bytes, Rng};
use reference::lines::join;
use reference::{program, run_with, simple, Engine, EventReader};
use std::fs;
use std::process::Command;
use std::time::{Duration, SystemTime};

const FIXED_SEED: u64 = 1;
/// Cases a process: starting one costs more than a case.
const BATCH: u32 = 1_000;
/// A batch or a whole input that takes longer hangs.
const LIMIT: Duration = Duration::from_secs(300);
/// Of the cases that `vault` can be asked for too, one in so many is.
const WHOLE_SHARE: u32 = 15;
/// The most plan bytes and event bytes that `cases` takes.
const PLAN_BYTES: usize = 41_752;
const EVENT_BYTES: usize = 16_400;
/// Most traces are cut to this, which few runs fill: the time goes with the trace words, which are all printed.
const SHORT_TRACE: usize = 1_000;
/// The value of every trace word that `cases` lends.
const LENT: u32 = u32::MAX;
const DIFFERENCES: &str = "target/differences";

/// A case of the stream; the parts that its entry does not read are empty.
struct Asked {
    entry: u32,
    argument: u32,
    case: gen::Case,
}

impl Asked {
    fn random(r: &mut Rng) -> Asked {
        let mut case = gen::case(r);
        case.plan.truncate(PLAN_BYTES);
        case.events.truncate(EVENT_BYTES);
        let records = case.events.len() as u32 / 16;
        let (entry, argument) = match r.below(10) {
            0 => (1, 0),
            1 => (2, 0),
            2 => (3, if r.percent(90) { r.below(18) } else { r.edge() }),
            3 => (4, 0),
            // Times 16, a place of 2^28 and more wraps around at 32 bits.
            4 => (7, if r.percent(90) { r.below(records + 2) } else { r.pick(&[1 << 28, 1 << 31, u32::MAX]) }),
            _ => (if case.state.is_some() { 6 } else { 5 }, case.ticks),
        };
        if entry == 7 {
            case.plan.clear();
        }
        if [1, 3, 4].contains(&entry) {
            case.events.clear();
        }
        if entry != 6 {
            case.state = None;
        }
        if entry != 5 && entry != 6 {
            case.trace_words = 0;
        } else if r.percent(90) {
            case.trace_words = case.trace_words.min(SHORT_TRACE);
        }
        Asked { entry, argument, case }
    }

    /// The case as it stands in the stream.
    fn bytes(&self) -> Vec<u8> {
        let gen::Case { plan, events, trace_words, state, .. } = &self.case;
        let state = state.as_ref().map_or(vec![], |state| state.to_words());
        let sizes = [*trace_words, plan.len(), events.len(), state.len()].map(|size| size as u32);
        [to_bytes(&[self.entry, self.argument]), to_bytes(&sizes), plan.clone(), events.clone(), to_bytes(&state)].concat()
    }

    /// A fresh run's ticks, plan and events as `vault` reads them.
    fn whole(&self) -> Vec<u8> {
        let gen::Case { plan, events, .. } = &self.case;
        [to_bytes(&[self.argument, plan.len() as u32, events.len() as u32]), plan.clone(), events.clone()].concat()
    }

    /// The words of the line by the reference kernel.
    fn line(&self) -> Vec<u32> {
        let gen::Case { plan, events, trace_words, state, .. } = &self.case;
        let (number, place, rest) = match self.entry {
            1 => {
                let (number, place) = simple::check_plan(plan);
                (number, place, vec![])
            }
            2 => {
                let (number, place) = simple::check_events(plan, events);
                (number, place, vec![])
            }
            3 => {
                let (number, place, part) = simple::task_body(plan, self.argument);
                let word = |bytes: &[u8]| u32::from_le_bytes(bytes.try_into().expect("four bytes"));
                (number, place, part.chunks(4).map(word).collect())
            }
            4 => {
                let (number, place, state) = simple::fresh(plan);
                (number, place, state.to_words())
            }
            7 => {
                let mut reader = EventReader::at(events, self.argument as usize);
                return match reader.next() {
                    Some(event) => vec![1, event.instant, event.kind, event.target, event.value, reader.place() as u32],
                    None => vec![0, reader.place() as u32],
                };
            }
            _ => {
                let start = state.clone().unwrap_or_else(|| simple::fresh(plan).2);
                let mut trace = vec![LENT; *trace_words];
                let out = run_with(Engine::Simple, start, plan, events, self.argument, &mut trace);
                (out.number, out.place, [vec![out.ticks_run, out.records], trace, out.state.to_words()].concat())
            }
        };
        [vec![number, place], rest].concat()
    }
}

/// How often each number, entry and record kind came up, and a run of 1 tick, which `cases` asks of both entries that run.
#[derive(Default)]
struct Seen {
    numbers: [usize; 27],
    entries: [usize; 8],
    kinds: [usize; 6],
    single: usize,
}

impl Seen {
    fn add(&mut self, asked: &Asked, line: &[u32]) {
        let entry = asked.entry;
        self.entries[entry as usize] += 1;
        // The event reader returns no number.
        if entry != 7 {
            self.numbers[line[0] as usize] += 1;
        }
        if entry == 5 || entry == 6 {
            self.single += usize::from(asked.argument == 1);
            for record in line[4..].chunks(5).take(line[3] as usize) {
                self.kinds[record[1] as usize] += 1;
            }
        }
    }

    /// What has to come up, with its name and how often it did.
    fn counts(&self) -> Vec<(&str, usize, usize)> {
        let numbers = (0..=14).chain([26]).map(|number| ("number", number, self.numbers[number]));
        let entries = (1..=7).map(|entry| ("entry", entry, self.entries[entry]));
        let kinds = (1..=5).map(|kind| ("record kind", kind, self.kinds[kind]));
        numbers.chain(entries).chain(kinds).chain([("ticks asked", 1, self.single)]).collect()
    }
}

impl std::fmt::Display for Seen {
    fn fmt(&self, out: &mut std::fmt::Formatter) -> std::fmt::Result {
        let mut before = "";
        for (name, which, count) in self.counts() {
            if name == before {
                write!(out, ", {which}: {count}")?;
            } else {
                write!(out, "{}{name} {which}: {count}", if before.is_empty() { "" } else { "; " })?;
            }
            before = name;
        }
        Ok(())
    }
}

/// Where two outputs part, and the file that replays it.
fn told(got: &str, wanted: &str, replay: String) -> String {
    let (mut printed, mut by_reference) = (got.split_ascii_whitespace(), wanted.split_ascii_whitespace());
    let mut word = 0;
    loop {
        let pair = (printed.next(), by_reference.next());
        if pair.0 != pair.1 || pair.0.is_none() {
            let [printed, by_reference] = [pair.0, pair.1].map(|word| word.unwrap_or("nothing"));
            return format!("word {word} is {printed}, the reference has {by_reference}; {replay}");
        }
        word += 1;
    }
}

/// Keeps an input; the path.
fn keep(name: &str, input: &[u8]) -> String {
    let path = format!("{DIFFERENCES}/{name}");
    fs::create_dir_all(DIFFERENCES).expect("the folder of differences");
    fs::write(&path, input).expect("the difference can be written");
    path
}

struct Random<'a> {
    launch: &'a str,
    tally: Tally,
}

impl Random<'_> {
    fn run(&self, program: &str, input: &[u8]) -> Ended {
        run(Command::new(self.launch).arg(program), input, LIMIT)
    }

    /// The cases whose numbers begin with `first`, through one process.
    fn batch(&mut self, seed: u64, first: u32, batch: &[Asked], seen: &mut Seen) {
        let stream: Vec<u8> = batch.iter().flat_map(Asked::bytes).collect();
        let ended = self.run("cases", &stream);
        let printed = String::from_utf8_lossy(&ended.printed);
        let mut lines = printed.lines();
        for (at, asked) in batch.iter().enumerate() {
            let words = asked.line();
            seen.add(asked, &words);
            let (line, wanted) = (lines.next(), join(&words));
            let name = format!("cases-{seed}-{}", first as usize + at);
            self.tally.record(&name, line == Some(&wanted), || {
                let path = keep(&name, &asked.bytes());
                told(line.unwrap_or(""), &wanted, format!("entry {}, tests/launch cases <{path}", asked.entry))
            });
            if line.is_none() {
                // The program ended in the case just kept, so those after it were not run.
                self.tally.failed += batch.len() - at - 1;
                break;
            }
        }
        // Counted where it fails only, so that what passed are cases.
        if !ended.good() || lines.next().is_some() {
            let told = || format!("ended with {}, or printed more lines than cases", ended.how());
            self.tally.record(&format!("cases-{seed}-{first} to {}", first as usize + batch.len() - 1), false, told);
        }
    }

    fn whole(&mut self, seed: u64, number: u32, asked: &Asked) {
        let input = asked.whole();
        let ended = self.run("vault", &input);
        let printed = String::from_utf8_lossy(&ended.printed);
        let wanted = program(&input, Engine::Simple);
        if printed == wanted && ended.good() {
            // It is counted with the stream's cases already.
            return;
        }
        let name = format!("vault-{seed}-{number}");
        let path = keep(&name, &input);
        let replay = format!("ended with {}, ./run {path}", ended.how());
        self.tally.record(&name, false, || told(&printed, &wanted, replay));
    }

    fn part(&mut self, seed: u64, count: u32) -> Seen {
        let mut r = Rng(seed);
        let mut seen = Seen::default();
        let mut fresh_runs = 0;
        let mut whole = 0;
        for first in (0..count).step_by(BATCH as usize) {
            let batch: Vec<Asked> = (first..count.min(first + BATCH)).map(|_| Asked::random(&mut r)).collect();
            self.batch(seed, first, &batch, &mut seen);
            for (number, asked) in (first..).zip(&batch).filter(|(_, asked)| asked.entry == 5) {
                if fresh_runs % WHOLE_SHARE == 0 {
                    self.whole(seed, number, asked);
                    whole += 1;
                }
                fresh_runs += 1;
            }
        }
        println!("seed {seed}: {count} cases, {whole} of them through vault too; {seen}");
        seen
    }
}

fn main() {
    let args: Vec<String> = std::env::args().collect();
    let count = |at: usize| args[at].parse::<u32>().expect("a count of cases");
    let clock = || SystemTime::now().duration_since(SystemTime::UNIX_EPOCH).expect("a time after 1970").as_nanos() as u64;
    let fresh_seed = args.get(4).map_or_else(clock, |seed| seed.parse().expect("a seed"));
    let mut random = Random { launch: &args[1], tally: Tally::default() };
    if count(2) > 0 {
        let seen = random.part(FIXED_SEED, count(2));
        for (name, which, _) in seen.counts().into_iter().filter(|&(_, _, count)| count == 0) {
            random.tally.record(&format!("{name} {which}"), false, || "never came up".to_string());
        }
    }
    if count(3) > 0 {
        random.part(fresh_seed, count(3));
    }
    random.tally.close();
}
