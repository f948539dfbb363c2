//! `speed PROGRAM [NAME]`: times each workload (or the one named) in the built program `bench` and in the reference's engines,
//! pass by pass in turn, and prints nanoseconds a tick or call, the best of all passes, and the ratio to `fast`.
use reference::workloads::{all, state_before, Mode, Workload, TRACE_WORDS};
use reference::{fast, fresh, run_with, Engine, State};
use std::hint::black_box;
use std::io::{BufRead, BufReader, Write};
use std::process::{Child, ChildStdin, ChildStdout, Command, Stdio};
use std::time::{Duration, Instant};

/// What a pass came to: the sum of the numbers returned, of the records, and the last tick.
type Came = (u64, u64, u64);

/// The built program, with a workload read.
struct Proved {
    child: Child,
    input: ChildStdin,
    output: BufReader<ChildStdout>,
}

impl Proved {
    fn start(program: &str, w: &Workload) -> Proved {
        let (mode, ticks, calls, before) = match w.mode {
            Mode::Run { ticks, calls } => (1, ticks, calls, 0),
            Mode::Same { before, calls } => (2, 1, calls, before),
            Mode::Check { calls } => (3, 0, calls, 0),
        };
        let mut child = Command::new(program)
            .stdin(Stdio::piped())
            .stdout(Stdio::piped())
            .spawn()
            .expect("the program starts");
        let mut input = child.stdin.take().expect("standard input");
        let output = BufReader::new(child.stdout.take().expect("standard output"));
        for word in [mode, ticks, calls, before, w.plan.len() as u32, w.events.len() as u32] {
            input.write_all(&word.to_le_bytes()).expect("the head");
        }
        input.write_all(&w.plan).expect("the plan");
        input.write_all(&w.events).expect("the events");
        Proved { child, input, output }
    }

    fn pass(&mut self) -> Came {
        self.input.write_all(b".").expect("a byte");
        self.input.flush().expect("a byte");
        let mut line = String::new();
        self.output.read_line(&mut line).expect("a line");
        let numbers: Vec<u64> = line.split_whitespace().map(|n| n.parse().expect("a number")).collect();
        (numbers[0], numbers[1], numbers[2])
    }

    fn end(self) {
        let Proved { mut child, input, .. } = self;
        drop(input);
        child.wait().expect("the program ends");
    }
}

fn reference_pass(engine: Engine, w: &Workload, begin: &State, trace: &mut [u32]) -> Came {
    let mut came = (0, 0, 0);
    let mut state = begin.clone();
    let (ticks, calls) = match w.mode {
        Mode::Run { ticks, calls } => (ticks, calls),
        Mode::Same { calls, .. } => (1, calls),
        Mode::Check { calls } => {
            for _ in 0..calls {
                came.0 += u64::from(black_box(fast::check_plan(black_box(&w.plan))).0);
            }
            return came;
        }
    };
    for _ in 0..calls {
        if let Mode::Same { .. } = w.mode {
            state.clone_from(black_box(begin));
        }
        let out = run_with(engine, state, &w.plan, &w.events, ticks, trace);
        state = out.state;
        came.0 += u64::from(out.number);
        came.1 += u64::from(out.records);
    }
    came.2 = u64::from(black_box(&state).tick);
    came
}

/// The best time of a unit so far.
fn time(best: &mut f64, units: f64, pass: impl FnOnce() -> Came) -> Came {
    let start = Instant::now();
    let came = pass();
    *best = best.min(start.elapsed().as_nanos() as f64 / units);
    came
}

fn main() {
    let program = std::env::args().nth(1).expect("usage: speed PROGRAM [NAME]");
    let only = std::env::args().nth(2);
    println!("| workload | unit | proved, ns | `fast`, ns | `jump`, ns | proved / `fast` | what |");
    println!("|---|---|---|---|---|---|---|");
    for w in all().iter().filter(|w| only.as_deref().is_none_or(|name| name == w.name)) {
        let (unit, units, begin) = match w.mode {
            Mode::Run { ticks, calls } => ("tick", f64::from(ticks) * f64::from(calls), fresh(&w.plan).2),
            Mode::Same { before, calls } => ("call", f64::from(calls), state_before(w, before)),
            Mode::Check { calls } => ("call", f64::from(calls), fresh(&w.plan).2),
        };
        let mut trace = vec![0; TRACE_WORDS];
        let mut proved = Proved::start(&program, w);
        let (mut ours, mut fast, mut jump) = (f64::MAX, f64::MAX, f64::MAX);
        let begun = Instant::now();
        let mut passes = 0;
        while passes < 3 || begun.elapsed() < Duration::from_secs(2) {
            let wanted = time(&mut fast, units, || reference_pass(Engine::Fast, w, &begin, &mut trace));
            time(&mut jump, units, || reference_pass(Engine::Jump, w, &begin, &mut trace));
            let came = time(&mut ours, units, || proved.pass());
            assert_eq!(came, wanted, "{}: the engines differ", w.name);
            passes += 1;
        }
        proved.end();
        println!("| {} | {unit} | {ours:.1} | {fast:.1} | {jump:.1} | {:.2} | {} |", w.name, ours / fast, w.what);
    }
}
