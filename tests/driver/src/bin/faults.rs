//! `faults LAUNCH`: runs the built program `vault` on damaged inputs, and with its input or output closed, full or gone. It must
//! print what document 01 says of the bytes that it could read, and end by itself, soon and without a word on standard error.
//! LAUNCH is the script that starts a built program.
use driver::{run, Tally};
use reference::gen::{sample, to_bytes, Rng};
use reference::{program, Engine, EVENT_BYTES, PLAN_BYTES};
use std::os::unix::process::ExitStatusExt;
use std::process::Command;
use std::sync::atomic::{AtomicUsize, Ordering};
use std::thread;
use std::time::Duration;

/// A run that takes longer hangs.
const LIMIT: Duration = Duration::from_secs(20);
const LARGE: usize = 10_000_000;
/// The signal by which the system ends a program that writes to a pipe nobody reads.
const BROKEN_PIPE: i32 = 13;

struct Fault {
    name: String,
    /// The command line of a shell that starts the program (`"$0" "$1"`) with other ends than usual.
    shell: Option<&'static str>,
    input: Vec<u8>,
    wanted: String,
    /// The signal that may end it.
    signal: Option<i32>,
}

impl Fault {
    fn of_input(name: impl Into<String>, input: Vec<u8>) -> Fault {
        let wanted = program(&input, Engine::Simple);
        Fault { name: name.into(), shell: None, input, wanted, signal: None }
    }

    /// A way to start it on the sample, whatever of that it can read, and what it prints then.
    fn of_start(name: &str, shell: &'static str, wanted: String) -> Fault {
        Fault { name: name.to_string(), shell: Some(shell), input: whole_sample(), wanted, signal: None }
    }

    /// What is wrong.
    fn told(&self, launch: &str) -> Option<String> {
        let mut command = match self.shell {
            None => Command::new(launch),
            Some(line) => {
                let mut command = Command::new("bash");
                command.args(["-c", line, launch]);
                command
            }
        };
        let ended = run(command.arg("vault"), &self.input, LIMIT);
        let signal = ended.status.and_then(|status| status.signal());
        let by_itself = ended.good() || (signal.is_some() && signal == self.signal);
        if by_itself && ended.complaint.is_empty() && ended.printed == self.wanted.as_bytes() {
            return None;
        }
        let [printed, complaint] = [&ended.printed, &ended.complaint].map(|text| String::from_utf8_lossy(text));
        let how = ended.how();
        Some(format!("ended with {how}, complained '{complaint}', printed\n{printed}where due is\n{}", self.wanted))
    }
}

/// An input with a true head.
fn input(ticks: u32, plan: &[u8], events: &[u8]) -> Vec<u8> {
    let head = to_bytes(&[ticks, plan.len() as u32, events.len() as u32]);
    [&head[..], plan, events].concat()
}

/// The bytes of examples/sample.
fn whole_sample() -> Vec<u8> {
    input(12, &sample().bytes(), &[])
}

fn noise(size: usize) -> Vec<u8> {
    let mut r = Rng(1);
    (0..size).map(|_| r.next() as u8).collect()
}

/// Cut short, one bit flipped, one byte too many.
fn damaged() -> Vec<Fault> {
    let whole = whole_sample();
    let mut faults = vec![];
    for size in 0..whole.len() {
        faults.push(Fault::of_input(format!("the sample's first {size} bytes"), whole[..size].to_vec()));
    }
    for bit in 0..8 * whole.len() {
        let mut flipped = whole.clone();
        flipped[bit / 8] ^= 1 << (bit % 8);
        faults.push(Fault::of_input(format!("the sample with bit {} of byte {} flipped", bit % 8, bit / 8), flipped));
    }
    faults.push(Fault::of_input("the sample and one byte", [&whole[..], &[0]].concat()));
    faults.push(Fault::of_input("the sample", whole));
    faults
}

/// Too long, with a head that says so and with one that does not.
fn large() -> Vec<Fault> {
    let plan = sample().bytes();
    let mut faults = vec![];
    for (name, bytes) in [("zeros", vec![0; LARGE]), ("noise", noise(LARGE))] {
        faults.push(Fault::of_input(format!("10 MB of {name} as the plan"), input(12, &bytes, &[])));
        faults.push(Fault::of_input(format!("10 MB of {name} as the events"), input(12, &plan, &bytes)));
        faults.push(Fault::of_input(format!("10 MB of {name}"), bytes));
    }
    for size in PLAN_BYTES - 1..=PLAN_BYTES + 8 {
        faults.push(Fault::of_input(format!("a plan of {size} zeros"), input(12, &vec![0; size], &[])));
    }
    for size in (EVENT_BYTES - 1..=EVENT_BYTES + 1).chain(EVENT_BYTES + 15..=EVENT_BYTES + 17) {
        faults.push(Fault::of_input(format!("{size} zeros as the events"), input(12, &plan, &vec![0; size])));
    }
    let half = 1 << 31;
    for (name, plan_bytes, event_bytes) in [
        ("the largest plan bytes", u32::MAX, 0),
        ("the largest event bytes", 192, u32::MAX),
        ("sizes whose sum wraps to the sample's", 192 + half, half),
    ] {
        faults.push(Fault::of_input(name, [to_bytes(&[12, plan_bytes, event_bytes]), plan.clone()].concat()));
    }
    faults
}

/// Standard input and output that are no open file or pipe with the whole input.
fn ends() -> Vec<Fault> {
    let printed = || program(&whole_sample(), Engine::Simple);
    let refused = || program(&[], Engine::Simple);
    let nowhere = String::new;
    let mut broken_pipe = Fault::of_start("output to a pipe nobody reads", r#"exec > >(:); wait $!; exec "$0" "$1""#, nowhere());
    broken_pipe.signal = Some(BROKEN_PIPE);
    vec![
        broken_pipe,
        Fault::of_start(
            "output to a pipe nobody reads, and no signal for it",
            r#"trap "" PIPE; exec > >(:); wait $!; exec "$0" "$1""#,
            nowhere(),
        ),
        Fault::of_start("output closed", r#"exec "$0" "$1" >&-"#, nowhere()),
        Fault::of_start("output to a full device", r#"exec "$0" "$1" >/dev/full"#, nowhere()),
        Fault::of_start("input closed", r#"exec "$0" "$1" <&-"#, refused()),
        Fault::of_start("input and output closed", r#"exec "$0" "$1" <&- >&-"#, nowhere()),
        Fault::of_start("input from /dev/null", r#"exec "$0" "$1" </dev/null"#, refused()),
        Fault::of_start("input from a folder", r#"exec "$0" "$1" </"#, refused()),
        Fault::of_start("input of zeros without end", r#"exec "$0" "$1" </dev/zero"#, refused()),
        Fault::of_start("input with a pause inside", r#"exec "$0" "$1" < <(head -c 101; sleep 0.2; cat)"#, printed()),
    ]
}

fn main() {
    let launch = std::env::args().nth(1).expect("LAUNCH");
    let faults: Vec<Fault> = [damaged(), large(), ends()].into_iter().flatten().collect();
    // A process takes one input, and starting it most of the time: one at a time on each core.
    let next = AtomicUsize::new(0);
    let work = || {
        let mut all_told = vec![];
        while let Some(fault) = faults.get(next.fetch_add(1, Ordering::Relaxed)) {
            all_told.push((fault, fault.told(&launch)));
        }
        all_told
    };
    let cores = thread::available_parallelism().map_or(1, |cores| cores.get());
    let mut tally = Tally::default();
    thread::scope(|scope| {
        let workers: Vec<_> = (0..cores).map(|_| scope.spawn(work)).collect();
        for (fault, told) in workers.into_iter().flat_map(|worker| worker.join().expect("the worker ends")) {
            tally.record(&fault.name, told.is_none(), || told.unwrap_or_default());
        }
    });
    tally.close();
}
