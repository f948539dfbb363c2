//! A run to ask the program `cases` for.
use reference::gen::{to_bytes, PlanFields};
use reference::{run_with, simple, Engine, State};

/// The value of every trace word that `cases` lends.
const LENT: u32 = u32::MAX;
/// Ticks and trace words of a run whose interest is whether it is accepted; no such run here leaves more than 40 records.
const SOME_TICKS: u32 = 20;
pub const SOME_WORDS: usize = 200;

/// A run to ask for, and how the line printed for it must begin.
pub struct Run {
    pub name: String,
    plan: Vec<u8>,
    events: Vec<u8>,
    /// None asks for a fresh start.
    state: Option<State>,
    ticks: u32,
    trace: usize,
    pub wanted: Vec<u32>,
}

impl Run {
    pub fn of(name: &str, plan: &PlanFields) -> Run {
        Run::of_bytes(name, plan.bytes())
    }

    pub fn of_bytes(name: &str, plan: Vec<u8>) -> Run {
        let (events, wanted) = (vec![], vec![]);
        Run { name: name.to_string(), plan, events, state: None, ticks: SOME_TICKS, trace: SOME_WORDS, wanted }
    }

    pub fn events(self, words: &[u32]) -> Run {
        Run { events: to_bytes(words), ..self }
    }

    pub fn from(self, state: State) -> Run {
        Run { state: Some(state), ..self }
    }

    pub fn asks(self, ticks: u32, trace: usize) -> Run {
        Run { ticks, trace, ..self }
    }

    /// With place 0: the number, the ticks run, the records.
    pub fn gives(self, number: u32, ticks: u32, records: u32) -> Run {
        Run { wanted: vec![number, 0, ticks, records], ..self }
    }

    /// With 0 all asked ticks are run. With 1..13 every word is fixed: the trace as it was lent, the state as it was given.
    pub fn says(self, number: u32, place: u32) -> Run {
        let mut wanted = vec![number, place];
        if number == 0 {
            wanted.push(self.ticks);
        } else {
            wanted.extend([0, 0]);
            wanted.extend(vec![LENT; self.trace]);
            wanted.extend(self.start().to_words());
        }
        Run { wanted, ..self }
    }

    fn start(&self) -> State {
        self.state.clone().unwrap_or_else(|| simple::fresh(&self.plan).2)
    }

    /// The case as it stands in the stream.
    pub fn bytes(&self) -> Vec<u8> {
        let state = self.state.as_ref().map_or(vec![], State::to_words);
        let entry = if self.state.is_some() { 6 } else { 5 };
        let sizes = [self.trace, self.plan.len(), self.events.len(), state.len()].map(|size| size as u32);
        let head = [&[entry, self.ticks][..], &sizes[..]].concat();
        [to_bytes(&head), self.plan.clone(), self.events.clone(), to_bytes(&state)].concat()
    }

    /// The line by the reference kernel.
    pub fn line(&self) -> Vec<u32> {
        let mut trace = vec![LENT; self.trace];
        let out = run_with(Engine::Simple, self.start(), &self.plan, &self.events, self.ticks, &mut trace);
        [vec![out.number, out.place, out.ticks_run, out.records], trace, out.state.to_words()].concat()
    }
}
