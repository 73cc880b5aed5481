//! Following a plan as it is worked: one event after a log of events, of which two words of jobs are told.

use crate::rules::{check_offered, is_in, members, pairs_of, refuse, Given, Problem, Refusal};

/// The place of words that no log has; a job's number is a byte.
const NO_LOG: u64 = 65_535;

/// The start or the finish of a job.
#[derive(Clone, Copy, PartialEq, Eq, Debug)]
pub enum Event {
    Start(usize),
    Finish(usize),
}

/// The event with this number; no other number is one.
fn event_of(number: u8, job: usize) -> Option<Event> {
    match number {
        0 => Some(Event::Start(job)),
        1 => Some(Event::Finish(job)),
        _ => None,
    }
}

/// What the foreman hands in: the jobs that have started and those that have finished, and an event of a job.
#[derive(Clone, Copy)]
pub struct Watch {
    pub started: u64,
    pub finished: u64,
    pub event: u8,
    pub job: u8,
}

/// What he is shown.
#[derive(Clone, Copy, PartialEq, Eq, Debug)]
pub struct Screen {
    pub started: u64,
    pub finished: u64,
    pub facts: u64,
    pub may_start: u64,
}

/// The events of a log, as two words of jobs, and the facts after it.
struct Log {
    started: u64,
    finished: u64,
    facts: u64,
}

impl Log {
    /// Whether the event has come; a job without a bit in the words has none.
    fn has(&self, event: Event) -> bool {
        let (word, job) = match event {
            Event::Start(job) => (self.started, job),
            Event::Finish(job) => (self.finished, job),
        };
        word.checked_shr(job as u32).is_some_and(|rest| rest & 1 == 1)
    }
}

/// A valid plan, and the pairs that bind its jobs.
pub struct Worked<'a> {
    pub problem: Problem<'a>,
    pub starts: &'a [u16],
    pub pairs: Vec<(u8, u8)>,
}

impl<'a> Worked<'a> {
    pub fn new(problem: Problem<'a>, starts: &'a [u16]) -> Self {
        let pairs = pairs_of(&problem, starts);
        Worked { problem, starts, pairs }
    }

    fn in_plan(&self, job: usize) -> bool {
        self.starts.get(job).is_some_and(|&start| is_in(start))
    }

    /// The jobs that bind a job: the firsts of the pairs in which it is the second.
    pub fn binding(&self, job: usize) -> impl Iterator<Item = usize> + '_ {
        self.pairs.iter().filter(move |pair| pair.1 as usize == job).map(|pair| pair.0 as usize)
    }

    /// A job of the plan may start once, when every job that binds it has finished, and finish once, after its start.
    fn allows(&self, log: &Log, event: Event) -> bool {
        let in_turn = match event {
            Event::Start(job) => {
                self.in_plan(job) && self.binding(job).all(|first| log.has(Event::Finish(first)))
            }
            Event::Finish(job) => log.has(Event::Start(job)),
        };
        in_turn && !log.has(event)
    }

    /// One event more; a finish deletes, then adds.
    fn let_come(&self, log: &mut Log, event: Event) {
        match event {
            Event::Start(job) => log.started |= 1 << job,
            Event::Finish(job) => {
                let done = &self.problem.jobs[job];
                log.finished |= 1 << job;
                log.facts = log.facts & !done.deletions | done.additions;
            }
        }
    }

    /// An allowed log with these words, if there is one: from the empty log on, what the words ask for comes as soon
    /// as it is allowed. An event waits only for others to have come, and what has come stays; so, once allowed, it is
    /// allowed until it comes, and the order in which events are tried makes no difference. Of an allowed log with these
    /// words each event comes here in the end: when those before it have come, it is allowed.
    fn log_of(&self, started: u64, finished: u64) -> Option<Log> {
        let asked: Vec<Event> =
            members(started).map(Event::Start).chain(members(finished).map(Event::Finish)).collect();
        let mut log = Log { started: 0, finished: 0, facts: self.problem.opening };
        while let Some(&event) = asked.iter().find(|&&event| self.allows(&log, event)) {
            self.let_come(&mut log, event);
        }
        asked.iter().all(|&event| log.has(event)).then_some(log)
    }

    fn shown(&self, log: &Log) -> Screen {
        let starting = (0..self.starts.len()).filter(|&job| self.allows(log, Event::Start(job)));
        let may_start = starting.fold(0, |word, job| word | 1 << job);
        Screen { started: log.started, finished: log.finished, facts: log.facts, may_start }
    }

    /// The screen after the event, or refusal 19: of the words, then of the event.
    pub fn after(&self, watch: &Watch) -> Result<Screen, Refusal> {
        let Some(mut log) = self.log_of(watch.started, watch.finished) else {
            return refuse(19, NO_LOG);
        };
        match event_of(watch.event, watch.job as usize).filter(|&event| self.allows(&log, event)) {
            Some(event) => self.let_come(&mut log, event),
            None => return refuse(19, watch.job as u64),
        }
        Ok(self.shown(&log))
    }
}

/// What is said to an event of an offered plan, and what is shown: on refusal the words as they came, nothing else.
pub fn follow(given: &Given, starts: &[u16], watch: &Watch) -> (Result<u64, Refusal>, Screen) {
    let after =
        check_offered(given, starts).and_then(|(problem, starts)| Worked::new(problem, starts).after(watch));
    let unchanged = Screen { started: watch.started, finished: watch.finished, facts: 0, may_start: 0 };
    (after.map(|_| 0), after.unwrap_or(unchanged))
}
