//! A site once more: each station has its own events, and the stations agree by messages over a line.

use crate::script::Call;
use crate::table::{listed, Graph};
use std::collections::{BTreeMap, BTreeSet, VecDeque};
use std::fmt;

/// The stations that a line has pairs for.
const STATIONS: usize = 8;

#[derive(Clone, Debug, PartialEq)]
pub struct Answer {
    pub event: usize,
    pub number: u32,
    pub named: usize,
}

/// What a call that is not refused comes to.
#[derive(Clone, Debug, PartialEq)]
pub enum Outcome {
    Started,
    Open,
    NothingWaits,
    Carried,
    Answered(Answer),
    Settled { answers: Vec<Answer>, messages: usize },
    Work { enabled: Vec<usize>, owed: Vec<usize> },
    Owed(Vec<usize>),
}

impl Outcome {
    pub fn answers(&self) -> &[Answer] {
        match self {
            Outcome::Answered(answer) => std::slice::from_ref(answer),
            Outcome::Settled { answers, .. } => answers,
            _ => &[],
        }
    }
}

/// The outcome, or the number of the refusal.
pub type Told = Result<Outcome, u8>;

impl fmt::Display for Answer {
    fn fmt(&self, f: &mut fmt::Formatter) -> fmt::Result {
        write!(f, "{} {} {}", self.event, self.number, self.named)
    }
}

impl fmt::Display for Outcome {
    fn fmt(&self, f: &mut fmt::Formatter) -> fmt::Result {
        match self {
            Outcome::Started => write!(f, "started"),
            Outcome::Open => write!(f, "open"),
            Outcome::NothingWaits => write!(f, "nothing waits"),
            Outcome::Carried => write!(f, "carried"),
            Outcome::Answered(answer) => write!(f, "answer {answer}"),
            Outcome::Settled { answers, messages } => {
                write!(f, "{} answers, {messages} messages", answers.len())?;
                for (before, answer) in answers.iter().enumerate() {
                    write!(f, "{} {answer}", if before == 0 { ':' } else { ';' })?;
                }
                Ok(())
            }
            Outcome::Work { enabled, owed } => write!(f, "enabled{}; owed{}", listed(enabled), listed(owed)),
            Outcome::Owed(owed) => write!(f, "owed{}", listed(owed)),
        }
    }
}

#[derive(Clone, Copy)]
enum Message {
    /// Asks for the lock of the event.
    Ask(usize),
    /// Grants the lock of the event, with its marks.
    Grant(usize, u8),
    /// Settles the request for the event, accepted or not.
    Settle(usize, bool),
}

/// The messages that wait, by pairs of stations.
struct Line {
    /// Of the pair from a to b at 8a + b, oldest first.
    pairs: Vec<VecDeque<Message>>,
    /// The most messages that a pair may hold.
    limit: usize,
    /// The most messages that a pair has held so far.
    fullest: usize,
    /// The messages taken so far.
    taken: usize,
}

impl Line {
    fn new(limit: usize) -> Line {
        Line { pairs: vec![VecDeque::new(); STATIONS * STATIONS], limit, fullest: 0, taken: 0 }
    }

    /// The pairs that hold a message, lowest first.
    fn waiting(&self) -> impl Iterator<Item = (usize, usize)> + '_ {
        let held = (0..self.pairs.len()).filter(|&pair| !self.pairs[pair].is_empty());
        held.map(|pair| (pair / STATIONS, pair % STATIONS))
    }

    /// Posts all the messages, each to its station, or none of them where a pair would hold too many.
    fn post(&mut self, from: usize, posts: &[(usize, Message)]) -> bool {
        let pair = |to: usize| STATIONS * from + to;
        let added = |to: usize| posts.iter().filter(|post| post.0 == to).count();
        if posts.iter().any(|&(to, _)| self.pairs[pair(to)].len() + added(to) > self.limit) {
            return false;
        }
        for &(to, message) in posts {
            self.pairs[pair(to)].push_back(message);
            self.fullest = self.fullest.max(self.pairs[pair(to)].len());
        }
        true
    }

    fn take(&mut self, from: usize, to: usize) -> Option<Message> {
        let message = self.pairs[STATIONS * from + to].pop_front();
        self.taken += usize::from(message.is_some());
        message
    }
}

/// An open request.
#[derive(Clone)]
struct Request {
    event: usize,
    /// The locks had so far, with the marks seen.
    seen: BTreeMap<usize, u8>,
}

impl Request {
    fn lowest_missing(&self, graph: &Graph) -> Option<usize> {
        graph.lock_set(self.event).into_iter().find(|event| !self.seen.contains_key(event))
    }
}

/// An event as its owner has it.
#[derive(Clone)]
struct Record {
    marks: u8,
    /// The station that has the lock.
    holder: Option<usize>,
    waiting: BTreeSet<usize>,
}

#[derive(Clone)]
struct Station {
    request: Option<Request>,
    own: BTreeMap<usize, Record>,
}

impl Station {
    fn new(graph: &Graph, number: usize) -> Station {
        let own = graph.events.iter().enumerate().filter(|(_, event)| event.0 == number);
        let own = own.map(|(event, &(_, marks))| (event, Record { marks, holder: None, waiting: BTreeSet::new() }));
        Station { request: None, own: own.collect() }
    }
}

/// What a station's step leaves: the station, what it posts, and its answer.
struct Step {
    station: Station,
    posts: Vec<(usize, Message)>,
    answer: Option<Answer>,
}

pub struct Site<'g> {
    graph: &'g Graph,
    open: bool,
    stations: Vec<Station>,
    line: Line,
}

impl<'g> Site<'g> {
    /// A closed site over a line with the limit.
    pub fn new(graph: &'g Graph, limit: usize) -> Site<'g> {
        let stations = (0..graph.stations).map(|number| Station::new(graph, number)).collect();
        Site { graph, open: false, stations, line: Line::new(limit) }
    }

    pub fn call(&mut self, call: Call) -> Told {
        match call {
            Call::Start => self.start(),
            _ if !self.open => Err(13),
            Call::Request { station, event } => self.request(station, event),
            Call::Carry { from, to } => self.carry(from, to),
            Call::Settle => self.settle(),
            Call::WorkList => self.work_list(),
            Call::Tally { station } => self.tally(station),
        }
    }

    /// The pairs that hold a message, lowest first.
    pub fn waiting(&self) -> Vec<(usize, usize)> {
        self.line.waiting().collect()
    }

    /// The events that could be requested: those of stations that rest.
    pub fn requestable(&self) -> Vec<usize> {
        let resting = self.stations.iter().filter(|station| station.request.is_none());
        resting.flat_map(|station| station.own.keys().copied()).collect()
    }

    /// The marks of all events, as their owners have them.
    pub fn marks(&self) -> Vec<u8> {
        let events = self.graph.events.iter().enumerate();
        events.map(|(event, &(owner, _))| self.stations[owner].own[&event].marks).collect()
    }

    /// The most messages that a pair has held.
    pub fn fullest(&self) -> usize {
        self.line.fullest
    }

    /// The messages that have been carried.
    pub fn carried(&self) -> usize {
        self.line.taken
    }

    fn known(&self, station: usize) -> Result<(), u8> {
        if station < self.stations.len() { Ok(()) } else { Err(8) }
    }

    fn start(&mut self) -> Told {
        if self.open || self.line.waiting().next().is_some() {
            return Err(13);
        }
        self.open = true;
        Ok(Outcome::Started)
    }

    fn request(&mut self, station: usize, event: usize) -> Told {
        self.known(station)?;
        let &(owner, _) = self.graph.events.get(event).ok_or(9)?;
        if owner != station {
            return Err(10);
        }
        if self.stations[station].request.is_some() {
            return Err(11);
        }
        let request = Request { event, seen: BTreeMap::new() };
        let lowest = request.lowest_missing(self.graph).ok_or(14)?;
        if !self.line.post(station, &[(self.graph.owner(lowest), Message::Ask(lowest))]) {
            return Err(14);
        }
        self.stations[station].request = Some(request);
        Ok(Outcome::Open)
    }

    fn carry(&mut self, from: usize, to: usize) -> Told {
        self.known(from)?;
        self.known(to)?;
        let Some(message) = self.line.take(from, to) else {
            return Ok(Outcome::NothingWaits);
        };
        let step = self.step(from, to, message).ok_or(14)?;
        if !self.line.post(to, &step.posts) {
            return Err(14);
        }
        self.stations[to] = step.station;
        Ok(step.answer.map_or(Outcome::Carried, Outcome::Answered))
    }

    fn settle(&mut self) -> Told {
        let (mut answers, mut messages) = (Vec::new(), 0);
        loop {
            let Some((from, to)) = self.line.waiting().next() else {
                return Ok(Outcome::Settled { answers, messages });
            };
            if let Outcome::Answered(answer) = self.carry(from, to)? {
                answers.push(answer);
            }
            messages += 1;
        }
    }

    fn work_list(&self) -> Told {
        if self.line.waiting().next().is_some() {
            return Err(12);
        }
        let marks = self.marks();
        Ok(Outcome::Work { enabled: self.graph.enabled(&marks), owed: self.graph.owed(&marks) })
    }

    fn tally(&self, station: usize) -> Told {
        self.known(station)?;
        let own = self.stations[station].own.iter();
        Ok(Outcome::Owed(own.filter(|(_, record)| record.marks & 6 == 6).map(|(&event, _)| event).collect()))
    }

    /// The step of a station that receives the message; there is none for a stray one.
    fn step(&self, from: usize, to: usize, message: Message) -> Option<Step> {
        let graph = self.graph;
        let mut station = self.stations[to].clone();
        let mut posts = Vec::new();
        let mut answer = None;
        match message {
            Message::Ask(event) => {
                let record = station.own.get_mut(&event)?;
                if record.holder.is_none() {
                    record.holder = Some(from);
                    posts.push((from, Message::Grant(event, record.marks)));
                } else {
                    record.waiting.insert(from);
                }
            }
            Message::Grant(event, marks) => {
                let request = station.request.as_mut()?;
                if request.lowest_missing(graph) != Some(event) || graph.owner(event) != from {
                    return None;
                }
                request.seen.insert(event, marks);
                if let Some(missing) = request.lowest_missing(graph) {
                    posts.push((graph.owner(missing), Message::Ask(missing)));
                } else {
                    let given = decided(graph, request);
                    let settle = Message::Settle(given.event, given.number == 0);
                    posts.extend(graph.lock_owners(given.event).into_iter().map(|owner| (owner, settle)));
                    station.request = None;
                    answer = Some(given);
                }
            }
            Message::Settle(event, accepted) => {
                if graph.events.get(event)?.0 != from {
                    return None;
                }
                for (&own, record) in &mut station.own {
                    if accepted {
                        record.marks = left(graph, event, own, record.marks);
                    }
                    if record.holder == Some(from) {
                        record.holder = record.waiting.pop_first();
                        posts.extend(record.holder.map(|next| (next, Message::Grant(own, record.marks))));
                    }
                }
            }
        }
        Some(Step { station, posts, answer })
    }
}

/// The answer to a request that has all its locks. Events whose marks it has not seen count as excluded.
fn decided(graph: &Graph, request: &Request) -> Answer {
    let mut marks = vec![0; graph.events.len()];
    for (&event, &seen) in &request.seen {
        marks[event] = seen;
    }
    let (number, named) = graph.decide(&marks, request.event);
    Answer { event: request.event, number, named }
}

/// What doing an event leaves of one event's marks.
fn left(graph: &Graph, done: usize, event: usize, marks: u8) -> u8 {
    let related = |letter| graph.relations.contains(&(letter, done, event));
    let executed = marks & 1 != 0 || event == done;
    let pending = marks & 2 != 0 && event != done || related('r');
    let included = (marks & 4 != 0 || related('i')) && !related('x');
    u8::from(executed) + 2 * u8::from(pending) + 4 * u8::from(included)
}
