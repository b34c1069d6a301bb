//! One table once more: marks as a byte an event, relations as a list.

use std::collections::BTreeSet;

/// A graph as its lines give it.
pub struct Graph {
    pub stations: usize,
    pub release: u32,
    /// Owner and marks of each event.
    pub events: Vec<(usize, u8)>,
    /// Letter, first and second event.
    pub relations: Vec<(char, usize, usize)>,
}

impl Graph {
    /// Reads a text that is known to be in order.
    pub fn of(text: &str) -> Graph {
        let mut graph = Graph { stations: 0, release: 0, events: Vec::new(), relations: Vec::new() };
        for line in text.lines() {
            let numbers: Vec<usize> = line[1..].split_whitespace().map(|word| word.parse().unwrap_or(0)).collect();
            match line.chars().next() {
                Some('s') => (graph.stations, graph.release) = (numbers[0], numbers[1] as u32),
                Some('e') => graph.events.push((numbers[1], numbers[2] as u8)),
                Some(letter) => graph.relations.push((letter, numbers[0], numbers[1])),
                None => {}
            }
        }
        graph
    }

    pub fn owner(&self, event: usize) -> usize {
        self.events[event].0
    }

    /// The marking at the start.
    pub fn start(&self) -> Vec<u8> {
        self.events.iter().map(|event| event.1).collect()
    }

    fn sources(&self, letter: char, target: usize) -> impl Iterator<Item = usize> + '_ {
        self.relations.iter().filter(move |r| r.0 == letter && r.2 == target).map(|r| r.1)
    }

    fn targets(&self, letter: char, source: usize) -> impl Iterator<Item = usize> + '_ {
        self.relations.iter().filter(move |r| r.0 == letter && r.1 == source).map(|r| r.2)
    }

    /// The number and the named event.
    pub fn decide(&self, marks: &[u8], event: usize) -> (u32, usize) {
        if marks[event] & 4 == 0 {
            return (21, event);
        }
        if let Some(named) = self.sources('c', event).filter(|&a| marks[a] & 5 == 4).min() {
            return (22, named);
        }
        if let Some(named) = self.sources('m', event).filter(|&a| marks[a] & 6 == 6).min() {
            return (23, named);
        }
        (0, event)
    }

    pub fn perform(&self, marks: &mut [u8], event: usize) {
        marks[event] = (marks[event] | 1) & !2;
        for target in self.targets('r', event) {
            marks[target] |= 2;
        }
        for target in self.targets('i', event) {
            marks[target] |= 4;
        }
        for target in self.targets('x', event) {
            marks[target] &= !4;
        }
    }

    pub fn enabled(&self, marks: &[u8]) -> Vec<usize> {
        (0..marks.len()).filter(|&event| self.decide(marks, event).0 == 0).collect()
    }

    pub fn owed(&self, marks: &[u8]) -> Vec<usize> {
        (0..marks.len()).filter(|&event| marks[event] & 6 == 6).collect()
    }

    /// The events that deciding the event reads and doing it changes.
    pub fn lock_set(&self, event: usize) -> BTreeSet<usize> {
        let sources = ['c', 'm'].into_iter().flat_map(|letter| self.sources(letter, event));
        let targets = ['r', 'i', 'x'].into_iter().flat_map(|letter| self.targets(letter, event));
        std::iter::once(event).chain(sources).chain(targets).collect()
    }

    /// The stations that own an event of the lock set.
    pub fn lock_owners(&self, event: usize) -> BTreeSet<usize> {
        self.lock_set(event).into_iter().map(|locked| self.owner(locked)).collect()
    }
}

/// What `fompaqi table` should print of the script, whose lines are all calls.
pub fn play(graph: &Graph, script: &[String]) -> String {
    let mut marks = graph.start();
    let mut printed = String::new();
    for call in script {
        let outcome = match call.strip_prefix("q ").and_then(|word| word.parse::<usize>().ok()) {
            Some(event) if event >= graph.events.len() => "refused 9".to_string(),
            Some(event) => {
                let (number, named) = graph.decide(&marks, event);
                if number == 0 {
                    graph.perform(&mut marks, event);
                }
                format!("answer {event} {number} {named}")
            }
            None => format!("enabled{}; owed{}", listed(&graph.enabled(&marks)), listed(&graph.owed(&marks))),
        };
        printed += &format!("{call} -> {outcome}\n");
    }
    printed
}

/// The events of a list, each after a space, or that there is none.
pub fn listed(events: &[usize]) -> String {
    let list: String = events.iter().map(|event| format!(" {event}")).collect();
    if list.is_empty() { " none".to_string() } else { list }
}
