//! What to compare on: graph texts, whole and damaged in a few places, and scripts.

use crate::script::Call;
use crate::site::Site;
use crate::table::Graph;
use crate::MEMORY;

/// Lines that are no call of a site.
const NO_CALLS: &[&str] = &[
    "b 0", "q", "q 0", "q 0 256", "q 00 1", "q 0 0 0", "q  0 0", "q 0 0 ", " q 0 0", "t 0", "t 0 1000", "t 0,1",
    "t 0 -1", "z 1", "Z", "w\r", "w w", "y", "y 0 0", "y +1", "k", "q0 0", "\t", "b #",
];

pub struct Source {
    state: u64,
}

impl Source {
    pub fn new(seed: u64) -> Source {
        Source { state: seed.wrapping_mul(2).wrapping_add(1) }
    }

    /// A number below the bound.
    fn below(&mut self, bound: usize) -> usize {
        self.state ^= self.state << 13;
        self.state ^= self.state >> 7;
        self.state ^= self.state << 17;
        ((self.state >> 11) % bound as u64) as usize
    }

    fn one_in(&mut self, n: usize) -> bool {
        self.below(n) == 0
    }

    fn pick<T: Copy>(&mut self, items: &[T]) -> T {
        items[self.below(items.len())]
    }

    pub fn text(&mut self) -> Vec<u8> {
        let mut lines = self.lines();
        for _ in 0..self.pick(&[0, 0, 1, 1, 2]) {
            self.damage_lines(&mut lines);
        }
        let mut text = lines.join("\n").into_bytes();
        if !self.one_in(4) {
            text.push(10);
        }
        for _ in 0..self.pick(&[0, 0, 0, 1, 2]) {
            self.damage_bytes(&mut text);
        }
        if self.one_in(60) {
            let fill = 65_530 + self.below(12);
            while text.len() < fill {
                text.push(b'0');
            }
        }
        text
    }

    /// A text that is in order.
    pub fn whole_text(&mut self) -> String {
        loop {
            let text = self.lines().join("\n") + "\n";
            if crate::reader::verdict(text.as_bytes()).starts_with("ok") {
                return text;
            }
        }
    }

    /// Calls of a table whose graph has so many events.
    pub fn table_script(&mut self, events: usize) -> Vec<String> {
        let calls = 1 + self.below(40);
        let mut script = Vec::new();
        for _ in 0..calls {
            script.push(match self.below(6) {
                0 => "w".to_string(),
                1 if self.one_in(4) => format!("q {}", self.below(256)),
                _ => format!("q {}", self.below(events)),
            });
        }
        script
    }

    /// A text in order for a site: most of its events are included at the start.
    pub fn site_text(&mut self) -> String {
        let events = if self.one_in(10) { 13 + self.below(52) } else { 1 + self.below(12) };
        let wanted = if events > 30 && self.one_in(3) { 512 } else { self.below(3 * events + 1) };
        let stations = self.pick(&[1, 2, 2, 2, 3, 3, 4, 5, 6, 7, 8]);
        self.lines_of(stations, events, wanted, &[4, 4, 4, 4, 5, 6, 7, 0, 1, 2, 3]).join("\n") + "\n"
    }

    /// A script of a site on the graph. Most of its calls can be made as the site then stands, some are refused, and now and
    /// then a line is no call.
    pub fn site_script(&mut self, graph: &Graph) -> String {
        let calls = 30 + self.below(91);
        let start = if self.one_in(20) { self.below(2 * calls) } else { 0 };
        let mut site = Site::new(graph, MEMORY);
        let mut lines = Vec::new();
        for before in 0..calls {
            let call = if before == start { Call::Start } else { self.site_call(graph, &site) };
            let _ = site.call(call);
            lines.push(call.to_string());
            if self.one_in(25) {
                lines.push(self.pick(&["", "  ", "#", "# z"]).to_string());
            }
        }
        if self.one_in(50) {
            let at = self.below(lines.len() + 1);
            lines.insert(at, self.pick(NO_CALLS).to_string());
        }
        lines.join("\n") + self.pick(&["", "\n"])
    }

    /// A call of the site as it stands.
    fn site_call(&mut self, graph: &Graph, site: &Site) -> Call {
        let (waiting, requestable) = (site.waiting(), site.requestable());
        let request = |event| Call::Request { station: graph.owner(event), event };
        match self.below(40) {
            0..=21 if !waiting.is_empty() => {
                let (from, to) = self.pick(&waiting);
                Call::Carry { from, to }
            }
            0..=31 if !requestable.is_empty() => request(self.pick(&requestable)),
            32 => request(self.below(graph.events.len())),
            33 => Call::Request { station: self.number_near(graph.stations), event: self.number_near(graph.events.len()) },
            34 => Call::Carry { from: self.number_near(graph.stations), to: self.number_near(graph.stations) },
            35 => Call::Settle,
            36 if self.one_in(4) => Call::Start,
            37 => Call::WorkList,
            _ if waiting.is_empty() && self.one_in(2) => Call::WorkList,
            _ => Call::Tally { station: self.number_near(graph.stations) },
        }
    }

    /// A number of a script that is mostly below the bound.
    fn number_near(&mut self, bound: usize) -> usize {
        match self.below(16) {
            0 => self.below(256),
            1 => bound,
            _ => self.below(bound),
        }
    }

    /// The lines of a text that is mostly in order.
    fn lines(&mut self) -> Vec<String> {
        let events = if self.one_in(12) { 60 + self.below(6) } else { 1 + self.below(9) };
        let wanted = if events > 30 && self.one_in(2) { 508 + self.below(8) } else { self.below(3 * events + 1) };
        let stations = 1 + self.below(8);
        self.lines_of(stations, events, wanted, &[0, 1, 2, 3, 4, 5, 6, 7])
    }

    /// The lines of a text with so many stations and events, at most so many relations, and some of these marks.
    fn lines_of(&mut self, stations: usize, events: usize, wanted: usize, marks: &[u8]) -> Vec<String> {
        let release = self.pick(&[4, 6, 6]);
        let mut lines = vec![format!("s {stations} {release}")];
        for event in 0..events {
            lines.push(format!("e {event} {} {}", self.below(stations), self.pick(marks)));
        }
        let letters = if release == 4 { &['c', 'r', 'i', 'x'][..] } else { &['c', 'm', 'r', 'i', 'x'][..] };
        let mut given = std::collections::HashSet::new();
        for _ in 0..3 * wanted {
            if given.len() == wanted {
                break;
            }
            let (letter, a, b) = (self.pick(letters), self.below(events), self.below(events));
            let slot = if letter == 'x' { 'i' } else { letter };
            if given.insert((slot, a, b)) {
                lines.push(format!("{letter} {a} {b}"));
            }
        }
        lines
    }

    fn damage_lines(&mut self, lines: &mut Vec<String>) {
        if lines.is_empty() {
            return;
        }
        let at = self.below(lines.len());
        match self.below(9) {
            0 => {
                lines.remove(at);
            }
            1 => lines.insert(at, String::new()),
            2 => {
                let again = lines[at].clone();
                lines.insert(self.below(lines.len() + 1).max(at), again);
            }
            3 => {
                let other = self.below(lines.len());
                lines.swap(at, other);
            }
            4 => lines.truncate(at),
            5 => lines.push(format!("{} {} {}", self.pick(&['c', 'm', 'r', 'i', 'x']), self.below(12), self.below(12))),
            6 => lines.push(format!("e {} {} {}", self.below(70), self.below(9), self.below(10))),
            7 => lines[at] = format!("s {} {}", self.below(10), self.below(9)),
            _ => {
                let turned = lines[at].replacen('i', "x", 1);
                lines.push(turned);
            }
        }
    }

    fn damage_bytes(&mut self, text: &mut Vec<u8>) {
        let byte = self.pick(&[b' ', b'0', b'1', b'9', b'-', b'e', b's', b'c', b'z', b'~', 10, 9, 13, 0, 127, 128, 255]);
        let at = self.below(text.len() + 1);
        match self.below(3) {
            0 => text.insert(at, byte),
            1 if at < text.len() => text[at] = byte,
            _ if at < text.len() => {
                text.remove(at);
            }
            _ => {}
        }
    }
}
