//! One machine for a whole site: one marking, an open request for each station, and no messages.
//!
//! It is told which event is answered next, and must come to the same answer by itself.

use crate::script::Call;
use crate::site::{Answer, Outcome, Told};
use crate::table::Graph;

pub struct Machine<'g> {
    graph: &'g Graph,
    open: bool,
    marks: Vec<u8>,
    /// The event that each station has requested.
    requests: Vec<Option<usize>>,
}

impl<'g> Machine<'g> {
    pub fn new(graph: &'g Graph) -> Machine<'g> {
        Machine { graph, open: false, marks: graph.start(), requests: vec![None; graph.stations] }
    }

    pub fn marks(&self) -> &[u8] {
        &self.marks
    }

    pub fn is_at_rest(&self) -> bool {
        self.requests.iter().all(Option::is_none)
    }

    /// Makes the call, and tells what a site should tell. From what the site told it takes only what messages decide: which
    /// events are answered and when, and the tally of a station that a message may be on its way to. Nothing is told
    /// where the site answers an event that is not requested.
    pub fn follow(&mut self, call: Call, told: &Told, waits: bool) -> Option<Told> {
        if let Some(number) = self.refusal(call, waits) {
            return Some(Err(number));
        }
        let answers: Vec<Answer> = match told {
            Ok(outcome) => outcome.answers().iter().map(|given| self.answer(given.event)).collect::<Option<_>>()?,
            Err(_) => Vec::new(),
        };
        Some(Ok(match (call, told) {
            (Call::Start, _) => {
                self.open = true;
                Outcome::Started
            }
            (Call::Request { station, event }, _) => {
                self.requests[station] = Some(event);
                Outcome::Open
            }
            (Call::Carry { .. }, Ok(Outcome::NothingWaits)) => Outcome::NothingWaits,
            (Call::Carry { .. }, _) => answers.into_iter().next().map_or(Outcome::Carried, Outcome::Answered),
            (Call::Settle, &Ok(Outcome::Settled { messages, .. })) => Outcome::Settled { answers, messages },
            (Call::Settle, _) => Outcome::Settled { answers, messages: 0 },
            (Call::WorkList, _) => {
                Outcome::Work { enabled: self.graph.enabled(&self.marks), owed: self.graph.owed(&self.marks) }
            }
            (Call::Tally { .. }, Ok(Outcome::Owed(owed))) if waits => Outcome::Owed(owed.clone()),
            (Call::Tally { station }, _) => {
                let owed = self.graph.owed(&self.marks).into_iter();
                Outcome::Owed(owed.filter(|&event| self.graph.owner(event) == station).collect())
            }
        }))
    }

    /// Why the call is refused. No call ever meets a stray message or a full pair, so it is never 14.
    fn refusal(&self, call: Call, waits: bool) -> Option<u8> {
        let unknown = |station: usize| station >= self.graph.stations;
        match call {
            Call::Start => self.open.then_some(13),
            _ if !self.open => Some(13),
            Call::Request { station, .. } | Call::Tally { station } if unknown(station) => Some(8),
            Call::Carry { from, to } if unknown(from) || unknown(to) => Some(8),
            Call::Request { event, .. } if event >= self.graph.events.len() => Some(9),
            Call::Request { station, event } if self.graph.owner(event) != station => Some(10),
            Call::Request { station, .. } if self.requests[station].is_some() => Some(11),
            Call::WorkList if waits => Some(12),
            _ => None,
        }
    }

    /// Decides the open request for the event and does it, if it is accepted.
    fn answer(&mut self, event: usize) -> Option<Answer> {
        self.requests[self.graph.owner(event)].take_if(|requested| *requested == event)?;
        let (number, named) = self.graph.decide(&self.marks, event);
        if number == 0 {
            self.graph.perform(&mut self.marks, event);
        }
        Some(Answer { event, number, named })
    }
}
