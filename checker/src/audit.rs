//! Runs of a site, with the laws of every run checked on the way.

use crate::machine::Machine;
use crate::script::Call;
use crate::site::{Site, Told};
use crate::table::Graph;

/// The most messages that a pair may come to hold, whatever the limit of the line.
const MOST: usize = 3;

/// What each call of a run tells. An error says which law the run breaks.
pub fn run(graph: &Graph, limit: usize, calls: &[Call]) -> Result<Vec<Told>, String> {
    let mut audit = Audit { graph, site: Site::new(graph, limit), machine: Machine::new(graph), due: 0 };
    let mut run = Vec::new();
    for (before, &call) in calls.iter().enumerate() {
        let told = audit.call(call).map_err(|reason| format!("call {} ({call}): {reason}", before + 1))?;
        run.push(told);
    }
    Ok(run)
}

/// The calls and what they tell, a line each.
pub fn listing(calls: &[Call], run: &[Told]) -> String {
    let line = |(call, told): (&Call, &Told)| match told {
        Ok(outcome) => format!("{call} -> {outcome}\n"),
        Err(number) => format!("{call} -> refused {number}\n"),
    };
    calls.iter().zip(run).map(line).collect()
}

struct Audit<'g> {
    graph: &'g Graph,
    site: Site<'g>,
    machine: Machine<'g>,
    /// The messages of all requests answered so far.
    due: usize,
}

impl Audit<'_> {
    fn call(&mut self, call: Call) -> Result<Told, String> {
        let told = self.site.call(call);
        let waits = !self.site.waiting().is_empty();
        match self.machine.follow(call, &told, waits) {
            Some(expected) if expected == told => {}
            expected => return Err(format!("the site tells {told:?}, the machine {expected:?}")),
        }
        if self.site.fullest() > MOST {
            return Err(format!("a pair holds {} messages", self.site.fullest()));
        }
        let answers = told.iter().flat_map(|outcome| outcome.answers());
        self.due += answers.map(|answer| self.messages_of(answer.event)).sum::<usize>();
        if !waits {
            self.check_quiet()?;
        }
        Ok(told)
    }

    /// The messages of a request: an ask and a grant for each lock, and a settle for each owner of one.
    fn messages_of(&self, event: usize) -> usize {
        2 * self.graph.lock_set(event).len() + self.graph.lock_owners(event).len()
    }

    /// What holds when no message waits.
    fn check_quiet(&self) -> Result<(), String> {
        let (carried, due) = (self.site.carried(), self.due);
        if carried != due {
            return Err(format!("{carried} messages are carried, and the answers have {due}"));
        }
        if !self.machine.is_at_rest() {
            return Err("a request is open and no message waits".to_string());
        }
        if self.site.marks() != self.machine.marks() {
            return Err("the stations' markings are not the machine's".to_string());
        }
        Ok(())
    }
}
