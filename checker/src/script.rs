//! Scripts, one call a line, and the calls of a site.

use crate::reader::number;
use std::fmt;

/// The lines that are not passed over, with their numbers.
pub fn lines(text: &str) -> impl Iterator<Item = (usize, &str)> {
    let numbered = text.split('\n').enumerate().map(|(before, line)| (before + 1, line));
    numbered.filter(|(_, line)| !line.starts_with('#') && line.bytes().any(|byte| byte != b' '))
}

/// A call of a site.
#[derive(Clone, Copy, Debug, PartialEq)]
pub enum Call {
    Start,
    Request { station: usize, event: usize },
    Carry { from: usize, to: usize },
    Settle,
    WorkList,
    Tally { station: usize },
}

impl Call {
    fn of(line: &str) -> Option<Call> {
        let mut words = line.split(' ');
        let letter = words.next()?;
        let numbers = words.map(small_number).collect::<Option<Vec<usize>>>()?;
        match (letter, &numbers[..]) {
            ("b", []) => Some(Call::Start),
            ("q", &[station, event]) => Some(Call::Request { station, event }),
            ("t", &[from, to]) => Some(Call::Carry { from, to }),
            ("z", []) => Some(Call::Settle),
            ("w", []) => Some(Call::WorkList),
            ("y", &[station]) => Some(Call::Tally { station }),
            _ => None,
        }
    }
}

/// The call as a script has it: there is one way to write it.
impl fmt::Display for Call {
    fn fmt(&self, f: &mut fmt::Formatter) -> fmt::Result {
        match self {
            Call::Start => write!(f, "b"),
            Call::Request { station, event } => write!(f, "q {station} {event}"),
            Call::Carry { from, to } => write!(f, "t {from} {to}"),
            Call::Settle => write!(f, "z"),
            Call::WorkList => write!(f, "w"),
            Call::Tally { station } => write!(f, "y {station}"),
        }
    }
}

fn small_number(word: &str) -> Option<usize> {
    number(word).filter(|&value| value <= 255).map(usize::from)
}

/// The calls of a site's script; the error names the first line that is no call.
pub fn site_calls(text: &str) -> Result<Vec<Call>, String> {
    let call = |(number, line)| Call::of(line).ok_or_else(|| format!("line {number}: no call: {line}"));
    lines(text).map(call).collect()
}
