//! Worked cases, in the order in which another program should print them.

use crate::table::Graph;
use crate::{audit, reader, script, table, MEMORY};

enum Case {
    /// Calls of a site over a memory line, on the graph of the lines.
    Site(&'static [&'static str], &'static [&'static str]),
    /// Calls of a table, on the graph of the lines.
    Table(&'static [&'static str], &'static [&'static str]),
    /// A text to read.
    Text(&'static str),
}

const TWO_STATIONS: &[&str] = &["s 2 6", "e 0 0 4", "e 1 1 4", "e 2 0 4", "c 0 1", "c 1 2", "r 0 1"];

const SHEETS: &[(&str, Case)] = &[
    ("one settle after another", Case::Site(TWO_STATIONS, &["b", "q 1 1", "z", "q 0 0", "z", "w"])),
    ("the second request is carried first", Case::Site(TWO_STATIONS, &["b", "q 0 0", "q 1 1", "t 1 0", "z"])),
    ("the first request is carried first", Case::Site(TWO_STATIONS, &["b", "q 0 0", "q 1 1", "t 0 0", "z"])),
    ("refused requests", Case::Site(TWO_STATIONS, &["b", "q 5 0", "q 0 9", "q 0 1", "q 0 0", "q 0 2"])),
    ("an event that excludes itself", Case::Table(&["s 1 6", "e 0 0 4", "x 0 0"], &["q 0", "q 0"])),
    ("an event that responds to itself", Case::Table(&["s 1 6", "e 0 0 4", "r 0 0"], &["q 0", "w"])),
    ("an excluded condition source", Case::Table(&["s 1 6", "e 0 0 0", "e 1 0 4", "c 0 1"], &["q 1"])),
    (
        "a milestone holds until it is done",
        Case::Table(&["s 1 6", "e 0 0 6", "e 1 0 4", "m 0 1"], &["q 1", "q 0", "q 1"]),
    ),
    ("an empty text", Case::Text("")),
];

/// For each case its title, and then a line for each call.
pub fn listing() -> Result<String, String> {
    let mut printed = String::new();
    for (title, case) in SHEETS {
        printed += &format!("# {title}\n");
        printed += &case.outcomes().map_err(|reason| format!("{title}: {reason}"))?;
    }
    Ok(printed)
}

impl Case {
    fn outcomes(&self) -> Result<String, String> {
        match self {
            Case::Site(graph, calls) => {
                let graph = Graph::of(&graph.join("\n"));
                let calls = script::site_calls(&calls.join("\n"))?;
                Ok(audit::listing(&calls, &audit::run(&graph, MEMORY, &calls)?))
            }
            Case::Table(graph, calls) => {
                let calls: Vec<String> = calls.iter().map(ToString::to_string).collect();
                Ok(table::play(&Graph::of(&graph.join("\n")), &calls))
            }
            Case::Text(text) => Ok(reader::verdict(text.as_bytes()) + "\n"),
        }
    }
}
