//! A second reader of graph texts, a second table and a second site, written apart from the proved ones, and comparisons.
//!
//! `checker check FILE` prints what `fompaqi check FILE` should print first.
//! `checker table GRAPH SCRIPT` prints what `fompaqi table GRAPH SCRIPT` should print.
//! `checker site GRAPH SCRIPT [memory|spool]` prints what `fompaqi site` should print of the same.
//! `checker sheets` prints the worked cases.
//! `checker texts PROGRAM COUNT SEED` makes COUNT texts, whole and damaged, and compares.
//! `checker tables PROGRAM COUNT SEED` makes COUNT graphs and scripts, plays each on a table, and compares.
//! `checker sites PROGRAM COUNT SEED` does so on a site over each line, and ends at the first difference.

mod audit;
mod machine;
mod reader;
mod script;
mod sheets;
mod site;
mod table;
mod texts;

use std::collections::BTreeMap;
use std::ffi::OsStr;
use std::path::PathBuf;
use std::process::{Command, ExitCode};

/// The most messages that a pair may hold on a memory line, and on a spool.
const MEMORY: usize = 3;
const SPOOL: usize = 4;

/// The most bytes of a script.
const SCRIPT_BYTES: usize = 1_048_576;

const USAGE: &str = "usage: checker check FILE | table GRAPH SCRIPT | site GRAPH SCRIPT [memory|spool] | sheets
       checker texts|tables|sites PROGRAM COUNT SEED";

fn main() -> ExitCode {
    let words: Vec<String> = std::env::args().skip(1).collect();
    let words: Vec<&str> = words.iter().map(String::as_str).collect();
    let result = match words[..] {
        ["check", path] => check(path),
        ["table", graph, script] => play_table(graph, script),
        ["site", graph, script] | ["site", graph, script, "memory"] => play_site(graph, script, MEMORY),
        ["site", graph, script, "spool"] => play_site(graph, script, SPOOL),
        ["sheets"] => sheets::listing().map(|printed| print!("{printed}")),
        ["texts", program, count, seed] => compare(compare_texts, program, count, seed),
        ["tables", program, count, seed] => compare(compare_tables, program, count, seed),
        ["sites", program, count, seed] => compare(compare_sites, program, count, seed),
        _ => Err(USAGE.to_string()),
    };
    match result {
        Ok(()) => ExitCode::SUCCESS,
        Err(message) => {
            eprintln!("checker: {message}");
            ExitCode::FAILURE
        }
    }
}

type Comparison = fn(program: &str, count: usize, seed: u64) -> Result<(), String>;

fn compare(comparison: Comparison, program: &str, count: &str, seed: &str) -> Result<(), String> {
    match (count.parse(), seed.parse()) {
        (Ok(count), Ok(seed)) => comparison(program, count, seed),
        _ => Err("COUNT and SEED are numbers".to_string()),
    }
}

fn check(path: &str) -> Result<(), String> {
    println!("{}", reader::verdict(&bytes(path)?));
    Ok(())
}

fn play_table(graph: &str, script: &str) -> Result<(), String> {
    let graph = graph_in(graph)?;
    let text = script_in(script)?;
    let calls: Vec<String> = script::lines(&text).map(|(_, line)| line.to_string()).collect();
    print!("{}", table::play(&graph, &calls));
    Ok(())
}

fn play_site(graph: &str, script: &str, limit: usize) -> Result<(), String> {
    let graph = graph_in(graph)?;
    let calls = script::site_calls(&script_in(script)?).map_err(|error| format!("{script}, {error}"))?;
    print!("{}", audit::listing(&calls, &audit::run(&graph, limit, &calls)?));
    Ok(())
}

fn bytes(path: &str) -> Result<Vec<u8>, String> {
    std::fs::read(path).map_err(|error| format!("cannot read {path}: {error}"))
}

fn graph_in(path: &str) -> Result<table::Graph, String> {
    let text = bytes(path)?;
    match reader::verdict(&text) {
        verdict if verdict.starts_with("ok") => Ok(table::Graph::of(&String::from_utf8_lossy(&text))),
        fault => Err(format!("{path} is not in order: {fault}")),
    }
}

fn script_in(path: &str) -> Result<String, String> {
    let text = bytes(path)?;
    if text.len() > SCRIPT_BYTES {
        return Err(format!("{path} is longer than {SCRIPT_BYTES} bytes"));
    }
    Ok(String::from_utf8_lossy(&text).into_owned())
}

/// A file of this run's own, removed in the end.
struct Scratch(PathBuf);

impl Scratch {
    fn new(name: &str) -> Scratch {
        Scratch(std::env::temp_dir().join(format!("fompaqi-{}-{name}", std::process::id())))
    }

    fn write(&self, text: impl AsRef<[u8]>) -> Result<(), String> {
        std::fs::write(&self.0, text).map_err(|error| format!("cannot write a file: {error}"))
    }
}

impl AsRef<OsStr> for Scratch {
    fn as_ref(&self) -> &OsStr {
        self.0.as_os_str()
    }
}

impl Drop for Scratch {
    fn drop(&mut self) {
        let _ = std::fs::remove_file(&self.0);
    }
}

/// Runs the program on the words: whether it succeeds, and what it prints.
fn run(program: &str, words: &[&dyn AsRef<OsStr>]) -> Result<(bool, String), String> {
    let output = Command::new(program).args(words.iter().map(|word| word.as_ref())).output();
    let output = output.map_err(|error| format!("cannot run {program}: {error}"))?;
    Ok((output.status.success(), String::from_utf8_lossy(&output.stdout).into_owned()))
}

fn summary(agreed: usize, count: usize, what: &str, tally: &BTreeMap<String, usize>) -> Result<(), String> {
    let kinds: Vec<String> = tally.iter().map(|(kind, n)| format!("{kind} {n} times")).collect();
    println!("{agreed} of {count} {what} agreed ({})", kinds.join(", "));
    if agreed == count { Ok(()) } else { Err(format!("{} differed", count - agreed)) }
}

/// Compares the program's first line with the second reader's on many texts.
fn compare_texts(program: &str, count: usize, seed: u64) -> Result<(), String> {
    let file = Scratch::new("text");
    let mut source = texts::Source::new(seed);
    let mut tally = BTreeMap::new();
    let mut agreed = 0;
    for number in 0..count {
        let text = source.text();
        file.write(&text)?;
        let (_, printed) = run(program, &[&"check", &file])?;
        let told = printed.lines().next().unwrap_or("nothing");
        let expected = reader::verdict(&text);
        if told == expected {
            agreed += 1;
        } else {
            println!("text {number}: expected '{expected}', printed '{told}'");
            println!("{:?}", String::from_utf8_lossy(&text));
        }
        let kind = expected.split([':', ',']).next().unwrap_or("").to_string();
        *tally.entry(kind).or_insert(0) += 1;
    }
    summary(agreed, count, "texts", &tally)
}

/// Compares what the program prints of scripts with the second table's outcomes.
fn compare_tables(program: &str, count: usize, seed: u64) -> Result<(), String> {
    let (graph_file, script_file) = (Scratch::new("graph"), Scratch::new("script"));
    let mut source = texts::Source::new(seed);
    let mut tally = BTreeMap::new();
    let mut agreed = 0;
    for number in 0..count {
        let text = source.whole_text();
        let graph = table::Graph::of(&text);
        let script = source.table_script(graph.events.len());
        graph_file.write(&text)?;
        script_file.write(script.join("\n"))?;
        let expected = table::play(&graph, &script);
        let (_, told) = run(program, &[&"table", &graph_file, &script_file])?;
        if told == expected {
            agreed += 1;
        } else {
            println!("table {number}: of the graph\n{text}expected\n{expected}printed\n{told}");
        }
        for line in expected.lines() {
            let words: Vec<&str> = line.split(" -> ").nth(1).unwrap_or("").split(' ').collect();
            let kind = if words[0] == "answer" { format!("answer {}", words[2]) } else { words[0].to_string() };
            *tally.entry(kind).or_insert(0) += 1;
        }
    }
    summary(agreed, count, "tables", &tally)
}

/// Compares what the program prints of scripts with the second site's outcomes, over each line.
fn compare_sites(program: &str, count: usize, seed: u64) -> Result<(), String> {
    let (graph_file, script_file) = (Scratch::new("graph"), Scratch::new("script"));
    let mut source = texts::Source::new(seed);
    let mut tally = BTreeMap::new();
    for number in 0..count {
        let text = source.site_text();
        let graph = table::Graph::of(&text);
        let script = source.site_script(&graph);
        graph_file.write(&text)?;
        script_file.write(&script)?;
        for (line, limit) in [("memory", MEMORY), ("spool", SPOOL)] {
            let case = format!("of the graph\n{text}and the script\n{script}");
            let at_fault = |what: String| format!("site {number}, {line}: {what}\n{case}");
            // Of a script with a line that is no call nothing is printed, and the program fails.
            let expected = match script::site_calls(&script) {
                Ok(calls) => {
                    let run = audit::run(&graph, limit, &calls).map_err(at_fault)?;
                    run.iter().flat_map(kinds).for_each(|kind| *tally.entry(kind).or_insert(0) += 1);
                    (true, audit::listing(&calls, &run))
                }
                Err(_) => {
                    *tally.entry("no call".to_string()).or_insert(0) += 1;
                    (false, String::new())
                }
            };
            let told = run(program, &[&"site", &graph_file, &script_file, &line])?;
            if told != expected {
                return Err(at_fault(difference(&expected, &told)));
            }
        }
    }
    summary(count, count, "sites", &tally)
}

/// The answers or the refusal of a call, by number.
fn kinds(told: &site::Told) -> Vec<String> {
    match told {
        Ok(outcome) => outcome.answers().iter().map(|answer| format!("answer {}", answer.number)).collect(),
        Err(number) => vec![format!("refused {number}")],
    }
}

/// Where what the program told is first not what was expected.
fn difference(expected: &(bool, String), told: &(bool, String)) -> String {
    fn lines((succeeds, text): &(bool, String)) -> impl Iterator<Item = &str> {
        text.lines().chain([if *succeeds { "the end, with success" } else { "the end, with failure" }])
    }
    match lines(expected).zip(lines(told)).enumerate().find(|(_, (expected, told))| expected != told) {
        Some((before, (expected, told))) => format!("line {}: expected '{expected}', printed '{told}'", before + 1),
        None => "the ends of lines differ".to_string(),
    }
}
