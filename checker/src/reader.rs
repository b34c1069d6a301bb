//! The rules of a graph text once more, line by line over strings.

use std::collections::HashSet;

/// A fault: number, layer, line.
type Fault = (u8, u8, usize);

struct Seen {
    stations: u16,
    release: u16,
    events: u16,
    relations: HashSet<(char, u16, u16)>,
}

/// The first line that `fompaqi check` prints of the text.
pub fn verdict(text: &[u8]) -> String {
    match read(text) {
        Ok(seen) => format!(
            "ok: {} stations, release {}, {} events, {} relations",
            seen.stations,
            seen.release,
            seen.events,
            seen.relations.len()
        ),
        Err((number, layer, line)) => format!("fault {number}, layer {layer}, line {line}"),
    }
}

fn read(text: &[u8]) -> Result<Seen, Fault> {
    if text.len() > 65_536 {
        return Err((7, 1, 0));
    }
    let mut lines: Vec<&[u8]> = text.split(|&byte| byte == 10).collect();
    if lines.last().is_some_and(|line| line.is_empty()) {
        lines.pop();
    }
    let mut seen: Option<Seen> = None;
    for (before, line) in lines.iter().enumerate() {
        let at = before + 1;
        if line.iter().any(|byte| !(32..=126).contains(byte)) {
            return Err((1, 1, at));
        }
        let line = String::from_utf8_lossy(line).into_owned();
        let (letter, numbers) = fields(&line).ok_or((2, 2, at))?;
        let rule = match &mut seen {
            None => first(letter, &numbers).map(|begun| seen = Some(begun)),
            Some(seen) => later(seen, letter, &numbers),
        };
        rule.map_err(|number| (number, 3, at))?;
    }
    match seen {
        Some(seen) if seen.events > 0 => Ok(seen),
        _ => Err((4, 3, lines.len() + 1)),
    }
}

/// The letter of a line and its numbers, if it is made as its letter asks.
fn fields(line: &str) -> Option<(char, Vec<u16>)> {
    let mut words = line.split(' ');
    let letter = match words.next()? {
        word if word.len() == 1 => word.chars().next()?,
        _ => return None,
    };
    let wanted = match letter {
        's' | 'c' | 'm' | 'r' | 'i' | 'x' => 2,
        'e' => 3,
        _ => return None,
    };
    let numbers = words.map(number).collect::<Option<Vec<u16>>>()?;
    (numbers.len() == wanted).then_some((letter, numbers))
}

/// The number that a word writes: one to three digits, without leading zero.
pub fn number(word: &str) -> Option<u16> {
    let plain = (1..=3).contains(&word.len()) && word.bytes().all(|byte| byte.is_ascii_digit());
    let canonical = word == "0" || !word.starts_with('0');
    (plain && canonical).then(|| word.parse().ok()).flatten()
}

fn first(letter: char, numbers: &[u16]) -> Result<Seen, u8> {
    if letter != 's' {
        return Err(4);
    }
    let (stations, release) = (numbers[0], numbers[1]);
    if !(1..=8).contains(&stations) || ![4, 6].contains(&release) {
        return Err(3);
    }
    Ok(Seen { stations, release, events: 0, relations: HashSet::new() })
}

fn later(seen: &mut Seen, letter: char, numbers: &[u16]) -> Result<(), u8> {
    match letter {
        's' => Err(4),
        'e' if !seen.relations.is_empty() => Err(4),
        'e' if seen.events == 64 => Err(6),
        'e' => {
            if numbers[0] != seen.events || numbers[1] >= seen.stations || numbers[2] > 7 {
                return Err(3);
            }
            seen.events += 1;
            Ok(())
        }
        _ if seen.relations.len() == 512 => Err(6),
        _ => {
            let (a, b) = (numbers[0], numbers[1]);
            if a >= seen.events || b >= seen.events || (letter == 'm' && seen.release == 4) {
                return Err(3);
            }
            let other = match letter {
                'i' => 'x',
                'x' => 'i',
                same => same,
            };
            if seen.relations.contains(&(letter, a, b)) || seen.relations.contains(&(other, a, b)) {
                return Err(5);
            }
            seen.relations.insert((letter, a, b));
            Ok(())
        }
    }
}
