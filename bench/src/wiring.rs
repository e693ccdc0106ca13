//! Wirings as plain values, their limits, and their text.

use std::fmt::{self, Write};

/// The most nodes, and the most places, that a sound wiring has.
pub const MOST: usize = 4096;
/// The most picoseconds of a lawful lead delay.
pub const MOST_PICOSECONDS: u32 = 1_000_000;
/// The most contacts of a lawful lead delay.
pub const MOST_CONTACTS: u32 = 255;

/// What a delay is and how delays compare.
#[derive(Clone, Copy, Debug, PartialEq, Eq)]
pub enum Kind {
    /// Picoseconds, compared as numbers.
    Late,
    /// Picoseconds first, contacts second.
    Contact,
    /// Picoseconds, compared the other way round.
    Early,
}

/// Picoseconds and contacts. Under `late` and `early` the contacts count for nothing.
#[derive(Clone, Copy, Debug, PartialEq, Eq, Default)]
pub struct Delay {
    pub picoseconds: u32,
    pub contacts: u32,
}

/// A lead from its tail node to its head node.
#[derive(Clone, Copy, Debug, PartialEq, Eq, Default)]
pub struct Lead {
    pub tail: u32,
    pub head: u32,
    pub delay: Delay,
}

/// A number of nodes, and at each place nothing or one lead.
#[derive(Clone, Debug, PartialEq, Eq)]
pub struct Wiring {
    pub kind: Kind,
    pub nodes: u32,
    pub places: Vec<Option<Lead>>,
}

/// Why a wiring is not sound; the refusals 3, 5 and 6.
#[derive(Clone, Copy, Debug, PartialEq, Eq)]
pub enum Fault {
    /// More than 4,096 nodes or places.
    Size,
    /// This lead does not run from a lower node to a higher one inside the wiring.
    Ends(usize),
    /// This lead has a delay that its kind does not allow.
    Delay(usize),
}

impl Wiring {
    /// The leads in ascending number, each with its number.
    pub fn leads(&self) -> impl Iterator<Item = (usize, Lead)> + '_ {
        self.places.iter().enumerate().filter_map(|(place, lead)| Some((place, (*lead)?)))
    }

    /// The first fault: size, then lead by lead, ends before delay.
    pub fn check(&self) -> Result<(), Fault> {
        if self.nodes as usize > MOST || self.places.len() > MOST {
            return Err(Fault::Size);
        }
        for (place, lead) in self.leads() {
            if lead.tail >= lead.head || lead.head >= self.nodes {
                return Err(Fault::Ends(place));
            }
            let contacts_lawful = self.kind != Kind::Contact || lead.delay.contacts <= MOST_CONTACTS;
            if lead.delay.picoseconds > MOST_PICOSECONDS || !contacts_lawful {
                return Err(Fault::Delay(place));
            }
        }
        Ok(())
    }
}

/// A line of a text that is not as it should be. Lines are counted from 1.
#[derive(Clone, Copy, Debug, PartialEq, Eq)]
pub struct BadLine {
    pub line: usize,
    pub expected: &'static str,
}

impl fmt::Display for BadLine {
    fn fmt(&self, out: &mut fmt::Formatter) -> fmt::Result {
        write!(out, "line {}: expected {}", self.line, self.expected)
    }
}

/// Reads the text of a wiring. Whether the wiring is sound is not looked at.
pub fn read(text: &str) -> Result<Wiring, BadLine> {
    let text = text.strip_suffix('\n').unwrap_or(text);
    let mut lines = text.split('\n');
    let kind = lines.next().and_then(read_kind);
    let kind = kind.ok_or(BadLine { line: 1, expected: "late, contact or early" })?;
    let nodes = lines.next().and_then(read_number);
    let nodes = nodes.ok_or(BadLine { line: 2, expected: "the number of nodes" })?;
    let expected = match kind {
        Kind::Contact => "tail-head:delay/contacts or -",
        _ => "tail-head:delay or -",
    };
    let mut places = Vec::new();
    for (index, line) in lines.enumerate() {
        let lead = match line {
            "-" => None,
            _ => Some(read_lead(kind, line).ok_or(BadLine { line: index + 3, expected })?),
        };
        places.push(lead);
    }
    Ok(Wiring { kind, nodes, places })
}

/// Reads a series of texts that are parted by an empty line.
pub fn read_series(text: &str) -> Result<Vec<Wiring>, BadLine> {
    let text = text.strip_suffix('\n').unwrap_or(text);
    if text.is_empty() {
        return Ok(Vec::new());
    }
    let mut passed = 0;
    let mut series = Vec::new();
    for part in text.split("\n\n") {
        series.push(read(part).map_err(|bad| BadLine { line: bad.line + passed, ..bad })?);
        passed += part.split('\n').count() + 1;
    }
    Ok(series)
}

fn read_kind(line: &str) -> Option<Kind> {
    match line {
        "late" => Some(Kind::Late),
        "contact" => Some(Kind::Contact),
        "early" => Some(Kind::Early),
        _ => None,
    }
}

/// A number in decimal with no sign and no zero in front.
fn read_number(field: &str) -> Option<u32> {
    let plain = !field.is_empty() && field.bytes().all(|byte| byte.is_ascii_digit());
    if !plain || (field.len() > 1 && field.starts_with('0')) {
        return None;
    }
    field.parse().ok()
}

fn read_lead(kind: Kind, line: &str) -> Option<Lead> {
    let (tail, rest) = line.split_once('-')?;
    let (head, rest) = rest.split_once(':')?;
    let (picoseconds, contacts) = match kind {
        Kind::Contact => rest.split_once('/')?,
        _ => (rest, "0"),
    };
    let contacts = read_number(contacts).filter(|&contacts| contacts <= MOST_CONTACTS)?;
    let delay = Delay { picoseconds: read_number(picoseconds)?, contacts };
    Some(Lead { tail: read_number(tail)?, head: read_number(head)?, delay })
}

/// The text of a wiring.
pub fn write(wiring: &Wiring) -> String {
    let kind = match wiring.kind {
        Kind::Late => "late",
        Kind::Contact => "contact",
        Kind::Early => "early",
    };
    let mut text = format!("{kind}\n{}\n", wiring.nodes);
    for place in &wiring.places {
        match place {
            None => text.push('-'),
            Some(lead) => write_lead(&mut text, wiring.kind, lead),
        }
        text.push('\n');
    }
    text
}

fn write_lead(text: &mut String, kind: Kind, lead: &Lead) {
    let Lead { tail, head, delay } = lead;
    write!(text, "{tail}-{head}:{}", delay.picoseconds).expect("a String takes every text");
    if kind == Kind::Contact {
        write!(text, "/{}", delay.contacts).expect("a String takes every text");
    }
}

#[cfg(test)]
mod tests {
    use super::*;

    const TEXT: &str = "contact\n5\n0-2:3/1\n1-2:3/0\n-\n2-3:2/0\n2-4:2/0\n";

    #[test]
    fn a_text_is_read_and_written_again() {
        let wiring = read(TEXT).unwrap();
        assert_eq!(wiring.leads().count(), 4);
        assert_eq!(write(&wiring), TEXT);
        assert_eq!(read(TEXT.strip_suffix('\n').unwrap()), Ok(wiring));
    }

    #[test]
    fn a_bad_line_is_told_by_its_number() {
        let line = |text| read(text).unwrap_err().line;
        assert_eq!(line(""), 1);
        assert_eq!(line("late\n"), 2);
        assert_eq!(line("late\n03"), 2);
        assert_eq!(line("late\n3\n0-1:1/0\n"), 3);
        assert_eq!(line("contact\n3\n0-1:1/0\n0-1:1\n"), 4);
        assert_eq!(line("contact\n3\n0-1:1/256\n"), 3);
        assert_eq!(line("late\n3\n0-1:4294967296\n"), 3);
        assert_eq!(line("late\n3\n\n"), 3);
        assert_eq!(line("late\n3\n0-1:+1\n"), 3);
        assert_eq!(line("late\n3\n0-1:1 \n"), 3);
    }

    #[test]
    fn a_series_is_parted_by_empty_lines() {
        let series = read_series("late\n0\n\nearly\n2\n0-1:5\n").unwrap();
        assert_eq!(series.len(), 2);
        assert_eq!(series[1].kind, Kind::Early);
        assert_eq!(read_series("late\n0\n\nearly\nx\n").unwrap_err().line, 5);
        assert_eq!(read_series(""), Ok(Vec::new()));
    }

    #[test]
    fn faults_are_told_in_order() {
        let fault = |text| read(text).unwrap().check().unwrap_err();
        assert_eq!(fault("late\n4097\n1-0:1\n"), Fault::Size);
        assert_eq!(fault("late\n2\n0-1:1\n0-2:1000001\n"), Fault::Ends(1));
        assert_eq!(fault("late\n2\n0-1:1000001\n1-1:1\n"), Fault::Delay(0));
    }
}
