//! Reads requests and answers by the layout of tests/README.md, and shows them to people.

use crate::bounds::{ACTIONS, ARROWS, BOXES, STATES};
use crate::edits::FIELDS;
use std::fmt::Write as _;
use std::io::{self, Read};

/// How a part is laid out: numbers by their count and width.
#[derive(Clone, Copy, PartialEq)]
enum Layout {
    Numbers(usize, usize),
    Bytes,
    Text,
    Table,
    Records,
    History,
    Steps,
}

use Layout::{Bytes, History, Numbers, Records, Steps, Table, Text};

type Parts = &'static [(&'static str, Layout)];

const MACHINE: Parts =
    &[("states", Numbers(1, 8)), ("actions", Numbers(1, 8)), ("boxes", Numbers(1, 8)), ("start", Numbers(1, 8)), ("owners", Numbers(ACTIONS, 1))];
const LISTS: Parts = &[("ids", Numbers(BOXES, 4)), ("arrows", Numbers(ARROWS, 1))];
const REFUSAL: Parts = &[("number", Numbers(1, 4)), ("line", Numbers(1, 4))];
const NEXT: Parts = &[("next", Table)];
const OUTPUTS: Parts = &[("outputs", Table)];
const VIEWS: Parts = &[("views", Table)];
const DRAWING: Parts = &[("list", Records), ("history", History), ("edits", Numbers(1, 4))];

fn request_parts(letter: u8) -> Option<&'static [Parts]> {
    Some(match letter {
        b'R' => &[&[("sheet", Text), ("next entries", Numbers(1, 4)), ("output entries", Numbers(1, 4)), ("view entries", Numbers(1, 4))]],
        b'L' => &[&[("sheet", Text), ("position", Numbers(1, 8))]],
        b'J' => &[MACHINE, LISTS, NEXT, OUTPUTS, VIEWS],
        b'N' => &[MACHINE, NEXT, OUTPUTS, &[("list entries", Numbers(1, 4))]],
        b'P' => &[MACHINE, LISTS, &[("kind", Numbers(1, 1)), ("position", Numbers(1, 8)), ("run", Bytes), ("buffer bytes", Numbers(1, 4))]],
        b'S' => &[MACHINE, NEXT],
        b'V' => &[&[("sheet", Text), ("verdict bytes", Numbers(1, 4))]],
        b'E' => &[DRAWING, &[("steps", Steps)]],
        _ => return None,
    })
}

/// For edits the answer to one step.
fn answer_parts(letter: u8) -> &'static [Parts] {
    match letter {
        b'R' => &[
            REFUSAL,
            &[("states", Numbers(1, 8)), ("actions", Numbers(1, 8)), ("boxes", Numbers(1, 8)), ("start", Numbers(1, 8))],
            &[("ids", Numbers(BOXES, 4)), ("owners", Numbers(ACTIONS, 1)), ("arrows", Numbers(ARROWS, 1))],
            NEXT,
            OUTPUTS,
            VIEWS,
        ],
        b'L' => &[REFUSAL, &[("label", Text)]],
        b'J' => &[
            REFUSAL,
            &[("condition", Numbers(1, 1)), ("box", Numbers(1, 8)), ("action", Numbers(1, 8)), ("s", Numbers(1, 8)), ("t", Numbers(1, 8))],
        ],
        b'N' => &[REFUSAL, &[("pairs", Numbers(1, 8)), ("reach", Numbers(1, 8)), ("depths", Numbers(BOXES, 8)), ("list", Table)]],
        b'P' => &[REFUSAL, &[("kept", Numbers(1, 8)), ("buffer", Bytes)]],
        b'S' => &[REFUSAL, &[("count", Numbers(1, 8)), ("flags", Numbers(STATES, 1))]],
        b'E' => &[&[("number", Numbers(1, 4))], DRAWING],
        _ => &[&[("length", Numbers(1, 8)), ("verdict", Text)]],
    }
}

#[derive(PartialEq)]
pub struct Part {
    pub name: &'static str,
    /// Bytes are numbers, too.
    pub values: Vec<u64>,
    layout: Layout,
}

/// A step of a request for edits.
#[derive(Clone, Copy)]
pub struct Step {
    pub kind: u64,
    pub first: u64,
    pub second: u64,
}

impl Step {
    fn of(numbers: &[u64]) -> Step {
        Step { kind: numbers[0], first: numbers[1], second: numbers[2] }
    }

    /// Its name, where it is a call and the host doesn't write itself.
    pub fn call(self) -> Option<&'static str> {
        ["add", "delete", "draw", "erase", "undo", "drop"].get((self.kind as usize).wrapping_sub(1)).copied()
    }

    pub fn shown(self) -> String {
        let Step { kind, first, second } = self;
        match (kind, self.call()) {
            (1 | 2, Some(call)) => format!("{call} {first}"),
            (3 | 4, Some(call)) => format!("{call} {first}>{second}"),
            (_, Some(call)) => call.to_string(),
            (7, _) => format!("list[{first}] = {second}"),
            (8, _) => format!("history[{first}] = {second}"),
            _ => format!("edits = {second}"),
        }
    }
}

/// A request or an answer, and the bytes that it was read from.
#[derive(Default)]
pub struct Message {
    pub letter: u8,
    pub parts: Vec<Part>,
    pub raw: Vec<u8>,
}

/// The values of the part with this name, none where there is none.
pub fn values<'a>(parts: &'a [Part], name: &str) -> &'a [u64] {
    parts.iter().find(|part| part.name == name).map_or(&[], |part| &part.values)
}

pub fn value(parts: &[Part], name: &str) -> u64 {
    values(parts, name).first().copied().unwrap_or(0)
}

impl Message {
    pub fn values(&self, name: &str) -> &[u64] {
        values(&self.parts, name)
    }

    pub fn value(&self, name: &str) -> u64 {
        value(&self.parts, name)
    }

    fn take(&mut self, source: &mut dyn Read, count: usize) -> io::Result<&[u8]> {
        let from = self.raw.len();
        (&mut *source).take(count as u64).read_to_end(&mut self.raw)?;
        if self.raw.len() - from < count {
            return Err(io::Error::new(io::ErrorKind::UnexpectedEof, "cut short"));
        }
        Ok(&self.raw[from..])
    }

    fn numbers(&mut self, source: &mut dyn Read, count: usize, width: usize) -> io::Result<Vec<u64>> {
        let raw = self.take(source, count * width)?;
        Ok(raw.chunks(width).map(|bytes| bytes.iter().rev().fold(0, |value, &byte| value << 8 | u64::from(byte))).collect())
    }

    /// A step's kind has one byte, its numbers have four.
    fn steps(&mut self, source: &mut dyn Read, count: usize) -> io::Result<Vec<u64>> {
        let mut values = Vec::new();
        for _ in 0..count {
            values.extend(self.numbers(source, 1, 1)?);
            values.extend(self.numbers(source, 2, 4)?);
        }
        Ok(values)
    }

    fn read(&mut self, source: &mut dyn Read, parts: &[Parts]) -> io::Result<()> {
        for &(name, layout) in parts.iter().copied().flatten() {
            let count = if let Numbers(count, _) = layout { count } else { self.numbers(source, 1, 4)?[0] as usize };
            let values = match layout {
                Numbers(_, width) => self.numbers(source, count, width)?,
                Bytes | Text => self.numbers(source, count, 1)?,
                Table => self.numbers(source, count, 2)?,
                Records => self.numbers(source, 3 * count, 4)?,
                History => self.numbers(source, count, 4)?,
                Steps => self.steps(source, count)?,
            };
            self.parts.push(Part { name, values, layout });
        }
        Ok(())
    }

    /// The steps of a request for edits; any other has none.
    pub fn steps_asked(&self) -> Vec<Step> {
        self.values("steps").chunks(3).map(Step::of).collect()
    }

    /// The parts of the answer to each step.
    pub fn steps_answered(&self) -> std::slice::Chunks<'_, Part> {
        self.parts.chunks(answer_parts(b'E').concat().len())
    }

    /// The next request, or none at the end.
    pub fn request(source: &mut dyn Read) -> io::Result<Option<Message>> {
        let mut message = Message::default();
        let Ok(letter) = message.take(source, 1) else {
            return Ok(None);
        };
        let letter = letter[0];
        message.letter = letter;
        let parts = request_parts(letter).ok_or_else(|| io::Error::new(io::ErrorKind::InvalidData, "an unknown letter"))?;
        message.read(source, parts)?;
        Ok(Some(message))
    }

    pub fn answer(source: &mut dyn Read, request: &Message) -> io::Result<Message> {
        let letter = request.letter;
        let mut message = Message { letter, ..Message::default() };
        let times = if letter == b'E' { request.steps_asked().len() } else { 1 };
        for _ in 0..times {
            message.read(source, answer_parts(letter))?;
        }
        Ok(message)
    }
}

/// So many lines at a text's start and at its end are shown.
const SHOWN: usize = 100;

/// The places of the ones in a set.
fn show_set(set: u64) -> String {
    let places: Vec<String> = (0..32).filter(|place| set >> place & 1 == 1).map(|place| place.to_string()).collect();
    format!("{{{}}}", places.join(" "))
}

impl Part {
    /// Text with its lines under each other; records and edits a line each; other numbers with repeats counted.
    pub fn shown(&self) -> String {
        match self.layout {
            Text => self.shown_as_text(),
            Records => self.shown_by_lines(3, |record| format!("id {}, live {}, arrows {}", record[0], record[1], show_set(record[2]))),
            History => self.shown_by_lines(FIELDS, |edit| match edit {
                [kind, at, to, id, out, into] => format!("kind {kind}, at {at}, to {to}, id {id}, out {}, into {}", show_set(*out), show_set(*into)),
                cut => format!("{cut:?}"),
            }),
            Steps => self.shown_by_lines(3, |step| Step::of(step).shown()),
            _ if self.name == "arrows" => self.shown_as_arrows(),
            _ => self.shown_as_numbers(),
        }
    }

    fn shown_as_text(&self) -> String {
        let bytes: Vec<u8> = self.values.iter().map(|&value| value as u8).collect();
        let zeros = bytes.iter().rev().take_while(|&&byte| byte == 0).count();
        let mut shown = format!("{}: {} bytes", self.name, bytes.len());
        let lines: Vec<&[u8]> = bytes[..bytes.len() - zeros].split_inclusive(|&byte| byte == b'\n').collect();
        for (place, line) in lines.iter().enumerate() {
            if place < SHOWN || lines.len() - place <= SHOWN {
                let _ = write!(shown, "\n  | {}", line.escape_ascii());
            } else if place == SHOWN {
                let _ = write!(shown, "\n  and {} lines between", lines.len() - 2 * SHOWN);
            }
        }
        if zeros > 0 {
            let _ = write!(shown, "\n  and {zeros} zeros");
        }
        shown
    }

    /// So many numbers to a line, and blank ones at the end only counted.
    fn shown_by_lines(&self, width: usize, show: impl Fn(&[u64]) -> String) -> String {
        let mut shown = format!("{}: {} numbers", self.name, self.values.len());
        let lines: Vec<&[u64]> = self.values.chunks(width).collect();
        let blank = lines.iter().rev().take_while(|line| line.iter().all(|&value| value == 0)).count();
        for (place, line) in lines[..lines.len() - blank].iter().enumerate() {
            let _ = write!(shown, "\n  {place}: {}", show(line));
        }
        if blank > 0 {
            let _ = write!(shown, "\n  and {blank} blank");
        }
        shown
    }

    fn shown_as_arrows(&self) -> String {
        let mut shown = String::from("arrows:");
        for (place, _) in self.values.iter().enumerate().filter(|&(_, &arrow)| arrow != 0) {
            let _ = write!(shown, " {}>{}", place / BOXES, place % BOXES);
        }
        shown
    }

    fn shown_as_numbers(&self) -> String {
        let mut shown = format!("{}:", self.name);
        for equal in self.values.chunk_by(|one, other| one == other) {
            let _ = match equal.len() {
                1..=3 => equal.iter().try_for_each(|value| write!(shown, " {value}")),
                count => write!(shown, " {}×{count}", equal[0]),
            };
        }
        shown
    }
}
