//! Counts what the answers to a stream cover, and names what they lack.

use crate::bounds::{ACTIONS, BOXES, EDITS, LABEL_BYTES, LARGEST_ID, PAIRS, RUN_ACTIONS, SHEET_BYTES, STATES};
use crate::compare::Speaker;
use crate::edits::FIELDS;
use crate::stream::{value, values, Message, Part, Step};
use std::collections::BTreeMap;
use std::fs::File;
use std::io::{self, BufReader};

/// The refusal numbers that each call can give.
const REFUSALS: [(&str, &[u64]); 13] = [
    ("R", &[1, 2, 3, 4, 5, 6, 7, 8, 9, 10, 11]),
    ("L", &[1, 2, 3, 4, 5, 6, 7, 8, 9, 11, 13]),
    ("J", &[10, 12]),
    ("N", &[10, 12]),
    ("P", &[10, 12, 13]),
    ("S", &[10, 12]),
    ("V", &[1, 2, 3, 4, 5, 6, 7, 8, 9, 11]),
    ("E add", &[10, 12, 14, 15, 17]),
    ("E delete", &[8, 10, 12, 17]),
    ("E draw", &[8, 10, 12, 17, 18]),
    ("E erase", &[8, 10, 12, 17, 18]),
    ("E undo", &[10, 12, 16]),
    ("E drop", &[10, 12]),
];

const EVENTS: [&str; 51] = [
    "R a sheet of the most bytes read",
    "R the most states",
    "R the most actions",
    "R the most boxes",
    "R the largest id",
    "L a label of 1 byte",
    "L a label of the most bytes",
    "J accepted",
    "J broken at output",
    "J broken at respect",
    "J broken at step",
    "J a full model",
    "N no needed arrow",
    "N 20 needed arrows or more",
    "N all arrows needed",
    "N depth 3 or more",
    "N depth 50 or more",
    "N states out of reach",
    "P plain: nothing kept",
    "P plain: something dropped",
    "P plain: a run of the most actions",
    "P intransitive: nothing kept",
    "P intransitive: something dropped",
    "P intransitive: a run of the most actions",
    "P intransitive keeps more than plain",
    "S all states reached",
    "S states out of reach",
    "V accepted",
    "V broken at output",
    "V broken at respect",
    "V broken at step",
    "V no needed arrow",
    "V 20 needed arrows or more",
    "V a buffer of the wrong length",
    "E add done",
    "E delete done",
    "E draw done",
    "E erase done",
    "E undo done",
    "E drop done",
    "E undo of an adding",
    "E undo of a deletion",
    "E undo of a deletion with arrows both ways",
    "E undo of a drawn arrow",
    "E undo of an erased arrow",
    "E undo refused by its own rule",
    "E a full history undone to its first edit",
    "E a full list with every arrow",
    "E words beyond the count made blank",
    "E the id 0 added",
    "E the id 4294967295 added",
];

#[derive(Default)]
struct Census {
    counts: BTreeMap<String, u64>,
    /// The plain purge before this one: its request without the kind, and how many actions it kept.
    plain: (Vec<u8>, u64),
}

impl Census {
    fn note(&mut self, happened: bool, letter: u8, event: &str) {
        if happened {
            *self.counts.entry(format!("{} {event}", letter as char)).or_default() += 1;
        }
    }

    fn see(&mut self, request: &Message, answer: &Message) {
        let letter = request.letter;
        if letter == b'E' {
            return self.see_edits(request, answer);
        }
        let number = answer.value("number");
        if number > 0 {
            self.note(true, letter, &format!("refusal {number}"));
            return;
        }
        match letter {
            b'R' => {
                self.note(request.values("sheet").len() == SHEET_BYTES, letter, "a sheet of the most bytes read");
                self.note(answer.value("states") == STATES as u64, letter, "the most states");
                self.note(answer.value("actions") == ACTIONS as u64, letter, "the most actions");
                self.note(answer.value("boxes") == BOXES as u64, letter, "the most boxes");
                self.note(answer.values("ids").contains(&LARGEST_ID), letter, "the largest id");
            }
            b'L' => {
                let length = answer.values("label").len();
                self.note(length == 1, letter, "a label of 1 byte");
                self.note(length == LABEL_BYTES, letter, "a label of the most bytes");
            }
            b'J' => {
                let place = ["accepted", "broken at output", "broken at respect", "broken at step"];
                self.note(true, letter, place[answer.value("condition") as usize]);
                let full = ["states", "actions", "boxes"].map(|size| request.value(size)) == [STATES, ACTIONS, BOXES].map(|most| most as u64);
                self.note(full, letter, "a full model");
            }
            b'N' => {
                let deepest = answer.values("depths").iter().max().copied().unwrap_or(0);
                self.note(answer.value("pairs") == 0, letter, "no needed arrow");
                self.note(answer.value("pairs") >= 20, letter, "20 needed arrows or more");
                self.note(answer.value("pairs") == PAIRS as u64, letter, "all arrows needed");
                self.note(deepest >= 3, letter, "depth 3 or more");
                self.note(deepest >= 50, letter, "depth 50 or more");
                self.note(answer.value("reach") < request.value("states"), letter, "states out of reach");
            }
            b'P' => self.see_purge(request, answer),
            b'S' => {
                let all = answer.value("count") == request.value("states");
                self.note(true, letter, if all { "all states reached" } else { "states out of reach" });
            }
            _ => self.see_verdict(request, answer),
        }
    }

    fn see_purge(&mut self, request: &Message, answer: &Message) {
        let length = request.values("run").len() as u64;
        let kept = answer.value("kept");
        let kind = ["plain", "intransitive"][request.value("kind") as usize];
        self.note(length > 0 && kept == 0, b'P', &format!("{kind}: nothing kept"));
        self.note(kept < length, b'P', &format!("{kind}: something dropped"));
        self.note(length == RUN_ACTIONS as u64, b'P', &format!("{kind}: a run of the most actions"));
        let same = request.parts.iter().filter(|part| part.name != "kind").flat_map(|part| part.values.iter().flat_map(|value| value.to_le_bytes()));
        let same: Vec<u8> = same.collect();
        self.note(kind == "intransitive" && self.plain.0 == same && kept > self.plain.1, b'P', "intransitive keeps more than plain");
        if kind == "plain" {
            self.plain = (same, kept);
        }
    }

    fn see_edits(&mut self, request: &Message, answer: &Message) {
        let mut before = &request.parts[..];
        let mut undone = 0;
        let mut own_rule = false;
        for (step, after) in request.steps_asked().into_iter().zip(answer.steps_answered()) {
            let number = value(after, "number");
            // Undo was refused with 12, and on the same drawing another call is not.
            self.note(own_rule && step.call().is_some() && step.kind != 5 && ![10, 12].contains(&number), b'E', "undo refused by its own rule");
            own_rule = step.kind == 5 && number == 12;
            undone = if step.kind == 5 && number == 0 { undone + 1 } else { 0 };
            self.note(undone == EDITS, b'E', "a full history undone to its first edit");
            if let Some(call) = step.call() {
                let outcome = if number == 0 { "done".to_string() } else { format!("refusal {number}") };
                self.note(true, b'E', &format!("{call} {outcome}"));
                if number == 0 {
                    self.see_edit(step, before, after);
                }
            }
            before = after;
        }
    }

    /// A step that changed the drawing.
    fn see_edit(&mut self, step: Step, before: &[Part], after: &[Part]) {
        self.note(step.kind == 1 && step.first == 0, b'E', "the id 0 added");
        self.note(step.kind == 1 && step.first == u64::from(u32::MAX), b'E', "the id 4294967295 added");
        let arrows: u32 = values(after, "list").chunks(3).map(|record| record[2].count_ones()).sum();
        self.note(arrows == PAIRS as u32, b'E', "a full list with every arrow");
        let edits: Vec<&[u64]> = values(before, "history").chunks(FIELDS).collect();
        let count = value(before, "edits") as usize;
        let beyond = edits.iter().skip(count + 1).any(|edit| edit.iter().any(|&word| word != 0));
        self.note(beyond, b'E', "words beyond the count made blank");
        if step.kind == 5 {
            let last = edits[count - 1];
            let undone = ["an adding", "a deletion", "a drawn arrow", "an erased arrow"][last[0] as usize - 1];
            self.note(true, b'E', &format!("undo of {undone}"));
            self.note(last[4] != 0 && last[5] != 0, b'E', "undo of a deletion with arrows both ways");
        }
    }

    fn see_verdict(&mut self, request: &Message, answer: &Message) {
        self.note(request.value("verdict bytes") != 8_192, b'V', "a buffer of the wrong length");
        let length = answer.value("length") as usize;
        let text: String = answer.values("verdict").iter().take(length).map(|&value| value as u8 as char).collect();
        let mut words = text.split(['\t', '\n']);
        match (words.next(), words.next(), words.next()) {
            (Some("refused"), Some(number), _) => self.note(true, b'V', &format!("refusal {number}")),
            (Some("views"), Some("accepted"), _) => self.note(true, b'V', "accepted"),
            (Some("views"), Some("broken"), Some(condition)) => self.note(true, b'V', &format!("broken at {condition}")),
            _ => return,
        }
        let needed = text.lines().filter(|line| line.starts_with("need\t")).count();
        self.note(text.starts_with("views") && needed == 0, b'V', "no needed arrow");
        self.note(needed >= 20, b'V', "20 needed arrows or more");
    }
}

/// Prints how often each of the wanted answers of these letters came, and says whether each did at least twice.
pub fn census(requests: &str, command: &str, letters: &str) -> io::Result<bool> {
    let mut source = BufReader::with_capacity(1 << 16, File::open(requests)?);
    let mut speaker = Speaker::start(command, requests)?;
    let mut census = Census::default();
    while let Some(request) = Message::request(&mut source)? {
        let answer = Message::answer(&mut speaker.answers, &request)?;
        census.see(&request, &answer);
    }
    speaker.end()?;
    let refusals = REFUSALS.iter().flat_map(|(call, numbers)| numbers.iter().map(move |number| format!("{call} refusal {number}")));
    let mut covered = true;
    for wanted in refusals.chain(EVENTS.map(str::to_string)).filter(|wanted| wanted.starts_with(|letter| letters.contains(letter))) {
        let count = census.counts.get(&wanted).copied().unwrap_or(0);
        if count < 2 {
            println!("{wanted}: {count} times, too few");
            covered = false;
        } else {
            println!("{wanted}: {count} times");
        }
    }
    Ok(covered)
}
