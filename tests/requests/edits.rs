//! Edits: drawings as the calls are handed them, what can be wrong with them, and the steps that are asked.

use crate::ask::Asker;
use crate::bounds::{BOXES, EDITS, EDIT_WORDS};
use crate::dice::Dice;
use crate::families::wrong_length;
use std::io;

/// The words of an edit: kind, at, to, id, out, into.
pub const FIELDS: usize = 6;

type Entry = [u32; FIELDS];

/// A list, a history and a count, good or bad.
#[derive(Clone)]
pub struct Drawing {
    /// id, live, arrows
    pub records: Vec<[u32; 3]>,
    pub history: Vec<u32>,
    pub edits: u32,
}

#[derive(Clone, Copy)]
pub enum Step {
    Add(u32),
    Delete(u32),
    Draw(u32, u32),
    Erase(u32, u32),
    Undo,
    Drop,
    /// The host writes a number at a place of the list, at a place of the history, or as the count.
    WriteList(u32, u32),
    WriteHistory(u32, u32),
    WriteCount(u32),
}

use Step::{Add, Delete, Draw, Drop, Erase, Undo, WriteCount, WriteHistory, WriteList};

/// Ids at their limits, and at those of a sheet.
const IDS: [u32; 8] = [0, 1, 2, 65_535, 65_536, 1 << 31, u32::MAX - 1, u32::MAX];

/// Ids that no drawing has at first.
const UNKNOWN: u32 = 1_000;

/// What the host writes: kinds, positions, counts and sets, at their limits and beside them.
const NUMBERS: [u32; 16] = [0, 1, 2, 3, 4, 5, 6, 15, 16, 17, 32, 33, 1 << 15, 1 << 16, 1 << 31, u32::MAX];

/// Different ids.
fn pool(dice: &mut Dice, count: usize) -> Vec<u32> {
    let mut ids: Vec<u32> = IDS.iter().copied().chain(3..3 + count as u32).collect();
    dice.shuffle(&mut ids);
    ids.truncate(count);
    ids
}

/// A set of some positions below a count, without one of them.
fn row(dice: &mut Dice, count: usize, without: usize) -> u32 {
    let set = dice.number() as u32 & dice.pick(&[0, 0x5555, 0xFFFF]);
    set & ((1 << count) - 1) & !(1 << without)
}

/// Two different positions below a count.
fn two(dice: &mut Dice, count: usize) -> [u32; 2] {
    let at = dice.below(count);
    [at as u32, ((at + dice.between(1, count - 1)) % count) as u32]
}

fn written(dice: &mut Dice) -> u32 {
    let any = dice.number() as u32;
    let named = dice.pick(&NUMBERS);
    dice.pick(&[named, named, named, any & 0xFFFF, 1 << (any % 32), any])
}

/// A deletion, on a list of so many boxes.
fn deletion(dice: &mut Dice, boxes: usize, id: u32) -> Entry {
    let at = dice.below(boxes);
    [2, at as u32, 0, id, row(dice, boxes, at), row(dice, boxes, at)]
}

/// An edit that some call makes on some list. The ids are those of live boxes and then those that may be deleted.
fn any_entry(dice: &mut Dice, ids: &mut Vec<u32>, live: usize) -> Entry {
    match dice.below(4) {
        0 => [1, 0, 0, dice.pick(ids), 0, 0],
        1 if ids.len() > live => {
            let id = ids.swap_remove(dice.between(live, ids.len() - 1));
            deletion(dice, BOXES, id)
        }
        kind => {
            let [at, to] = two(dice, BOXES);
            [3 + kind as u32 % 2, at, to, 0, 0, 0]
        }
    }
}

impl Drawing {
    fn fresh() -> Drawing {
        Drawing { records: vec![[0; 3]; BOXES], history: vec![0; EDIT_WORDS], edits: 0 }
    }

    /// Keeps the rules, though no calls may have built it, and its last edit fits the list.
    fn random(dice: &mut Dice, ids: &[u32]) -> Drawing {
        let mut drawing = Drawing::fresh();
        let live = dice.between(1, BOXES.min(ids.len()));
        for position in 0..live {
            drawing.records[position] = [ids[position], 1, row(dice, live, position)];
        }
        // What stands beyond the count is not looked at.
        if dice.one_in(2) {
            drawing.history.fill_with(|| dice.number() as u32);
        }
        let any = dice.between(1, EDITS);
        let edits = dice.pick(&[0, 1, 2, any, EDITS - 1, EDITS]);
        drawing.edits = edits as u32;
        let mut ids = ids.to_vec();
        for place in 0..edits {
            let last = place + 1 == edits;
            let entry = if last { drawing.fitting_entry(dice, &ids, live) } else { any_entry(dice, &mut ids, live) };
            drawing.put(place, entry);
        }
        drawing
    }

    fn put(&mut self, place: usize, entry: Entry) {
        self.history[place * FIELDS..][..FIELDS].copy_from_slice(&entry);
    }

    /// A last edit that can have given this list; for an added box the list is changed.
    fn fitting_entry(&mut self, dice: &mut Dice, ids: &[u32], live: usize) -> Entry {
        match dice.below(3) {
            0 if live < BOXES && live < ids.len() => deletion(dice, live + 1, ids[live]),
            1 if live > 1 => {
                let [at, to] = two(dice, live);
                let stands = self.records[at as usize][2] >> to & 1 == 1;
                [if stands { 3 } else { 4 }, at, to, 0, 0, 0]
            }
            _ => {
                let last = live - 1;
                self.records[last][2] = 0;
                for record in &mut self.records {
                    record[2] &= !(1 << last);
                }
                [1, 0, 0, self.records[last][0], 0, 0]
            }
        }
    }

    /// How many ways `spoil` knows.
    const WAYS: usize = 7;

    /// Something made bad, or at least other.
    fn spoil(&mut self, dice: &mut Dice, way: usize) {
        let edits = (self.edits as usize).clamp(1, EDITS);
        let place = dice.below(edits);
        let [one, other] = two(dice, BOXES).map(|position| position as usize);
        match way {
            0 => self.records[one][dice.below(3)] = written(dice),
            1 => self.history[dice.below(edits * FIELDS)] = written(dice),
            2 => self.edits = dice.pick(&[33, 64, 256 + self.edits, 65_536 + self.edits, 1 << 31 | self.edits, u32::MAX]),
            3 => self.records[one][0] = self.records[other][0],
            4 => self.put(place, [2, 0, 0, self.records[one][0], 0, 0]),
            5 => {
                // Deleted or added after it was deleted, or before.
                let id = dice.pick(&IDS);
                let again = dice.below(edits);
                self.put(place, [2, 0, 0, id, 0, 0]);
                self.put(again, [dice.pick(&[1, 2]), 0, 0, id, 0, 0]);
            }
            _ => {
                let entry = any_entry(dice, &mut vec![UNKNOWN, self.records[one][0]], 1);
                self.put(edits - 1, entry);
            }
        }
    }
}

/// Shares of the calls while a drawing is worked on: by the kinds of the stream.
const MOODS: [&[u8]; 4] = [&[1, 1, 1, 1, 3, 3, 2, 5], &[1, 3, 3, 3, 3, 4, 4, 2, 5], &[1, 1, 2, 2, 3, 3, 3, 5, 5], &[1, 2, 3, 4, 5, 5, 5, 5]];

fn call(dice: &mut Dice, kind: u8, ids: &[u32]) -> Step {
    let id = |dice: &mut Dice| if dice.one_in(20) { UNKNOWN } else { dice.pick(ids) };
    match kind {
        1 => Add(id(dice)),
        2 => Delete(id(dice)),
        3 => Draw(id(dice), id(dice)),
        4 => Erase(id(dice), id(dice)),
        5 => Undo,
        _ => Drop,
    }
}

/// The opposite of an edit.
fn turned(step: Step) -> Step {
    match step {
        Add(id) => Delete(id),
        Delete(id) => Add(id),
        Draw(source, target) => Erase(source, target),
        Erase(source, target) => Draw(source, target),
        other => other,
    }
}

/// The six calls in any order; half the time undo comes first, since any other edit would be the one that is undone.
fn each_call(dice: &mut Dice, ids: &[u32]) -> Vec<Step> {
    let mut kinds = [1, 2, 3, 4, 5, 6];
    dice.shuffle(&mut kinds);
    let mut steps: Vec<Step> = kinds.iter().map(|&kind| call(dice, kind, ids)).collect();
    if dice.one_in(2) {
        steps.insert(0, Undo);
    }
    steps
}

/// The host writes something, a few calls follow, and then it writes what is mostly good there.
fn meddling(dice: &mut Dice, ids: &[u32]) -> Vec<Step> {
    let place = dice.below(3 * BOXES + 2) as u32;
    let word = dice.below(EDIT_WORDS + 2) as u32;
    let (mut steps, mended) = match dice.below(3) {
        0 => (vec![WriteList(place, written(dice))], WriteList(place, [UNKNOWN + place, 1, 0][place as usize % 3])),
        1 => (vec![WriteHistory(word, written(dice)), WriteCount(word / FIELDS as u32 + 1)], WriteCount(0)),
        _ => (vec![WriteCount(written(dice))], WriteCount(0)),
    };
    for _ in 0..dice.between(1, 3) {
        let kind = dice.pick(&[1, 2, 3, 4, 5, 6]);
        steps.push(call(dice, kind, ids));
    }
    steps.push(mended);
    steps
}

/// Up to 200 steps on one drawing.
fn walk(dice: &mut Dice, ids: &[u32], meddles: bool) -> Vec<Step> {
    let length = dice.pick(&[10, 40, 40, 100, 200]);
    let mut steps = Vec::new();
    while steps.len() < length {
        let mood = dice.pick(&MOODS);
        for _ in 0..dice.between(1, 30) {
            let kind = if dice.one_in(25) { 6 } else { dice.pick(mood) };
            let step = call(dice, kind, ids);
            steps.push(step);
            if dice.one_in(6) {
                steps.push(turned(step));
            }
        }
        if meddles {
            steps.extend(meddling(dice, ids));
        }
    }
    steps.truncate(length);
    steps
}

/// Random sequences of calls, from a fresh drawing and from one that is handed in, good or bad.
pub fn edits(asker: &mut Asker, dice: &mut Dice) -> io::Result<()> {
    let count = dice.pick(&[3, 5, 8, 20, 30]);
    let ids = pool(dice, count);
    let mut drawing = if dice.one_in(2) { Drawing::random(dice, &ids) } else { Drawing::fresh() };
    let steps = match dice.below(8) {
        0 => {
            if dice.one_in(2) {
                drawing.records.resize(wrong_length(dice, BOXES), [0; 3]);
            } else {
                drawing.history.resize(wrong_length(dice, EDIT_WORDS), 0);
            }
            each_call(dice, &ids)
        }
        1 | 2 => {
            let way = dice.below(Drawing::WAYS);
            drawing.spoil(dice, way);
            each_call(dice, &ids)
        }
        3 => vec![Undo; dice.between(1, EDITS + 1)],
        4 => walk(dice, &ids, true),
        _ => walk(dice, &ids, false),
    };
    asker.edits(&drawing, &steps)
}

/// All boxes that there is room for, all edits that the history takes, and one more of each.
fn full(asker: &mut Asker) -> io::Result<()> {
    let boxes = BOXES as u32;
    let fill: Vec<Step> = (0..boxes).map(Add).collect();
    let undone = vec![Undo; EDITS + 1];
    // 14 stands before 15, and a deleted id's room is used again while its id is not.
    let one_more = [Add(0), Add(boxes), Delete(3), Add(3), Add(boxes), Add(boxes + 1), Drop, Delete(4), Add(4), Add(3), Draw(3, boxes), Delete(3)];
    asker.edits(&Drawing::fresh(), &[&fill[..], &one_more, &undone].concat())?;
    // Sixteen edits more fill the history; each call is then refused with 17, unknown ids, live ones and self-arrows too.
    let arrows: Vec<Step> = (1..boxes).map(|target| Draw(0, target)).collect();
    let refused = [Add(UNKNOWN), Add(0), Delete(0), Delete(UNKNOWN), Draw(1, 0), Draw(1, 1), Erase(0, 1), Erase(UNKNOWN, 0)];
    for last in [Draw(15, 0), Erase(0, 15), Delete(0), Delete(15), Delete(7)] {
        let steps = [&fill[..], &arrows, &[last], &refused, &[Undo, last], &refused, &undone].concat();
        asker.edits(&Drawing::fresh(), &steps)?;
        asker.edits(&Drawing::fresh(), &[&fill[..], &arrows, &[last], &[Drop, Undo, last, Undo]].concat())?;
    }
    // Every arrow, the history dropped before it is full; then a box with all its arrows goes and comes.
    let mut all = fill;
    for source in 0..boxes {
        all.push(Drop);
        all.extend((0..boxes).map(|target| Draw(source, target)));
    }
    for id in 0..boxes {
        asker.edits(&Drawing::fresh(), &[&all[..], &[Drop, Delete(id), Undo, Delete(id), Erase(id, 0), Drop, Add(id), Undo]].concat())?;
    }
    Ok(())
}

/// Each length of the list and of the history, with a good and a bad count.
fn lengths(asker: &mut Asker, dice: &mut Dice) -> io::Result<()> {
    let records = (0..=2 * BOXES + 1).map(|length| (length, EDIT_WORDS));
    let words = [0, 1, FIELDS, EDIT_WORDS - FIELDS, EDIT_WORDS - 1, EDIT_WORDS, EDIT_WORDS + 1, EDIT_WORDS + FIELDS, 2 * EDIT_WORDS].iter().map(|&length| (BOXES, length));
    for (records, words) in records.chain(words).chain([(0, 0), (EDIT_WORDS, BOXES)]) {
        for edits in [0, EDITS as u32 + 1] {
            let drawing = Drawing { records: vec![[0; 3]; records], history: vec![0; words], edits };
            asker.edits(&drawing, &each_call(dice, &IDS))?;
        }
    }
    Ok(())
}

/// Every number of a list, every word of a history's first entries, and the count, written by the host.
fn numbers(asker: &mut Asker, dice: &mut Dice) -> io::Result<()> {
    let places = (0..3 * BOXES as u32).map(|place| (place, WriteList as fn(u32, u32) -> Step));
    let words = (0..6 * FIELDS as u32).map(|place| (place, WriteHistory as fn(u32, u32) -> Step));
    let mut drawing = Drawing::fresh();
    for (position, record) in drawing.records.iter_mut().take(5).enumerate() {
        *record = [position as u32, 1, 0b01110 & !(1 << position)];
    }
    let made = [[1, 0, 0, 4, 0, 0], [2, 3, 0, 7, 0b0110, 0b0100], [3, 0, 1, 0, 0, 0], [4, 1, 0, 0, 0, 0], [1, 0, 0, 9, 0, 0], [2, 5, 0, 9, 1, 2]];
    for (place, &entry) in made.iter().enumerate() {
        drawing.put(place, entry);
        drawing.edits = place as u32 + 1;
        for number in NUMBERS {
            asker.edits(&drawing, &[WriteCount(number), Undo, Add(UNKNOWN), Undo, Undo, Drop])?;
        }
    }
    for (place, write) in places.chain(words) {
        for number in NUMBERS {
            asker.edits(&drawing, &[write(place, number), Undo, Undo, call(dice, 1, &[7, 9, UNKNOWN]), Drop])?;
        }
    }
    Ok(())
}

/// The limits of the edits and the places beside them.
pub fn limits(asker: &mut Asker, dice: &mut Dice) -> io::Result<()> {
    full(asker)?;
    lengths(asker, dice)?;
    numbers(asker, dice)
}
