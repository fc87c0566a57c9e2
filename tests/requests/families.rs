//! The families of random requests; each call asks for one turn's worth.

use crate::ask::Asker;
use crate::bounds::{ACTIONS, BOXES, LIST_ENTRIES, NEXT_ENTRIES, OUTPUT_ENTRIES, RUN_ACTIONS, SHEET_BYTES, VERDICT_BYTES, VIEW_ENTRIES};
use crate::dice::Dice;
use crate::handed::Handed;
use crate::model::{self, Model, Shape, FULL};
use crate::sheet;
use std::io;

pub const TABLES: [usize; 3] = [NEXT_ENTRIES, OUTPUT_ENTRIES, VIEW_ENTRIES];

/// The same text through one of the three calls that take a sheet; the reader's answers are the longest, so they are fewer.
pub fn one_of_three(asker: &mut Asker, dice: &mut Dice, text: &[u8]) -> io::Result<()> {
    match dice.below(5) {
        0 => asker.read(text, TABLES),
        1 | 2 => asker.verdict(text, VERDICT_BYTES),
        _ => {
            let position = position(dice, 1);
            asker.label(text, position)
        }
    }
}

/// A box position: mostly one of the boxes.
fn position(dice: &mut Dice, boxes: usize) -> u64 {
    match dice.below(12) {
        0 => boxes as u64,
        1 => dice.pick(&[BOXES as u64 - 1, BOXES as u64, BOXES as u64 + 1, 255, 1 << 32, u64::MAX]),
        _ => dice.below(boxes) as u64,
    }
}

/// Random models through sheets.
pub fn sheets(asker: &mut Asker, dice: &mut Dice) -> io::Result<()> {
    let sizes = model::sheet_sizes(dice);
    let model = Model::any(dice, sizes);
    let text = sheet::text(dice, &model);
    asker.verdict(&text, VERDICT_BYTES)?;
    let position = position(dice, sizes.boxes);
    asker.label(&text, position)?;
    if dice.one_in(2) {
        asker.read(&text, TABLES)?;
    }
    Ok(())
}

/// Random models through tables, also those that no sheet can hold.
pub fn tables(asker: &mut Asker, dice: &mut Dice) -> io::Result<()> {
    let sizes = match dice.below(12) {
        0 => FULL,
        1..=3 => model::table_sizes(dice),
        _ => model::sheet_sizes(dice),
    };
    // Long chains cost the second program up to a second each.
    let shape = if sizes.states < 50 || dice.one_in(20) {
        dice.pick(&[Shape::Loose, Shape::Chain, Shape::Chain, Shape::Cells, Shape::Cells, Shape::Noise, Shape::Break])
    } else {
        dice.pick(&[Shape::Loose, Shape::Cells, Shape::Cells, Shape::Noise, Shape::Break])
    };
    let model = Model::random(dice, sizes, shape);
    let handed = Handed::of(dice, &model);
    match dice.below(5) {
        0 => asker.reached(&handed),
        1 | 2 => asker.needed(&handed, LIST_ENTRIES),
        _ => asker.judge(&handed),
    }
}

/// A run of the model's actions, mostly short, and some with a byte that names none.
fn run(dice: &mut Dice, actions: usize) -> Vec<u8> {
    let length = match dice.below(60) {
        0 => dice.between(RUN_ACTIONS - 1, RUN_ACTIONS + 1),
        1 => dice.between(0, 2 * RUN_ACTIONS),
        2..=11 => dice.between(0, 100),
        _ => dice.between(0, 12),
    };
    let mut run: Vec<u8> = (0..length).map(|_| dice.below(actions) as u8).collect();
    if length > 0 && dice.one_in(15) {
        let other = dice.below(length);
        let at = dice.pick(&[0, length - 1, other]);
        run[at] = dice.pick(&[actions, ACTIONS, 255]) as u8;
    }
    run
}

/// A length beside the right one, or anywhere up to twice that much.
pub fn wrong_length(dice: &mut Dice, right: usize) -> usize {
    let anywhere = dice.below(2 * right + 1);
    dice.pick(&[0, 1, right.saturating_sub(1), right + 1, right / 2, 2 * right, anywhere])
}

/// Random runs purged both ways.
pub fn runs(asker: &mut Asker, dice: &mut Dice) -> io::Result<()> {
    let sizes = if dice.one_in(8) { model::Sizes { states: 1, ..model::table_sizes(dice) } } else { model::small(dice) };
    let model = Model::random(dice, sizes, Shape::Loose);
    let handed = Handed::of(dice, &model);
    for _ in 0..2 {
        let position = position(dice, sizes.boxes);
        let run = run(dice, sizes.actions);
        let room = if dice.one_in(20) { wrong_length(dice, run.len()) } else { run.len() };
        asker.purge(&handed, position, &run, room)?;
    }
    Ok(())
}

/// Models handed in with something bad, mostly one thing, sometimes none or two.
pub fn values(asker: &mut Asker, dice: &mut Dice) -> io::Result<()> {
    let sizes = if dice.one_in(6) { model::table_sizes(dice) } else { model::small(dice) };
    let model = Model::any(dice, sizes);
    let mut handed = Handed::of(dice, &model);
    for _ in 0..dice.pick(&[0, 1, 1, 1, 1, 2]) {
        let way = dice.below(Handed::WAYS);
        handed.spoil(dice, way);
    }
    match dice.below(6) {
        0 => asker.judge(&handed),
        1 => asker.needed(&handed, LIST_ENTRIES),
        2 => asker.reached(&handed),
        _ => {
            let run = run(dice, sizes.actions);
            let position = position(dice, sizes.boxes);
            asker.purge(&handed, position, &run, run.len())
        }
    }
}

/// Sheets that were good, damaged.
pub fn damage(asker: &mut Asker, dice: &mut Dice) -> io::Result<()> {
    let sizes = if dice.one_in(20) { model::sheet_sizes(dice) } else { model::small(dice) };
    let model = Model::any(dice, sizes);
    let text = sheet::text(dice, &model);
    for _ in 0..3 {
        let text = sheet::damaged(dice, text.clone());
        one_of_three(asker, dice, &text)?;
    }
    Ok(())
}

/// Buffers and tables of wrong lengths, with good and bad input beside them.
pub fn lengths(asker: &mut Asker, dice: &mut Dice) -> io::Result<()> {
    let sizes = model::small(dice);
    let model = Model::any(dice, sizes);
    let mut text = sheet::text(dice, &model);
    match dice.below(6) {
        0 => text.clear(),
        1 => text = sheet::damaged(dice, text),
        2 => text.resize(SHEET_BYTES + dice.below(3), b'\n'),
        _ => {}
    }
    let room = wrong_length(dice, VERDICT_BYTES);
    asker.verdict(&text, room)?;
    let mut counts = TABLES;
    let at = dice.below(3);
    counts[at] = wrong_length(dice, counts[at]);
    if dice.one_in(3) {
        counts.rotate_left(1);
    }
    asker.read(&text, counts)?;

    let mut handed = Handed::of(dice, &model);
    let way = dice.below(2 * Handed::WAYS);
    if way < Handed::WAYS {
        handed.spoil(dice, way);
    }
    let run = run(dice, sizes.actions);
    let room = wrong_length(dice, run.len());
    let position = position(dice, sizes.boxes);
    asker.purge(&handed, position, &run, room)?;
    let mut list = LIST_ENTRIES;
    let chosen = dice.below(5);
    match chosen {
        0 => list = wrong_length(dice, LIST_ENTRIES),
        1 => handed.next.resize(wrong_length(dice, NEXT_ENTRIES), 0),
        2 => handed.outputs.resize(wrong_length(dice, OUTPUT_ENTRIES), 0),
        3 => handed.views.resize(wrong_length(dice, VIEW_ENTRIES), 0),
        _ => std::mem::swap(&mut handed.outputs, &mut handed.views),
    }
    match (chosen, dice.below(3)) {
        (0, _) | (1 | 2, 1) => asker.needed(&handed, list),
        (1, 2) => asker.reached(&handed),
        _ => asker.judge(&handed),
    }
}
