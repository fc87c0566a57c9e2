//! The limits of the requirements and the places beside them, each asked for by name and not by chance.

use crate::ask::Asker;
use crate::bounds::{ACTIONS, BOXES, LABEL_BYTES, LIST_ENTRIES, NEXT_ENTRIES, RUN_ACTIONS, SHEET_BYTES, STATES, VERDICT_BYTES};
use crate::dice::Dice;
use crate::edits;
use crate::families::{one_of_three, TABLES};
use crate::handed::Handed;
use crate::model::{Model, Shape, Sizes, CONDITIONS, FULL};
use crate::sheet::{self, lines, padded, with_field, NUMBERS, WORDS};
use std::io;

/// Two states, two actions, two boxes, an arrow, and the largest number twice.
const SMALL: &str = "sheet\t2\t2\t2\t0\nbox\t5\ta\nbox\t65535\tb\nact\t5\nact\t65535\ngo\t0\t0\t1\t0\ngo\t0\t1\t0\t1\n\
    go\t1\t0\t0\t65535\ngo\t1\t1\t1\t0\nflow\t5\t65535\nview\t5\t0\t0\nview\t5\t1\t65535\nview\t65535\t0\t3\nview\t65535\t1\t3\n";

/// One of everything, the smallest sheet that is accepted.
const TINY: &str = "sheet\t1\t1\t1\t0\nbox\t0\tb\nact\t0\ngo\t0\t0\t0\t0\nview\t0\t0\t0\n";

/// Lines of `SMALL` with two faults: its number, and what stands there.
const TWO_FAULTS: [(usize, &str); 29] = [
    (0, "shee\t2"),
    (0, "sheet\t2\t07"),
    (0, "sheet\t0\t1\t1\t65536"),
    (0, "sheet\t129\t33\t17\t65536"),
    (0, "sheet\t129\t1\t1\t200"),
    (0, "sheet\t2\t33\t2\t2"),
    (0, "sheet\t2\t2\t17\t2"),
    (0, "sheet\t65536\t0\t2\t0"),
    (1, "bo\t5"),
    (1, "box\t65536\t"),
    (1, "box\t07\t\x1f"),
    (2, "box\t5\t"),
    (2, "box\t5\tb\tb"),
    (2, "box\t5\t\x7f"),
    (3, "act\t6\t6"),
    (3, "at\t65536"),
    (5, "go\t1\t1\t2\t65536"),
    (5, "go\t0\t1\t2\t0"),
    (5, "go\t0\t0\t2\t07"),
    (5, "go\t1\t0\t65536\t0"),
    (9, "flow\t6\t6"),
    (9, "flow\t6\t65536"),
    (9, "both\t5\t6"),
    (9, "flow\t07"),
    (10, "view\t65535\t1\t0"),
    (10, "view\t6\t1\t65536"),
    (10, "view\t5\t1\t07"),
    (10, "views\t5\t1"),
    (11, "flow\t6\t65536"),
];

const AFTER_THE_END: [&str; 6] = ["\n", "view\t65535\t1\t3\n", "view\t65535\t2\t3\n", "flow\t5\t5\n", "x\n", "\n\n"];

/// A good sheet of this length, which is some 300 bytes at least.
pub fn sheet_of(length: usize) -> Vec<u8> {
    padded(SMALL.as_bytes(), length)
}

fn all_three(asker: &mut Asker, text: &[u8]) -> io::Result<()> {
    asker.verdict(text, VERDICT_BYTES)?;
    asker.read(text, TABLES)?;
    for position in [0, 1, BOXES as u64 - 1, BOXES as u64] {
        asker.label(text, position)?;
    }
    Ok(())
}

fn replaced(text: &str, at: usize, line: &[u8]) -> Vec<u8> {
    let mut list = lines(text.as_bytes());
    list[at] = line.to_vec();
    list.concat()
}

/// Each size at its limit and one over it, and sheets as large as they come.
fn sizes(asker: &mut Asker, dice: &mut Dice) -> io::Result<()> {
    let cases = [
        (STATES, 1, 1), (STATES + 1, 1, 1), (1, ACTIONS, 1), (1, ACTIONS + 1, 1), (1, 1, BOXES), (1, 1, BOXES + 1),
        (STATES, 9, 8), (50, BOXES, BOXES), (25, ACTIONS, BOXES),
    ];
    for (states, actions, boxes) in cases {
        for shape in [Shape::Loose, Shape::Chain, Shape::Cells, Shape::Noise] {
            let text = loop {
                // With wide numbers the largest may be too long.
                let model = Model::random(dice, Sizes { states, actions, boxes }, shape);
                let text = sheet::text(dice, &model);
                if text.len() <= SHEET_BYTES {
                    break text;
                }
            };
            all_three(asker, &text)?;
        }
    }
    Ok(())
}

/// Texts of lengths around the limit, the empty text, and texts without their last LF.
fn bytes(asker: &mut Asker) -> io::Result<()> {
    for length in [SHEET_BYTES - 1, SHEET_BYTES, SHEET_BYTES + 1, 65_536, 100_000] {
        for text in [TINY, SMALL] {
            all_three(asker, &padded(text.as_bytes(), length))?;
        }
        all_three(asker, &vec![b'\n'; length])?;
        all_three(asker, &vec![b'x'; length])?;
    }
    for text in ["", "\n", "x", "\n\n", "\t\n", "sheet", "sheet\n", &SMALL[..SMALL.len() - 1], &TINY[..TINY.len() - 1]] {
        all_three(asker, text.as_bytes())?;
    }
    // 10 stands before 1.
    for text in ["", "x", TINY] {
        for counts in [[0, 0, 0], [NEXT_ENTRIES - 1, NEXT_ENTRIES, TABLES[2]], [NEXT_ENTRIES, NEXT_ENTRIES + 1, TABLES[2]], [NEXT_ENTRIES, NEXT_ENTRIES, NEXT_ENTRIES]] {
            asker.read(text.as_bytes(), counts)?;
        }
    }
    Ok(())
}

/// Every line of a small sheet dropped, doubled, swapped, cut off and spoilt; two faults in a line; two bad lines.
fn records(asker: &mut Asker, dice: &mut Dice) -> io::Result<()> {
    let list = lines(SMALL.as_bytes());
    for at in 0..list.len() {
        let mut changed = vec![list.clone(); 6];
        changed[0].remove(at);
        changed[1].insert(at, list[at].clone());
        changed[2].swap(at, (at + 1) % list.len());
        changed[3].truncate(at);
        changed[4].insert(at, b"\n".to_vec());
        changed[5][at] = [&list[at][..list[at].len() - 1], b"\r\n"].concat();
        for text in changed {
            all_three(asker, &text.concat())?;
        }
        // Each field by each word or number; the one after the last is one too many.
        for word in WORDS {
            one_of_three(asker, dice, &replaced(SMALL, at, &with_field(&list[at], 0, word.as_bytes())))?;
        }
        let fields = list[at].iter().filter(|&&byte| byte == b'\t').count();
        for place in 1..=fields + 1 {
            for number in NUMBERS {
                one_of_three(asker, dice, &replaced(SMALL, at, &with_field(&list[at], place, number.as_bytes())))?;
            }
        }
        // Two bad lines, and a bad line in a text that is cut off by lines or in its last line.
        let mut bad = list.clone();
        bad[at] = with_field(&list[at], 1, b"07");
        let mut worse = bad.clone();
        worse[(at + 1) % list.len()] = b"\n".to_vec();
        one_of_three(asker, dice, &worse.concat())?;
        one_of_three(asker, dice, &bad[..at + 1].concat())?;
        let text = bad.concat();
        one_of_three(asker, dice, &text[..text.len() - 1])?;
    }
    for (at, line) in TWO_FAULTS {
        all_three(asker, &replaced(SMALL, at, format!("{line}\n").as_bytes()))?;
    }
    for line in AFTER_THE_END {
        all_three(asker, format!("{SMALL}{line}").as_bytes())?;
    }
    Ok(())
}

/// Labels of each length and with each byte.
fn labels(asker: &mut Asker, dice: &mut Dice) -> io::Result<()> {
    for length in [0, 1, 2, LABEL_BYTES - 1, LABEL_BYTES, LABEL_BYTES + 1, LABEL_BYTES + 2, 255, 256, 256 + LABEL_BYTES] {
        all_three(asker, &replaced(SMALL, 1, format!("box\t5\t{}\n", "b".repeat(length)).as_bytes()))?;
    }
    for byte in 0..=255 {
        for label in [&[byte][..], &[b'b', byte], &[byte, b'b']] {
            asker.label(&replaced(SMALL, 1, &[b"box\t5\t", label, b"\n"].concat()), 0)?;
        }
    }
    // Every byte of the smallest sheet changed, dropped and doubled.
    for at in 0..TINY.len() {
        for byte in *b"\t\n\r 0123459:/-x\x00\x7f\xff" {
            let mut text = TINY.as_bytes().to_vec();
            text[at] = byte;
            one_of_three(asker, dice, &text)?;
        }
        one_of_three(asker, dice, format!("{}{}", &TINY[..at], &TINY[at + 1..]).as_bytes())?;
        one_of_three(asker, dice, format!("{}{}", &TINY[..at + 1], &TINY[at..]).as_bytes())?;
    }
    Ok(())
}

fn all_four(asker: &mut Asker, handed: &Handed, run: &[u8]) -> io::Result<()> {
    asker.judge(handed)?;
    asker.needed(handed, LIST_ENTRIES)?;
    asker.reached(handed)?;
    asker.purge(handed, 0, run, run.len())
}

/// Models as large as the tables, each way to be refused with 12, and 10, 12 and 13 together.
fn tables(asker: &mut Asker, dice: &mut Dice) -> io::Result<()> {
    let limits = [(STATES, 1, 1), (1, ACTIONS, 1), (1, 1, BOXES), (1, 1, 1), (STATES, ACTIONS, 1), (STATES, 1, BOXES)];
    for (states, actions, boxes) in limits {
        let model = Model::any(dice, Sizes { states, actions, boxes });
        let handed = Handed::of(dice, &model);
        all_four(asker, &handed, &[0, 0])?;
    }
    for shape in [Shape::Loose, Shape::Cells, Shape::Noise, Shape::Chain] {
        let model = Model::random(dice, FULL, shape);
        let handed = Handed::of(dice, &model);
        all_four(asker, &handed, &[0, ACTIONS as u8 - 1, 5, 17, 0])?;
    }
    // Each condition broken at the last place of a full model, and of a sheet with as many states.
    for condition in CONDITIONS {
        for _ in 0..3 {
            let model = Model::broken(dice, FULL, condition, true);
            let handed = Handed::of(dice, &model);
            asker.judge(&handed)?;
            let model = Model::broken(dice, Sizes { states: STATES, actions: 9, boxes: 8 }, condition, true);
            let text = sheet::text(dice, &model);
            asker.verdict(&text, VERDICT_BYTES)?;
        }
    }
    // Every box an owner and the states told apart at once: all arrows are needed.
    for _ in 0..2 {
        let mut model = Model::random(dice, FULL, Shape::Noise);
        model.owners = (0..ACTIONS).map(|action| action % BOXES).collect();
        for (state, row) in model.outputs.iter_mut().enumerate() {
            row.fill(state as u16);
        }
        let handed = Handed::of(dice, &model);
        asker.needed(&handed, LIST_ENTRIES)?;
    }
    for turn in 0..20 * Handed::WAYS {
        let model = Model::any(dice, Sizes { states: 5, actions: 4, boxes: 3 });
        let mut handed = Handed::of(dice, &model);
        handed.spoil(dice, turn % Handed::WAYS);
        asker.purge(&handed, 0, &[0, 1], 2)?;
        // Tables make a request long, so the other calls are asked a few times only.
        if turn < 3 * Handed::WAYS {
            all_four(asker, &handed, &[0, 1])?;
            // 10 before 12 before 13.
            asker.purge(&handed, 3, &[0, 1], 2)?;
            asker.purge(&handed, 0, &[4], 1)?;
            asker.purge(&handed, 3, &[4], 2)?;
            asker.needed(&handed, LIST_ENTRIES + 1)?;
            handed.next.pop();
            asker.reached(&handed)?;
        }
    }
    Ok(())
}

/// Runs around their limit, positions around the last box, and buffers beside the run's length.
fn runs(asker: &mut Asker, dice: &mut Dice) -> io::Result<()> {
    let model = Model::random(dice, Sizes { states: 1, actions: 4, boxes: 4 }, Shape::Loose);
    let handed = Handed::of(dice, &model);
    for length in [0, 1, 2, RUN_ACTIONS - 1, RUN_ACTIONS, RUN_ACTIONS + 1, RUN_ACTIONS + 2, 4 * RUN_ACTIONS] {
        let run: Vec<u8> = (0..length).map(|_| dice.below(4) as u8).collect();
        for position in [0, 3, 4] {
            asker.purge(&handed, position, &run, length)?;
        }
        asker.purge(&handed, 0, &run, length + 1)?;
        asker.purge(&handed, 0, &run, length.saturating_sub(1))?;
    }
    for action in 0..=255 {
        asker.purge(&handed, 1, &[0, action], 2)?;
    }
    Ok(())
}

pub fn limits(asker: &mut Asker, dice: &mut Dice) -> io::Result<()> {
    all_three(asker, SMALL.as_bytes())?;
    all_three(asker, TINY.as_bytes())?;
    sizes(asker, dice)?;
    bytes(asker)?;
    records(asker, dice)?;
    labels(asker, dice)?;
    tables(asker, dice)?;
    runs(asker, dice)?;
    for room in [0, 1, VERDICT_BYTES - 1, VERDICT_BYTES + 1, 2 * VERDICT_BYTES] {
        asker.verdict(SMALL.as_bytes(), room)?;
    }
    edits::limits(asker, dice)
}
