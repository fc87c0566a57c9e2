//! Writes the sheets that are measured to a folder: `sheets FOLDER`.
//!
//! The largest sheets: each shape with as many states as 32,768 bytes hold, for five ratios of actions to boxes.
//! Beside each stands the same machine with views that break at the first place where they can (`.quick`).
//! The growing ones (`grow-..`): states, actions or boxes doubled while the others stay.

use std::{env, fs, io};

#[path = "../tests/limits.rs"]
mod limits;
use limits::{ACTIONS, BOXES, SHEET_BYTES, STATES};

const SHAPES: [&str; 9] = ["chain", "descent", "ladder", "identity", "pairs", "noise", "still", "late", "wide"];

/// Actions and boxes.
const RATIOS: [(&str, usize, usize); 5] = [("even", 12, 12), ("actions", ACTIONS, 4), ("both", ACTIONS, BOXES), ("boxes", 8, BOXES), ("states", 10, 8)];

#[derive(Clone, Copy)]
struct Sizes {
    states: usize,
    actions: usize,
    boxes: usize,
}

/// Numbers that look random (xorshift64*).
struct Dice(u64);

impl Dice {
    fn below(&mut self, bound: usize) -> usize {
        self.0 ^= self.0 >> 12;
        self.0 ^= self.0 << 25;
        self.0 ^= self.0 >> 27;
        (self.0.wrapping_mul(0x2545_F491_4F6C_DD1D) >> 33) as usize % bound
    }
}

/// The next state and the output.
fn step(shape: &str, sizes: Sizes, dice: &mut Dice, state: usize, action: usize) -> (usize, usize) {
    let Sizes { states, actions, .. } = sizes;
    let last = states - 1;
    let half = states / 2;
    // Each state of one half goes on in one of the halves, as its twin does.
    let twin = (state + action + 1) % half + half * ((state / half + action) % 2);
    match shape {
        // One state after the other, and only the last one shows: as many rounds as there are states.
        "chain" => ((state + 1).min(last), usize::from(state == last)),
        // As chain, the other way: the lowest state shows, so that every state above it has another number in every round.
        "descent" => (state.saturating_sub(1), usize::from(state == 0)),
        // As chain, but only the first action goes on, the others fall back.
        "ladder" if state == last => (last, 1),
        "ladder" if action == 0 => (state + 1, 0),
        "ladder" => (state.saturating_sub(action), 0),
        // All views tell all states apart, and outputs do after a few rounds.
        "identity" => ((state * (action + 1) + 1) % states, state * (action + 3) % 7),
        // Views tell one half's states apart, twins look alike: all that step asks has to be looked at.
        "pairs" => (twin, state % half * (action + 1) % 10),
        "noise" => (dice.below(states), dice.below(2)),
        // No arrow, one class, no output that differs: accepted, and nothing is needed.
        "still" => ((state + action + 1) % states, 0),
        // Broken at the last place that there is: the last two states look alike to the last box, and its last action parts them.
        "late" if action + 1 == actions && state + 2 >= states => (state + 2 - states, 0),
        "late" => ((state.min(last.saturating_sub(1)) + action + 1) % states, 0),
        // Five digits wherever a number may have them.
        "wide" => (dice.below(states), 10_000 + dice.below(55_536)),
        _ => unreachable!("only these shapes are asked for"),
    }
}

fn class(shape: &str, sizes: Sizes, dice: &mut Dice, position: usize, state: usize) -> usize {
    match shape {
        "pairs" => state % (sizes.states / 2),
        "still" => 0,
        "late" if position + 1 == sizes.boxes && state + 1 == sizes.states => state - 1,
        // All apart: a state's number stands in the middle digits.
        "wide" => 10_000 + 400 * state + dice.below(400),
        _ => state,
    }
}

/// Classes with which the judge is done at once: at output where outputs differ, else at respect or step.
fn quick_class(shape: &str, position: usize, state: usize) -> usize {
    match shape {
        "still" => usize::from(state > 0),
        "late" if (position, state) == (0, 1) => 0,
        "late" => state,
        _ => 0,
    }
}

fn sheet(shape: &str, sizes: Sizes, quick: bool) -> String {
    let Sizes { states, actions, boxes } = sizes;
    let mut dice = Dice(0x5EED_2A9A_11CE_0001);
    let ids: Vec<usize> = (0..boxes).map(|position| if shape == "wide" { 65_535 - 7 * position } else { position }).collect();
    let start = if shape == "descent" { states - 1 } else { 0 };
    let mut text = format!("sheet\t{states}\t{actions}\t{boxes}\t{start}\n");
    for id in &ids {
        text += &format!("box\t{id}\tbox {id}\n");
    }
    for action in 0..actions {
        // The last action is the last box's where the last place is to break.
        let late = shape == "late" && action + 1 == actions;
        text += &format!("act\t{}\n", ids[if late { boxes - 1 } else { action % boxes }]);
    }
    for state in 0..states {
        for action in 0..actions {
            let (next, output) = step(shape, sizes, &mut dice, state, action);
            text += &format!("go\t{state}\t{action}\t{next}\t{output}\n");
        }
    }
    for source in &ids {
        for target in ids.iter().filter(|&target| target != source && shape != "still") {
            text += &format!("flow\t{source}\t{target}\n");
        }
    }
    for (position, id) in ids.iter().enumerate() {
        for state in 0..states {
            let class = if quick { quick_class(shape, position, state) } else { class(shape, sizes, &mut dice, position, state) };
            text += &format!("view\t{id}\t{state}\t{class}\n");
        }
    }
    text
}

/// Few states, and arrows drawn again and again.
fn flows(quick: bool) -> String {
    let mut dice = Dice(0x5EED_2A9A_11CE_0002);
    let text = sheet("still", Sizes { states: 4, actions: 4, boxes: BOXES }, quick);
    let mut arrows = String::new();
    while text.len() + arrows.len() + 12 <= SHEET_BYTES {
        arrows += &format!("both\t{}\t{}\n", dice.below(10), dice.below(10));
    }
    text.replacen("view", &format!("{arrows}view"), 1)
}

fn main() -> io::Result<()> {
    let folder = env::args().nth(1).expect("usage: sheets FOLDER");
    let write = |name: &str, text: &str| fs::write(format!("{folder}/{name}"), text);
    for shape in SHAPES {
        for (ratio, actions, boxes) in RATIOS {
            let made = |states: usize, quick: bool| sheet(shape, Sizes { states, actions, boxes }, quick);
            // Room for a line more, which is added to measure reading alone. Twins need an even number of states.
            let fits = |&states: &usize| states % 2 == 0 && made(states, false).len() + 2 <= SHEET_BYTES;
            let states = (2..=STATES).rev().find(fits).expect("two states fit");
            write(&format!("{shape}-{ratio}.sheet"), &made(states, false))?;
            write(&format!("{shape}-{ratio}.quick"), &made(states, true))?;
        }
    }
    write("flows.sheet", &flows(false))?;
    write("flows.quick", &flows(true))?;
    for shape in ["chain", "noise", "still"] {
        for power in 0..5 {
            let middle = Sizes { states: 32, actions: 16, boxes: 4 };
            let grown = [
                ("states", Sizes { states: 4 << power, ..middle }),
                ("actions", Sizes { actions: 2 << power, ..middle }),
                ("boxes", Sizes { boxes: 1 << power, ..middle }),
            ];
            for (what, sizes) in grown {
                write(&format!("grow-{shape}-{what}-{power}.sheet"), &sheet(shape, sizes, false))?;
            }
        }
    }
    Ok(())
}
