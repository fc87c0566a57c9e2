//! Sheets: the text of a model, and texts that are damaged or longer.

use crate::bounds::LABEL_BYTES;
use crate::dice::Dice;
use crate::model::Model;

fn label(dice: &mut Dice) -> String {
    let length = match dice.below(12) {
        0 => LABEL_BYTES,
        1..=3 => dice.between(1, LABEL_BYTES),
        _ => dice.between(1, 3),
    };
    (0..length).map(|_| dice.between(0x20, 0x7E) as u8 as char).collect()
}

/// The text of a model; arrows may be drawn by pairs, again, and from a box to itself.
pub fn text(dice: &mut Dice, model: &Model) -> Vec<u8> {
    let Model { sizes, start, ids, .. } = model;
    let mut text = format!("sheet\t{}\t{}\t{}\t{start}\n", sizes.states, sizes.actions, sizes.boxes);
    for id in ids {
        text += &format!("box\t{id}\t{}\n", label(dice));
    }
    for &owner in &model.owners {
        text += &format!("act\t{}\n", ids[owner]);
    }
    for state in 0..sizes.states {
        for action in 0..sizes.actions {
            text += &format!("go\t{state}\t{action}\t{}\t{}\n", model.next[state][action], model.outputs[state][action]);
        }
    }
    let mut flows = Vec::new();
    for source in 0..sizes.boxes {
        for target in source..sizes.boxes {
            let forth = format!("flow\t{}\t{}\n", ids[source], ids[target]);
            let back = format!("flow\t{}\t{}\n", ids[target], ids[source]);
            match (model.arrows[source][target], model.arrows[target][source]) {
                (true, true) if source == target && !dice.one_in(4) => {}
                (true, true) if dice.one_in(2) => flows.push(dice.pick(&[&forth, &back]).replace("flow", "both")),
                (true, true) => flows.extend([forth, back]),
                (true, false) => flows.push(forth),
                (false, true) => flows.push(back),
                (false, false) => {}
            }
            if !flows.is_empty() && dice.one_in(10) {
                flows.push(flows[dice.below(flows.len())].clone());
            }
        }
    }
    if dice.one_in(2) {
        dice.shuffle(&mut flows);
    }
    text += &flows.concat();
    for (position, view) in model.views.iter().enumerate() {
        for (state, class) in view.iter().enumerate() {
            text += &format!("view\t{}\t{state}\t{class}\n", ids[position]);
        }
    }
    text.into_bytes()
}

/// The sheet made longer and no worse: self-arrows before the first view, and what is then missing in the first label.
pub fn padded(text: &[u8], length: usize) -> Vec<u8> {
    let text = String::from_utf8(text.to_vec()).expect("a sheet is ASCII");
    let first = text.lines().nth(1).expect("a sheet has a box");
    let id = first.split('\t').nth(1).expect("a box has an id");
    let arrow = format!("flow\t{id}\t{id}\n");
    let plain = format!("box\t{id}\tb");
    let missing = length + first.len() - plain.len() - text.len();
    let longer = format!("{plain}{}", "b".repeat(missing % arrow.len()));
    let arrows = arrow.repeat(missing / arrow.len());
    text.replacen(first, &longer, 1).replacen("\nview\t", &format!("\n{arrows}view\t"), 1).into_bytes()
}

pub fn lines(text: &[u8]) -> Vec<Vec<u8>> {
    text.split_inclusive(|&byte| byte == b'\n').map(<[u8]>::to_vec).collect()
}

/// What a number is replaced by: at the limits and beside them, and badly written.
pub const NUMBERS: [&str; 28] = [
    "0", "1", "00", "07", "01", "", "-1", "+1", " 1", "1 ", "1.0", "0x1", "15", "16", "17", "31", "32", "33", "127", "128", "129", "65535",
    "65536", "99999", "100000", "4294967296", "18446744073709551616", "1\r",
];

pub const WORDS: [&str; 12] = ["sheet", "box", "act", "go", "flow", "both", "view", "", "Sheet", "vie", "views", "go "];

const BYTES: &[u8] = b"\t\n\r 0123456789-abx\x00\x1f\x7e\x7f\x80\xff";

/// Replaces a field of a line, which keeps its LF.
pub fn with_field(line: &[u8], place: usize, field: &[u8]) -> Vec<u8> {
    let body = line.strip_suffix(b"\n").unwrap_or(line);
    let mut fields: Vec<&[u8]> = body.split(|&byte| byte == b'\t').collect();
    if place < fields.len() {
        fields[place] = field;
    } else {
        fields.push(field);
    }
    [&fields.join(&b'\t')[..], b"\n"].concat()
}

fn damage_bytes(dice: &mut Dice, text: &mut Vec<u8>) {
    let at = dice.below(text.len());
    let byte = if dice.one_in(4) { dice.number() as u8 } else { dice.pick(BYTES) };
    match dice.below(4) {
        0 => text[at] = byte,
        1 => text.insert(at, byte),
        2 => drop(text.remove(at)),
        _ => text.truncate(at + dice.below(2)),
    }
}

fn damage_lines(dice: &mut Dice, text: &mut Vec<u8>) {
    let mut list = lines(text);
    // The first line is one of many, and most refusals of it hide all others.
    let at = if dice.one_in(8) { 0 } else { dice.below(list.len()) };
    match dice.below(9) {
        0 => drop(list.remove(at)),
        1 => list.insert(at, list[at].clone()),
        2 => {
            let other = dice.below(list.len());
            list.swap(at, other);
        }
        3 => list.truncate(at),
        4 => list.insert(at, b"\n".to_vec()),
        5 => list[at] = with_field(&list[at], 0, dice.pick(&WORDS).as_bytes()),
        6 => {
            let other = list[dice.below(list.len())].clone();
            list.push(other);
        }
        _ => {
            for _ in 0..dice.between(1, 2) {
                let place = dice.between(1, 5);
                list[at] = with_field(&list[at], place, dice.pick(&NUMBERS).as_bytes());
            }
        }
    }
    *text = list.concat();
}

/// One to three places of a sheet changed, dropped, added, doubled, swapped or cut off.
pub fn damaged(dice: &mut Dice, mut text: Vec<u8>) -> Vec<u8> {
    for _ in 0..dice.between(1, 3) {
        if text.is_empty() {
            return text;
        }
        if dice.one_in(2) {
            damage_bytes(dice, &mut text);
        } else {
            damage_lines(dice, &mut text);
        }
    }
    // Without its last LF a text is refused whatever else it has.
    if text.last() != Some(&b'\n') && !dice.one_in(4) {
        text.push(b'\n');
    }
    text
}
