//! Models as values and tables, as a call is handed them, and what can be wrong with them.

use crate::bounds::{ACTIONS, BOXES, NEXT_ENTRIES, OUTPUT_ENTRIES, STATES, VIEW_ENTRIES};
use crate::dice::Dice;
use crate::model::Model;

/// A bad number: one of those given, or far off and good again where its upper bytes are lost.
fn pick_far(dice: &mut Dice, near: &[u64], good: u64) -> u64 {
    let far = dice.pick(&[good + 256, good + 65_536, good + (1 << 32), good | 1 << 63, u64::MAX]);
    if dice.one_in(2) { far } else { dice.pick(near) }
}

#[derive(Clone)]
pub struct Handed {
    pub states: u64,
    pub actions: u64,
    pub boxes: u64,
    pub start: u64,
    pub owners: [u8; ACTIONS],
    pub ids: [u32; BOXES],
    pub arrows: [bool; BOXES * BOXES],
    pub next: Vec<u16>,
    pub outputs: Vec<u16>,
    pub views: Vec<u16>,
}

impl Handed {
    /// Entries beyond the model are bad or zero: they must not be looked at.
    pub fn of(dice: &mut Dice, model: &Model) -> Handed {
        let sizes = model.sizes;
        let bad = dice.one_in(2);
        let beyond = |value: u32| if bad { value } else { 0 };
        let mut handed = Handed {
            states: sizes.states as u64,
            actions: sizes.actions as u64,
            boxes: sizes.boxes as u64,
            start: model.start as u64,
            owners: [beyond(255) as u8; ACTIONS],
            ids: [beyond(dice.pick(&[model.ids[0], 65_536, u32::MAX])); BOXES],
            arrows: [false; BOXES * BOXES],
            next: vec![beyond(65_535) as u16; NEXT_ENTRIES],
            outputs: vec![beyond(65_535) as u16; OUTPUT_ENTRIES],
            views: vec![beyond(65_535) as u16; VIEW_ENTRIES],
        };
        for (action, &owner) in model.owners.iter().enumerate() {
            handed.owners[action] = owner as u8;
        }
        handed.ids[..sizes.boxes].copy_from_slice(&model.ids);
        for source in 0..sizes.boxes {
            for target in 0..sizes.boxes {
                handed.arrows[source * BOXES + target] = model.arrows[source][target];
            }
        }
        for state in 0..sizes.states {
            for action in 0..sizes.actions {
                handed.next[state * sizes.actions + action] = model.next[state][action] as u16;
                handed.outputs[state * sizes.actions + action] = model.outputs[state][action];
            }
        }
        for (position, view) in model.views.iter().enumerate() {
            handed.views[position * sizes.states..][..sizes.states].copy_from_slice(view);
        }
        handed
    }

    /// How many ways `spoil` knows.
    pub const WAYS: usize = 12;

    /// One value made bad, each way one of those that are refused with 12.
    /// It asks only for sizes that are good, so a way may come after another.
    pub fn spoil(&mut self, dice: &mut Dice, way: usize) {
        let states = self.states.clamp(1, STATES as u64) as usize;
        let actions = self.actions.clamp(1, ACTIONS as u64) as usize;
        let boxes = self.boxes.clamp(1, BOXES as u64) as usize;
        let first_or_last = |dice: &mut Dice, count: usize| {
            let other = dice.below(count);
            dice.pick(&[0, count - 1, other])
        };
        match way {
            0 => self.states = pick_far(dice, &[0, STATES as u64 + 1], states as u64),
            1 => self.actions = pick_far(dice, &[0, ACTIONS as u64 + 1], actions as u64),
            2 => self.boxes = pick_far(dice, &[0, BOXES as u64 + 1], boxes as u64),
            3 => self.start = pick_far(dice, &[states as u64, STATES as u64], self.start % states as u64),
            4 => {
                let at = first_or_last(dice, actions);
                self.owners[at] = dice.pick(&[boxes, BOXES, 255]) as u8;
            }
            5 => {
                let at = first_or_last(dice, states * actions);
                if let Some(entry) = self.next.get_mut(at) {
                    *entry = dice.pick(&[states, STATES, 256, 65_535]) as u16;
                }
            }
            6 => {
                let at = first_or_last(dice, boxes);
                self.ids[at] = dice.pick(&[65_536, 65_536 + self.ids[at], u32::MAX]);
            }
            7 => {
                // A box's id seen before; with one box it is no fault.
                let at = dice.below(boxes);
                self.ids[at] = self.ids[dice.below(boxes)];
            }
            8 => self.arrow_beyond(dice, boxes, 0),
            9 => self.arrow_beyond(dice, 0, boxes),
            10 => self.arrow_beyond(dice, boxes, boxes),
            _ => {
                let at = first_or_last(dice, boxes);
                self.arrows[at * BOXES + at] = false;
            }
        }
    }

    /// An arrow with ends from the given positions on; with the most boxes there is none beyond.
    fn arrow_beyond(&mut self, dice: &mut Dice, source: usize, target: usize) {
        if source < BOXES && target < BOXES {
            let source = dice.between(source, BOXES - 1);
            let target = if dice.one_in(3) { source.max(target) } else { dice.between(target, BOXES - 1) };
            self.arrows[source * BOXES + target] = true;
        }
    }
}
