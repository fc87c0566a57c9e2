//! Random models with enough structure that views are accepted, each condition breaks first somewhere,
//! refinement goes deep, boxes stay empty and states stay unreachable.

use crate::bounds::{ACTIONS, BOXES, STATES};
use crate::dice::Dice;

#[derive(Clone, Copy)]
pub struct Sizes {
    pub states: usize,
    pub actions: usize,
    pub boxes: usize,
}

pub const FULL: Sizes = Sizes { states: STATES, actions: ACTIONS, boxes: BOXES };

#[derive(Clone)]
pub struct Model {
    pub sizes: Sizes,
    pub start: usize,
    pub owners: Vec<usize>,
    pub ids: Vec<u32>,
    /// `arrows[source][target]`; self-arrows are set.
    pub arrows: Vec<Vec<bool>>,
    /// `next[state][action]`, and so for outputs.
    pub next: Vec<Vec<usize>>,
    pub outputs: Vec<Vec<u16>>,
    /// `views[box][state]`
    pub views: Vec<Vec<u16>>,
}

#[derive(Clone, Copy)]
pub enum Shape {
    /// States that mostly stay, few outputs and classes.
    Loose,
    /// One state after the other, with something to see at the end only.
    Chain,
    /// A cell for each box, written along the arrows: views that see their own cell are accepted.
    Cells,
    /// Everything anywhere, and every state apart in every view.
    Noise,
    /// Nothing moves or shows, but for one place where a condition breaks.
    Break,
}

#[derive(Clone, Copy)]
pub enum Condition {
    Output,
    Respect,
    Step,
}

pub const CONDITIONS: [Condition; 3] = [Condition::Output, Condition::Respect, Condition::Step];

pub fn small(dice: &mut Dice) -> Sizes {
    Sizes { states: dice.between(1, 9), actions: dice.between(1, 6), boxes: dice.between(1, 6) }
}

/// Mostly small, some larger, few as large as a sheet holds.
pub fn sheet_sizes(dice: &mut Dice) -> Sizes {
    match dice.below(60) {
        0 => loop {
            let sizes = table_sizes(dice);
            // A `go` line takes some 13 bytes, a `view` line some 14.
            if sizes.states * (13 * sizes.actions + 14 * sizes.boxes) < 31_000 {
                return sizes;
            }
        },
        1..=6 => Sizes { states: dice.between(1, 40), actions: dice.between(1, 9), boxes: dice.between(1, 9) },
        _ => small(dice),
    }
}

pub fn table_sizes(dice: &mut Dice) -> Sizes {
    Sizes { states: dice.between(1, STATES), actions: dice.between(1, ACTIONS), boxes: dice.between(1, BOXES) }
}

fn empty(dice: &mut Dice, sizes: Sizes) -> Model {
    let Sizes { states, actions, boxes } = sizes;
    // Boxes from here on have no actions.
    let owning = if dice.one_in(3) { dice.between(1, boxes) } else { boxes };
    let mut ids: Vec<u32> = Vec::new();
    while ids.len() < boxes {
        let id = if dice.one_in(4) { 65_535 - dice.below(64) } else { dice.below(1000) } as u32;
        if !ids.contains(&id) {
            ids.push(id);
        }
    }
    let arrows = (0..boxes).map(|source| (0..boxes).map(|target| source == target).collect()).collect();
    let mut model = Model {
        sizes,
        start: dice.below(states),
        owners: (0..actions).map(|_| dice.below(owning)).collect(),
        ids,
        arrows,
        next: vec![vec![0; actions]; states],
        outputs: vec![vec![0; actions]; states],
        views: vec![vec![0; states]; boxes],
    };
    match dice.below(5) {
        0 => model.draw(dice, 1, 1),
        1 => {}
        2 => (1..boxes).for_each(|target| model.arrows[target - 1][target] = true),
        density => model.draw(dice, 1, density),
    }
    model
}

impl Model {
    pub fn random(dice: &mut Dice, sizes: Sizes, shape: Shape) -> Model {
        let mut model = empty(dice, sizes);
        match shape {
            Shape::Loose => model.loose(dice),
            Shape::Chain => model.chain(dice),
            Shape::Cells => model.cells(dice),
            Shape::Noise => model.noise(dice),
            Shape::Break => {
                let condition = dice.pick(&CONDITIONS);
                model = Model::broken(dice, sizes, condition, false);
            }
        }
        if dice.one_in(2) {
            model.reorder(dice);
        }
        if dice.one_in(2) {
            model.spread(dice);
        }
        if dice.one_in(2) {
            model.bend(dice);
        }
        model
    }

    pub fn any(dice: &mut Dice, sizes: Sizes) -> Model {
        let shape = dice.pick(&[Shape::Loose, Shape::Loose, Shape::Chain, Shape::Cells, Shape::Cells, Shape::Noise, Shape::Break]);
        Model::random(dice, sizes, shape)
    }

    /// Broken at one place only, the last that there is or any. With one state, or where the action's box is the only one, it may not break.
    pub fn broken(dice: &mut Dice, sizes: Sizes, condition: Condition, last: bool) -> Model {
        let mut model = empty(dice, sizes);
        let mut place = |count: usize| if last || dice.one_in(3) { count - 1 } else { dice.below(count) };
        let (position, action, t) = (place(sizes.boxes), place(sizes.actions), place(sizes.states));
        let s = if t == 0 { 0 } else { place(t) };
        let owner = model.owners[action];
        model.each_entry(|state, _| (state, 0));
        // To one box s and t look alike and all others apart, to the other boxes all look alike.
        let alike = |state: usize| if state == t { s } else { state } as u16;
        match condition {
            Condition::Output => {
                model.each_class(|u, state| if u == owner { alike(state) } else { 0 });
                model.outputs[t][action] = 1;
            }
            Condition::Respect => {
                model.arrows[owner][position] = owner == position;
                model.each_class(|u, state| u16::from(u == position && state == t));
                model.next[t][action] = s;
            }
            Condition::Step => {
                model.draw(dice, 1, 1);
                model.each_class(|u, state| if u == position { alike(state) } else { 0 });
                model.next[t][action] = dice.below(sizes.states);
            }
        }
        model
    }

    /// Draws each arrow with the chance part / whole.
    pub fn draw(&mut self, dice: &mut Dice, part: usize, whole: usize) {
        for row in &mut self.arrows {
            for arrow in row {
                *arrow |= dice.below(whole) < part;
            }
        }
    }

    fn each_entry(&mut self, mut entry: impl FnMut(usize, usize) -> (usize, u16)) {
        for state in 0..self.sizes.states {
            for action in 0..self.sizes.actions {
                (self.next[state][action], self.outputs[state][action]) = entry(state, action);
            }
        }
    }

    fn each_class(&mut self, mut class: impl FnMut(usize, usize) -> u16) {
        for (position, view) in self.views.iter_mut().enumerate() {
            for (state, entry) in view.iter_mut().enumerate() {
                *entry = class(position, state);
            }
        }
    }

    fn loose(&mut self, dice: &mut Dice) {
        let states = self.sizes.states;
        let stay = dice.between(1, 6);
        // With nothing to see and every arrow drawn only step is left to break.
        let only_step = dice.one_in(4);
        let outputs = if only_step { 1 } else { dice.between(1, 3) };
        if only_step {
            self.draw(dice, 1, 1);
        }
        let classes = dice.between(1, states);
        self.each_entry(|state, _| {
            let next = if dice.below(stay) > 0 { state } else { dice.below(states) };
            (next, dice.below(outputs) as u16)
        });
        self.each_class(|_, _| dice.below(classes) as u16);
    }

    fn noise(&mut self, dice: &mut Dice) {
        let states = self.sizes.states;
        let outputs = dice.pick(&[1, 2, 3, 65_536]);
        self.each_entry(|_, _| (dice.below(states), dice.below(outputs) as u16));
        self.each_class(|_, state| state as u16);
    }

    /// Some boxes go on and the others stay, or all go on; one box or all see the end.
    fn chain(&mut self, dice: &mut Dice) {
        let states = self.sizes.states;
        let boxes = self.sizes.boxes;
        let owners = self.owners.clone();
        let goes: Vec<bool> = if dice.one_in(2) { vec![true; boxes] } else { (0..boxes).map(|_| dice.one_in(2)).collect() };
        let watcher = if dice.one_in(2) { None } else { Some(dice.pick(&owners)) };
        let round = dice.one_in(3);
        self.each_entry(|state, action| {
            let next = match (goes[owners[action]], state + 1 < states) {
                (false, _) => state,
                (true, true) => state + 1,
                (true, false) if round => 0,
                (true, false) => state,
            };
            let seen = state + 1 == states && watcher.is_none_or(|watcher| watcher == owners[action]);
            (next, u16::from(seen))
        });
        if dice.one_in(2) {
            self.start = 0;
        }
        if dice.one_in(2) {
            self.draw(dice, 1, 1);
        }
        let apart = dice.one_in(2);
        self.each_class(|_, state| if apart { state as u16 } else { u16::from(state + 1 == states) });
    }

    /// States are tuples of cells; states beyond the last tuple are copies of earlier ones.
    fn cells(&mut self, dice: &mut Dice) {
        let Sizes { states, actions, boxes } = self.sizes;
        let mut widths = vec![1; boxes];
        for _ in 0..2 * boxes {
            let position = dice.below(boxes);
            let whole: usize = widths.iter().product();
            if whole / widths[position] * (widths[position] + 1) <= states {
                widths[position] += 1;
            }
        }
        let tuples: usize = widths.iter().product();
        let cell = |state: usize, position: usize| {
            let before: usize = widths[..position].iter().product();
            state % tuples / before % widths[position]
        };
        // What each action writes into the cells that it may write, by the owner's cell and the target's.
        let mut writes = vec![vec![Vec::new(); boxes]; actions];
        for action in 0..actions {
            let owner = self.owners[action];
            for target in 0..boxes {
                let quiet = dice.one_in(2);
                for was in 0..widths[target] {
                    for _ in 0..widths[owner] {
                        let writes_here = self.arrows[owner][target] && !quiet;
                        writes[action][target].push(if writes_here { dice.below(widths[target]) } else { was });
                    }
                }
            }
        }
        let shown = dice.between(1, 3);
        let owners = self.owners.clone();
        self.each_entry(|state, action| {
            let owner = owners[action];
            let mut next = 0;
            for position in (0..boxes).rev() {
                let written = writes[action][position][cell(state, position) * widths[owner] + cell(state, owner)];
                next = next * widths[position] + written;
            }
            (next, (cell(state, owner) % shown) as u16)
        });
        self.each_class(|position, state| cell(state, position) as u16);
    }

    /// Gives the states other numbers.
    fn reorder(&mut self, dice: &mut Dice) {
        let states = self.sizes.states;
        let mut place: Vec<usize> = (0..states).collect();
        dice.shuffle(&mut place);
        let was = self.clone();
        for state in 0..states {
            for action in 0..self.sizes.actions {
                self.next[place[state]][action] = place[was.next[state][action]];
                self.outputs[place[state]][action] = was.outputs[state][action];
            }
            for position in 0..self.sizes.boxes {
                self.views[position][place[state]] = was.views[position][state];
            }
        }
        self.start = place[was.start];
    }

    /// Gives the classes and outputs other numbers, far apart or equal in their low bytes; equal ones stay equal.
    fn spread(&mut self, dice: &mut Dice) {
        let mut spread = |lists: &mut [Vec<u16>]| {
            let odd = dice.number() as u16 | 1;
            let (factor, offset) = (dice.pick(&[odd, 256]), dice.number() as u16);
            for value in lists.iter_mut().flatten() {
                *value = value.wrapping_mul(factor).wrapping_add(offset);
            }
        };
        spread(&mut self.outputs);
        for view in &mut self.views {
            spread(std::slice::from_mut(view));
        }
    }

    /// One to three small changes, which break a condition or not.
    fn bend(&mut self, dice: &mut Dice) {
        let Sizes { states, actions, boxes } = self.sizes;
        for _ in 0..dice.between(1, 3) {
            let (state, action, position) = (dice.below(states), dice.below(actions), dice.below(boxes));
            match dice.below(6) {
                0 => self.outputs[state][action] ^= 1,
                1 => self.next[state][action] = dice.below(states),
                2 => {
                    let target = dice.below(boxes);
                    self.arrows[position][target] = position == target;
                }
                3 => self.arrows[position][dice.below(boxes)] = true,
                4 => self.views[position][state] = self.views[position][dice.below(states)],
                _ => self.views[position][state] ^= 1,
            }
        }
    }
}
