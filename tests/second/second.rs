//! The second program: the scope written down as near to its definitions as can be,
//! so that another implementation can be compared with it.
//!
//! `second serve`     answers the request stream of tests/README.md,
//! `second verdict`   reads a sheet from standard input and writes its verdict,
//! `second selftest`  checks this program against the scope and against brute force.

use std::io::{self, BufReader, BufWriter, Read, Write};
use std::ops::Range;

mod edits;
mod selftest;

// ---------------------------------------------------------------------------
// Sizes
// ---------------------------------------------------------------------------

pub const MOST_STATES: usize = 128;
pub const MOST_ACTIONS: usize = 32;
pub const MOST_BOXES: usize = 16;
pub const MOST_NUMBER: u32 = 65_535;
pub const MOST_SHEET_BYTES: usize = 32_768;
pub const MOST_RUN: usize = 1_024;
pub const MOST_LABEL: usize = 32;
pub const NEXT_ENTRIES: usize = 4_096;
pub const OUTPUT_ENTRIES: usize = 4_096;
pub const VIEW_ENTRIES: usize = 2_048;
pub const LIST_ENTRIES: usize = 480;
pub const VERDICT_BYTES: usize = 8_192;
/// What a purged run is filled up with after its kept actions.
pub const NO_ACTION: u8 = 255;

// ---------------------------------------------------------------------------
// Values
// ---------------------------------------------------------------------------

/// A refusal is a number and a line; a call that takes no sheet gives line 0.
#[derive(Clone, Copy, Debug, PartialEq)]
pub struct Refusal {
    pub number: u32,
    pub line: u32,
}

/// A machine without its tables. Nothing is known about the numbers until they are tested.
#[derive(Clone, Debug, PartialEq)]
pub struct Machine {
    pub states: u64,
    pub actions: u64,
    pub boxes: u64,
    pub start: u64,
    /// The box position of each action.
    pub owners: [u8; MOST_ACTIONS],
}

/// A machine with the ids of its boxes and its arrows, `arrows[source][target]`.
#[derive(Clone, Debug, PartialEq)]
pub struct Model {
    pub machine: Machine,
    pub ids: [u32; MOST_BOXES],
    pub arrows: [[bool; MOST_BOXES]; MOST_BOXES],
}

/// These ranges are asked for only after the sizes have been tested.
impl Machine {
    pub fn all_states(&self) -> Range<usize> {
        0..self.states as usize
    }
    pub fn all_actions(&self) -> Range<usize> {
        0..self.actions as usize
    }
    pub fn all_boxes(&self) -> Range<usize> {
        0..self.boxes as usize
    }
    /// Each action belongs to one box.
    pub fn owner(&self, action: usize) -> usize {
        self.owners[action] as usize
    }
}

/// Refuse with this number and line unless the test holds.
fn refuse_unless(holds: bool, number: u32, line: u32) -> Result<(), Refusal> {
    if holds {
        Ok(())
    } else {
        Err(Refusal { number, line })
    }
}

// ---------------------------------------------------------------------------
// Definitions: machine, runs, purge
// ---------------------------------------------------------------------------

/// The next state stands at entry state × actions + action.
pub fn step(machine: &Machine, next: &[u16], state: usize, action: usize) -> usize {
    next[state * machine.actions as usize + action] as usize
}

/// The output stands at entry state × actions + action.
pub fn output(machine: &Machine, outputs: &[u16], state: usize, action: usize) -> u16 {
    outputs[state * machine.actions as usize + action]
}

/// The class stands at entry box position × states + state.
pub fn class(machine: &Machine, views: &[u16], u: usize, state: usize) -> u16 {
    views[u * machine.states as usize + state]
}

/// Box v interferes with box u when the arrow is drawn; every box interferes with itself.
pub fn interferes(model: &Model, v: usize, u: usize) -> bool {
    v == u || model.arrows[v][u]
}

/// Plain purge drops every action whose box does not interfere with u.
pub fn plain_purge(model: &Model, run: &[u8], u: usize) -> Vec<u8> {
    let mut kept = Vec::new();
    for &action in run {
        if interferes(model, model.machine.owner(action as usize), u) {
            kept.push(action);
        }
    }
    kept
}

/// Sources from the right end: {u} for the empty run; an action put in front adds its box
/// if that box interferes with some box already in the set.
pub fn sources(model: &Model, run: &[u8], u: usize) -> [bool; MOST_BOXES] {
    let mut set = [false; MOST_BOXES];
    set[u] = true;
    for &action in run.iter().rev() {
        let owner = model.machine.owner(action as usize);
        let reaches_the_set = model
            .machine
            .all_boxes()
            .any(|v| set[v] && interferes(model, owner, v));
        if reaches_the_set {
            set[owner] = true;
        }
    }
    set
}

/// Intransitive purge keeps an action exactly when its box is in the sources of the run
/// that starts with it.
pub fn intransitive_purge(model: &Model, run: &[u8], u: usize) -> Vec<u8> {
    let mut kept = Vec::new();
    for place in 0..run.len() {
        let owner = model.machine.owner(run[place] as usize);
        if sources(model, &run[place..], u)[owner] {
            kept.push(run[place]);
        }
    }
    kept
}

/// A state is reachable if some run from the start ends there: the start is, and each step
/// from a reachable state ends in one.
pub fn reachable_states(machine: &Machine, next: &[u16]) -> [bool; MOST_STATES] {
    let mut reachable = [false; MOST_STATES];
    reachable[machine.start as usize] = true;
    loop {
        let before = reachable;
        for state in machine.all_states().filter(|&state| before[state]) {
            for action in machine.all_actions() {
                reachable[step(machine, next, state, action)] = true;
            }
        }
        if reachable == before {
            return reachable;
        }
    }
}

// ---------------------------------------------------------------------------
// Definitions: the three conditions and the first broken place
// ---------------------------------------------------------------------------

#[derive(Clone, Copy, Debug, PartialEq)]
pub enum Condition {
    Output,
    Respect,
    Step,
}

/// A broken place; `t` is 0 for respect, and `box_position` is the action's box for output.
#[derive(Clone, Copy, Debug, PartialEq)]
pub struct Broken {
    pub condition: Condition,
    pub box_position: usize,
    pub action: usize,
    pub s: usize,
    pub t: usize,
}

/// Two states look alike to u when u's view gives both the same class.
pub fn alike(machine: &Machine, views: &[u16], u: usize, s: usize, t: usize) -> bool {
    class(machine, views, u, s) == class(machine, views, u, t)
}

/// Output: states alike to an action's box give that action equal outputs.
/// First broken place by action, s, t, with s < t.
pub fn first_broken_output(machine: &Machine, outputs: &[u16], views: &[u16]) -> Option<Broken> {
    for action in machine.all_actions() {
        let owner = machine.owner(action);
        for s in machine.all_states() {
            for t in s + 1..machine.states as usize {
                if alike(machine, views, owner, s, t)
                    && output(machine, outputs, s, action) != output(machine, outputs, t, action)
                {
                    return Some(Broken {
                        condition: Condition::Output,
                        box_position: owner,
                        action,
                        s,
                        t,
                    });
                }
            }
        }
    }
    None
}

/// Respect: an action whose box does not interfere with u never changes u's class.
/// First broken place by box position, action, state.
pub fn first_broken_respect(model: &Model, next: &[u16], views: &[u16]) -> Option<Broken> {
    let machine = &model.machine;
    for u in machine.all_boxes() {
        for action in machine.all_actions() {
            for s in machine.all_states() {
                if !interferes(model, machine.owner(action), u)
                    && !alike(machine, views, u, s, step(machine, next, s, action))
                {
                    return Some(Broken {
                        condition: Condition::Respect,
                        box_position: u,
                        action,
                        s,
                        t: 0,
                    });
                }
            }
        }
    }
    None
}

/// Step, the weak form: states alike to u and to the action's box are alike to u after it.
/// First broken place by box position, action, s, t, with s < t.
pub fn first_broken_step(machine: &Machine, next: &[u16], views: &[u16]) -> Option<Broken> {
    for u in machine.all_boxes() {
        for action in machine.all_actions() {
            let owner = machine.owner(action);
            for s in machine.all_states() {
                for t in s + 1..machine.states as usize {
                    if alike(machine, views, u, s, t)
                        && alike(machine, views, owner, s, t)
                        && !alike(
                            machine,
                            views,
                            u,
                            step(machine, next, s, action),
                            step(machine, next, t, action),
                        )
                    {
                        return Some(Broken {
                            condition: Condition::Step,
                            box_position: u,
                            action,
                            s,
                            t,
                        });
                    }
                }
            }
        }
    }
    None
}

/// All of output before respect before step.
pub fn first_broken(model: &Model, next: &[u16], outputs: &[u16], views: &[u16]) -> Option<Broken> {
    first_broken_output(&model.machine, outputs, views)
        .or_else(|| first_broken_respect(model, next, views))
        .or_else(|| first_broken_step(&model.machine, next, views))
}

// ---------------------------------------------------------------------------
// Definitions: sameness, depth, needed arrows
// ---------------------------------------------------------------------------

/// `pairs[s][t]` says whether s and t are told apart; only reachable states are ever told.
pub type Pairs = Vec<Vec<bool>>;

/// Fill in the pairs s < t of reachable states by a test, and mirror them.
fn pairs_of_reachable_states(
    machine: &Machine,
    reachable: &[bool; MOST_STATES],
    told: impl Fn(usize, usize) -> bool,
) -> Pairs {
    let states = machine.states as usize;
    let mut pairs = vec![vec![false; states]; states];
    for s in (0..states).filter(|&s| reachable[s]) {
        for t in (s + 1..states).filter(|&t| reachable[t]) {
            if told(s, t) {
                pairs[s][t] = true;
                pairs[t][s] = true;
            }
        }
    }
    pairs
}

/// The run of length 0 tells s and t apart for u if some action of u gives differing outputs.
pub fn told_apart_by_the_empty_run(
    machine: &Machine,
    outputs: &[u16],
    reachable: &[bool; MOST_STATES],
    u: usize,
) -> Pairs {
    pairs_of_reachable_states(machine, reachable, |s, t| {
        machine
            .all_actions()
            .filter(|&action| machine.owner(action) == u)
            .any(|action| {
                output(machine, outputs, s, action) != output(machine, outputs, t, action)
            })
    })
}

/// Runs of length at most k + 1 tell s and t apart if runs of length at most k do, or if
/// some first action leads to two states that runs of length at most k tell apart.
pub fn told_apart_by_runs_one_longer(
    machine: &Machine,
    next: &[u16],
    reachable: &[bool; MOST_STATES],
    shorter: &Pairs,
) -> Pairs {
    pairs_of_reachable_states(machine, reachable, |s, t| {
        shorter[s][t]
            || machine.all_actions().any(|action| {
                shorter[step(machine, next, s, action)][step(machine, next, t, action)]
            })
    })
}

/// The depth of u is the least k such that runs of length at most k + 1 tell no more pairs
/// apart than runs of length at most k. Longer runs then tell no more either, so the pairs
/// not told apart at that k are the states that are the same to u.
pub fn depth_and_told_apart(
    machine: &Machine,
    next: &[u16],
    outputs: &[u16],
    reachable: &[bool; MOST_STATES],
    u: usize,
) -> (u64, Pairs) {
    let mut told = told_apart_by_the_empty_run(machine, outputs, reachable, u);
    let mut length = 0;
    loop {
        let longer = told_apart_by_runs_one_longer(machine, next, reachable, &told);
        if longer == told {
            return (length, told);
        }
        told = longer;
        length += 1;
    }
}

/// The arrow from v to u is needed exactly if some action of v moves some reachable state to
/// one that is not the same to u.
pub fn arrow_is_needed(
    machine: &Machine,
    next: &[u16],
    reachable: &[bool; MOST_STATES],
    told_apart_for_u: &Pairs,
    v: usize,
    u: usize,
) -> bool {
    v != u
        && machine
            .all_actions()
            .filter(|&action| machine.owner(action) == v)
            .any(|action| {
                machine
                    .all_states()
                    .filter(|&state| reachable[state])
                    .any(|state| told_apart_for_u[state][step(machine, next, state, action)])
            })
}

/// The needed arrows, the depth of each box and the reachable states.
#[derive(Clone, Debug, PartialEq)]
pub struct Needed {
    /// Pairs (source, target), source ascending, then target.
    pub arrows: Vec<(usize, usize)>,
    /// 0 beyond the last box.
    pub depths: [u64; MOST_BOXES],
    pub reach: u64,
}

pub fn needed_arrows_and_depths(machine: &Machine, next: &[u16], outputs: &[u16]) -> Needed {
    let reachable = reachable_states(machine, next);
    let mut depths = [0; MOST_BOXES];
    let mut told_apart = Vec::new();
    for u in machine.all_boxes() {
        let (depth, told) = depth_and_told_apart(machine, next, outputs, &reachable, u);
        depths[u] = depth;
        told_apart.push(told);
    }
    let mut arrows = Vec::new();
    for v in machine.all_boxes() {
        for u in machine.all_boxes() {
            if arrow_is_needed(machine, next, &reachable, &told_apart[u], v, u) {
                arrows.push((v, u));
            }
        }
    }
    Needed {
        arrows,
        depths,
        reach: reachable.iter().filter(|&&flag| flag).count() as u64,
    }
}

// ---------------------------------------------------------------------------
// The sheet
// ---------------------------------------------------------------------------

/// Holds the sheet's bytes and its place, and yields one line at a time.
struct LineReader<'a> {
    text: &'a [u8],
    place: usize,
    lines: u32,
}

impl LineReader<'_> {
    /// The part of the text that is the next line, without its LF.
    fn next_line(&mut self) -> Option<Range<usize>> {
        let start = self.place;
        let length = self.text[start..].iter().position(|&byte| byte == b'\n')?;
        self.place = start + length + 1;
        self.lines += 1;
        Some(start..start + length)
    }
}

/// Fields are parted by one tab, so an empty line is one empty field.
fn fields_of(text: &[u8], line: Range<usize>) -> Vec<Range<usize>> {
    let mut fields = Vec::new();
    let mut start = line.start;
    for place in line.clone() {
        if text[place] == b'\t' {
            fields.push(start..place);
            start = place + 1;
        }
    }
    fields.push(start..line.end);
    fields
}

/// A number is 1 to 5 decimal digits, no leading zero except 0 itself, at most 65,535.
pub fn number_of(field: &[u8]) -> Option<u32> {
    let well_written = (1..=5).contains(&field.len())
        && field.iter().all(|byte| byte.is_ascii_digit())
        && (field[0] != b'0' || field.len() == 1);
    if !well_written {
        return None;
    }
    let value = field
        .iter()
        .fold(0, |value, &digit| value * 10 + u32::from(digit - b'0'));
    (value <= MOST_NUMBER).then_some(value)
}

/// A label is 1 to 32 bytes, each 0x20 to 0x7E.
fn label_is_right(label: &[u8]) -> bool {
    (1..=MOST_LABEL).contains(&label.len()) && label.iter().all(|byte| (0x20..=0x7E).contains(byte))
}

/// One line whose word, count of fields and numbers have been tested.
struct Record {
    word: &'static str,
    line: u32,
    numbers: Vec<u32>,
    /// The last field, which is the label of a `box`.
    last_field: Range<usize>,
}

/// For each record word the count of fields, the word itself among them, and how many of
/// the fields after the word are numbers.
fn shape_of(word: &str) -> (usize, usize) {
    match word {
        "sheet" => (5, 4),
        "box" => (3, 1),
        "act" => (2, 1),
        "go" => (5, 4),
        "flow" | "both" => (3, 2),
        "view" => (4, 3),
        _ => unreachable!("only record words are asked for"),
    }
}

/// The next line as a record with one of the words due there: 11 if the text has ended, then
/// 2 for the word, 3 for the count of fields, 4 for a number.
fn record_due(reader: &mut LineReader, words_due: &[&'static str]) -> Result<Record, Refusal> {
    let Some(part) = reader.next_line() else {
        return Err(Refusal {
            number: 11,
            line: reader.lines + 1,
        });
    };
    let line = reader.lines;
    let fields = fields_of(reader.text, part);
    let first = &reader.text[fields[0].clone()];
    let Some(&word) = words_due.iter().find(|word| word.as_bytes() == first) else {
        return Err(Refusal { number: 2, line });
    };
    let (field_count, number_count) = shape_of(word);
    refuse_unless(fields.len() == field_count, 3, line)?;
    let mut numbers = Vec::new();
    for field in &fields[1..=number_count] {
        match number_of(&reader.text[field.clone()]) {
            Some(number) => numbers.push(number),
            None => return Err(Refusal { number: 4, line }),
        }
    }
    Ok(Record {
        word,
        line,
        numbers,
        last_field: fields[field_count - 1].clone(),
    })
}

/// All that a sheet says; entries beyond the model are zero.
pub struct Sheet {
    pub model: Model,
    /// Where in the sheet each label stands, by box position.
    pub labels: Vec<Range<usize>>,
    pub next: Vec<u16>,
    pub outputs: Vec<u16>,
    pub views: Vec<u16>,
}

/// Read a whole sheet; the first bad line decides.
pub fn read_sheet(text: &[u8]) -> Result<Sheet, Refusal> {
    let text_is_right = (1..=MOST_SHEET_BYTES).contains(&text.len()) && text.last() == Some(&b'\n');
    refuse_unless(text_is_right, 1, 0)?;
    let mut reader = LineReader {
        text,
        place: 0,
        lines: 0,
    };

    // 1. sheet, states, actions, boxes, start
    let record = record_due(&mut reader, &["sheet"])?;
    let states = record.numbers[0] as usize;
    let actions = record.numbers[1] as usize;
    let boxes = record.numbers[2] as usize;
    let start = record.numbers[3] as usize;
    refuse_unless((1..=MOST_STATES).contains(&states), 5, record.line)?;
    refuse_unless((1..=MOST_ACTIONS).contains(&actions), 5, record.line)?;
    refuse_unless((1..=MOST_BOXES).contains(&boxes), 5, record.line)?;
    refuse_unless(start < states, 6, record.line)?;

    // 2. box, id, label
    let mut ids = [0; MOST_BOXES];
    let mut labels = Vec::new();
    for position in 0..boxes {
        let record = record_due(&mut reader, &["box"])?;
        let id = record.numbers[0];
        refuse_unless(!ids[..position].contains(&id), 7, record.line)?;
        refuse_unless(
            label_is_right(&text[record.last_field.clone()]),
            9,
            record.line,
        )?;
        ids[position] = id;
        labels.push(record.last_field);
    }
    let position_of = |id: u32, line: u32| {
        ids[..boxes]
            .iter()
            .position(|&known| known == id)
            .ok_or(Refusal { number: 8, line })
    };

    // 3. act, box id
    let mut owners = [0; MOST_ACTIONS];
    for owner in owners.iter_mut().take(actions) {
        let record = record_due(&mut reader, &["act"])?;
        *owner = position_of(record.numbers[0], record.line)? as u8;
    }

    // 4. go, state, action, next, output
    let mut next = vec![0; NEXT_ENTRIES];
    let mut outputs = vec![0; OUTPUT_ENTRIES];
    for state in 0..states {
        for action in 0..actions {
            let record = record_due(&mut reader, &["go"])?;
            refuse_unless(record.numbers[0] as usize == state, 6, record.line)?;
            refuse_unless(record.numbers[1] as usize == action, 6, record.line)?;
            refuse_unless((record.numbers[2] as usize) < states, 6, record.line)?;
            next[state * actions + action] = record.numbers[2] as u16;
            outputs[state * actions + action] = record.numbers[3] as u16;
        }
    }

    // 5. flow, id, id, or both, id, id; every box interferes with itself, drawn or not
    let mut arrows = [[false; MOST_BOXES]; MOST_BOXES];
    for position in 0..boxes {
        arrows[position][position] = true;
    }
    let mut record = record_due(&mut reader, &["flow", "both", "view"])?;
    while record.word != "view" {
        let source = position_of(record.numbers[0], record.line)?;
        let target = position_of(record.numbers[1], record.line)?;
        arrows[source][target] = true;
        if record.word == "both" {
            arrows[target][source] = true;
        }
        record = record_due(&mut reader, &["flow", "both", "view"])?;
    }

    // 6. view, id, state, class; the first of them ended the arrows and is read already
    let mut views = vec![0; VIEW_ENTRIES];
    let mut already_read = Some(record);
    for position in 0..boxes {
        for state in 0..states {
            let record = match already_read.take() {
                Some(record) => record,
                None => record_due(&mut reader, &["view"])?,
            };
            refuse_unless(record.numbers[0] == ids[position], 8, record.line)?;
            refuse_unless(record.numbers[1] as usize == state, 6, record.line)?;
            views[position * states + state] = record.numbers[2] as u16;
        }
    }

    // No record word is due after the end.
    let after_the_end = reader.next_line();
    refuse_unless(after_the_end.is_none(), 2, reader.lines)?;

    Ok(Sheet {
        model: Model {
            machine: Machine {
                states: states as u64,
                actions: actions as u64,
                boxes: boxes as u64,
                start: start as u64,
                owners,
            },
            ids,
            arrows,
        },
        labels,
        next,
        outputs,
        views,
    })
}

// ---------------------------------------------------------------------------
// Models handed in as values and tables: refusals 10 and 12
// ---------------------------------------------------------------------------

/// A lent buffer has its one right length.
fn refuse_wrong_length(length: usize, wanted: usize) -> Result<(), Refusal> {
    refuse_unless(length == wanted, 10, 0)
}

/// Sizes, start and the owners of the actions; owners beyond the actions are not looked at.
/// The sizes come first, since the others are only counted out by tested sizes.
pub fn machine_keeps_the_rules(machine: &Machine) -> bool {
    (1..=MOST_STATES as u64).contains(&machine.states)
        && (1..=MOST_ACTIONS as u64).contains(&machine.actions)
        && (1..=MOST_BOXES as u64).contains(&machine.boxes)
        && machine.start < machine.states
        && machine
            .all_actions()
            .all(|action| u64::from(machine.owners[action]) < machine.boxes)
}

/// Every next state of the model is a state; entries beyond the model are not looked at.
fn next_keeps_the_rules(machine: &Machine, next: &[u16]) -> bool {
    machine.all_states().all(|state| {
        machine
            .all_actions()
            .all(|action| (step(machine, next, state, action) as u64) < machine.states)
    })
}

/// Ids are at most 65,535 and none is seen before; ids beyond the boxes are not looked at.
fn ids_keep_the_rules(model: &Model) -> bool {
    model.machine.all_boxes().all(|position| {
        let id = model.ids[position];
        id <= MOST_NUMBER && !model.ids[..position].contains(&id)
    })
}

/// No arrow names a box beyond the count, and no self-arrow of a box is missing.
fn arrows_keep_the_rules(model: &Model) -> bool {
    let boxes = model.machine.boxes as usize;
    (0..MOST_BOXES).all(|source| {
        (0..MOST_BOXES).all(|target| {
            let names_boxes = source < boxes && target < boxes;
            if model.arrows[source][target] {
                names_boxes
            } else {
                !(names_boxes && source == target)
            }
        })
    })
}

/// A model is a machine, ids and arrows.
fn model_keeps_the_rules(model: &Model) -> bool {
    machine_keeps_the_rules(&model.machine)
        && ids_keep_the_rules(model)
        && arrows_keep_the_rules(model)
}

// ---------------------------------------------------------------------------
// The calls
// ---------------------------------------------------------------------------

/// The reader. 10 leaves the tables untouched; any other refusal zeroes them.
pub fn reader_call(
    text: &[u8],
    next: &mut [u16],
    outputs: &mut [u16],
    views: &mut [u16],
) -> Result<Model, Refusal> {
    refuse_wrong_length(next.len(), NEXT_ENTRIES)?;
    refuse_wrong_length(outputs.len(), OUTPUT_ENTRIES)?;
    refuse_wrong_length(views.len(), VIEW_ENTRIES)?;
    match read_sheet(text) {
        Ok(sheet) => {
            next.copy_from_slice(&sheet.next);
            outputs.copy_from_slice(&sheet.outputs);
            views.copy_from_slice(&sheet.views);
            Ok(sheet.model)
        }
        Err(refusal) => {
            next.fill(0);
            outputs.fill(0);
            views.fill(0);
            Err(refusal)
        }
    }
}

/// The label call: the part of the sheet where the label stands. It tests the whole sheet
/// before the position; a refused label is the empty part at the start.
pub fn label_call(text: &[u8], position: u64) -> (Option<Refusal>, &[u8]) {
    let found = read_sheet(text).and_then(|sheet| {
        refuse_unless(position < sheet.model.machine.boxes, 13, 0)?;
        Ok(sheet.labels[position as usize].clone())
    });
    match found {
        Ok(part) => (None, &text[part]),
        Err(refusal) => (Some(refusal), &text[..0]),
    }
}

/// The judge: 10 for the tables' lengths, then 12, then the first broken place, if any.
pub fn judge_call(
    model: &Model,
    next: &[u16],
    outputs: &[u16],
    views: &[u16],
) -> Result<Option<Broken>, Refusal> {
    refuse_wrong_length(next.len(), NEXT_ENTRIES)?;
    refuse_wrong_length(outputs.len(), OUTPUT_ENTRIES)?;
    refuse_wrong_length(views.len(), VIEW_ENTRIES)?;
    refuse_unless(
        model_keeps_the_rules(model) && next_keeps_the_rules(&model.machine, next),
        12,
        0,
    )?;
    Ok(first_broken(model, next, outputs, views))
}

/// The needed-arrow call: 10 leaves the list untouched; 12 zeroes it.
pub fn needed_call(
    machine: &Machine,
    next: &[u16],
    outputs: &[u16],
    list: &mut [u16],
) -> Result<Needed, Refusal> {
    refuse_wrong_length(next.len(), NEXT_ENTRIES)?;
    refuse_wrong_length(outputs.len(), OUTPUT_ENTRIES)?;
    refuse_wrong_length(list.len(), LIST_ENTRIES)?;
    list.fill(0);
    refuse_unless(
        machine_keeps_the_rules(machine) && next_keeps_the_rules(machine, next),
        12,
        0,
    )?;
    let needed = needed_arrows_and_depths(machine, next, outputs);
    for (place, &(source, target)) in needed.arrows.iter().enumerate() {
        list[2 * place] = source as u16;
        list[2 * place + 1] = target as u16;
    }
    Ok(needed)
}

#[derive(Clone, Copy, Debug, PartialEq)]
pub enum Kind {
    Plain,
    Intransitive,
}

/// Purge wants a buffer as long as the run: kept actions first, 255 after them, and gives
/// their count. A refused purge leaves the buffer untouched.
pub fn purge_call(
    model: &Model,
    kind: Kind,
    position: u64,
    run: &[u8],
    buffer: &mut [u8],
) -> Result<usize, Refusal> {
    refuse_wrong_length(buffer.len(), run.len())?;
    refuse_unless(model_keeps_the_rules(model), 12, 0)?;
    refuse_unless(position < model.machine.boxes, 13, 0)?;
    refuse_unless(run.len() <= MOST_RUN, 13, 0)?;
    let names_actions = run
        .iter()
        .all(|&action| u64::from(action) < model.machine.actions);
    refuse_unless(names_actions, 13, 0)?;
    let kept = match kind {
        Kind::Plain => plain_purge(model, run, position as usize),
        Kind::Intransitive => intransitive_purge(model, run, position as usize),
    };
    buffer.fill(NO_ACTION);
    buffer[..kept.len()].copy_from_slice(&kept);
    Ok(kept.len())
}

/// The reachable states of a machine.
pub fn reachable_call(machine: &Machine, next: &[u16]) -> Result<[bool; MOST_STATES], Refusal> {
    refuse_wrong_length(next.len(), NEXT_ENTRIES)?;
    refuse_unless(
        machine_keeps_the_rules(machine) && next_keeps_the_rules(machine, next),
        12,
        0,
    )?;
    Ok(reachable_states(machine, next))
}

// ---------------------------------------------------------------------------
// The verdict
// ---------------------------------------------------------------------------

/// One line of a verdict: fields parted by one tab, ended by LF, as in a sheet.
fn write_line(verdict: &mut Vec<u8>, fields: &[String]) {
    verdict.extend_from_slice(fields.join("\t").as_bytes());
    verdict.push(b'\n');
}

/// The views line: accepted, or the first broken place, with `-` for the t of respect.
fn views_line(model: &Model, broken: Option<Broken>) -> Vec<String> {
    let Some(broken) = broken else {
        return vec!["views".to_string(), "accepted".to_string()];
    };
    let word = match broken.condition {
        Condition::Output => "output",
        Condition::Respect => "respect",
        Condition::Step => "step",
    };
    let t = match broken.condition {
        Condition::Respect => "-".to_string(),
        Condition::Output | Condition::Step => broken.t.to_string(),
    };
    vec![
        "views".to_string(),
        "broken".to_string(),
        word.to_string(),
        model.ids[broken.box_position].to_string(),
        broken.action.to_string(),
        broken.s.to_string(),
        t,
    ]
}

/// The verdict text: one `refused` line, or views, need, depth and reach.
pub fn verdict(text: &[u8]) -> Vec<u8> {
    let mut verdict = Vec::new();
    let sheet = match read_sheet(text) {
        Ok(sheet) => sheet,
        Err(refusal) => {
            write_line(
                &mut verdict,
                &[
                    "refused".to_string(),
                    refusal.number.to_string(),
                    refusal.line.to_string(),
                ],
            );
            return verdict;
        }
    };
    let model = &sheet.model;
    let broken = first_broken(model, &sheet.next, &sheet.outputs, &sheet.views);
    write_line(&mut verdict, &views_line(model, broken));
    let needed = needed_arrows_and_depths(&model.machine, &sheet.next, &sheet.outputs);
    for &(source, target) in &needed.arrows {
        write_line(
            &mut verdict,
            &[
                "need".to_string(),
                model.ids[source].to_string(),
                model.ids[target].to_string(),
            ],
        );
    }
    for position in model.machine.all_boxes() {
        write_line(
            &mut verdict,
            &[
                "depth".to_string(),
                model.ids[position].to_string(),
                needed.depths[position].to_string(),
            ],
        );
    }
    write_line(
        &mut verdict,
        &["reach".to_string(), needed.reach.to_string()],
    );
    verdict
}

/// The host call: a buffer of 8,192 bytes takes the verdict and zeros after it; any other
/// length gives length 0 and no change.
pub fn verdict_call(text: &[u8], buffer: &mut [u8]) -> usize {
    if buffer.len() != VERDICT_BYTES {
        return 0;
    }
    let verdict = verdict(text);
    buffer.fill(0);
    buffer[..verdict.len()].copy_from_slice(&verdict);
    verdict.len()
}

// ---------------------------------------------------------------------------
// The stream of tests/README.md
// ---------------------------------------------------------------------------

const LENT_ENTRY: u16 = 0xA5A5;
const LENT_BYTE: u8 = 0xA5;

/// Requests, read part by part; a part cut short is an error.
struct Requests<'a> {
    source: &'a mut dyn Read,
}

fn layout_error(what: &str) -> io::Error {
    io::Error::new(io::ErrorKind::InvalidData, what)
}

impl Requests<'_> {
    /// The next call's letter, or none at the end of the stream.
    fn letter(&mut self) -> io::Result<Option<u8>> {
        let mut letter = Vec::new();
        (&mut *self.source).take(1).read_to_end(&mut letter)?;
        Ok(letter.first().copied())
    }

    /// Exactly this many bytes; memory grows only with bytes that really come.
    fn raw(&mut self, count: u64) -> io::Result<Vec<u8>> {
        let mut bytes = Vec::new();
        (&mut *self.source).take(count).read_to_end(&mut bytes)?;
        if bytes.len() as u64 == count {
            Ok(bytes)
        } else {
            Err(layout_error("a part is cut short"))
        }
    }

    /// An unsigned number of this many bytes, lowest byte first.
    fn number(&mut self, bytes: u64) -> io::Result<u64> {
        let raw = self.raw(bytes)?;
        Ok(raw
            .iter()
            .rev()
            .fold(0, |value, &byte| value << 8 | u64::from(byte)))
    }

    fn bytes(&mut self) -> io::Result<Vec<u8>> {
        let length = self.number(4)?;
        self.raw(length)
    }

    fn table(&mut self) -> io::Result<Vec<u16>> {
        let count = self.number(4)?;
        let raw = self.raw(2 * count)?;
        Ok(raw
            .chunks(2)
            .map(|pair| u16::from_le_bytes([pair[0], pair[1]]))
            .collect())
    }

    fn lent_table(&mut self) -> io::Result<Vec<u16>> {
        Ok(vec![LENT_ENTRY; self.number(4)? as usize])
    }

    fn lent_bytes(&mut self) -> io::Result<Vec<u8>> {
        Ok(vec![LENT_BYTE; self.number(4)? as usize])
    }

    fn machine(&mut self) -> io::Result<Machine> {
        let states = self.number(8)?;
        let actions = self.number(8)?;
        let boxes = self.number(8)?;
        let start = self.number(8)?;
        let mut owners = [0; MOST_ACTIONS];
        owners.copy_from_slice(&self.raw(MOST_ACTIONS as u64)?);
        Ok(Machine {
            states,
            actions,
            boxes,
            start,
            owners,
        })
    }

    fn model(&mut self) -> io::Result<Model> {
        let machine = self.machine()?;
        let mut ids = [0; MOST_BOXES];
        for id in &mut ids {
            *id = self.number(4)? as u32;
        }
        let mut arrows = [[false; MOST_BOXES]; MOST_BOXES];
        for row in &mut arrows {
            for arrow in row {
                *arrow = match self.number(1)? {
                    0 => false,
                    1 => true,
                    _ => return Err(layout_error("an arrow is neither 0 nor 1")),
                };
            }
        }
        Ok(Model {
            machine,
            ids,
            arrows,
        })
    }

    fn kind(&mut self) -> io::Result<Kind> {
        match self.number(1)? {
            0 => Ok(Kind::Plain),
            1 => Ok(Kind::Intransitive),
            _ => Err(layout_error("a kind of purge is neither 0 nor 1")),
        }
    }
}

/// Answers, written part by part.
struct Answers<'a> {
    target: &'a mut dyn Write,
}

impl Answers<'_> {
    fn number(&mut self, bytes: usize, value: u64) -> io::Result<()> {
        self.target.write_all(&value.to_le_bytes()[..bytes])
    }

    fn refusal(&mut self, refusal: Option<Refusal>) -> io::Result<()> {
        let refusal = refusal.unwrap_or(Refusal { number: 0, line: 0 });
        self.number(4, u64::from(refusal.number))?;
        self.number(4, u64::from(refusal.line))
    }

    fn bytes(&mut self, bytes: &[u8]) -> io::Result<()> {
        self.number(4, bytes.len() as u64)?;
        self.target.write_all(bytes)
    }

    fn table(&mut self, table: &[u16]) -> io::Result<()> {
        self.number(4, table.len() as u64)?;
        let mut raw = Vec::with_capacity(2 * table.len());
        for entry in table {
            raw.extend_from_slice(&entry.to_le_bytes());
        }
        self.target.write_all(&raw)
    }
}

/// In a refusal every number but the refusal's own is 0.
fn empty_model() -> Model {
    Model {
        machine: Machine {
            states: 0,
            actions: 0,
            boxes: 0,
            start: 0,
            owners: [0; MOST_ACTIONS],
        },
        ids: [0; MOST_BOXES],
        arrows: [[false; MOST_BOXES]; MOST_BOXES],
    }
}

fn serve_reader(requests: &mut Requests, answers: &mut Answers) -> io::Result<()> {
    let text = requests.bytes()?;
    let mut next = requests.lent_table()?;
    let mut outputs = requests.lent_table()?;
    let mut views = requests.lent_table()?;
    let answer = reader_call(&text, &mut next, &mut outputs, &mut views);
    answers.refusal(answer.as_ref().err().copied())?;
    let model = answer.unwrap_or_else(|_| empty_model());
    answers.number(8, model.machine.states)?;
    answers.number(8, model.machine.actions)?;
    answers.number(8, model.machine.boxes)?;
    answers.number(8, model.machine.start)?;
    for id in model.ids {
        answers.number(4, u64::from(id))?;
    }
    for owner in model.machine.owners {
        answers.number(1, u64::from(owner))?;
    }
    for arrow in model.arrows.iter().flatten() {
        answers.number(1, u64::from(*arrow))?;
    }
    answers.table(&next)?;
    answers.table(&outputs)?;
    answers.table(&views)
}

fn serve_label(requests: &mut Requests, answers: &mut Answers) -> io::Result<()> {
    let text = requests.bytes()?;
    let position = requests.number(8)?;
    let (refusal, label) = label_call(&text, position);
    answers.refusal(refusal)?;
    answers.bytes(label)
}

fn serve_judge(requests: &mut Requests, answers: &mut Answers) -> io::Result<()> {
    let model = requests.model()?;
    let next = requests.table()?;
    let outputs = requests.table()?;
    let views = requests.table()?;
    let answer = judge_call(&model, &next, &outputs, &views);
    answers.refusal(answer.err())?;
    let broken = answer.unwrap_or(None);
    let condition = match broken.map(|broken| broken.condition) {
        None => 0,
        Some(Condition::Output) => 1,
        Some(Condition::Respect) => 2,
        Some(Condition::Step) => 3,
    };
    answers.number(1, condition)?;
    let places = broken.map_or([0; 4], |broken| {
        [broken.box_position, broken.action, broken.s, broken.t]
    });
    for place in places {
        answers.number(8, place as u64)?;
    }
    Ok(())
}

fn serve_needed(requests: &mut Requests, answers: &mut Answers) -> io::Result<()> {
    let machine = requests.machine()?;
    let next = requests.table()?;
    let outputs = requests.table()?;
    let mut list = requests.lent_table()?;
    let answer = needed_call(&machine, &next, &outputs, &mut list);
    answers.refusal(answer.as_ref().err().copied())?;
    let needed = answer.unwrap_or(Needed {
        arrows: Vec::new(),
        depths: [0; MOST_BOXES],
        reach: 0,
    });
    answers.number(8, needed.arrows.len() as u64)?;
    answers.number(8, needed.reach)?;
    for depth in needed.depths {
        answers.number(8, depth)?;
    }
    answers.table(&list)
}

fn serve_purge(requests: &mut Requests, answers: &mut Answers) -> io::Result<()> {
    let model = requests.model()?;
    let kind = requests.kind()?;
    let position = requests.number(8)?;
    let run = requests.bytes()?;
    let mut buffer = requests.lent_bytes()?;
    let answer = purge_call(&model, kind, position, &run, &mut buffer);
    answers.refusal(answer.err())?;
    answers.number(8, answer.unwrap_or(0) as u64)?;
    answers.bytes(&buffer)
}

fn serve_reachable(requests: &mut Requests, answers: &mut Answers) -> io::Result<()> {
    let machine = requests.machine()?;
    let next = requests.table()?;
    let answer = reachable_call(&machine, &next);
    answers.refusal(answer.err())?;
    let flags = answer.unwrap_or([false; MOST_STATES]);
    let count = flags.iter().filter(|&&flag| flag).count();
    answers.number(8, count as u64)?;
    for flag in flags {
        answers.number(1, u64::from(flag))?;
    }
    Ok(())
}

fn serve_verdict(requests: &mut Requests, answers: &mut Answers) -> io::Result<()> {
    let text = requests.bytes()?;
    let mut buffer = requests.lent_bytes()?;
    let length = verdict_call(&text, &mut buffer);
    answers.number(8, length as u64)?;
    answers.bytes(&buffer)
}

/// Answer every request until the stream ends.
pub fn serve(source: &mut dyn Read, target: &mut dyn Write) -> io::Result<()> {
    let requests = &mut Requests { source };
    let answers = &mut Answers { target };
    while let Some(letter) = requests.letter()? {
        match letter {
            b'R' => serve_reader(requests, answers)?,
            b'L' => serve_label(requests, answers)?,
            b'J' => serve_judge(requests, answers)?,
            b'N' => serve_needed(requests, answers)?,
            b'P' => serve_purge(requests, answers)?,
            b'S' => serve_reachable(requests, answers)?,
            b'V' => serve_verdict(requests, answers)?,
            b'E' => edits::serve_edits(requests, answers)?,
            _ => return Err(layout_error("an unknown letter")),
        }
        // A caller may wait for this answer before it sends the next request.
        answers.target.flush()?;
    }
    Ok(())
}

// ---------------------------------------------------------------------------
// The modes
// ---------------------------------------------------------------------------

/// The verdict program. One byte over the limit is enough to be refused, so no more is read.
fn verdict_program(source: &mut dyn Read, target: &mut dyn Write) -> io::Result<()> {
    let mut text = Vec::new();
    source
        .take(MOST_SHEET_BYTES as u64 + 1)
        .read_to_end(&mut text)?;
    target.write_all(&verdict(&text))
}

fn main() {
    let arguments: Vec<String> = std::env::args().skip(1).collect();
    let mut source = BufReader::new(io::stdin());
    let mut target = BufWriter::new(io::stdout());
    let done = match arguments.iter().map(String::as_str).collect::<Vec<_>>()[..] {
        ["serve"] => serve(&mut source, &mut target),
        ["verdict"] => verdict_program(&mut source, &mut target),
        ["selftest"] => std::process::exit(selftest::selftest()),
        _ => Err(layout_error("usage: second serve | verdict | selftest")),
    };
    // Answers given before a broken request still go out.
    let flushed = target.flush();
    if let Err(error) = done.and(flushed) {
        eprintln!("second: {error}");
        std::process::exit(2);
    }
}
