//! Checks of the second program: the cases of the scope and of change request A2, and brute
//! force on small machines and small lists of boxes.

use super::edits::*;
use super::*;
use std::collections::{HashMap, HashSet};

struct Checks {
    count: usize,
    failed: usize,
}

impl Checks {
    fn check(&mut self, name: &str, holds: bool) {
        self.count += 1;
        if !holds {
            self.failed += 1;
            println!("failed: {name}");
        }
    }
}

/// Numbers that look random but are the same in each selftest (splitmix64).
struct Dice {
    place: u64,
}

impl Dice {
    fn throw(&mut self) -> u64 {
        self.place = self.place.wrapping_add(0x9E37_79B9_7F4A_7C15);
        let mut value = self.place;
        value = (value ^ (value >> 30)).wrapping_mul(0xBF58_476D_1CE4_E5B9);
        value = (value ^ (value >> 27)).wrapping_mul(0x94D0_49BB_1331_11EB);
        value ^ (value >> 31)
    }
    fn below(&mut self, bound: usize) -> usize {
        (self.throw() % bound as u64) as usize
    }
    fn from(&mut self, range: Range<usize>) -> usize {
        range.start + self.below(range.len())
    }
}

/// A model with its three tables.
#[derive(Clone)]
struct Whole {
    model: Model,
    next: Vec<u16>,
    outputs: Vec<u16>,
    views: Vec<u16>,
}

impl Whole {
    /// Every action to box 0, every step stays, outputs and classes 0, only self-arrows.
    fn quiet(states: usize, actions: usize, boxes: usize) -> Whole {
        let mut model = empty_model();
        model.machine.states = states as u64;
        model.machine.actions = actions as u64;
        model.machine.boxes = boxes as u64;
        for position in 0..boxes {
            model.ids[position] = 10 * (position as u32 + 1);
            model.arrows[position][position] = true;
        }
        let mut whole = Whole {
            model,
            next: vec![0; NEXT_ENTRIES],
            outputs: vec![0; OUTPUT_ENTRIES],
            views: vec![0; VIEW_ENTRIES],
        };
        for state in 0..states {
            for action in 0..actions {
                whole.next[state * actions + action] = state as u16;
            }
        }
        whole
    }

    fn random(dice: &mut Dice, states: usize, actions: usize, boxes: usize) -> Whole {
        let mut whole = Whole::quiet(states, actions, boxes);
        whole.model.machine.start = dice.below(states) as u64;
        let stillness = dice.below(4);
        let output_kinds = dice.from(1..4);
        let output_odds = dice.from(1..4);
        let class_kinds = dice.from(1..states + 2);
        let arrow_odds = dice.from(1..5);
        for action in 0..actions {
            whole.model.machine.owners[action] = dice.below(boxes) as u8;
        }
        for entry in 0..states * actions {
            if dice.below(4) >= stillness {
                whole.next[entry] = dice.below(states) as u16;
            }
            if dice.below(4) < output_odds {
                whole.outputs[entry] = dice.below(output_kinds) as u16;
            }
        }
        for entry in 0..boxes * states {
            whole.views[entry] = dice.below(class_kinds) as u16;
        }
        for source in 0..boxes {
            for target in 0..boxes {
                if dice.below(4) < arrow_odds - 1 {
                    whole.model.arrows[source][target] = true;
                }
            }
        }
        whole
    }

    fn machine(&self) -> &Machine {
        &self.model.machine
    }
    fn needed(&self) -> Needed {
        needed_arrows_and_depths(self.machine(), &self.next, &self.outputs)
    }
    fn broken(&self) -> Option<Broken> {
        first_broken(&self.model, &self.next, &self.outputs, &self.views)
    }
    fn step(&self, state: usize, action: usize) -> usize {
        step(self.machine(), &self.next, state, action)
    }
    fn output(&self, state: usize, action: usize) -> u16 {
        output(self.machine(), &self.outputs, state, action)
    }
    fn alike(&self, u: usize, s: usize, t: usize) -> bool {
        alike(self.machine(), &self.views, u, s, t)
    }
    /// Running a run applies its actions from left to right.
    fn run(&self, state: usize, run: &[u8]) -> usize {
        run.iter()
            .fold(state, |state, &action| self.step(state, action as usize))
    }
    /// The output of an action after a run from the start.
    fn test(&self, run: &[u8], action: usize) -> u16 {
        self.output(self.run(self.machine().start as usize, run), action)
    }

    /// The sheet that says this model.
    fn sheet(&self) -> Vec<u8> {
        let machine = self.machine();
        let ids = &self.model.ids;
        let mut text = format!(
            "sheet\t{}\t{}\t{}\t{}\n",
            machine.states, machine.actions, machine.boxes, machine.start
        );
        for u in machine.all_boxes() {
            text += &format!("box\t{}\tLabel {}\n", ids[u], u);
        }
        for action in machine.all_actions() {
            text += &format!("act\t{}\n", ids[machine.owner(action)]);
        }
        for state in machine.all_states() {
            for action in machine.all_actions() {
                text += &format!(
                    "go\t{}\t{}\t{}\t{}\n",
                    state,
                    action,
                    self.step(state, action),
                    self.output(state, action)
                );
            }
        }
        for source in machine.all_boxes() {
            for target in machine.all_boxes() {
                if self.model.arrows[source][target] {
                    text += &format!("flow\t{}\t{}\n", ids[source], ids[target]);
                }
            }
        }
        for u in machine.all_boxes() {
            for state in machine.all_states() {
                let class = class(machine, &self.views, u, state);
                text += &format!("view\t{}\t{}\t{}\n", ids[u], state, class);
            }
        }
        text.into_bytes()
    }
}

/// The register machine of the report, section 5.2, as the scope lays it out.
fn register_machine() -> Whole {
    let sums = [0, 0, 1, 0, 2, 0, 1, 2, 3];
    let next_by: [[u16; 9]; 4] = [
        [1, 1, 2, 5, 7, 5, 6, 7, 8],
        [3, 5, 6, 3, 4, 5, 6, 7, 8],
        [0, 2, 2, 4, 4, 8, 8, 8, 8],
        [0, 1, 2, 3, 4, 5, 6, 7, 8],
    ];
    let view_of: [[u16; 9]; 4] = [
        [0, 1, 1, 0, 0, 1, 1, 1, 1],
        [0, 0, 0, 1, 1, 1, 1, 1, 1],
        [0, 1, 1, 2, 2, 3, 3, 3, 3],
        [0, 0, 1, 0, 2, 0, 1, 2, 3],
    ];
    let mut whole = Whole::quiet(9, 4, 4);
    for action in 0..4 {
        whole.model.machine.owners[action] = action as u8;
        for state in 0..9 {
            whole.next[state * 4 + action] = next_by[action][state];
            whole.views[action * 9 + state] = view_of[action][state];
        }
    }
    for state in 0..9 {
        whole.outputs[state * 4 + 3] = sums[state];
    }
    whole.model.arrows[0][2] = true;
    whole.model.arrows[1][2] = true;
    whole.model.arrows[2][3] = true;
    whole
}

fn broken_at(
    condition: Condition,
    box_position: usize,
    action: usize,
    s: usize,
    t: usize,
) -> Option<Broken> {
    Some(Broken {
        condition,
        box_position,
        action,
        s,
        t,
    })
}

/// P11, the spare state.
fn spare_state() -> Whole {
    let mut whole = Whole::quiet(2, 2, 2);
    whole.model.machine.owners[1] = 1;
    whole.next[..4].copy_from_slice(&[0, 0, 0, 1]);
    whole.outputs[..4].copy_from_slice(&[0, 0, 0, 1]);
    whole.views[..4].copy_from_slice(&[0, 0, 0, 1]);
    whole
}

/// P12, the chain.
fn chain() -> Whole {
    let mut whole = Whole::quiet(4, 2, 2);
    whole.model.machine.owners[1] = 1;
    whole.next[..8].copy_from_slice(&[1, 0, 1, 2, 2, 3, 3, 3]);
    whole.outputs[..8].copy_from_slice(&[0, 0, 0, 0, 0, 0, 0, 1]);
    whole
}

fn proved_cases(checks: &mut Checks) {
    use Condition::*;
    let register = register_machine();
    checks.check("P1 views", register.broken().is_none());
    let needed = register.needed();
    checks.check("P2 needed", needed.arrows == [(0, 3), (1, 3), (2, 3)]);
    checks.check("P3 depths", needed.depths[..4] == [0, 0, 0, 1]);
    checks.check("P3 beyond", needed.depths[4..] == [0; 12]);
    checks.check("P3 reach", needed.reach == 9);

    let mut variant = register.clone();
    let u_plus_v = [0, 1, 1, 2, 2, 3, 3, 3, 3];
    for state in 0..9 {
        variant.outputs[state * 4 + 3] = u_plus_v[state];
    }
    checks.check("P4", variant.broken() == broken_at(Output, 3, 3, 0, 1));

    let mut variant = register.clone();
    variant.model.arrows[2][3] = false;
    checks.check("P5", variant.broken() == broken_at(Respect, 3, 2, 1, 0));
    let text = String::from_utf8(verdict(&variant.sheet())).unwrap();
    checks.check(
        "P5 line",
        text.starts_with("views\tbroken\trespect\t40\t2\t1\t-\n"),
    );

    let mut variant = register.clone();
    variant.views.copy_within(0..9, 18);
    checks.check("P6", variant.broken() == broken_at(Step, 3, 2, 0, 3));
    let text = String::from_utf8(verdict(&variant.sheet())).unwrap();
    checks.check(
        "P6 line",
        text.starts_with("views\tbroken\tstep\t40\t2\t0\t3\n"),
    );

    let cases: [(&str, &[u8], &[u8]); 3] = [
        ("P7", &[0, 2], &[0, 2]),
        ("P8", &[2, 0], &[2]),
        ("P9", &[], &[]),
    ];
    for (name, run, kept) in cases {
        checks.check(name, intransitive_purge(&register.model, run, 3) == kept);
        let mut buffer = vec![LENT_BYTE; run.len()];
        let count = purge_call(&register.model, Kind::Intransitive, 3, run, &mut buffer);
        checks.check(name, count == Ok(kept.len()));
        checks.check(name, buffer[..kept.len()] == *kept);
        checks.check(name, buffer[kept.len()..].iter().all(|&byte| byte == 255));
    }

    let single = Whole::quiet(1, 1, 1);
    checks.check("P10 accepted", single.broken().is_none());
    checks.check("P10 no arrow", single.needed().arrows.is_empty());
    checks.check("P10 depth", single.needed().depths == [0; 16]);
    checks.check(
        "P10 verdict",
        verdict(&single.sheet()) == b"views\taccepted\ndepth\t10\t0\nreach\t1\n",
    );

    let spare = spare_state();
    checks.check("P11", spare.broken() == broken_at(Respect, 1, 0, 1, 0));
    checks.check("P11 needed", spare.needed().arrows.is_empty());
    checks.check("P11 reach", spare.needed().reach == 1);

    let needed = chain().needed();
    checks.check("P12 needed", needed.arrows == [(0, 1)]);
    checks.check("P12 depths", needed.depths[..2] == [0, 2]);
    checks.check("P12 reach", needed.reach == 4);

    let worked_example = "views accepted\nneed 10 40\nneed 20 40\nneed 30 40\ndepth 10 0\n\
                          depth 20 0\ndepth 30 0\ndepth 40 1\nreach 9\n"
        .replace(' ', "\t");
    let text = register.sheet();
    checks.check(
        "worked example",
        verdict(&text) == worked_example.as_bytes(),
    );
    let mut printed = Vec::new();
    verdict_program(&mut &text[..], &mut printed).unwrap();
    checks.check("verdict program", printed == worked_example.as_bytes());
    let mut buffer = vec![LENT_BYTE; VERDICT_BYTES];
    let length = verdict_call(&text, &mut buffer);
    checks.check("host call length", length == worked_example.len());
    checks.check(
        "host call text",
        buffer[..length] == *worked_example.as_bytes(),
    );
    checks.check(
        "host call rest",
        buffer[length..].iter().all(|&byte| byte == 0),
    );
    for wrong in [0, 1, VERDICT_BYTES - 1, VERDICT_BYTES + 1] {
        let mut buffer = vec![LENT_BYTE; wrong];
        checks.check(
            "host call wrong length",
            verdict_call(&text, &mut buffer) == 0,
        );
        checks.check("no change", buffer.iter().all(|&byte| byte == LENT_BYTE));
    }
}

/// Each easy error, done on purpose, must give something else than this program gives.
fn easy_errors(checks: &mut Checks) {
    let register = register_machine();
    let machine = register.machine();

    // Sources from the left: sweep the run forward, keeping U's action in 2, 0.
    let mut set = [false; MOST_BOXES];
    set[3] = true;
    let mut kept_from_the_left = Vec::new();
    for action in [2u8, 0] {
        let owner = machine.owner(action as usize);
        if (0..4).any(|v| set[v] && interferes(&register.model, owner, v)) {
            set[owner] = true;
            kept_from_the_left.push(action);
        }
    }
    checks.check("left sources keep U", kept_from_the_left == [2, 0]);
    checks.check(
        "right sources do not",
        intransitive_purge(&register.model, &[2, 0], 3) == [2],
    );

    // Drawn arrows and their closure.
    let drawn = [(0, 2), (1, 2), (2, 3)];
    let closure = [(0, 2), (0, 3), (1, 2), (1, 3), (2, 3)];
    let needed = register.needed().arrows;
    checks.check("needed is not drawn", needed != drawn && needed != closure);
    let mut without_arrows = register.clone();
    without_arrows.model.arrows = Whole::quiet(9, 4, 4).model.arrows;
    let list = |whole: &Whole| {
        String::from_utf8(verdict(&whole.sheet()))
            .unwrap()
            .lines()
            .filter(|line| line.starts_with("need"))
            .collect::<Vec<_>>()
            .join(",")
    };
    checks.check(
        "needed needs no arrows",
        list(&register) == list(&without_arrows),
    );

    // Only the next output: U's arrow to X is lost.
    let reachable = reachable_states(machine, &register.next);
    let at_once = told_apart_by_the_empty_run(machine, &register.outputs, &reachable, 3);
    let lost = |v| arrow_is_needed(machine, &register.next, &reachable, &at_once, v, 3);
    checks.check("next output only", !lost(0) && !lost(1) && lost(2));

    // Ordinary step consistency breaks P1 at 40, 2, 0, 1.
    let mut first = None;
    'search: for u in 0..4 {
        for action in 0..4 {
            for s in 0..9 {
                for t in s + 1..9 {
                    let after =
                        register.alike(u, register.step(s, action), register.step(t, action));
                    if register.alike(u, s, t) && !after {
                        first = Some((register.model.ids[u], action, s, t));
                        break 'search;
                    }
                }
            }
        }
    }
    checks.check("ordinary step consistency", first == Some((40, 2, 0, 1)));
}

/// Written short: `|` for a tab and `/` for the end of a line.
fn text_of(short: &str) -> Vec<u8> {
    short.replace('|', "\t").replace('/', "\n").into_bytes()
}

fn refusals_by_the_reader(checks: &mut Checks) {
    // Each row: the sheet, the number and the line; 0 and 0 for a good sheet.
    let rows: &[(&str, u32, u32)] = &[
        ("sheet|1|1|1|0/box|7|A/act|7/go|0|0|0|0/view|7|0|0/", 0, 0),
        (
            "sheet|1|1|1|0/box|65535|A/act|65535/go|0|0|0|65535/view|65535|0|65535/",
            0,
            0,
        ),
        // 1
        ("", 1, 0),
        ("sheet|1|1|1|0/box|7|A/act|7/go|0|0|0|0/view|7|0|0", 1, 0),
        ("x", 1, 0),
        // 2
        ("/", 2, 1),
        ("Sheet|1|1|1|0/", 2, 1),
        ("sheet 1 1 1 0/", 2, 1),
        ("|sheet|1|1|1|0/", 2, 1),
        ("box|x/", 2, 1),
        ("sheet|1|1|1|0/sheet|1|1|1|0/", 2, 2),
        ("sheet|1|1|1|0//", 2, 2),
        ("sheet|1|1|1|0/act|7/", 2, 2),
        ("sheet|1|1|1|0/box|7|A/go|0|0|0|0/", 2, 3),
        ("sheet|1|1|1|0/box|7|A/act|7/view|7|0|0/", 2, 4),
        ("sheet|1|1|1|0/box|7|A/act|7/flow|7|7/", 2, 4),
        ("sheet|1|1|1|0/box|7|A/act|7/go|0|0|0|0/go|0|0|0|0/", 2, 5),
        ("sheet|1|1|1|0/box|7|A/act|7/go|0|0|0|0//view|7|0|0/", 2, 5),
        ("sheet|1|1|1|0/box|7|A/act|7/go|0|0|0|0/view|7|0|0//", 2, 6),
        (
            "sheet|1|1|1|0/box|7|A/act|7/go|0|0|0|0/view|7|0|0/flow|7|7/",
            2,
            6,
        ),
        (
            "sheet|1|1|1|0/box|7|A/act|7/go|0|0|0|0/view|7|0|0/view|7|0|0/",
            2,
            6,
        ),
        (
            "sheet|2|1|1|0/box|7|A/act|7/go|0|0|0|0/go|1|0|0|0/view|7|0|0/flow|7|7/",
            2,
            7,
        ),
        // 3
        ("sheet/", 3, 1),
        ("sheet|1|1|1/", 3, 1),
        ("sheet|1|1|1|0|/", 3, 1),
        ("sheet|07|x|1|0|0/", 3, 1),
        ("sheet|1|1|1|0/box|7/", 3, 2),
        ("sheet|1|1|1|0/box|7|A|B/", 3, 2),
        ("sheet|1|1|1|0/box|7|A/act|7|/", 3, 3),
        ("sheet|1|1|1|0/box|7|A/act|7/go|0|0|0/", 3, 4),
        ("sheet|1|1|1|0/box|7|A/act|7/go|0|0|0|0/both|7/", 3, 5),
        ("sheet|1|1|1|0/box|7|A/act|7/go|0|0|0|0/view|7|0/", 3, 5),
        // 4
        ("sheet|07|1|1|0/", 4, 1),
        ("sheet|1|1|1|00/", 4, 1),
        ("sheet||1|1|0/", 4, 1),
        ("sheet|+1|1|1|0/", 4, 1),
        ("sheet|-1|1|1|0/", 4, 1),
        ("sheet| 1|1|1|0/", 4, 1),
        ("sheet|1|1|1|0\r/", 4, 1),
        ("sheet|65536|1|1|0/", 4, 1),
        ("sheet|100000|1|1|0/", 4, 1),
        ("sheet|0|1|1|65536/", 4, 1),
        ("sheet|1|1|1|0/box|65536|A/", 4, 2),
        ("sheet|1|1|1|0/box|x|/", 4, 2),
        ("sheet|1|1|1|0/box|7|A/act|99999/", 4, 3),
        ("sheet|1|1|1|0/box|7|A/act|7/go|1|0|0|65536/", 4, 4),
        ("sheet|1|1|1|0/box|7|A/act|7/go|0|0|0|0/flow|8|x/", 4, 5),
        ("sheet|1|1|1|0/box|7|A/act|7/go|0|0|0|0/view|8|0|07/", 4, 5),
        // 5
        ("sheet|0|1|1|0/", 5, 1),
        ("sheet|129|1|1|0/", 5, 1),
        ("sheet|1|0|1|0/", 5, 1),
        ("sheet|1|33|1|0/", 5, 1),
        ("sheet|1|1|0|0/", 5, 1),
        ("sheet|1|1|17|0/", 5, 1),
        ("sheet|65535|1|1|65535/", 5, 1),
        ("sheet|1|1|17|1/", 5, 1),
        // 6
        ("sheet|1|1|1|1/", 6, 1),
        ("sheet|128|32|16|128/", 6, 1),
        ("sheet|1|1|1|0/box|7|A/act|7/go|1|0|0|0/", 6, 4),
        ("sheet|1|1|1|0/box|7|A/act|7/go|0|1|0|0/", 6, 4),
        ("sheet|1|1|1|0/box|7|A/act|7/go|0|0|1|0/", 6, 4),
        ("sheet|2|1|1|0/box|7|A/act|7/go|0|0|1|0/go|0|0|1|0/", 6, 5),
        ("sheet|1|1|1|0/box|7|A/act|7/go|0|0|0|0/view|7|1|0/", 6, 5),
        // 7
        ("sheet|1|1|2|0/box|7|A/box|7|B/", 7, 3),
        ("sheet|1|1|2|0/box|7|A/box|7|/", 7, 3),
        ("sheet|1|1|3|0/box|0|A/box|7|B/box|0|C/", 7, 4),
        // 8
        ("sheet|1|1|1|0/box|7|A/act|0/", 8, 3),
        ("sheet|1|1|1|0/box|7|A/act|8/", 8, 3),
        ("sheet|1|1|1|0/box|7|A/act|7/go|0|0|0|0/flow|8|7/", 8, 5),
        ("sheet|1|1|1|0/box|7|A/act|7/go|0|0|0|0/flow|7|8/", 8, 5),
        ("sheet|1|1|1|0/box|7|A/act|7/go|0|0|0|0/both|7|0/", 8, 5),
        ("sheet|1|1|1|0/box|7|A/act|7/go|0|0|0|0/view|8|9|0/", 8, 5),
        (
            "sheet|1|1|2|0/box|7|A/box|8|B/act|7/go|0|0|0|0/view|8|0|0/",
            8,
            6,
        ),
        // 9
        ("sheet|1|1|1|0/box|7|/", 9, 2),
        ("sheet|1|1|1|0/box|7|\x7F/", 9, 2),
        ("sheet|1|1|1|0/box|7|\x1F/", 9, 2),
        ("sheet|1|1|1|0/box|7|A\r/", 9, 2),
        (
            "sheet|1|1|1|0/box|7|123456789012345678901234567890123/",
            9,
            2,
        ),
        (
            "sheet|1|1|1|0/box|7|12345678901234567890123456789012/",
            11,
            3,
        ),
        ("sheet|1|1|1|0/box|7| ~/", 11, 3),
        // 11
        ("sheet|1|1|1|0/", 11, 2),
        ("sheet|1|1|2|0/box|7|A/", 11, 3),
        ("sheet|1|1|1|0/box|7|A/act|7/", 11, 4),
        ("sheet|1|1|1|0/box|7|A/act|7/go|0|0|0|0/", 11, 5),
        (
            "sheet|1|1|1|0/box|7|A/act|7/go|0|0|0|0/flow|7|7/both|7|7/",
            11,
            7,
        ),
        (
            "sheet|2|1|1|0/box|7|A/act|7/go|0|0|0|0/go|1|0|0|0/view|7|0|0/",
            11,
            7,
        ),
    ];
    for &(short, number, line) in rows {
        let text = text_of(short);
        let mut next = vec![LENT_ENTRY; NEXT_ENTRIES];
        let mut outputs = vec![LENT_ENTRY; OUTPUT_ENTRIES];
        let mut views = vec![LENT_ENTRY; VIEW_ENTRIES];
        let answer = reader_call(&text, &mut next, &mut outputs, &mut views);
        let found = answer.map_or_else(|refusal| (refusal.number, refusal.line), |_| (0, 0));
        checks.check(
            &format!("reader {short:?} gave {found:?}"),
            found == (number, line),
        );
        if number != 0 {
            let tables = [&next, &outputs, &views];
            let zero = tables
                .iter()
                .all(|table| table.iter().all(|&entry| entry == 0));
            checks.check(&format!("tables zero after {short:?}"), zero);
            let refusal = Some(Refusal { number, line });
            let label = label_call(&text, u64::MAX);
            checks.check("sheet before position", label == (refusal, &[][..]));
            checks.check(
                "at the start",
                std::ptr::eq(label.1.as_ptr(), text.as_ptr()),
            );
            let refused = format!("refused\t{number}\t{line}\n");
            checks.check("refused line", verdict(&text) == refused.as_bytes());
        }
    }

    // 10 comes before everything and touches nothing.
    for wrong in 0..6 {
        for text in [&b""[..], b"x", &register_machine().sheet()] {
            let mut lengths = [NEXT_ENTRIES, OUTPUT_ENTRIES, VIEW_ENTRIES];
            lengths[wrong / 2] = lengths[wrong / 2] + 1 - 2 * (wrong % 2);
            let mut tables = lengths.map(|length| vec![LENT_ENTRY; length]);
            let [next, outputs, views] = &mut tables;
            let answer = reader_call(text, next, outputs, views);
            checks.check(
                "10",
                answer
                    == Err(Refusal {
                        number: 10,
                        line: 0,
                    }),
            );
            let untouched = tables.iter().flatten().all(|&entry| entry == LENT_ENTRY);
            checks.check("10 untouched", untouched);
        }
    }

    // A good sheet: what is read, labels, arrows.
    let text = text_of(
        "sheet|2|1|2|1/box|9|A b/box|3|~/act|3/go|0|0|1|5/go|1|0|1|6/flow|9|9/\
         flow|9|3/flow|9|3/view|9|0|1/view|9|1|2/view|3|0|3/view|3|1|4/",
    );
    let mut next = vec![LENT_ENTRY; NEXT_ENTRIES];
    let mut outputs = vec![LENT_ENTRY; OUTPUT_ENTRIES];
    let mut views = vec![LENT_ENTRY; VIEW_ENTRIES];
    let model = reader_call(&text, &mut next, &mut outputs, &mut views).unwrap();
    checks.check("ids", model.ids[..3] == [9, 3, 0]);
    checks.check("owners", model.machine.owners[..2] == [1, 0]);
    checks.check("start", model.machine.start == 1);
    checks.check(
        "next",
        next[..3] == [1, 1, 0] && next[3..].iter().all(|&entry| entry == 0),
    );
    checks.check("outputs", outputs[..3] == [5, 6, 0]);
    checks.check("views", views[..5] == [1, 2, 3, 4, 0]);
    checks.check("arrows", model.arrows[0][..3] == [true, true, false]);
    checks.check(
        "no arrow back",
        model.arrows[1][..3] == [false, true, false],
    );
    checks.check("nothing beyond", model.arrows[2..] == [[false; 16]; 14]);
    let labels = [label_call(&text, 0), label_call(&text, 1)];
    checks.check("label 0", labels[0] == (None, &b"A b"[..]));
    checks.check("label 1", labels[1] == (None, &b"~"[..]));
    let start = text.as_ptr() as usize;
    let place = labels[0].1.as_ptr() as usize - start;
    checks.check(
        "label stands in the sheet",
        &text[place - 2..place] == b"9\t",
    );
    for position in [2, 16, 1 << 32, u64::MAX] {
        let refusal = Some(Refusal {
            number: 13,
            line: 0,
        });
        checks.check(
            "label 13",
            label_call(&text, position) == (refusal, &[][..]),
        );
    }
    let both = text_of(&String::from_utf8(text.clone()).unwrap().replacen(
        "flow\t9\t3",
        "both\t9\t3",
        1,
    ));
    let sheet = read_sheet(&both).unwrap_or_else(|_| unreachable!());
    checks.check("both", sheet.model.arrows[1][0] && sheet.model.arrows[0][1]);
}

fn refusals_by_the_other_calls(checks: &mut Checks) {
    let register = register_machine();
    let refused = |number| Refusal { number, line: 0 };
    let judge =
        |whole: &Whole| judge_call(&whole.model, &whole.next, &whole.outputs, &whole.views).err();
    let needed = |whole: &Whole| {
        let mut list = vec![LENT_ENTRY; LIST_ENTRIES];
        let answer = needed_call(whole.machine(), &whole.next, &whole.outputs, &mut list);
        (answer.err(), list)
    };
    let purge = |whole: &Whole| purge_call(&whole.model, Kind::Plain, 0, &[], &mut []).err();
    let reach = |whole: &Whole| reachable_call(whole.machine(), &whole.next).err();

    // Each spoiling, and which of judge, needed, purge and reach are handed the spoiled part.
    type Spoil = fn(&mut Whole);
    let everyone = [true; 4];
    let model_only = [true, false, true, false];
    let table_only = [true, true, false, true];
    let nobody = [false; 4];
    let spoils: &[(&str, Spoil, [bool; 4])] = &[
        ("nothing", |_| (), nobody),
        ("no states", |w| w.model.machine.states = 0, everyone),
        ("states 129", |w| w.model.machine.states = 129, everyone),
        (
            "states most",
            |w| w.model.machine.states = u64::MAX,
            everyone,
        ),
        ("no actions", |w| w.model.machine.actions = 0, everyone),
        ("actions 33", |w| w.model.machine.actions = 33, everyone),
        (
            "actions most",
            |w| w.model.machine.actions = 1 << 63,
            everyone,
        ),
        ("no boxes", |w| w.model.machine.boxes = 0, everyone),
        ("boxes 17", |w| w.model.machine.boxes = 17, everyone),
        (
            "boxes low byte",
            |w| w.model.machine.boxes = (1 << 32) + 4,
            everyone,
        ),
        ("start", |w| w.model.machine.start = 9, everyone),
        ("start most", |w| w.model.machine.start = u64::MAX, everyone),
        ("owner", |w| w.model.machine.owners[3] = 4, everyone),
        ("owner beyond", |w| w.model.machine.owners[4] = 255, nobody),
        ("id over", |w| w.model.ids[3] = 65_536, model_only),
        ("id twice", |w| w.model.ids[3] = 10, model_only),
        ("id beyond", |w| w.model.ids[4] = 10, nobody),
        ("id beyond over", |w| w.model.ids[15] = u32::MAX, nobody),
        ("self-arrow", |w| w.model.arrows[2][2] = false, model_only),
        (
            "arrow from beyond",
            |w| w.model.arrows[4][0] = true,
            model_only,
        ),
        (
            "arrow to beyond",
            |w| w.model.arrows[0][15] = true,
            model_only,
        ),
        (
            "self-arrow beyond",
            |w| w.model.arrows[9][9] = true,
            model_only,
        ),
        ("next", |w| w.next[35] = 9, table_only),
        ("next beyond", |w| w.next[36] = 9, nobody),
        ("output beyond", |w| w.outputs[36] = 9, nobody),
        ("view beyond", |w| w.views[36] = 9, nobody),
        ("short next", |w| w.next.truncate(4_095), nobody),
        ("long outputs", |w| w.outputs.push(0), nobody),
        ("short views", |w| w.views.truncate(2_047), nobody),
        (
            "no boxes, short next",
            |w| {
                w.model.machine.boxes = 0;
                w.next.clear();
            },
            everyone,
        ),
        (
            "no boxes, long outputs",
            |w| {
                w.model.machine.boxes = 0;
                w.outputs.push(0);
            },
            everyone,
        ),
    ];
    for &(name, spoil, handed) in spoils {
        let mut whole = register.clone();
        spoil(&mut whole);
        let next_wrong = whole.next.len() != NEXT_ENTRIES;
        let outputs_wrong = whole.outputs.len() != OUTPUT_ENTRIES;
        let views_wrong = whole.views.len() != VIEW_ENTRIES;
        let expected = |call: usize, length_wrong: bool| {
            if length_wrong {
                Some(refused(10))
            } else if handed[call] {
                Some(refused(12))
            } else {
                None
            }
        };
        let judge_wrong = next_wrong || outputs_wrong || views_wrong;
        checks.check(
            &format!("judge {name}"),
            judge(&whole) == expected(0, judge_wrong),
        );
        let needed_expected = expected(1, next_wrong || outputs_wrong);
        let (needed_refusal, list) = needed(&whole);
        checks.check(&format!("needed {name}"), needed_refusal == needed_expected);
        let mut list_expected = vec![0; LIST_ENTRIES];
        if needed_expected.is_none() {
            list_expected[..6].copy_from_slice(&[0, 3, 1, 3, 2, 3]);
        } else if needed_expected == Some(refused(10)) {
            list_expected.fill(LENT_ENTRY);
        }
        checks.check(&format!("list {name}"), list == list_expected);
        checks.check(
            &format!("purge {name}"),
            purge(&whole) == expected(2, false),
        );
        checks.check(
            &format!("reach {name}"),
            reach(&whole) == expected(3, next_wrong),
        );
        if needed_expected.is_none() {
            checks.check("same needed", whole.needed() == register.needed());
        }
    }
    for length in [0, 479, 481] {
        let mut list = vec![LENT_ENTRY; length];
        let answer = needed_call(
            register.machine(),
            &register.next,
            &register.outputs,
            &mut list,
        );
        checks.check("list length", answer == Err(refused(10)));
        checks.check(
            "list untouched",
            list.iter().all(|&entry| entry == LENT_ENTRY),
        );
    }

    // Purge: 10, then 12, then 13, and its buffer.
    let mut spoiled = register.model.clone();
    spoiled.ids[1] = 10;
    let good = &register.model;
    let long = vec![3; 1_025];
    let rows: &[(&str, &Model, u64, &[u8], usize, Option<u32>)] = &[
        ("short buffer", good, 0, &[0, 1], 1, Some(10)),
        ("long buffer", good, 0, &[], 1, Some(10)),
        ("10 before 12 and 13", &spoiled, 99, &[4], 0, Some(10)),
        ("12 before 13", &spoiled, 99, &[4], 1, Some(12)),
        ("position", good, 4, &[0], 1, Some(13)),
        ("position most", good, u64::MAX, &[0], 1, Some(13)),
        ("no action", good, 0, &[0, 4], 2, Some(13)),
        ("no action 255", good, 0, &[255], 1, Some(13)),
        ("run 1025", good, 0, &long, 1_025, Some(13)),
        ("run 1025, buffer 1024", good, 0, &long, 1_024, Some(10)),
        ("run 1024", good, 3, &long[..1_024], 1_024, None),
        ("empty run", good, 3, &[], 0, None),
    ];
    for &(name, model, position, run, length, number) in rows {
        for kind in [Kind::Plain, Kind::Intransitive] {
            let mut buffer = vec![LENT_BYTE; length];
            let answer = purge_call(model, kind, position, run, &mut buffer);
            match number {
                Some(number) => {
                    checks.check(name, answer == Err(refused(number)));
                    checks.check(name, buffer.iter().all(|&byte| byte == LENT_BYTE));
                }
                None => checks.check(name, answer == Ok(length) && buffer == run),
            }
        }
    }
    let mut buffer = [LENT_BYTE; 4];
    let answer = purge_call(good, Kind::Plain, 3, &[0, 3, 1, 2], &mut buffer);
    checks.check("plain purge", answer == Ok(2) && buffer == [3, 2, 255, 255]);
}

/// The limits listed under "Run by a program".
fn limits(checks: &mut Checks, dice: &mut Dice) {
    let refusal_of = |text: &[u8]| {
        read_sheet(text)
            .err()
            .map(|refusal| (refusal.number, refusal.line))
    };
    let replaced = |whole: &Whole, old: &str, new: &str| {
        String::from_utf8(whole.sheet())
            .unwrap()
            .replacen(old, new, 1)
            .into_bytes()
    };
    let many_states = Whole::random(dice, 128, 1, 1);
    checks.check("128 states", refusal_of(&many_states.sheet()).is_none());
    let text = replaced(&many_states, "sheet\t128", "sheet\t129");
    checks.check("129 states", refusal_of(&text) == Some((5, 1)));
    let many_actions = Whole::random(dice, 2, 32, 1);
    checks.check("32 actions", refusal_of(&many_actions.sheet()).is_none());
    let text = replaced(&many_actions, "sheet\t2\t32", "sheet\t2\t33");
    checks.check("33 actions", refusal_of(&text) == Some((5, 1)));
    let many_boxes = Whole::random(dice, 2, 2, 16);
    checks.check("16 boxes", refusal_of(&many_boxes.sheet()).is_none());
    let text = replaced(&many_boxes, "sheet\t2\t2\t16", "sheet\t2\t2\t17");
    checks.check("17 boxes", refusal_of(&text) == Some((5, 1)));
    checks.check("number 65535", number_of(b"65535") == Some(65_535));
    checks.check("number 65536", number_of(b"65536").is_none());
    checks.check("number 0", number_of(b"0") == Some(0));
    checks.check("number 07", number_of(b"07").is_none());
    checks.check("empty sheet", refusal_of(b"") == Some((1, 0)));

    // A good sheet of exactly 32,768 bytes, by repeated arrows and the label's length.
    let front = "sheet\t1\t1\t1\t0\nbox\t7\t";
    let middle = "\nact\t7\ngo\t0\t0\t0\t0\n";
    let end = "view\t7\t0\t0\n";
    let arrow = "flow\t7\t7\n";
    let sheet_of = |bytes: usize| {
        let room = bytes - front.len() - middle.len() - end.len();
        let arrows = (room - 1) / arrow.len();
        let label = "L".repeat(room - arrows * arrow.len());
        format!("{front}{label}{middle}{}{end}", arrow.repeat(arrows)).into_bytes()
    };
    let largest = sheet_of(32_768);
    let too_large = sheet_of(32_769);
    checks.check("32768 bytes long", largest.len() == 32_768);
    checks.check("32768 bytes", refusal_of(&largest).is_none());
    checks.check("32769 bytes long", too_large.len() == 32_769);
    checks.check("32769 bytes", refusal_of(&too_large) == Some((1, 0)));
    for (text, expected) in [
        (
            &largest[..],
            &b"views\taccepted\ndepth\t7\t0\nreach\t1\n"[..],
        ),
        (&too_large, b"refused\t1\t0\n"),
        (b"", b"refused\t1\t0\n"),
    ] {
        let mut printed = Vec::new();
        verdict_program(&mut &*text, &mut printed).unwrap();
        checks.check("verdict program at the limit", printed == expected);
    }
    let mut printed = Vec::new();
    verdict_program(&mut io::repeat(b'\n'), &mut printed).unwrap();
    checks.check("endless input", printed == b"refused\t1\t0\n");

    // The largest model comes through the tables; a chain in it has the longest depth.
    let mut largest = Whole::random(dice, 128, 32, 16);
    for action in 0..32 {
        largest.model.machine.owners[action] = (action % 16) as u8;
    }
    largest.model.machine.start = 0;
    for state in 0..128 {
        for action in 0..32 {
            let moves = action == 0 && state < 127;
            largest.next[state * 32 + action] = (state + usize::from(moves)) as u16;
            largest.outputs[state * 32 + action] = u16::from(action == 1 && state == 127);
        }
    }
    let mut list = vec![LENT_ENTRY; LIST_ENTRIES];
    let needed = needed_call(
        largest.machine(),
        &largest.next,
        &largest.outputs,
        &mut list,
    )
    .unwrap();
    let mut depths = [0; 16];
    depths[1] = 126;
    checks.check("long chain", needed.depths == depths && needed.reach == 128);
    checks.check(
        "long chain needs",
        needed.arrows == [(0, 1)] && list[..3] == [0, 1, 0],
    );
    checks.check(
        "judge at the largest",
        judge_call(
            &largest.model,
            &largest.next,
            &largest.outputs,
            &largest.views,
        ) == Ok(smallest_broken(&largest)),
    );

    // All 240 arrows needed: every action of every box leads on, every box sees the state.
    let mut everyone = Whole::quiet(2, 16, 16);
    for action in 0..16 {
        everyone.model.machine.owners[action] = action as u8;
        everyone.model.ids[action] = 65_535 - action as u32;
        everyone.next[action] = 1;
        everyone.outputs[16 + action] = 1;
    }
    let mut list = vec![LENT_ENTRY; LIST_ENTRIES];
    let needed = needed_call(
        everyone.machine(),
        &everyone.next,
        &everyone.outputs,
        &mut list,
    )
    .unwrap();
    checks.check("240 arrows", needed.arrows.len() == 240);
    checks.check(
        "sorted",
        needed.arrows.windows(2).all(|pair| pair[0] < pair[1]),
    );
    checks.check("last pair", list[478..] == [15, 14]);
    let mut buffer = vec![LENT_BYTE; VERDICT_BYTES];
    let length = verdict_call(&everyone.sheet(), &mut buffer);
    checks.check(
        "largest verdict",
        buffer[..length].split(|&byte| byte == b'\n').count() == 259,
    );
}

// ---------------------------------------------------------------------------
// Brute force on small machines
// ---------------------------------------------------------------------------

/// Every run of length 0 to `longest`, shorter ones first.
fn runs_up_to(actions: usize, longest: usize) -> Vec<Vec<u8>> {
    let mut runs = vec![vec![]];
    let mut from = 0;
    for _ in 0..longest {
        let to = runs.len();
        for place in from..to {
            for action in 0..actions {
                let mut run = runs[place].clone();
                run.push(action as u8);
                runs.push(run);
            }
        }
        from = to;
    }
    runs
}

/// Told apart by some enumerated run: afterwards some action of u gives differing outputs.
fn told_by_enumeration(whole: &Whole, runs: &[Vec<u8>], u: usize, s: usize, t: usize) -> bool {
    runs.iter().any(|run| {
        let (after_s, after_t) = (whole.run(s, run), whole.run(t, run));
        whole
            .machine()
            .all_actions()
            .filter(|&action| whole.machine().owner(action) == u)
            .any(|action| whole.output(after_s, action) != whole.output(after_t, action))
    })
}

/// The smallest of all broken places, listed without any thought of order.
fn smallest_broken(whole: &Whole) -> Option<Broken> {
    let machine = whole.machine();
    let mut places = Vec::new();
    for action in machine.all_actions().rev() {
        let owner = machine.owner(action);
        for s in machine.all_states().rev() {
            for t in machine.all_states().rev().filter(|&t| s < t) {
                if whole.alike(owner, s, t) && whole.output(s, action) != whole.output(t, action) {
                    places.push((1, 0, action, s, t));
                }
                for u in machine.all_boxes().rev() {
                    let before = whole.alike(u, s, t) && whole.alike(owner, s, t);
                    let after = whole.alike(u, whole.step(s, action), whole.step(t, action));
                    if before && !after {
                        places.push((3, u, action, s, t));
                    }
                }
            }
            for u in machine.all_boxes().rev() {
                let allowed = owner == u || whole.model.arrows[owner][u];
                if !allowed && !whole.alike(u, s, whole.step(s, action)) {
                    places.push((2, u, action, s, 0));
                }
            }
        }
    }
    places
        .into_iter()
        .min()
        .map(|(condition, u, action, s, t)| Broken {
            condition: [Condition::Output, Condition::Respect, Condition::Step][condition - 1],
            box_position: if condition == 1 {
                machine.owner(action)
            } else {
                u
            },
            action,
            s,
            t,
        })
}

/// Secure for these runs: each action's output is the same after the run and the purged run.
fn secure_for(whole: &Whole, runs: &[Vec<u8>], purge: fn(&Model, &[u8], usize) -> Vec<u8>) -> bool {
    runs.iter().all(|run| {
        whole.machine().all_actions().all(|action| {
            let purged = purge(&whole.model, run, whole.machine().owner(action));
            whole.test(run, action) == whole.test(&purged, action)
        })
    })
}

/// Whether a chain of later actions carries the action at this place to u.
fn chain_leads_to(whole: &Whole, run: &[u8], place: usize, u: usize) -> bool {
    let owner = whole.machine().owner(run[place] as usize);
    let to = |target: usize| owner == target || whole.model.arrows[owner][target];
    to(u)
        || (place + 1..run.len()).any(|later| {
            to(whole.machine().owner(run[later] as usize)) && chain_leads_to(whole, run, later, u)
        })
}

fn brute_force(checks: &mut Checks, dice: &mut Dice) {
    let mut insecure = 0;
    let mut accepted = 0;
    let mut deep = 0;
    for round in 0..10_000 {
        // Sizes of 1 leave little to go wrong, so most rounds start from 2.
        let smallest = if round % 10 == 0 { 1 } else { 2 };
        let states = dice.from(smallest..5);
        let actions = dice.from(smallest..4);
        let boxes = dice.from(smallest..4);
        let mut whole = Whole::random(dice, states, actions, boxes);
        if round % 8 == 0 {
            // Views of one class each respect everything but outputs; seldom broken.
            whole.views.fill(0);
            whole.outputs.fill(0);
        } else if round % 8 < 4 {
            // Full views never break output or step; only respect is in question.
            for entry in 0..boxes * states {
                whole.views[entry] = (entry % states) as u16;
            }
        }
        let machine = whole.machine();
        let start = machine.start as usize;

        // Reachable: some run of length at most states − 1 ends there.
        let reachable = reachable_states(machine, &whole.next);
        let short_runs = runs_up_to(actions, states - 1);
        let mut reached = [false; MOST_STATES];
        for run in &short_runs {
            reached[whole.run(start, run)] = true;
        }
        checks.check("reachable", reachable == reached);

        // Sameness and depth by enumerating all runs of length at most k, for k up to states.
        let needed = whole.needed();
        let mut needed_literally = Vec::new();
        for u in machine.all_boxes() {
            let told_by = |longest: usize| {
                let runs = runs_up_to(actions, longest);
                pairs_of_reachable_states(machine, &reachable, |s, t| {
                    told_by_enumeration(&whole, &runs, u, s, t)
                })
            };
            let told: Vec<Pairs> = (0..=states + 1).map(told_by).collect();
            let least = (0..=states).find(|&k| told[k] == told[k + 1]);
            checks.check("depth", least == Some(needed.depths[u] as usize));
            checks.check("depth bound", needed.depths[u] < needed.reach);
            let (_, fast) =
                depth_and_told_apart(machine, &whole.next, &whole.outputs, &reachable, u);
            checks.check("sameness", fast == told[states]);
            let mut stepwise = told_apart_by_the_empty_run(machine, &whole.outputs, &reachable, u);
            for literal in &told {
                checks.check("runs of length at most k", stepwise == *literal);
                stepwise =
                    told_apart_by_runs_one_longer(machine, &whole.next, &reachable, &stepwise);
            }
            deep += usize::from(needed.depths[u] >= 2);
            for action in machine
                .all_actions()
                .filter(|&action| machine.owner(action) != u)
            {
                for state in machine.all_states().filter(|&state| reachable[state]) {
                    if told[states][state][whole.step(state, action)] {
                        needed_literally.push((machine.owner(action), u));
                    }
                }
            }
        }
        needed_literally.sort();
        needed_literally.dedup();
        checks.check("needed", needed.arrows == needed_literally);

        // Judge: the smallest of all broken places.
        let broken = whole.broken();
        checks.check("judge", broken == smallest_broken(&whole));

        // Secure in the plain sense exactly if every needed arrow is drawn (Theorems 1 and 6).
        // A missing arrow shows within a run to a state, one action, and a run telling apart.
        let runs = runs_up_to(actions, 2 * states - 1);
        let drawn = needed.arrows.iter().all(|&(v, u)| whole.model.arrows[v][u]);
        let plain = secure_for(&whole, &runs, plain_purge);
        checks.check("plain security and the needed list", plain == drawn);
        insecure += usize::from(!plain);

        // Theorem 7: accepted views make the machine secure in the intransitive sense.
        if broken.is_none() {
            accepted += 1;
            checks.check("Theorem 7", secure_for(&whole, &runs, intransitive_purge));
        }

        // Purge: kept exactly when a chain of later actions leads to u.
        let run: Vec<u8> = (0..dice.below(9))
            .map(|_| dice.below(actions) as u8)
            .collect();
        for u in machine.all_boxes() {
            let by_chains: Vec<u8> = (0..run.len())
                .filter(|&place| chain_leads_to(&whole, &run, place, u))
                .map(|place| run[place])
                .collect();
            checks.check(
                "purge by chains",
                intransitive_purge(&whole.model, &run, u) == by_chains,
            );
        }

        // A model written as a sheet is read back as it is.
        let sheet = read_sheet(&whole.sheet()).unwrap_or_else(|_| unreachable!());
        checks.check("read back", sheet.model == whole.model);
        checks.check("read back next", sheet.next == whole.next);
        checks.check("read back outputs", sheet.outputs == whole.outputs);
        checks.check("read back views", sheet.views == whole.views);
    }
    checks.check("enough insecure machines", insecure > 1_000);
    checks.check("enough accepted views", accepted > 1_000);
    checks.check("enough deep boxes", deep > 100);
    println!(
        "small machines: {insecure} insecure in the plain sense, {accepted} views accepted, \
         {deep} boxes of depth 2 or more"
    );
}

/// A machine of registers, one bit for each of three boxes. A box's action writes its own
/// register from the registers the box observes, so by Theorem 8 of the report the views that show
/// just the observed registers are accepted once the arrows follow what is altered.
fn structured_machine(dice: &mut Dice) -> Whole {
    let mut whole = Whole::quiet(8, 3, 3);
    for u in 0..3 {
        whole.model.machine.owners[u] = u as u8;
        let observed = (1 << u) | dice.below(8);
        let write_rule = dice.below(256);
        let output_rule = dice.below(256);
        let alters = dice.below(4) > 0;
        for state in 0..8 {
            let seen = state & observed;
            let written = (state & !(1 << u)) | (((write_rule >> seen) & 1) << u);
            whole.next[state * 3 + u] = if alters { written } else { state } as u16;
            whole.outputs[state * 3 + u] = ((output_rule >> seen) & 1) as u16;
            whole.views[u * 8 + state] = seen as u16;
        }
        for v in 0..3 {
            whole.model.arrows[v][u] |= observed & (1 << v) != 0;
        }
    }
    whole
}

fn structured_machines(checks: &mut Checks, dice: &mut Dice) {
    let runs = runs_up_to(3, 6);
    let mut intransitive_only = 0;
    for _ in 0..300 {
        let whole = structured_machine(dice);
        checks.check("Theorem 8", whole.broken().is_none());
        checks.check(
            "Theorem 7 on registers",
            secure_for(&whole, &runs, intransitive_purge),
        );
        if !secure_for(&whole, &runs, plain_purge) {
            intransitive_only += 1;
            let needed = whole.needed();
            let missing = needed
                .arrows
                .iter()
                .any(|&(v, u)| !whole.model.arrows[v][u]);
            checks.check("a needed arrow is not drawn", missing);
        }
    }
    checks.check(
        "enough secure in the intransitive sense only",
        intransitive_only > 10,
    );
    println!("register machines: {intransitive_only} of 300 secure in the intransitive sense only");
}

/// Register machines with thrown-in changes: Theorem 7 where only the intransitive sense holds.
fn near_the_register_machine(checks: &mut Checks, dice: &mut Dice) {
    let register = register_machine();
    let runs = runs_up_to(4, 5);
    checks.check(
        "register, plain",
        !secure_for(&register, &runs, plain_purge),
    );
    checks.check(
        "register, intransitive",
        secure_for(&register, &runs, intransitive_purge),
    );
    let mut accepted = 0;
    for _ in 0..400 {
        let mut whole = register.clone();
        match dice.below(4) {
            0 => whole.next[dice.below(36)] = dice.below(9) as u16,
            1 => whole.outputs[dice.below(36)] = dice.below(4) as u16,
            2 => whole.views[dice.below(36)] = dice.below(5) as u16,
            _ => whole.model.arrows[dice.below(4)][dice.below(4)] = true,
        }
        let broken = whole.broken();
        checks.check(
            "judge near the register machine",
            broken == smallest_broken(&whole),
        );
        if broken.is_none() {
            accepted += 1;
            checks.check(
                "Theorem 7",
                secure_for(&whole, &runs[..400], intransitive_purge),
            );
        }
    }
    checks.check("enough accepted near the register machine", accepted > 20);
}

/// Spoiled sheets: every call gives an answer, and all calls give the same refusal.
fn spoiled_sheets(checks: &mut Checks, dice: &mut Dice) {
    let good = register_machine().sheet();
    for _ in 0..5_000 {
        let mut text = good.clone();
        for _ in 0..dice.from(1..3) {
            let place = dice.below(text.len());
            match dice.below(4) {
                0 => text[place] = b"\t\n0179 xgv"[dice.below(10)],
                1 => drop(text.remove(place)),
                2 => text.insert(place, b"\t\n01"[dice.below(4)]),
                _ => text.truncate(place + 1),
            }
        }
        let refusal = read_sheet(&text).err();
        checks.check("label agrees", label_call(&text, 0).0 == refusal);
        let lines = text.iter().filter(|&&byte| byte == b'\n').count() as u32;
        checks.check(
            "line within",
            refusal.map_or(true, |refusal| match refusal.number {
                1 => refusal.line == 0 && text.last() != Some(&b'\n'),
                11 => refusal.line == lines + 1,
                number => (2..=9).contains(&number) && (1..=lines).contains(&refusal.line),
            }),
        );
        let printed = verdict(&text);
        checks.check(
            "refused or not",
            printed.starts_with(b"refused") == refusal.is_some(),
        );
    }
}

// ---------------------------------------------------------------------------
// Edits of a drawing
// ---------------------------------------------------------------------------

fn fresh_drawing() -> Drawing {
    Drawing {
        records: vec![BLANK_RECORD; MOST_BOXES],
        history: vec![0; HISTORY_WORDS],
        edits: 0,
    }
}

/// A drawing of these boxes, each an id and its row of arrows, beside this history.
fn drawing_from(boxes: &[(u32, u32)], past: &[Entry]) -> Drawing {
    let mut drawing = fresh_drawing();
    for (record, &(id, arrows)) in drawing.records.iter_mut().zip(boxes) {
        *record = BoxRecord {
            id,
            live: 1,
            arrows,
        };
    }
    for entry in past {
        push_entry(&mut drawing, entry);
    }
    drawing
}

fn push_entry(drawing: &mut Drawing, entry: &Entry) {
    let place = drawing.edits as usize * ENTRY_WORDS;
    drawing.history[place..place + ENTRY_WORDS].copy_from_slice(&entry.words());
    drawing.edits += 1;
}

/// The same list with the last entry away and its words blank.
fn without_last_entry(drawing: &Drawing) -> Drawing {
    let mut rest = drawing.clone();
    rest.edits -= 1;
    rest.history[rest.edits as usize * ENTRY_WORDS..].fill(0);
    rest
}

fn added(id: u32) -> Entry {
    Entry {
        kind: ADDED,
        id,
        ..BLANK_ENTRY
    }
}

fn deleted(id: u32, at: u32, out: u32, into: u32) -> Entry {
    Entry {
        kind: DELETED,
        at,
        id,
        out,
        into,
        ..BLANK_ENTRY
    }
}

fn arrow(kind: u32, at: u32, to: u32) -> Entry {
    Entry {
        kind,
        at,
        to,
        ..BLANK_ENTRY
    }
}

fn live_count(drawing: &Drawing) -> usize {
    drawing
        .records
        .iter()
        .filter(|record| record.live == 1)
        .count()
}

fn arrow_count(drawing: &Drawing) -> u32 {
    drawing
        .records
        .iter()
        .map(|record| record.arrows.count_ones())
        .sum()
}

/// Do the steps in order; each must be taken.
fn take_all(drawing: &mut Drawing, steps: &[Step]) -> bool {
    steps.iter().all(|&step| take_step(drawing, step) == 0)
}

/// Red sends to Crypto and Bypass, and both of them to Black.
fn four_box_story(checks: &mut Checks) {
    let [red, crypto, bypass, black] = [10, 20, 30, 40];
    let mut drawing = fresh_drawing();
    let built = take_all(
        &mut drawing,
        &[
            Step::Edit(Edit::Add(red)),
            Step::Edit(Edit::Add(crypto)),
            Step::Edit(Edit::Add(bypass)),
            Step::Edit(Edit::Add(black)),
            Step::Edit(Edit::Draw(red, crypto)),
            Step::Edit(Edit::Draw(red, bypass)),
            Step::Edit(Edit::Draw(crypto, black)),
            Step::Edit(Edit::Draw(bypass, black)),
        ],
    );
    checks.check("four boxes are built", built && drawing.edits == 8);
    let four = drawing_from(
        &[
            (red, 0b0110),
            (crypto, 0b1000),
            (bypass, 0b1000),
            (black, 0),
        ],
        &entries(&drawing),
    );
    checks.check("four boxes, four arrows", drawing == four);

    let gone = take_step(&mut drawing, Step::Edit(Edit::Delete(bypass)));
    let mut past = entries(&four);
    past.push(deleted(bypass, 2, 0b1000, 0b0001));
    let three = drawing_from(&[(red, 0b010), (crypto, 0b100), (black, 0)], &past);
    checks.check("Bypass deleted", gone == 0 && drawing == three);
    checks.check(
        "its id stays away",
        take_step(&mut drawing, Step::Edit(Edit::Add(bypass))) == 14 && drawing == three,
    );

    let back = take_step(&mut drawing, Step::Undo);
    checks.check("Bypass is back", back == 0 && drawing == four);
    let touching = drawing.records[2].arrows.count_ones() as usize
        + drawing
            .records
            .iter()
            .filter(|record| record.arrows >> 2 & 1 == 1)
            .count();
    checks.check(
        "four arrows, two touch Bypass",
        arrow_count(&drawing) == 4 && touching == 2,
    );

    let forgotten = take_all(
        &mut drawing,
        &[
            Step::Edit(Edit::Delete(bypass)),
            Step::Drop,
            Step::Edit(Edit::Add(bypass)),
        ],
    );
    let again = drawing_from(
        &[(red, 0b010), (crypto, 0b100), (black, 0), (bypass, 0)],
        &[added(bypass)],
    );
    checks.check(
        "after dropping the id is free",
        forgotten && drawing == again,
    );
}

/// Take a step on a copy; a refused one must leave the copy as it was.
fn number_of_step(checks: &mut Checks, drawing: &Drawing, step: Step) -> u32 {
    let mut copy = drawing.clone();
    let number = take_step(&mut copy, step);
    checks.check("a refusal changes nothing", number == 0 || copy == *drawing);
    number
}

const SIX_CALLS: [Step; 6] = [
    Step::Edit(Edit::Add(77)),
    Step::Edit(Edit::Delete(77)),
    Step::Edit(Edit::Draw(77, 77)),
    Step::Edit(Edit::Erase(77, 77)),
    Step::Undo,
    Step::Drop,
];

/// Sixteen boxes with the ids 100 to 115 and no arrows.
fn sixteen_boxes() -> Vec<(u32, u32)> {
    (100..116).map(|id| (id, 0)).collect()
}

fn refusals_by_the_edits(checks: &mut Checks) {
    let two = [(5, 0b10), (0, 0)];
    let few = drawing_from(&two, &[deleted(9, 0, 0, 0)]);
    let full = drawing_from(&sixteen_boxes(), &[deleted(9, 0, 0, 0)]);
    let mut spent = drawing_from(&sixteen_boxes(), &[deleted(9, 0, 0, 0)]);
    while (spent.edits as usize) < MOST_EDITS {
        push_entry(&mut spent, &added(115));
    }
    let cases = [
        ("add", &few, Step::Edit(Edit::Add(u32::MAX)), 0),
        ("add live", &few, Step::Edit(Edit::Add(0)), 14),
        ("add deleted", &few, Step::Edit(Edit::Add(9)), 14),
        ("add to sixteen", &full, Step::Edit(Edit::Add(1)), 15),
        ("14 before 15", &full, Step::Edit(Edit::Add(100)), 14),
        ("14 before 15 too", &full, Step::Edit(Edit::Add(9)), 14),
        ("17 before 14", &spent, Step::Edit(Edit::Add(100)), 17),
        ("17 before 15", &spent, Step::Edit(Edit::Add(1)), 17),
        ("delete", &few, Step::Edit(Edit::Delete(0)), 0),
        ("delete unknown", &few, Step::Edit(Edit::Delete(1)), 8),
        ("delete deleted", &few, Step::Edit(Edit::Delete(9)), 8),
        ("17 before 8", &spent, Step::Edit(Edit::Delete(1)), 17),
        ("delete with 32", &spent, Step::Edit(Edit::Delete(100)), 17),
        ("draw", &few, Step::Edit(Edit::Draw(0, 5)), 0),
        ("draw standing", &few, Step::Edit(Edit::Draw(5, 0)), 18),
        ("draw self", &few, Step::Edit(Edit::Draw(5, 5)), 18),
        ("draw from unknown", &few, Step::Edit(Edit::Draw(1, 0)), 8),
        ("draw to deleted", &few, Step::Edit(Edit::Draw(0, 9)), 8),
        ("draw unknown self", &few, Step::Edit(Edit::Draw(1, 1)), 8),
        ("draw with 32", &spent, Step::Edit(Edit::Draw(1, 1)), 17),
        ("erase", &few, Step::Edit(Edit::Erase(5, 0)), 0),
        ("erase absent", &few, Step::Edit(Edit::Erase(0, 5)), 18),
        ("erase self", &few, Step::Edit(Edit::Erase(0, 0)), 18),
        ("erase to unknown", &few, Step::Edit(Edit::Erase(5, 1)), 8),
        ("erase unknown self", &few, Step::Edit(Edit::Erase(9, 9)), 8),
        ("erase with 32", &spent, Step::Edit(Edit::Erase(100, 1)), 17),
        ("undo", &few, Step::Undo, 0),
        ("undo a seventeenth box", &full, Step::Undo, 12),
        ("undo with 32", &spent, Step::Undo, 0),
        ("undo nothing", &drawing_from(&two, &[]), Step::Undo, 16),
        ("drop", &few, Step::Drop, 0),
        ("drop nothing", &fresh_drawing(), Step::Drop, 0),
    ];
    for (name, drawing, step, number) in cases {
        let answer = number_of_step(checks, drawing, step);
        checks.check(name, answer == number);
    }

    // 10 before 12, 12 before the rest, in every call, and of both buffers.
    for step in SIX_CALLS {
        for (records, words) in [
            (15, 192),
            (17, 192),
            (16, 191),
            (16, 193),
            (0, 0),
            (100_000, 192),
        ] {
            let mut drawing = spent.clone();
            drawing.records.resize(records, BLANK_RECORD);
            drawing.history.resize(words, 0);
            drawing.edits = u32::MAX;
            let number = number_of_step(checks, &drawing, step);
            checks.check("10", number == 10);
        }
        for edits in [33, 34, 1 << 16, u32::MAX] {
            let mut drawing = spent.clone();
            drawing.edits = edits;
            let number = number_of_step(checks, &drawing, step);
            checks.check("12 over 32", number == 12);
        }
    }
}

/// Lists and histories that break a rule, and the ones beside them that do not.
fn rules_of_drawings(checks: &mut Checks) {
    let two = [(5, 0b10), (0, 0)];
    let record = |id, live, arrows| BoxRecord { id, live, arrows };
    let lists = [
        ("no box", vec![], true),
        ("one box", vec![record(u32::MAX, 1, 0)], true),
        ("live 2", vec![record(5, 2, 0)], false),
        ("live most", vec![record(5, u32::MAX, 0)], false),
        ("a gap", vec![BLANK_RECORD, record(5, 1, 0)], false),
        ("id behind", vec![record(5, 1, 0), record(1, 0, 0)], false),
        ("row behind", vec![record(5, 1, 0), record(0, 0, 1)], false),
        ("ids", vec![record(5, 1, 0), record(6, 1, 1)], true),
        ("id twice", vec![record(5, 1, 0), record(5, 1, 0)], false),
        ("self", vec![record(5, 1, 0), record(6, 1, 2)], false),
        ("not live", vec![record(5, 1, 0), record(6, 1, 4)], false),
        ("bit 16", vec![record(5, 1, 1 << 16)], false),
        ("bit 31", vec![record(5, 1, 1 << 31)], false),
    ];
    for (name, mut records, good) in lists {
        records.resize(MOST_BOXES, BLANK_RECORD);
        let drawing = Drawing {
            records,
            ..fresh_drawing()
        };
        for step in SIX_CALLS {
            let number = number_of_step(checks, &drawing, step);
            checks.check(name, (number != 12) == good);
        }
    }
    let histories = [
        ("added", vec![added(5)], true),
        ("added twice", vec![added(5), added(5)], true),
        ("added, deleted", vec![added(9), deleted(9, 0, 0, 0)], true),
        ("deleted, added", vec![deleted(9, 0, 0, 0), added(9)], false),
        (
            "deleted twice",
            vec![deleted(9, 0, 0, 0), deleted(9, 1, 0, 0)],
            false,
        ),
        (
            "deleted 9 and 8",
            vec![deleted(9, 0, 0, 0), deleted(8, 1, 0, 0)],
            true,
        ),
        ("live and deleted", vec![deleted(5, 1, 0, 0)], false),
        ("live 0 and deleted", vec![deleted(0, 1, 0, 0)], false),
        ("kind 0", vec![BLANK_ENTRY], false),
        ("kind 5", vec![arrow(5, 0, 1)], false),
        ("kind most", vec![arrow(u32::MAX, 0, 1)], false),
        ("deleted at 15", vec![deleted(9, 15, 0x7fff, 1)], true),
        ("deleted at 16", vec![deleted(9, 16, 0, 0)], false),
        ("deleted at most", vec![deleted(9, u32::MAX, 0, 0)], false),
        ("out to 16", vec![deleted(9, 0, 1 << 16, 0)], false),
        ("into from 31", vec![deleted(9, 0, 0, 1 << 31)], false),
        ("out to itself", vec![deleted(9, 3, 8, 0)], false),
        ("into from itself", vec![deleted(9, 3, 0, 8)], false),
        ("drawn", vec![arrow(DRAWN, 15, 0)], true),
        ("drawn at 16", vec![arrow(DRAWN, 16, 0)], false),
        ("erased to 16", vec![arrow(ERASED, 0, 16)], false),
        ("erased to most", vec![arrow(ERASED, 0, u32::MAX)], false),
        ("drawn to itself", vec![arrow(DRAWN, 3, 3)], false),
        ("erased to itself", vec![arrow(ERASED, 0, 0)], false),
        (
            "an arrow has no id",
            vec![deleted(9, 0, 0, 0), arrow(DRAWN, 0, 1)],
            true,
        ),
    ];
    for (name, past, good) in histories {
        let mut drawing = drawing_from(&two, &past);
        let number = number_of_step(checks, &drawing, Step::Drop);
        checks.check(name, number == if good { 0 } else { 12 });
        // Beyond the count nothing is looked at, and what is given back is blank there.
        drawing.edits = 0;
        let number = take_step(&mut drawing, Step::Edit(Edit::Delete(5)));
        let after = drawing_from(&[(0, 0)], &[deleted(5, 0, 0b10, 0)]);
        checks.check("beyond the count", number == 0 && drawing == after);
    }
    // Words that a kind doesn't use, each in turn.
    for (entry, unused) in [
        (added(9), vec![1, 2, 4, 5]),
        (deleted(9, 0, 2, 2), vec![2]),
        (arrow(DRAWN, 0, 1), vec![3, 4, 5]),
        (arrow(ERASED, 0, 1), vec![3, 4, 5]),
    ] {
        for place in unused {
            let mut words = entry.words();
            words[place] = 1;
            let drawing = drawing_from(&two, &[Entry::from_words(&words)]);
            let number = number_of_step(checks, &drawing, Step::Drop);
            checks.check("unused word", number == 12);
        }
    }
}

/// Whether a call makes this entry on a list built for it; no other list would do better.
fn some_call_makes(entry: &Entry) -> bool {
    let mut boxes = sixteen_boxes();
    let id_at = |position: u32| 100 + position.min(15);
    let (before, edit) = match entry.kind {
        ADDED => (fresh_drawing(), Edit::Add(entry.id)),
        DELETED => {
            let at = entry.at.min(15) as usize;
            for (position, (id, row)) in boxes.iter_mut().enumerate() {
                // Sixteen ids that differ, with the deleted one at its place.
                *id = entry.id ^ position as u32 ^ at as u32;
                *row = (entry.into >> position & 1) << at;
            }
            boxes[at].1 = entry.out & 0xffff & !(1 << at);
            (drawing_from(&boxes, &[]), Edit::Delete(entry.id))
        }
        DRAWN => (
            drawing_from(&boxes, &[]),
            Edit::Draw(id_at(entry.at), id_at(entry.to)),
        ),
        ERASED => {
            for (position, (_, row)) in boxes.iter_mut().enumerate() {
                *row = 0xffff & !(1 << position);
            }
            (
                drawing_from(&boxes, &[]),
                Edit::Erase(id_at(entry.at), id_at(entry.to)),
            )
        }
        _ => return false,
    };
    edited(&before, edit).is_ok_and(|after| entries(&after) == [*entry])
}

/// A history of one entry is good exactly when some call makes that entry.
fn entries_that_calls_make(checks: &mut Checks, dice: &mut Dice) {
    let mut good = 0;
    for _ in 0..20_000 {
        let boxes = random_boxes(dice);
        let mut words = random_entry(dice, &boxes).words();
        if dice.below(2) == 0 {
            let edges = [0, 1, 2, 3, 4, 5, 15, 16, 0xffff, 1 << 16, u32::MAX];
            words[dice.below(ENTRY_WORDS)] = edges[dice.below(edges.len())];
        }
        let entry = Entry::from_words(&words);
        let is_taken = dropped(&drawing_from(&[], &[entry])).is_ok();
        checks.check("entry of a call", is_taken == some_call_makes(&entry));
        good += usize::from(is_taken);
    }
    checks.check("good and bad entries", (2_000..18_000).contains(&good));
}

/// The numbers in the order 17, 8, 14, 15, 16, 18, straight from the lent numbers of a
/// drawing that keeps the rules.
fn refusal_by_plain_words(drawing: &Drawing, step: Step) -> u32 {
    let past = entries(drawing);
    let position = |id: u32| {
        drawing
            .records
            .iter()
            .position(|record| record.live == 1 && record.id == id)
    };
    let deleted = |id: u32| {
        past.iter()
            .any(|entry| entry.kind == DELETED && entry.id == id)
    };
    let stands = |source: usize, target: usize| drawing.records[source].arrows >> target & 1 == 1;
    match step {
        Step::Edit(_) if past.len() == MOST_EDITS => 17,
        Step::Edit(Edit::Add(id)) if position(id).is_some() || deleted(id) => 14,
        Step::Edit(Edit::Add(_)) if live_count(drawing) == MOST_BOXES => 15,
        Step::Edit(Edit::Delete(id)) if position(id).is_none() => 8,
        Step::Edit(Edit::Draw(source, target)) => match (position(source), position(target)) {
            (Some(from), Some(to)) if from == to || stands(from, to) => 18,
            (Some(_), Some(_)) => 0,
            _ => 8,
        },
        Step::Edit(Edit::Erase(source, target)) => match (position(source), position(target)) {
            (Some(from), Some(to)) if from == to || !stands(from, to) => 18,
            (Some(_), Some(_)) => 0,
            _ => 8,
        },
        Step::Undo if past.is_empty() => 16,
        _ => 0,
    }
}

/// A row of arrows once the position is gone: the bits above it move down by one.
fn squeezed(row: u32, gone: usize) -> u32 {
    let below = (1 << gone) - 1;
    row & below | row >> 1 & !below
}

/// A row of arrows once there is a new position: the bits from it on move up by one.
fn spread(row: u32, new: usize) -> u32 {
    let below = (1 << new) - 1;
    row & below | (row & !below) << 1
}

/// The drawing after an edit that is not refused, worked out on the bits.
fn edited_by_bits(drawing: &Drawing, edit: Edit) -> Drawing {
    let mut after = drawing.clone();
    let position = |id: u32| {
        drawing
            .records
            .iter()
            .position(|record| record.live == 1 && record.id == id)
            .unwrap()
    };
    let entry = match edit {
        Edit::Add(id) => {
            let last = live_count(drawing);
            after.records[last] = BoxRecord {
                id,
                live: 1,
                arrows: 0,
            };
            added(id)
        }
        Edit::Delete(id) => {
            let at = position(id);
            let out = after.records.remove(at).arrows;
            after.records.push(BLANK_RECORD);
            for record in &mut after.records {
                record.arrows = squeezed(record.arrows, at);
            }
            let into = (0..MOST_BOXES)
                .filter(|&source| drawing.records[source].arrows >> at & 1 == 1)
                .map(|source| 1 << source)
                .sum();
            deleted(id, at as u32, out, into)
        }
        Edit::Draw(source, target) => {
            let (at, to) = (position(source), position(target));
            after.records[at].arrows |= 1 << to;
            arrow(DRAWN, at as u32, to as u32)
        }
        Edit::Erase(source, target) => {
            let (at, to) = (position(source), position(target));
            after.records[at].arrows &= !(1 << to);
            arrow(ERASED, at as u32, to as u32)
        }
    };
    push_entry(&mut after, &entry);
    after
}

/// A call on ids from 0 to 19, so that sixteen live boxes and taken ids come often.
/// The lean says which call comes most: adding, deleting, drawing, erasing or undo.
fn random_call(dice: &mut Dice, lean: usize) -> Step {
    let first = dice.below(20) as u32;
    let second = dice.below(20) as u32;
    let choice = if dice.below(2) == 0 {
        lean
    } else {
        dice.below(5)
    };
    match choice {
        0 => Step::Edit(Edit::Add(first)),
        1 => Step::Edit(Edit::Delete(first)),
        2 => Step::Edit(Edit::Draw(first, second)),
        3 => Step::Edit(Edit::Erase(first, second)),
        _ if dice.below(40) == 0 => Step::Drop,
        _ => Step::Undo,
    }
}

/// From a fresh list, with a stack of snapshots: undo gives back the one on top.
fn calls_from_a_fresh_list(checks: &mut Checks, dice: &mut Dice) {
    let mut seen = HashSet::new();
    for _ in 0..600 {
        let mut drawing = fresh_drawing();
        let mut snapshots: Vec<Drawing> = Vec::new();
        let mut lean = 0;
        for call in 0..120 {
            if call % 15 == 14 {
                lean = dice.below(5);
            }
            let step = random_call(dice, lean);
            let before = drawing.clone();
            let number = take_step(&mut drawing, step);
            seen.insert(number);
            let expected = refusal_by_plain_words(&before, step);
            checks.check("number of a call", number == expected);
            let after = match step {
                _ if number != 0 => before,
                Step::Edit(edit) => {
                    snapshots.push(before);
                    edited_by_bits(&snapshots[snapshots.len() - 1], edit)
                }
                Step::Undo => snapshots.pop().unwrap(),
                _ => {
                    snapshots.clear();
                    Drawing {
                        records: before.records,
                        ..fresh_drawing()
                    }
                }
            };
            checks.check("drawing after a call", drawing == after);
            checks.check("snapshots", snapshots.len() == drawing.edits as usize);
        }
        while let Some(before) = snapshots.pop() {
            let number = take_step(&mut drawing, Step::Undo);
            checks.check("undo to the start", number == 0 && drawing == before);
        }
    }
    checks.check(
        "every number of good drawings",
        seen == HashSet::from([0, 8, 14, 15, 16, 17, 18]),
    );
}

/// Undo as DECISIONS closes it, for a drawing that keeps the rules: the tests that are left,
/// and the list before by bits; none for 12.
fn undone_by_bits(drawing: &Drawing) -> Option<Drawing> {
    let last = *entries(drawing).last()?;
    let mut before = without_last_entry(drawing);
    let live = live_count(drawing);
    let (at, to) = (last.at as usize, last.to as usize);
    let reaches = |source: usize, target: usize| drawing.records[source].arrows >> target & 1 == 1;
    let holds = match last.kind {
        ADDED => {
            live > 0
                && drawing.records[live - 1].id == last.id
                && drawing.records[live - 1].arrows == 0
                && (0..live).all(|source| !reaches(source, live - 1))
        }
        DELETED => {
            let others = ((1 << (live + 1)) - 1) & !(1 << at);
            live < MOST_BOXES && at <= live && (last.out | last.into) & !others == 0
        }
        DRAWN => at < live && to < live && reaches(at, to),
        _ => at < live && to < live && !reaches(at, to),
    };
    if !holds {
        return None;
    }
    match last.kind {
        ADDED => before.records[live - 1] = BLANK_RECORD,
        DELETED => {
            before.records.pop();
            for record in &mut before.records {
                record.arrows = spread(record.arrows, at);
            }
            before.records.insert(
                at,
                BoxRecord {
                    id: last.id,
                    live: 1,
                    arrows: last.out,
                },
            );
            for source in (0..MOST_BOXES).filter(|source| last.into >> source & 1 == 1) {
                before.records[source].arrows |= 1 << at;
            }
        }
        _ => before.records[at].arrows ^= 1 << to,
    }
    Some(before)
}

/// A list that keeps the rules, with ids from 100 on in any order.
fn random_boxes(dice: &mut Dice) -> Vec<(u32, u32)> {
    // The full list and the ones beside it come often.
    let live = if dice.below(3) == 0 {
        dice.from(14..17)
    } else {
        dice.below(17)
    };
    let all = (1 << live) - 1;
    let spare = dice.below(4);
    (0..live)
        .map(|position| {
            let row = (0..spare).fold(dice.throw(), |row, _| row & dice.throw()) as u32;
            let id = 100 + (7 * position as u32 + live as u32) % 17;
            (id, row & all & !(1 << position))
        })
        .collect()
}

/// An entry that fits the list, or nearly.
fn random_entry(dice: &mut Dice, boxes: &[(u32, u32)]) -> Entry {
    let near = boxes.len() + 2;
    let at = dice.below(near.min(MOST_BOXES)) as u32;
    let to = dice.below(near.min(MOST_BOXES)) as u32;
    // A row of few bits seldom leaves the list.
    let row = |dice: &mut Dice| {
        (0..dice.below(3)).fold(0, |row, _| row | 1 << dice.below(near)) & 0xffff & !(1 << at)
    };
    match dice.below(4) {
        0 if dice.below(4) > 0 => added(boxes.last().map_or(1, |last| last.0)),
        0 => added(100 + dice.below(20) as u32),
        1 => {
            let out = row(dice);
            let into = row(dice);
            deleted(1 + dice.below(4) as u32, at, out, into)
        }
        2 => arrow(DRAWN, at, to),
        _ => arrow(ERASED, at, to),
    }
}

/// Search and closed form give the same, on lists that no calls need have built.
fn undo_against_the_closed_form(checks: &mut Checks, dice: &mut Dice) {
    let mut taken = [0; 5];
    let mut refused = [0; 5];
    for _ in 0..12_000 {
        let mut boxes = random_boxes(dice);
        let mut past = Vec::new();
        for _ in 0..dice.from(1..5) {
            past.push(random_entry(dice, &boxes));
        }
        let last = past[past.len() - 1];
        if last.kind == ADDED && dice.below(2) == 0 {
            // Clear the last box of arrows, or all but one end of one.
            let live = boxes.len();
            for (_, row) in &mut boxes {
                *row &= (1 << live >> 1) - 1;
            }
            if live > 0 && dice.below(3) > 0 {
                boxes[live - 1].1 = 0;
            }
        }
        let mut drawing = drawing_from(&boxes, &past);
        // Words beyond the count are not looked at.
        let beyond = past.len() * ENTRY_WORDS + dice.below(30);
        drawing.history[beyond] = dice.throw() as u32;
        let answer = undone(&drawing).map_err(|refusal| refusal.number);
        if dropped(&drawing).is_err() {
            checks.check("undo of a bad drawing", answer == Err(12));
            continue;
        }
        match undone_by_bits(&drawing) {
            Some(before) => {
                taken[last.kind as usize] += 1;
                checks.check("undo by bits", answer == Ok(before));
            }
            None => {
                refused[last.kind as usize] += 1;
                checks.check("no undo by bits", answer == Err(12));
            }
        }
    }
    checks.check(
        "undo taken and refused for each kind",
        (1..5).all(|kind| taken[kind] > 200 && refused[kind] > 200),
    );
    println!(
        "undo of any list: taken {:?}, refused {:?}, by kind",
        &taken[1..],
        &refused[1..]
    );
}

/// Every list of at most this many boxes with ids from the pool.
fn all_lists(pool: &[u32], most: usize) -> Vec<Vec<(u32, u32)>> {
    let mut orders: Vec<Vec<u32>> = vec![Vec::new()];
    let mut place = 0;
    while place < orders.len() {
        let order = orders[place].clone();
        place += 1;
        for &id in pool {
            if order.len() < most && !order.contains(&id) {
                orders.push([&order[..], &[id]].concat());
            }
        }
    }
    let mut lists = Vec::new();
    for order in orders {
        let live = order.len();
        for bits in 0..1u32 << (live * live) {
            let rows: Vec<u32> = (0..live)
                .map(|position| bits >> (live * position) & ((1 << live) - 1))
                .collect();
            if (0..live).all(|position| rows[position] >> position & 1 == 0) {
                lists.push(order.iter().copied().zip(rows).collect());
            }
        }
    }
    lists
}

/// The request's sentence with nothing left out: every list there is, every edit of it.
fn undo_against_all_lists(checks: &mut Checks) {
    let pool = [0, 5, u32::MAX];
    let mut edits = Vec::new();
    for id in pool {
        edits.extend([Edit::Add(id), Edit::Delete(id)]);
        for other in pool {
            edits.extend([Edit::Draw(id, other), Edit::Erase(id, other)]);
        }
    }
    let lists = all_lists(&pool, 3);
    checks.check("all lists", lists.len() == 1 + 3 + 6 * 4 + 6 * 64);
    let rows = |at: u32| (0..16u32).filter(move |row| row >> at & 1 == 0);
    let mut questions = Vec::new();
    for id in pool {
        questions.push(added(id));
        for at in 0..4 {
            for out in rows(at) {
                questions.extend(rows(at).map(|into| deleted(id, at, out, into)));
            }
        }
    }
    for at in 0..4 {
        for to in (0..4).filter(|&to| to != at) {
            questions.extend([arrow(DRAWN, at, to), arrow(ERASED, at, to)]);
        }
    }
    let mut given = 0;
    for rest in [vec![], vec![added(5)], vec![deleted(5, 1, 0, 1)]] {
        let mut before_each: HashMap<Drawing, Vec<Drawing>> = HashMap::new();
        for list in &lists {
            let before = drawing_from(list, &rest);
            for &edit in &edits {
                if let Ok(after) = edited(&before, edit) {
                    before_each.entry(after).or_default().push(before.clone());
                }
            }
        }
        for list in &lists {
            // The list before a deletion is one longer, and four boxes are not among the lists.
            for entry in questions
                .iter()
                .filter(|entry| entry.kind != DELETED || list.len() < 3)
            {
                let mut after = drawing_from(list, &rest);
                push_entry(&mut after, entry);
                let answer = undone(&after).map_err(|refusal| refusal.number);
                match before_each.get(&after).map(Vec::as_slice) {
                    None => checks.check("no list before", answer == Err(12)),
                    Some([before]) => {
                        given += 1;
                        checks.check("the list before", answer.as_ref() == Ok(before));
                    }
                    Some(_) => checks.check("one list before", false),
                }
            }
        }
    }
    checks.check("undo is given", given > 1_000);
    println!("undo against all small lists: given {given} times");
}

/// Any numbers and any lengths: every call comes back, and a refused one changes nothing.
fn drawings_of_any_numbers(checks: &mut Checks, dice: &mut Dice) {
    let edges = [0, 1, 2, 3, 4, 15, 16, 17, 32, 33, 0xffff, 1 << 31, u32::MAX];
    for round in 0..1_500 {
        let boxes = random_boxes(dice);
        let mut drawing = drawing_from(&boxes, &[]);
        // Long random histories are seldom good, so half of them are short.
        let most = if round % 2 == 0 { MOST_EDITS } else { 3 };
        for _ in 0..dice.below(most + 1) {
            let entry = random_entry(dice, &boxes);
            push_entry(&mut drawing, &entry);
        }
        if round % 3 == 0 {
            drawing.records.resize(dice.from(14..19), BLANK_RECORD);
            drawing.history.resize(dice.from(190..195), 0);
        }
        for _ in 0..12 {
            let number = edges[dice.below(edges.len())];
            let write = match dice.below(8) {
                0 => Step::WriteCount { number },
                1..=3 => Step::WriteList {
                    place: dice.below(60) as u32,
                    number,
                },
                _ => Step::WriteHistory {
                    place: dice.below(200) as u32,
                    number,
                },
            };
            checks.check("the host writes", take_step(&mut drawing, write) == 0);
            for step in SIX_CALLS {
                let right_lengths = drawing.records.len() == 16 && drawing.history.len() == 192;
                let is_10 = number_of_step(checks, &drawing, step) == 10;
                checks.check("10 by lengths", is_10 != right_lengths);
            }
        }
    }
    let mut large = Drawing {
        records: vec![
            BoxRecord {
                id: u32::MAX,
                live: u32::MAX,
                arrows: u32::MAX,
            };
            100_000
        ],
        history: vec![u32::MAX; 100_000],
        edits: u32::MAX,
    };
    for step in SIX_CALLS {
        let refused = number_of_step(checks, &large, step);
        checks.check("large and wrong", refused == 10);
    }
    large.records.truncate(MOST_BOXES);
    large.history.truncate(HISTORY_WORDS);
    for step in SIX_CALLS {
        let refused = number_of_step(checks, &large, step);
        checks.check("wrong throughout", refused == 12);
    }
}

/// What the host writes goes to one number; a place beyond the buffer is left alone.
fn numbers_written_by_the_host(checks: &mut Checks) {
    let mut drawing = fresh_drawing();
    let before = drawing.clone();
    for (place, number) in [(48, 9), (u32::MAX, 9)] {
        take_step(&mut drawing, Step::WriteList { place, number });
    }
    for (place, number) in [(192, 9), (u32::MAX, 9)] {
        take_step(&mut drawing, Step::WriteHistory { place, number });
    }
    checks.check("beyond the buffers", drawing == before);
    for (place, number) in [(3, 7), (4, 8), (5, 9), (47, 6)] {
        take_step(&mut drawing, Step::WriteList { place, number });
    }
    for (place, number) in [(0, 7), (191, 8)] {
        take_step(&mut drawing, Step::WriteHistory { place, number });
    }
    take_step(&mut drawing, Step::WriteCount { number: u32::MAX });
    let mut after = before;
    after.records[1] = BoxRecord {
        id: 7,
        live: 8,
        arrows: 9,
    };
    after.records[15].arrows = 6;
    after.history[0] = 7;
    after.history[191] = 8;
    after.edits = u32::MAX;
    checks.check("within the buffers", drawing == after);
}

// ---------------------------------------------------------------------------
// The stream
// ---------------------------------------------------------------------------

fn put_bytes(request: &mut Vec<u8>, bytes: &[u8]) {
    request.extend((bytes.len() as u32).to_le_bytes());
    request.extend(bytes);
}

fn put_table(request: &mut Vec<u8>, table: &[u16]) {
    request.extend((table.len() as u32).to_le_bytes());
    for entry in table {
        request.extend(entry.to_le_bytes());
    }
}

fn put_machine(request: &mut Vec<u8>, machine: &Machine) {
    for number in [
        machine.states,
        machine.actions,
        machine.boxes,
        machine.start,
    ] {
        request.extend(number.to_le_bytes());
    }
    request.extend(machine.owners);
}

fn put_model(request: &mut Vec<u8>, model: &Model) {
    put_machine(request, &model.machine);
    for id in model.ids {
        request.extend(id.to_le_bytes());
    }
    request.extend(model.arrows.iter().flatten().map(|&arrow| u8::from(arrow)));
}

fn put_numbers(request: &mut Vec<u8>, numbers: &[u32]) {
    request.extend(numbers.iter().flat_map(|number| number.to_le_bytes()));
}

/// A fresh drawing, two boxes and an arrow, then each kind of step in turn.
fn stream_of_edits(checks: &mut Checks) {
    let answer_to = |request: &[u8]| {
        let mut answer = Vec::new();
        serve(&mut &request[..], &mut answer).map(|()| answer)
    };
    // Each step, its number, then the two records, two entries and count that it leaves.
    let steps: [(u8, u32, u32); 9] = [
        (1, 70_000, 0),
        (1, 6, 0),
        (3, 6, 70_000),
        (2, 70_000, 0),
        (5, 0, 0),
        (4, 70_000, 6),
        (7, 5, 3),
        (5, 0, 0),
        (9, 77, 1),
    ];
    let add = [1, 0, 0, 70_000, 0, 0];
    let add_6 = [1, 0, 0, 6, 0, 0];
    let draw = [3, 1, 0, 0, 0, 0];
    let delete = [2, 0, 0, 70_000, 0, 2];
    let one = [70_000, 1, 0, 0, 0, 0];
    let two = [70_000, 1, 0, 6, 1, 0];
    let drawn = [70_000, 1, 0, 6, 1, 1];
    let spoiled = [70_000, 1, 0, 6, 1, 3];
    let left: [(u32, [u32; 6], Vec<[u32; 6]>, u32); 9] = [
        (0, one, vec![add], 1),
        (0, two, vec![add, add_6], 2),
        (0, drawn, vec![add, add_6, draw], 3),
        (0, [6, 1, 0, 0, 0, 0], vec![add, add_6, draw, delete], 4),
        (0, drawn, vec![add, add_6, draw], 3),
        (18, drawn, vec![add, add_6, draw], 3),
        (0, spoiled, vec![add, add_6, draw], 3),
        (12, spoiled, vec![add, add_6, draw], 3),
        (0, spoiled, vec![add, add_6, draw], 1),
    ];
    let mut request = vec![b'E'];
    put_numbers(&mut request, &[16]);
    put_numbers(&mut request, &[0; 48]);
    put_numbers(&mut request, &[192]);
    put_numbers(&mut request, &[0; 192]);
    put_numbers(&mut request, &[0, steps.len() as u32]);
    for (kind, first, second) in steps {
        request.push(kind);
        put_numbers(&mut request, &[first, second]);
    }
    let mut expected = Vec::new();
    for (number, records, entries, count) in left {
        let mut history = entries.concat();
        history.resize(HISTORY_WORDS, 0);
        put_numbers(&mut expected, &[number, 16]);
        put_numbers(&mut expected, &records);
        put_numbers(&mut expected, &[0; 42]);
        put_numbers(&mut expected, &[192]);
        put_numbers(&mut expected, &history);
        put_numbers(&mut expected, &[count]);
    }
    checks.check("stream E", answer_to(&request).unwrap() == expected);

    let mut small = vec![b'E'];
    put_numbers(&mut small, &[1, 7, 8, 9, 2, 5, 6, 4]);
    let mut no_steps = small.clone();
    put_numbers(&mut no_steps, &[0]);
    checks.check(
        "stream E no steps",
        answer_to(&no_steps).unwrap().is_empty(),
    );
    put_numbers(&mut small, &[2]);
    for (kind, number) in [(6, 10), (8, 0)] {
        small.push(kind);
        put_numbers(&mut small, &[1, number]);
    }
    let mut expected = Vec::new();
    put_numbers(&mut expected, &[10, 1, 7, 8, 9, 2, 5, 6, 4]);
    put_numbers(&mut expected, &[0, 1, 7, 8, 9, 2, 5, 0, 4]);
    checks.check(
        "stream E wrong lengths",
        answer_to(&small).unwrap() == expected,
    );
    checks.check(
        "stream E cut short",
        answer_to(&small[..small.len() - 1]).is_err(),
    );
    for kind in [0, 10, 255] {
        let place = small.len() - 9;
        small[place] = kind;
        checks.check("stream E unknown kind", answer_to(&small).is_err());
    }
}

fn stream(checks: &mut Checks) {
    let register = register_machine();
    let text = register.sheet();
    let answer_to = |request: &[u8]| {
        let mut answer = Vec::new();
        serve(&mut &request[..], &mut answer).map(|()| answer)
    };
    let n8 = |answer: &[u8], place: usize| {
        u64::from_le_bytes(answer[place..place + 8].try_into().unwrap())
    };

    let mut request = vec![b'R'];
    put_bytes(&mut request, &text);
    for count in [NEXT_ENTRIES, OUTPUT_ENTRIES, VIEW_ENTRIES] {
        request.extend((count as u32).to_le_bytes());
    }
    let answer = answer_to(&request).unwrap();
    let mut expected = vec![0; 8];
    for number in [9u64, 4, 4, 0] {
        expected.extend(number.to_le_bytes());
    }
    for id in register.model.ids {
        expected.extend(id.to_le_bytes());
    }
    expected.extend(register.model.machine.owners);
    expected.extend(
        register
            .model
            .arrows
            .iter()
            .flatten()
            .map(|&arrow| u8::from(arrow)),
    );
    put_table(&mut expected, &register.next);
    put_table(&mut expected, &register.outputs);
    put_table(&mut expected, &register.views);
    checks.check("stream R", answer == expected);

    let mut request = vec![b'R', 0, 0, 0, 0];
    for count in [1u32, 0, 2] {
        request.extend(count.to_le_bytes());
    }
    let answer = answer_to(&request).unwrap();
    checks.check("stream R 10", answer[..8] == [10, 0, 0, 0, 0, 0, 0, 0]);
    checks.check(
        "stream R zeros",
        answer[8..392].iter().all(|&byte| byte == 0),
    );
    let rest = [
        1, 0, 0, 0, 165, 165, 0, 0, 0, 0, 2, 0, 0, 0, 165, 165, 165, 165,
    ];
    checks.check("stream R untouched", answer[392..] == rest);

    let mut request = vec![b'L'];
    put_bytes(&mut request, &text);
    request.extend(3u64.to_le_bytes());
    let answer = answer_to(&request).unwrap();
    checks.check("stream L", answer == b"\0\0\0\0\0\0\0\0\x07\0\0\0Label 3");

    let mut request = vec![b'J'];
    let mut variant = register.clone();
    variant.views.copy_within(0..9, 18);
    put_model(&mut request, &variant.model);
    put_table(&mut request, &variant.next);
    put_table(&mut request, &variant.outputs);
    put_table(&mut request, &variant.views);
    let answer = answer_to(&request).unwrap();
    checks.check(
        "stream J",
        answer.len() == 41 && answer[..9] == [0, 0, 0, 0, 0, 0, 0, 0, 3],
    );
    let places = [9, 17, 25, 33].map(|place| n8(&answer, place));
    checks.check("stream J places", places == [3, 2, 0, 3]);

    let mut request = vec![b'N'];
    put_machine(&mut request, &register.model.machine);
    put_table(&mut request, &register.next);
    put_table(&mut request, &register.outputs);
    request.extend((LIST_ENTRIES as u32).to_le_bytes());
    let answer = answer_to(&request).unwrap();
    checks.check("stream N length", answer.len() == 8 + 16 + 128 + 4 + 960);
    checks.check("stream N", n8(&answer, 8) == 3 && n8(&answer, 16) == 9);
    checks.check(
        "stream N depth",
        n8(&answer, 48) == 1 && n8(&answer, 56) == 0,
    );
    checks.check(
        "stream N list",
        answer[156..168] == [0, 0, 3, 0, 1, 0, 3, 0, 2, 0, 3, 0],
    );

    let mut request = vec![b'P'];
    put_model(&mut request, &register.model);
    request.push(1);
    request.extend(3u64.to_le_bytes());
    put_bytes(&mut request, &[2, 0]);
    request.extend(2u32.to_le_bytes());
    let answer = answer_to(&request).unwrap();
    checks.check("stream P", answer.len() == 22 && n8(&answer, 8) == 1);
    checks.check("stream P buffer", answer[16..] == [2, 0, 0, 0, 2, 255]);

    let mut request = vec![b'S'];
    put_machine(&mut request, &register.model.machine);
    put_table(&mut request, &register.next);
    let answer = answer_to(&request).unwrap();
    checks.check("stream S", answer.len() == 144 && n8(&answer, 8) == 9);
    checks.check(
        "stream S flags",
        answer[16..25] == [1; 9] && answer[25..] == [0; 119],
    );

    let mut request = vec![b'V'];
    put_bytes(&mut request, b"x");
    request.extend((VERDICT_BYTES as u32).to_le_bytes());
    let once = answer_to(&request).unwrap();
    checks.check(
        "stream V",
        once.len() == 12 + VERDICT_BYTES && n8(&once, 0) == 12,
    );
    checks.check("stream V text", once[12..25] == *b"refused\t1\t0\n\0");
    let twice = [&request[..], &request[..]].concat();
    checks.check(
        "two requests",
        answer_to(&twice).unwrap() == [&once[..], &once].concat(),
    );
    checks.check("no request", answer_to(&[]).unwrap().is_empty());
    checks.check("unknown letter", answer_to(b"Q").is_err());
    checks.check(
        "cut short",
        answer_to(&request[..request.len() - 1]).is_err(),
    );
}

/// Run every check; the exit code is 1 if any failed.
pub fn selftest() -> i32 {
    let mut checks = Checks {
        count: 0,
        failed: 0,
    };
    let mut dice = Dice { place: 1992 };
    proved_cases(&mut checks);
    easy_errors(&mut checks);
    refusals_by_the_reader(&mut checks);
    refusals_by_the_other_calls(&mut checks);
    limits(&mut checks, &mut dice);
    brute_force(&mut checks, &mut dice);
    structured_machines(&mut checks, &mut dice);
    near_the_register_machine(&mut checks, &mut dice);
    spoiled_sheets(&mut checks, &mut dice);
    four_box_story(&mut checks);
    refusals_by_the_edits(&mut checks);
    rules_of_drawings(&mut checks);
    entries_that_calls_make(&mut checks, &mut dice);
    calls_from_a_fresh_list(&mut checks, &mut dice);
    undo_against_the_closed_form(&mut checks, &mut dice);
    undo_against_all_lists(&mut checks);
    drawings_of_any_numbers(&mut checks, &mut dice);
    numbers_written_by_the_host(&mut checks);
    stream(&mut checks);
    stream_of_edits(&mut checks);
    println!("second: {} checks, {} failed", checks.count, checks.failed);
    i32::from(checks.failed > 0)
}
