//! Edits of a drawing, change request A2: add, delete, draw, erase, undo, drop the history.
//!
//! A list is worked on as what it means: ids in box order and arrows between ids. Positions
//! come in only where records and entries are read or written. Undo turns no edit round: it
//! tries lists that may have stood before, and does the edit on each by the call itself.

use super::*;
use std::collections::BTreeSet;

pub const MOST_EDITS: usize = 32;
pub const ENTRY_WORDS: usize = 6;
pub const HISTORY_WORDS: usize = MOST_EDITS * ENTRY_WORDS;

// ---------------------------------------------------------------------------
// Values
// ---------------------------------------------------------------------------

/// A record of the lent list: `live` is 1 for a box, bit u of `arrows` an arrow to position u.
#[derive(Clone, Copy, Debug, PartialEq, Eq, Hash)]
pub struct BoxRecord {
    pub id: u32,
    pub live: u32,
    pub arrows: u32,
}

pub const BLANK_RECORD: BoxRecord = BoxRecord {
    id: 0,
    live: 0,
    arrows: 0,
};

/// What the host lends. Nothing is known about the numbers until they are tested.
#[derive(Clone, Debug, PartialEq, Eq, Hash)]
pub struct Drawing {
    pub records: Vec<BoxRecord>,
    pub history: Vec<u32>,
    /// The count of edits in the history.
    pub edits: u32,
}

/// An edit of the history; what its kind doesn't use is 0.
#[derive(Clone, Copy, Debug, PartialEq)]
pub struct Entry {
    pub kind: u32,
    pub at: u32,
    pub to: u32,
    pub id: u32,
    pub out: u32,
    pub into: u32,
}

pub const ADDED: u32 = 1;
pub const DELETED: u32 = 2;
pub const DRAWN: u32 = 3;
pub const ERASED: u32 = 4;

pub const BLANK_ENTRY: Entry = Entry {
    kind: 0,
    at: 0,
    to: 0,
    id: 0,
    out: 0,
    into: 0,
};

impl Entry {
    pub fn from_words(words: &[u32]) -> Entry {
        Entry {
            kind: words[0],
            at: words[1],
            to: words[2],
            id: words[3],
            out: words[4],
            into: words[5],
        }
    }
    pub fn words(&self) -> [u32; ENTRY_WORDS] {
        [self.kind, self.at, self.to, self.id, self.out, self.into]
    }
}

/// What a list means: the live ids in box order, and each arrow as (source id, target id).
#[derive(Clone)]
struct Picture {
    ids: Vec<u32>,
    arrows: BTreeSet<(u32, u32)>,
}

#[derive(Clone, Copy, Debug, PartialEq)]
pub enum Edit {
    Add(u32),
    Delete(u32),
    Draw(u32, u32),
    Erase(u32, u32),
}

/// A step of a request: a call, or a number that the host writes between calls.
#[derive(Clone, Copy, Debug, PartialEq)]
pub enum Step {
    Edit(Edit),
    Undo,
    Drop,
    WriteList { place: u32, number: u32 },
    WriteHistory { place: u32, number: u32 },
    WriteCount { number: u32 },
}

// ---------------------------------------------------------------------------
// Records and entries against their meaning
// ---------------------------------------------------------------------------

/// The positions whose bits are set.
fn positions_in(set: u32) -> impl Iterator<Item = usize> {
    (0..32).filter(move |position| set >> position & 1 == 1)
}

/// The entries that the count names; asked for only after length and count have been tested.
pub fn entries(drawing: &Drawing) -> Vec<Entry> {
    drawing
        .history
        .chunks(ENTRY_WORDS)
        .take(drawing.edits as usize)
        .map(Entry::from_words)
        .collect()
}

/// Asked for only after the list has been tested.
fn picture_of(records: &[BoxRecord]) -> Picture {
    let boxes: Vec<&BoxRecord> = records.iter().filter(|record| record.live == 1).collect();
    let mut arrows = BTreeSet::new();
    for source in &boxes {
        for target in positions_in(source.arrows) {
            arrows.insert((source.id, boxes[target].id));
        }
    }
    Picture {
        ids: boxes.iter().map(|record| record.id).collect(),
        arrows,
    }
}

/// The positions of the boxes whose ids pass the test, as bits.
fn set_of(picture: &Picture, test: impl Fn(u32) -> bool) -> u32 {
    let mut set = 0;
    for (position, &id) in picture.ids.iter().enumerate() {
        if test(id) {
            set |= 1 << position;
        }
    }
    set
}

/// The boxes that the arrows from this one lead to.
fn arrows_out_of(picture: &Picture, id: u32) -> u32 {
    set_of(picture, |target| picture.arrows.contains(&(id, target)))
}

/// The boxes that have an arrow into this one.
fn arrows_into(picture: &Picture, id: u32) -> u32 {
    set_of(picture, |source| picture.arrows.contains(&(source, id)))
}

/// The live ones first, the rest blank. A seventeenth box makes the list too long, so that
/// it is no list the calls take.
fn drawing_of(picture: &Picture, past: &[Entry]) -> Drawing {
    let mut records = Vec::new();
    for &id in &picture.ids {
        records.push(BoxRecord {
            id,
            live: 1,
            arrows: arrows_out_of(picture, id),
        });
    }
    while records.len() < MOST_BOXES {
        records.push(BLANK_RECORD);
    }
    let mut history: Vec<u32> = past.iter().flat_map(Entry::words).collect();
    history.resize(HISTORY_WORDS, 0);
    Drawing {
        records,
        history,
        edits: past.len() as u32,
    }
}

// ---------------------------------------------------------------------------
// Refusals 10 and 12
// ---------------------------------------------------------------------------

/// Live ones first, then blank ones only; no live id twice; arrows lead to other live boxes.
fn list_keeps_the_rules(records: &[BoxRecord]) -> bool {
    let live = records.iter().take_while(|record| record.live == 1).count();
    let (boxes, rest) = records.split_at(live);
    let box_is_good = |position: usize| {
        let id = boxes[position].id;
        boxes[..position].iter().all(|earlier| earlier.id != id)
            && positions_in(boxes[position].arrows).all(|to| to < live && to != position)
    };
    rest.iter().all(|&record| record == BLANK_RECORD) && (0..live).all(box_is_good)
}

/// Some call can make this entry, on some list.
fn entry_can_be_made(entry: &Entry) -> bool {
    let &Entry {
        kind,
        at,
        to,
        id,
        out,
        into,
    } = entry;
    let is_position = |number: u32| (number as usize) < MOST_BOXES;
    let names_other_boxes =
        |row: u32| positions_in(row).all(|other| other < MOST_BOXES && other != at as usize);
    match kind {
        ADDED => [at, to, out, into] == [0; 4],
        DELETED => to == 0 && is_position(at) && names_other_boxes(out) && names_other_boxes(into),
        DRAWN | ERASED => {
            [id, out, into] == [0; 3] && is_position(at) && is_position(to) && at != to
        }
        _ => false,
    }
}

/// Each entry can be made, and an id once deleted is neither deleted again nor added.
fn history_keeps_the_rules(past: &[Entry]) -> bool {
    let id_stays_away = |place: usize| {
        past[place].kind != DELETED
            || past[place + 1..].iter().all(|later| {
                later.id != past[place].id || (later.kind != ADDED && later.kind != DELETED)
            })
    };
    past.iter().all(entry_can_be_made) && (0..past.len()).all(id_stays_away)
}

fn is_deleted_in(past: &[Entry], id: u32) -> bool {
    past.iter()
        .any(|entry| entry.kind == DELETED && entry.id == id)
}

/// List and history are looked at as they stand; nothing is replayed.
fn drawing_keeps_the_rules(drawing: &Drawing) -> bool {
    if drawing.edits as usize > MOST_EDITS {
        return false;
    }
    let past = entries(drawing);
    list_keeps_the_rules(&drawing.records)
        && history_keeps_the_rules(&past)
        && drawing
            .records
            .iter()
            .all(|record| record.live == 0 || !is_deleted_in(&past, record.id))
}

/// 10 and 12 come before all others, in every call.
fn refuse_bad_drawing(drawing: &Drawing) -> Result<(), Refusal> {
    refuse_wrong_length(drawing.records.len(), MOST_BOXES)?;
    refuse_wrong_length(drawing.history.len(), HISTORY_WORDS)?;
    refuse_unless(drawing_keeps_the_rules(drawing), 12, 0)
}

// ---------------------------------------------------------------------------
// The edits
// ---------------------------------------------------------------------------

/// The position of a live id; any other is unknown.
fn position_of(picture: &Picture, id: u32) -> Result<usize, Refusal> {
    picture
        .ids
        .iter()
        .position(|&live| live == id)
        .ok_or(Refusal { number: 8, line: 0 })
}

fn without_box(picture: &Picture, id: u32) -> Picture {
    let mut rest = picture.clone();
    rest.ids.retain(|&live| live != id);
    rest.arrows
        .retain(|&(source, target)| source != id && target != id);
    rest
}

/// An added box goes last.
fn add(picture: &mut Picture, past: &[Entry], id: u32) -> Result<Entry, Refusal> {
    let is_taken = picture.ids.contains(&id) || is_deleted_in(past, id);
    refuse_unless(!is_taken, 14, 0)?;
    refuse_unless(picture.ids.len() < MOST_BOXES, 15, 0)?;
    picture.ids.push(id);
    Ok(Entry {
        kind: ADDED,
        id,
        ..BLANK_ENTRY
    })
}

/// A box goes with all its arrows; its entry tells them by the positions before.
fn delete(picture: &mut Picture, id: u32) -> Result<Entry, Refusal> {
    let entry = Entry {
        kind: DELETED,
        at: position_of(picture, id)? as u32,
        to: 0,
        id,
        out: arrows_out_of(picture, id),
        into: arrows_into(picture, id),
    };
    *picture = without_box(picture, id);
    Ok(entry)
}

/// The entry of a drawn or erased arrow; an unknown id is told before a self-arrow.
fn arrow_entry(picture: &Picture, kind: u32, source: u32, target: u32) -> Result<Entry, Refusal> {
    let at = position_of(picture, source)? as u32;
    let to = position_of(picture, target)? as u32;
    refuse_unless(source != target, 18, 0)?;
    Ok(Entry {
        kind,
        at,
        to,
        ..BLANK_ENTRY
    })
}

fn draw(picture: &mut Picture, source: u32, target: u32) -> Result<Entry, Refusal> {
    let entry = arrow_entry(picture, DRAWN, source, target)?;
    let was_absent = picture.arrows.insert((source, target));
    refuse_unless(was_absent, 18, 0)?;
    Ok(entry)
}

fn erase(picture: &mut Picture, source: u32, target: u32) -> Result<Entry, Refusal> {
    let entry = arrow_entry(picture, ERASED, source, target)?;
    let stood = picture.arrows.remove(&(source, target));
    refuse_unless(stood, 18, 0)?;
    Ok(entry)
}

/// The drawing after a new edit, with its entry last in the history.
pub fn edited(drawing: &Drawing, edit: Edit) -> Result<Drawing, Refusal> {
    refuse_bad_drawing(drawing)?;
    let mut past = entries(drawing);
    refuse_unless(past.len() < MOST_EDITS, 17, 0)?;
    let mut picture = picture_of(&drawing.records);
    let entry = match edit {
        Edit::Add(id) => add(&mut picture, &past, id)?,
        Edit::Delete(id) => delete(&mut picture, id)?,
        Edit::Draw(source, target) => draw(&mut picture, source, target)?,
        Edit::Erase(source, target) => erase(&mut picture, source, target)?,
    };
    past.push(entry);
    Ok(drawing_of(&picture, &past))
}

// ---------------------------------------------------------------------------
// Undo and dropping
// ---------------------------------------------------------------------------

/// The list with the deleted box put in at this place. Bits that name no box are passed over
/// here; the entry that the deletion makes anew then lacks them.
fn with_deleted_box_at(picture: &Picture, place: usize, entry: &Entry) -> Picture {
    let mut ids = picture.ids.clone();
    ids.insert(place, entry.id);
    let named = |row: u32| positions_in(row).filter_map(|position| ids.get(position));
    let mut arrows = picture.arrows.clone();
    arrows.extend(named(entry.out).map(|&target| (entry.id, target)));
    arrows.extend(named(entry.into).map(|&source| (source, entry.id)));
    Picture { ids, arrows }
}

/// The list with an arrow and the list without it; none when the entry names no two boxes.
fn with_and_without_arrow(picture: &Picture, entry: &Entry) -> Vec<Picture> {
    let id_at = |position: u32| picture.ids.get(position as usize);
    let (Some(&source), Some(&target)) = (id_at(entry.at), id_at(entry.to)) else {
        return Vec::new();
    };
    let mut with = picture.clone();
    let mut without = picture.clone();
    with.arrows.insert((source, target));
    without.arrows.remove(&(source, target));
    vec![with, without]
}

/// Every list that could stand before this one: one box fewer anywhere before an adding, the
/// deleted box anywhere before a deletion, the same boxes before a drawing or erasing.
fn lists_to_try(picture: &Picture, entry: &Entry) -> Vec<Picture> {
    match entry.kind {
        ADDED => picture
            .ids
            .iter()
            .map(|&id| without_box(picture, id))
            .collect(),
        DELETED => (0..=picture.ids.len())
            .map(|place| with_deleted_box_at(picture, place, entry))
            .collect(),
        _ => with_and_without_arrow(picture, entry),
    }
}

/// The edit that an entry tells of, given the list before it.
fn edit_told_by(entry: &Entry, before: &Picture) -> Edit {
    let id_at = |position: u32| before.ids[position as usize];
    match entry.kind {
        ADDED => Edit::Add(entry.id),
        DELETED => Edit::Delete(entry.id),
        DRAWN => Edit::Draw(id_at(entry.at), id_at(entry.to)),
        _ => Edit::Erase(id_at(entry.at), id_at(entry.to)),
    }
}

/// The drawing whose list, beside the rest of the history, gives this one by the last edit:
/// the same list, and the same entry.
pub fn undone(drawing: &Drawing) -> Result<Drawing, Refusal> {
    refuse_bad_drawing(drawing)?;
    let past = entries(drawing);
    let Some((last, rest)) = past.split_last() else {
        return Err(Refusal {
            number: 16,
            line: 0,
        });
    };
    let picture = picture_of(&drawing.records);
    // Words beyond the count may hold anything here, and the edit leaves them blank.
    let wanted = Ok(drawing_of(&picture, &past));
    lists_to_try(&picture, last)
        .iter()
        .map(|before| (drawing_of(before, rest), edit_told_by(last, before)))
        .find(|(before, edit)| edited(before, *edit) == wanted)
        .map(|(before, _)| before)
        .ok_or(Refusal {
            number: 12,
            line: 0,
        })
}

/// Dropping the whole history keeps boxes and arrows.
pub fn dropped(drawing: &Drawing) -> Result<Drawing, Refusal> {
    refuse_bad_drawing(drawing)?;
    Ok(drawing_of(&picture_of(&drawing.records), &[]))
}

// ---------------------------------------------------------------------------
// The steps of a request
// ---------------------------------------------------------------------------

/// The number at a place of the list, record by record: id, live, arrows.
fn number_of_list(records: &mut [BoxRecord], place: usize) -> Option<&mut u32> {
    let record = records.get_mut(place / 3)?;
    Some(match place % 3 {
        0 => &mut record.id,
        1 => &mut record.live,
        _ => &mut record.arrows,
    })
}

/// A place beyond the buffer is left alone.
fn write(target: Option<&mut u32>, number: u32) {
    if let Some(target) = target {
        *target = number;
    }
}

/// Do a step and give its refusal's number, or 0. A refused edit changes nothing.
pub fn take_step(drawing: &mut Drawing, step: Step) -> u32 {
    let answer = match step {
        Step::Edit(edit) => edited(drawing, edit),
        Step::Undo => undone(drawing),
        Step::Drop => dropped(drawing),
        Step::WriteList { place, number } => {
            write(number_of_list(&mut drawing.records, place as usize), number);
            return 0;
        }
        Step::WriteHistory { place, number } => {
            write(drawing.history.get_mut(place as usize), number);
            return 0;
        }
        Step::WriteCount { number } => {
            drawing.edits = number;
            return 0;
        }
    };
    match answer {
        Ok(after) => {
            *drawing = after;
            0
        }
        Err(refusal) => refusal.number,
    }
}

// ---------------------------------------------------------------------------
// The stream of tests/README.md
// ---------------------------------------------------------------------------

impl Requests<'_> {
    /// This many numbers of 4 bytes.
    fn numbers(&mut self, count: u64) -> io::Result<Vec<u32>> {
        let raw = self.raw(4 * count)?;
        Ok(raw
            .chunks(4)
            .map(|four| u32::from_le_bytes([four[0], four[1], four[2], four[3]]))
            .collect())
    }

    fn drawing(&mut self) -> io::Result<Drawing> {
        let records = self.number(4)?;
        let records = self.numbers(3 * records)?;
        let words = self.number(4)?;
        Ok(Drawing {
            records: records
                .chunks(3)
                .map(|three| BoxRecord {
                    id: three[0],
                    live: three[1],
                    arrows: three[2],
                })
                .collect(),
            history: self.numbers(words)?,
            edits: self.number(4)? as u32,
        })
    }

    fn step(&mut self) -> io::Result<Step> {
        let kind = self.number(1)?;
        let first = self.number(4)? as u32;
        let second = self.number(4)? as u32;
        Ok(match kind {
            1 => Step::Edit(Edit::Add(first)),
            2 => Step::Edit(Edit::Delete(first)),
            3 => Step::Edit(Edit::Draw(first, second)),
            4 => Step::Edit(Edit::Erase(first, second)),
            5 => Step::Undo,
            6 => Step::Drop,
            7 => Step::WriteList {
                place: first,
                number: second,
            },
            8 => Step::WriteHistory {
                place: first,
                number: second,
            },
            9 => Step::WriteCount { number: second },
            _ => return Err(layout_error("a kind of step is not 1 to 9")),
        })
    }
}

impl Answers<'_> {
    fn drawing(&mut self, drawing: &Drawing) -> io::Result<()> {
        let mut numbers = vec![drawing.records.len() as u32];
        for record in &drawing.records {
            numbers.extend([record.id, record.live, record.arrows]);
        }
        numbers.push(drawing.history.len() as u32);
        numbers.extend(&drawing.history);
        numbers.push(drawing.edits);
        let raw: Vec<u8> = numbers.into_iter().flat_map(u32::to_le_bytes).collect();
        self.target.write_all(&raw)
    }
}

/// All steps are read first, so that a request that breaks the layout has no answer at all.
pub fn serve_edits(requests: &mut Requests, answers: &mut Answers) -> io::Result<()> {
    let mut drawing = requests.drawing()?;
    let mut steps = Vec::new();
    for _ in 0..requests.number(4)? {
        steps.push(requests.step()?);
    }
    for step in steps {
        let number = take_step(&mut drawing, step);
        answers.number(4, u64::from(number))?;
        answers.drawing(&drawing)?;
    }
    Ok(())
}
