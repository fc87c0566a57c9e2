//! The limits, as the library has them: the host test `limits` compares.
#![allow(dead_code)] // each program needs some of them

pub const STATES: usize = 128;
pub const ACTIONS: usize = 32;
pub const BOXES: usize = 16;

pub const ARROWS: usize = BOXES * BOXES;
pub const NEXT_ENTRIES: usize = STATES * ACTIONS;
pub const OUTPUT_ENTRIES: usize = STATES * ACTIONS;
pub const VIEW_ENTRIES: usize = BOXES * STATES;
pub const PAIRS: usize = BOXES * (BOXES - 1);
pub const LIST_ENTRIES: usize = 2 * PAIRS;

pub const LARGEST_ID: u64 = 65535;
pub const LARGEST_NUMBER: u64 = 65535;
pub const SHEET_BYTES: usize = 32768;
pub const LABEL_BYTES: usize = 32;
pub const RUN_ACTIONS: usize = 1024;
pub const VERDICT_BYTES: usize = 8192;

pub const EDITS: usize = 32;
pub const EDIT_WORDS: usize = 6 * EDITS;
