// The verdict on a sheet, and edits of a drawing, for C and C++. Links with libzarpalume.a, x86-64.
#ifndef ZARPALUME_H
#define ZARPALUME_H

#include <stddef.h>
#include <stdint.h>

// The one place for the number: CMake, pkg-config and the commands take it from here.
#define ZARPALUME_VERSION "0.1.0"

// The limits. Three of a model, from which its tables' lengths follow; then those of texts, runs and numbers.
#define ZARPALUME_STATES 128
#define ZARPALUME_ACTIONS 32
#define ZARPALUME_BOXES 16

#define ZARPALUME_ARROWS (ZARPALUME_BOXES * ZARPALUME_BOXES)
#define ZARPALUME_NEXT_ENTRIES (ZARPALUME_STATES * ZARPALUME_ACTIONS)
#define ZARPALUME_OUTPUT_ENTRIES (ZARPALUME_STATES * ZARPALUME_ACTIONS)
#define ZARPALUME_VIEW_ENTRIES (ZARPALUME_BOXES * ZARPALUME_STATES)
#define ZARPALUME_PAIRS (ZARPALUME_BOXES * (ZARPALUME_BOXES - 1))
#define ZARPALUME_LIST_ENTRIES (2 * ZARPALUME_PAIRS)

#define ZARPALUME_LARGEST_ID 65535
#define ZARPALUME_LARGEST_NUMBER 65535
#define ZARPALUME_SHEET_BYTES 32768
#define ZARPALUME_LABEL_BYTES 32
#define ZARPALUME_RUN_ACTIONS 1024
#define ZARPALUME_VERDICT_BYTES 8192

// Edits of a history, and their words, six to an edit: the fields of zarpalume_edit.
#define ZARPALUME_EDITS 32
#define ZARPALUME_EDIT_WORDS (6 * ZARPALUME_EDITS)

// The stack that a call takes at most, from its caller's frame on.
#define ZARPALUME_STACK_BYTES 65536

// A box of a drawing. A blank one is all zero, and no box.
typedef struct {
    uint32_t id;
    uint32_t live;   // 1 for a box
    uint32_t arrows; // bit u: an arrow to the box at position u
} zarpalume_box;

// An edit of a history; what its kind doesn't use is 0. Positions are those before the edit.
typedef struct {
    uint32_t kind; // 1 add, 2 delete, 3 draw, 4 erase
    uint32_t at;   // where the deleted box stood, or where the arrow starts
    uint32_t to;   // where the arrow ends
    uint32_t id;   // of the box that was added or deleted
    uint32_t out;  // a deleted box's own arrows, as in its record
    uint32_t into; // bit u: an arrow from position u to the deleted box
} zarpalume_edit;

#ifdef __cplusplus
extern "C" {
#endif

// Judges the sheet, writes the verdict to the front of the buffer and zeros after it, and returns the verdict's length.
// A buffer of any length but ZARPALUME_VERDICT_BYTES is left alone, and 0 returned; it may then be null.
// A sheet of length 0 may be null; it is refused with number 1, as an empty text is.
// The two must not overlap. Nothing needs to be aligned.
// It keeps no state, allocates nothing, and may be called from any thread, by several at once.
size_t zarpalume_verdict(const uint8_t *sheet, size_t sheet_length, uint8_t *verdict, size_t verdict_length);

// Edits of a drawing. The host keeps a list of ZARPALUME_BOXES records, the live ones first and in box order,
// a history of ZARPALUME_EDIT_WORDS words, ZARPALUME_EDITS edits and the oldest first, and how many edits it holds.
// A fresh drawing is all zero. The host lends the three to each call, and gets them back edited.
//
// Each call returns 0, or the number of its refusal, and has then changed nothing. Tested in this order:
//   10  the list or the history has another length
//   12  list or history break the rules: a record or an edit that no call makes, a live id twice or deleted in the history,
//       an arrow that touches a box which isn't live, a count over ZARPALUME_EDITS
//   17  a new edit with ZARPALUME_EDITS in the history
//    8  unknown id
//   14  the id to be added is live, or deleted in the history
//   15  adding with ZARPALUME_BOXES live
//   18  drawing an arrow that stands, erasing one that is absent, or a box's arrow to itself
//   16  nothing to undo; after it 12 again, where the last edit cannot have given this list
//
// Lengths are counted in records and in words. A list or a history of another length may be null; the count never.
// The three must not overlap, and each is aligned as its type is.
// No call keeps state or allocates; any thread may call, several at once, each with a drawing of its own.

// The box goes last.
uint32_t zarpalume_add(zarpalume_box *boxes, size_t boxes_length, uint32_t *history, size_t history_length, uint32_t *count,
                       uint32_t id);

// The box goes with all its arrows. Its id is not taken again while this edit is in the history.
uint32_t zarpalume_delete(zarpalume_box *boxes, size_t boxes_length, uint32_t *history, size_t history_length, uint32_t *count,
                          uint32_t id);

uint32_t zarpalume_draw(zarpalume_box *boxes, size_t boxes_length, uint32_t *history, size_t history_length, uint32_t *count,
                        uint32_t source, uint32_t target);

uint32_t zarpalume_erase(zarpalume_box *boxes, size_t boxes_length, uint32_t *history, size_t history_length, uint32_t *count,
                         uint32_t source, uint32_t target);

// Gives back the boxes, their order, ids and arrows as they were before the last edit, which leaves the history;
// promised where nobody but these calls has changed the drawing.
uint32_t zarpalume_undo(zarpalume_box *boxes, size_t boxes_length, uint32_t *history, size_t history_length, uint32_t *count);

// Drops the whole history, and keeps boxes and arrows.
uint32_t zarpalume_drop(zarpalume_box *boxes, size_t boxes_length, uint32_t *history, size_t history_length, uint32_t *count);

#ifdef __cplusplus
}
#endif

#endif
