#include "inspection.hpp"

#include "../common/drawing.hpp"
#include "../common/text.hpp"
#include "hints.hpp"

#include <algorithm>
#include <array>
#include <charconv>
#include <span>

namespace sites {

namespace {

using std::to_string;

// The order of the records; arrows of both kinds share a place in it.
enum Turn : std::size_t { sheet_turn, box_turn, act_turn, go_turn, arrow_turn, view_turn, end_turn };

// A kind of line: its word, how many fields it has, how many of those after the word are numbers, when it comes, and how it is written.
struct Record {
    std::string_view word;
    std::size_t fields;
    std::size_t numbers;
    Turn turn;
    std::string_view form;
};

constexpr Record records[] = {
    {"sheet", 5, 4, sheet_turn, "sheet, states, actions, boxes, start"},
    {"box", 3, 1, box_turn, "box, id, label"},
    {"act", 2, 1, act_turn, "act, id"},
    {"go", 5, 4, go_turn, "go, state, action, next state, output"},
    {"flow", 3, 2, arrow_turn, "flow, id, id"},
    {"both", 3, 2, arrow_turn, "both, id, id"},
    {"view", 4, 3, view_turn, "view, id, state, class"},
};

const Record *record_of(std::string_view word) {
    const auto found = std::find_if(std::begin(records), std::end(records), [&](const Record &each) { return each.word == word; });
    return found == std::end(records) ? nullptr : found;
}

// A field, and the column in which it begins.
struct Field {
    std::string_view text;
    std::size_t column;
};

std::vector<Field> fields_of(std::string_view line) {
    std::vector<Field> result;
    const std::string_view whole = line;
    do {
        const auto column = static_cast<std::size_t>(line.data() - whole.data()) + 1;
        result.push_back({take_line(line, '\t'), column});
    } while (!line.empty());
    // A tab at the end has an empty field behind it.
    if (whole.ends_with('\t')) {
        result.push_back({{}, whole.size() + 1});
    }
    return result;
}

std::uint32_t value_of(std::string_view number) {
    std::uint32_t value = 0;
    std::from_chars(number.data(), number.data() + number.size(), value);
    return value;
}

std::string range(std::size_t least, std::size_t most) {
    return "a number from " + to_string(least) + " to " + to_string(most);
}

// A number with its noun: 1 box, 2 boxes.
std::string counted(std::size_t count, std::string_view one, std::string_view many) {
    return to_string(count) + " " + std::string{count == 1 ? one : many};
}

class Reader {
public:
    Inspection read(std::string_view sheet);

private:
    void read_line(std::string_view line);
    void read_record(const Record &record);
    void read_sizes();
    void read_box();
    void read_action();
    void read_step();
    void read_arrow();
    void read_view();

    Turn turn() const;
    bool is_due(const Record &record) const;
    std::string due() const;
    std::string due_arrows_or_view() const;
    std::string due_view() const;
    std::string why_not_due(const Record &record) const;
    std::string count_said(Turn of_turn) const;
    std::string known_boxes() const;

    void blame_text(std::string_view sheet);
    // What is blamed first stays.
    void blame(std::uint32_t number, std::size_t column, std::string message, std::string due, std::string hint);
    void blame_word(const Record *record);
    void blame_count(const Record &record);
    // Each blames the field where it isn't as it should be.
    void want_number(std::size_t field);
    void want_size(std::size_t field, std::string_view what, std::size_t most);
    void want_state(std::size_t field, std::string_view what);
    void want_next(std::size_t field, std::string_view what, std::size_t value);
    void want_known(std::size_t field);

    std::uint32_t number(std::size_t field) const { return value_of(fields_[field].text); }

    Inspection result_;
    Tables &tables_ = result_.tables;
    std::vector<Box> boxes_;
    std::vector<std::size_t> box_lines_;
    std::size_t owners_ = 0;
    // The line that is read.
    std::size_t line_ = 0;
    std::string_view text_;
    std::vector<Field> fields_;
};

Inspection Reader::read(std::string_view sheet) {
    blame_text(sheet);
    while (!sheet.empty() && !result_.fault) {
        read_line(take_line(sheet));
    }
    if (turn() < end_turn && !result_.fault) {
        line_++;
        const bool arrows = turn() == arrow_turn;
        blame(11, box_turn, "the sheet ends before it is complete", arrows ? due_view() : due(), count_said(arrows ? view_turn : turn()));
    }
    return std::move(result_);
}

void Reader::read_line(std::string_view line) {
    line_++;
    text_ = line;
    fields_ = fields_of(line);
    const Record *const record = record_of(fields_.front().text);
    if (record == nullptr || !is_due(*record)) {
        blame_word(record);
    } else if (fields_.size() != record->fields) {
        blame_count(*record);
    } else {
        for (std::size_t field = 1; field <= record->numbers; field++) {
            want_number(field);
        }
        if (!result_.fault) {
            read_record(*record);
        }
    }
}

void Reader::read_record(const Record &record) {
    constexpr std::array<void (Reader::*)(), end_turn> readers{&Reader::read_sizes, &Reader::read_box,   &Reader::read_action,
                                                        &Reader::read_step,  &Reader::read_arrow, &Reader::read_view};
    (this->*readers[record.turn])();
}

void Reader::read_sizes() {
    want_size(1, "states", ZARPALUME_STATES);
    want_size(2, "actions", ZARPALUME_ACTIONS);
    want_size(3, "boxes", ZARPALUME_BOXES);
    tables_.states = number(1);
    tables_.actions = number(2);
    tables_.boxes = number(3);
    want_state(4, "the start");
}

void Reader::read_box() {
    const auto same = std::find_if(boxes_.begin(), boxes_.end(), [&](const Box &box) { return box.id == number(1); });
    if (same != boxes_.end()) {
        const std::size_t line = box_lines_[static_cast<std::size_t>(same - boxes_.begin())];
        blame(7, fields_[1].column, "the id " + to_string(same->id) + " is that of " + shown(same->label) + " on line " + to_string(line),
              "an id that no other box has", "");
    }
    if (const LabelProblem label = label_problem(fields_[2].text); !label.problem.empty()) {
        blame(9, fields_[2].column + label.byte, label.problem, "a label of 1 to " + to_string(ZARPALUME_LABEL_BYTES) + " printable ASCII characters",
              line_hint(text_));
    }
    boxes_.push_back({number(1), fields_[2].text});
    box_lines_.push_back(line_);
}

void Reader::read_action() {
    want_known(1);
    owners_++;
}

void Reader::read_step() {
    want_next(1, "state", tables_.nexts.size() / tables_.actions);
    want_next(2, "action", tables_.nexts.size() % tables_.actions);
    want_state(3, "the next state");
    tables_.nexts.push_back(number(3));
    tables_.outputs.push_back(number(4));
}

void Reader::read_arrow() {
    want_known(1);
    want_known(2);
}

void Reader::read_view() {
    if (tables_.views.empty()) {
        tables_.first_view_line = line_;
    }
    const Box &box = boxes_[tables_.views.size() / tables_.states];
    if (number(1) != box.id) {
        blame(8, fields_[1].column, "the view of box " + to_string(number(1)) + " where that of " + shown(box.label) + " is due", due_view(),
              "views come in the order of the boxes, each with every state; a line may be missing");
    }
    want_next(2, "state", tables_.views.size() % tables_.states);
    tables_.views.push_back(number(3));
}

Turn Reader::turn() const {
    if (tables_.boxes == 0) {
        return sheet_turn;
    }
    if (boxes_.size() < tables_.boxes) {
        return box_turn;
    }
    if (owners_ < tables_.actions) {
        return act_turn;
    }
    if (tables_.nexts.size() < tables_.states * tables_.actions) {
        return go_turn;
    }
    if (tables_.views.empty()) {
        return arrow_turn;
    }
    return tables_.views.size() < tables_.boxes * tables_.states ? view_turn : end_turn;
}

// The first view may come instead of an arrow.
bool Reader::is_due(const Record &record) const {
    return record.turn == turn() || (turn() == arrow_turn && record.turn == view_turn);
}

std::string Reader::due_view() const {
    const Box &box = boxes_[tables_.views.size() / tables_.states];
    const std::size_t state = tables_.views.size() % tables_.states;
    return "view, " + to_string(box.id) + ", " + to_string(state) + ", class: how " + shown(box.label) + " sees state " + to_string(state);
}

std::string Reader::due_arrows_or_view() const {
    return "flow, id, id, or both, id, id, or the first view: " + due_view();
}

std::string Reader::due() const {
    const std::size_t steps = tables_.nexts.size();
    switch (turn()) {
    case sheet_turn:
        return "sheet, states, actions, boxes, start: the first line";
    case box_turn:
        return "box, id, label: box " + to_string(boxes_.size() + 1) + " of " + to_string(tables_.boxes);
    case act_turn:
        return "act, id: the box of action " + to_string(owners_);
    case go_turn:
        return "go, " + to_string(steps / tables_.actions) + ", " + to_string(steps % tables_.actions) + ", next state, output";
    case arrow_turn:
        return due_arrows_or_view();
    case view_turn:
        return due_view();
    case end_turn:
        break;
    }
    return "nothing: the sheet is complete after line " + to_string(line_ - 1);
}

std::string Reader::count_said(Turn of_turn) const {
    const std::string boxes = counted(tables_.boxes, "box", "boxes");
    const std::string states = counted(tables_.states, "state", "states");
    switch (of_turn) {
    case sheet_turn:
        return "";
    case box_turn:
        return "line 1 says " + boxes + ", and " + counted(boxes_.size(), "is", "are") + " here";
    case act_turn:
        return "line 1 says " + counted(tables_.actions, "action", "actions") + ", and " + counted(owners_, "is", "are") + " here";
    case go_turn:
        return "line 1 says " + states + " and " + counted(tables_.actions, "action", "actions") + ", and " +
               counted(tables_.nexts.size(), "step is", "steps are") + " here";
    case arrow_turn:
        return "arrows come before the first view, which is here";
    case view_turn:
    case end_turn:
        break;
    }
    return "line 1 says " + boxes + " and " + states + ", and " + counted(tables_.views.size(), "view is", "views are") + " here";
}

// A record that comes too early shows that one is missing; one that comes too late, that there are too many.
std::string Reader::why_not_due(const Record &record) const {
    if (record.turn == sheet_turn) {
        return "there is one line that begins with sheet, the first";
    }
    return record.turn < turn() ? count_said(record.turn) + " already" : count_said(turn());
}

std::string Reader::known_boxes() const {
    std::string result = "the boxes are ";
    for (const Box &box : boxes_) {
        result.append(&box == &boxes_.front() ? "" : ", ").append(to_string(box.id)).append(" ").append(shown(box.label));
    }
    return result;
}

void Reader::blame_text(std::string_view sheet) {
    const auto blame_at = [&](std::size_t byte, std::string message, std::string due, std::string hint) {
        blame(1, 1, std::move(message), std::move(due), std::move(hint));
        const std::string_view before = sheet.substr(0, byte);
        result_.fault->line = static_cast<std::size_t>(std::count(before.begin(), before.end(), '\n')) + 1;
        result_.fault->column = before.size() - (before.rfind('\n') + 1) + 1;
    };
    if (sheet.empty()) {
        blame_at(0, "the file is empty", due(), "");
    } else if (sheet.size() > ZARPALUME_SHEET_BYTES) {
        blame_at(ZARPALUME_SHEET_BYTES, "the sheet is too long", "at most " + to_string(ZARPALUME_SHEET_BYTES) + " bytes", "");
    } else if (sheet.back() != '\n') {
        const std::string_view first = sheet.substr(0, sheet.find('\n'));
        const std::string hint = line_hint(first);
        blame_at(sheet.size(), "the last line has no end", "a newline (LF) at the end of every line",
                 hint.find("UTF-16") != std::string::npos ? hint : "the file may be cut, or the editor left the last newline out");
    }
}

void Reader::blame(std::uint32_t number, std::size_t column, std::string message, std::string due, std::string hint) {
    if (!result_.fault) {
        result_.fault = {{number, static_cast<std::uint32_t>(line_)}, line_, column, std::move(message), std::move(due), std::move(hint)};
    }
}

void Reader::blame_word(const Record *record) {
    const std::string no_word = text_.empty() ? "an empty line" : "a line without a word";
    const std::string word = fields_.front().text.empty() ? no_word : shown(fields_.front().text);
    const std::string message = turn() == end_turn ? word + " after the last view" : word + " is not due here";
    blame(2, 1, message, due(), record == nullptr ? line_hint(text_) : why_not_due(*record));
}

void Reader::blame_count(const Record &record) {
    // The first field too many, or the line's end.
    const std::size_t column = fields_.size() > record.fields ? fields_[record.fields].column : text_.size() + 1;
    const std::string hint = record.word == "box" && fields_.size() > record.fields ? "a label has no tab in it" : line_hint(text_);
    blame(3, column, std::string{record.word} + " has " + to_string(record.fields) + " fields, and there are " + to_string(fields_.size()) + " here",
          std::string{record.form}, hint);
}

void Reader::want_number(std::size_t field) {
    if (const std::string problem = number_problem(fields_[field].text); !problem.empty()) {
        blame(4, fields_[field].column, problem, range(0, ZARPALUME_LARGEST_NUMBER) + ", in digits, without a 0 in front", line_hint(text_));
    }
}

void Reader::want_size(std::size_t field, std::string_view what, std::size_t most) {
    if (number(field) < 1 || number(field) > most) {
        blame(5, fields_[field].column, to_string(number(field)) + " " + std::string{what}, range(1, most), "");
    }
}

void Reader::want_state(std::size_t field, std::string_view what) {
    // Where a size is wrong there is no range to tell, and something is blamed already.
    if (!result_.fault && number(field) >= tables_.states) {
        blame(6, fields_[field].column, std::string{what} + " " + to_string(number(field)) + " is not on the sheet", range(0, tables_.states - 1),
              "states count from 0");
    }
}

void Reader::want_next(std::size_t field, std::string_view what, std::size_t value) {
    if (number(field) != value) {
        blame(6, fields_[field].column, std::string{what} + " " + to_string(number(field)) + " where " + std::string{what} + " " + to_string(value) + " is due",
              turn() == go_turn ? due() : due_view(), "lines come in order, from 0 on; one may be missing before this one, or be there twice");
    }
}

void Reader::want_known(std::size_t field) {
    if (std::none_of(boxes_.begin(), boxes_.end(), [&](const Box &box) { return box.id == number(field); })) {
        blame(8, fields_[field].column, "no box has the id " + to_string(number(field)), "the id of a box", known_boxes());
    }
}

} // namespace

Inspection inspect(std::string_view sheet) {
    return Reader{}.read(sheet);
}

} // namespace sites
