// Holds the six C calls and the class Drawing to the second program's answers, in as many threads at once as the third word says;
// and draws the sheets of the other words anew.
#include "edits.hpp"
#include "threads.hpp"

#include <zarpalume.hpp>

#include <cstring>
#include <map>
#include <string>

namespace {

using zarpalume::Arrow, zarpalume::Drawing, zarpalume::Edited;

bool is_fresh(const LentDrawing &drawing) {
    return drawing.boxes.size() == box_words * ZARPALUME_BOXES && drawing.history.size() == ZARPALUME_EDIT_WORDS && drawing.count.data()[0] == 0 &&
           std::all_of(drawing.boxes.data(), drawing.boxes.data() + drawing.boxes.size(), [](std::uint32_t word) { return word == 0; });
}

// Dropping can't be refused, and says nothing.
Edited taken(Drawing &drawing, const Step &step) {
    switch (step.kind) {
    case 1:
        return drawing.add(step.first);
    case 2:
        return drawing.remove(step.first);
    case 3:
        return drawing.draw(step.first, step.second);
    case 4:
        return drawing.erase(step.first, step.second);
    case 5:
        return drawing.undo();
    default:
        drawing.drop_history();
        return Edited::done;
    }
}

// What a drawing should show of this list: worked out from its words.
struct Shown {
    std::vector<std::uint32_t> boxes;
    std::vector<Arrow> arrows;
};

Shown shown(const Words &list) {
    Shown result;
    for (std::size_t at = 0; at < list.size(); at += box_words) {
        if (list[at + 1] == 1) {
            result.boxes.push_back(list[at]);
        }
        for (std::size_t to = 0; to < ZARPALUME_BOXES; to++) {
            if ((list[at + 2] >> to & 1) == 1) {
                result.arrows.push_back({list[at], list[box_words * to]});
            }
        }
    }
    return result;
}

bool shows(const Drawing &drawing, const Shown &wanted) {
    const auto boxes = drawing.boxes();
    const auto arrows = drawing.arrows();
    const bool touching_right = std::all_of(boxes.begin(), boxes.end(), [&](std::uint32_t id) {
        std::vector<Arrow> touching;
        std::copy_if(arrows.begin(), arrows.end(), std::back_inserter(touching), [id](const Arrow &arrow) { return arrow.source == id || arrow.target == id; });
        const auto found = drawing.arrows_touching(id);
        return std::equal(found.begin(), found.end(), touching.begin(), touching.end());
    });
    return touching_right && std::equal(boxes.begin(), boxes.end(), wanted.boxes.begin(), wanted.boxes.end()) &&
           std::equal(arrows.begin(), arrows.end(), wanted.arrows.begin(), wanted.arrows.end());
}

// The box's label in a test.
std::string label(std::uint32_t id) {
    return "box " + std::to_string(id);
}

// A machine with one state that stands still, behind the drawing.
std::string sheet_of(const Drawing &drawing) {
    const auto boxes = drawing.boxes();
    std::string sheet = "sheet\t1\t1\t" + std::to_string(boxes.size()) + "\t0\n";
    drawing.write_boxes(std::back_inserter(sheet), label);
    sheet += "act\t" + std::to_string(boxes.empty() ? 0 : *boxes.begin()) + "\ngo\t0\t0\t0\t0\n";
    drawing.write_arrows(std::back_inserter(sheet));
    for (const std::uint32_t id : boxes) {
        sheet += "view\t" + std::to_string(id) + "\t0\t0\n";
    }
    return sheet;
}

// One state is always accepted; a sheet without boxes is refused with 5, and a larger id with 4.
bool judged_right(const Drawing &drawing, const Shown &wanted) {
    const auto verdict = zarpalume::judge(sheet_of(drawing));
    if (wanted.boxes.empty()) {
        return verdict.refused() == zarpalume::Refusal{5, 1};
    }
    const bool fits = std::all_of(wanted.boxes.begin(), wanted.boxes.end(), [](std::uint32_t id) { return id <= 65535; });
    return fits ? verdict.accepted() : verdict.refused() && verdict.refused()->number == 4;
}

// Every line as it should be, and read by the judge.
bool writes(const Drawing &drawing, const Shown &wanted) {
    std::string boxes;
    std::string arrows;
    drawing.write_boxes(std::back_inserter(boxes), label);
    drawing.write_arrows(std::back_inserter(arrows));
    for (const std::uint32_t id : wanted.boxes) {
        const std::string line = "box\t" + std::to_string(id) + "\t" + label(id) + "\n";
        if (!boxes.starts_with(line)) {
            return false;
        }
        boxes.erase(0, line.size());
    }
    for (const auto &[source, target] : wanted.arrows) {
        const std::string line = "flow\t" + std::to_string(source) + "\t" + std::to_string(target) + "\n";
        if (!arrows.starts_with(line)) {
            return false;
        }
        arrows.erase(0, line.size());
    }
    return boxes.empty() && arrows.empty() && judged_right(drawing, wanted);
}

// The same steps on a Drawing, from a fresh one up to where the host would write itself.
bool edited(const Asked &asked) {
    if (!is_fresh(asked.request.drawing)) {
        return true;
    }
    Drawing drawing;
    Shown wanted;
    for (std::size_t k = 0; k < asked.answers.size() && asked.request.steps[k].kind <= 6; k++) {
        const Said &said = asked.answers[k];
        wanted = shown(said.boxes);
        const Edited outcome = taken(drawing, asked.request.steps[k]);
        if (outcome != Edited{said.number} || words(outcome).empty() || drawing.edits() != said.count || !shows(drawing, wanted)) {
            return false;
        }
    }
    return writes(drawing, wanted);
}

bool right(const Asked &asked) {
    LentDrawing drawing = asked.request.drawing;
    return called(drawing, asked) && edited(asked);
}

// The header's names for the numbers of a record and of an edit.
bool names_are_right() {
    std::array<zarpalume_box, ZARPALUME_BOXES> boxes{};
    std::array<std::uint32_t, ZARPALUME_EDIT_WORDS> history{};
    std::uint32_t count = 0;
    const auto done = [&](auto call, auto... ids) { return call(boxes.data(), boxes.size(), history.data(), history.size(), &count, ids...) == 0; };
    const auto last = [&] {
        zarpalume_edit edit{};
        std::memcpy(&edit, history.data() + (count - 1) * (history.size() / ZARPALUME_EDITS), sizeof edit);
        return edit;
    };
    const bool added = done(zarpalume_add, 5u) && done(zarpalume_add, 6u) && done(zarpalume_add, 7u) && done(zarpalume_draw, 6u, 5u);
    const bool drawn = done(zarpalume_draw, 7u, 6u) && last().kind == 3 && last().at == 2 && last().to == 1;
    const bool kept = boxes[1].id == 6 && boxes[1].live == 1 && boxes[1].arrows == 0b001;
    const bool deleted = done(zarpalume_delete, 6u) && last().kind == 2 && last().at == 1 && last().id == 6 && last().out == 0b001 && last().into == 0b100;
    return added && drawn && kept && deleted;
}

std::string read_file(const char *name) {
    std::ifstream file{name, std::ios::binary};
    return {std::istreambuf_iterator<char>{file}, {}};
}

// A good sheet's boxes and arrows drawn by edits and written again, its other lines as they are: nothing about it has changed.
bool drawn_anew(const std::string &sheet) {
    Drawing drawing;
    std::map<std::uint32_t, std::string> labels;
    std::string others[2];
    bool arrows_came = false;
    bool done = true;
    for (std::string_view rest = sheet; !rest.empty();) {
        const std::string_view line = zarpalume::detail::take(rest, '\n');
        std::string_view fields = line;
        const std::string_view word = zarpalume::detail::take(fields, '\t');
        if (word == "box") {
            const std::uint32_t id = zarpalume::detail::take_number(fields);
            labels[id] = fields;
            done = done && drawing.add(id) == Edited::done;
        } else if (word == "flow") {
            arrows_came = true;
            const std::uint32_t source = zarpalume::detail::take_number(fields);
            done = done && drawing.draw(source, zarpalume::detail::take_number(fields)) == Edited::done;
        } else if (word != "sheet") {
            others[arrows_came].append(line).append("\n");
        }
    }
    std::string anew = sheet.substr(0, sheet.find('\n') + 1);
    drawing.write_boxes(std::back_inserter(anew), [&](std::uint32_t id) { return labels[id]; });
    anew += others[0];
    drawing.write_arrows(std::back_inserter(anew));
    anew += others[1];
    const auto before = zarpalume::judge(sheet);
    const auto after = zarpalume::judge(anew);
    return done && anew.size() == sheet.size() && !before.refused() && after.text() == before.text();
}

} // namespace

int main(int count, char **words) {
    if (count < 5) {
        return 2;
    }
    const std::size_t threads = std::strtoul(words[3], nullptr, 10);
    const std::vector<Asked> all = read_edits(words[1], words[2]);
    const std::size_t wrong = wrong_in_threads(all, threads, right);
    const bool drawn = std::all_of(words + 4, words + count, [](const char *name) { return drawn_anew(read_file(name)); });
    const bool named = names_are_right();
    std::printf("drawing: %zu requests, each in %zu threads, %zu answered wrongly; %d sheets drawn anew%s; names %s\n", all.size(), threads, wrong,
                count - 4, drawn ? "" : ", WRONG", named ? "right" : "WRONG");
    return threads > 0 && wrong == 0 && drawn && named ? 0 : 1;
}
