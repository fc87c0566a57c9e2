#include "explanation.hpp"

#include "../common/drawing.hpp"
#include "../common/text.hpp"
#include "inspection.hpp"

#include <algorithm>
#include <cstddef>
#include <cstdint>

namespace sites {

namespace {

using std::to_string;

// A byte of a sheet as it can be seen: tabs, blanks and all that is odd.
std::string visible(char each) {
    switch (each) {
    case '\t':
        return "→";
    case ' ':
        return "·";
    case '\r':
        return "␍";
    default:
        return each > ' ' && each <= '~' && each != '\\' ? std::string{each} : escaped({&each, 1});
    }
}

// How wide it is shown: one column for a character, four for an escaped byte.
std::size_t width(char each) {
    const std::string text = visible(each);
    return text.front() == '\\' ? text.size() : 1;
}

std::string_view text_of_line(std::string_view sheet, std::size_t number) {
    std::string_view line;
    for (; number > 0; number--) {
        line = take_line(sheet);
    }
    return line;
}

// The line and a mark below the column; of a long line what is around it.
std::string excerpt(std::string_view line, std::size_t column) {
    constexpr std::size_t before = 40;
    constexpr std::size_t most = 72;
    const std::size_t at = std::min(column - 1, line.size());
    const std::size_t first = at > before ? at - before : 0;
    const std::string_view part = line.substr(first, most);
    std::string shown = first > 0 ? "…" : "";
    std::string mark(first > 0 ? 1 : 0, ' ');
    for (std::size_t k = 0; k < part.size(); k++) {
        shown += visible(part[k]);
        mark.append(first + k < at ? width(part[k]) : 0, ' ');
    }
    return "    " + shown + (first + part.size() < line.size() ? "…" : "") + "\n    " + mark + "^\n";
}

std::string refused_text(std::string_view name, std::string_view sheet, const Fault &fault) {
    std::string result = std::string{name} + ":" + to_string(fault.line) + ":" + to_string(fault.column) + ": refused, number " +
                         to_string(fault.refusal.number) + ": " + fault.message + "\n";
    if (const std::string_view line = text_of_line(sheet, fault.line); !line.empty()) {
        result += excerpt(line, fault.column);
    }
    if (!fault.due.empty()) {
        result += "  due: " + fault.due + "\n";
    }
    if (!fault.hint.empty()) {
        result += "  hint: " + fault.hint + "\n";
    }
    return result;
}

// Without words where they would not agree with the verdict.
Fault fault_of(const zarpalume::Refusal &refusal, const Inspection &inspection) {
    if (inspection.fault && inspection.fault->refusal == refusal) {
        return *inspection.fault;
    }
    return {.refusal = refusal, .line = std::max<std::size_t>(refusal.line, 1), .message = "why is not known here"};
}

// The sentences on a sheet that isn't refused.
class Sentences {
public:
    Sentences(std::string_view sheet, const zarpalume::Verdict &verdict, const Tables &tables)
        : drawing_{sheet}, verdict_{verdict}, tables_{tables} {}

    std::string views() const;
    std::string needed() const;
    std::string depths() const;
    std::string reach() const;

private:
    std::string name(std::uint32_t id) const { return drawing_.name(id); }
    std::size_t position(std::uint32_t id) const { return drawing_.position(id).value(); }
    std::string action(std::uint32_t number) const;
    std::uint32_t owner(std::uint32_t action) const { return drawing_.owners().at(action); }
    std::string lines(std::uint32_t box, const zarpalume::Place &place) const;
    std::string output(const zarpalume::Place &place) const;
    std::string respect(const zarpalume::Place &place) const;
    std::string step(const zarpalume::Place &place) const;

    Drawing drawing_;
    const zarpalume::Verdict &verdict_;
    const Tables &tables_;
};

std::string Sentences::action(std::uint32_t number) const {
    return "action " + to_string(number) + " of " + name(owner(number));
}

// Where the classes of both states stand.
std::string Sentences::lines(std::uint32_t box, const zarpalume::Place &place) const {
    const std::size_t at = position(box);
    return "lines " + to_string(tables_.view_line(at, place.s)) + " and " + to_string(tables_.view_line(at, place.t.value_or(place.s)));
}

std::string Sentences::output(const zarpalume::Place &place) const {
    const std::uint32_t t = place.t.value_or(place.s);
    return name(place.box) + " takes states " + to_string(place.s) + " and " + to_string(t) + " for the same, but its action " + to_string(place.action) +
           " has output " + to_string(tables_.output(place.s, place.action)) + " in one and " + to_string(tables_.output(t, place.action)) +
           " in the other\n  hint: what a box shows belongs into its view: give the two states different classes (" + lines(place.box, place) + ")\n";
}

std::string Sentences::respect(const zarpalume::Place &place) const {
    const std::string source = name(owner(place.action));
    const std::size_t box = position(place.box);
    const std::uint32_t next = tables_.next(place.s, place.action);
    return action(place.action) + " leads from state " + to_string(place.s) + " to state " + to_string(next) + ", which " + name(place.box) +
           " sees (class " + to_string(tables_.view(box, place.s)) + ", then " + to_string(tables_.view(box, next)) + "), and no arrow is drawn from " + source +
           " to " + name(place.box) + "\n  hint: draw the arrow, or take the wire out of the machine; or the view of " + name(place.box) +
           " says more than it has to (lines " + to_string(tables_.view_line(box, place.s)) + " and " + to_string(tables_.view_line(box, next)) + ")\n";
}

std::string Sentences::step(const zarpalume::Place &place) const {
    const std::uint32_t t = place.t.value_or(place.s);
    const std::uint32_t actor = owner(place.action);
    const bool same = actor == place.box;
    const std::string both = same ? name(actor) : name(place.box) + " and to " + name(actor);
    const std::string forgetful = same ? "the view of " + name(actor) + " forgets something (" + lines(actor, place) + ")"
                                       : "one of the two views forgets something, often that of " + name(actor) + " (" + lines(actor, place) + "; " +
                                             name(place.box) + " has " + lines(place.box, place) + ")";
    return "states " + to_string(place.s) + " and " + to_string(t) + " look alike to " + both + ", but after " + action(place.action) + " (states " +
           to_string(tables_.next(place.s, place.action)) + " and " + to_string(tables_.next(t, place.action)) + ") " + name(place.box) +
           " sees a difference\n  hint: " + forgetful + "\n";
}

std::string Sentences::views() const {
    const auto place = verdict_.broken();
    if (!place) {
        return "views accepted: the machine keeps to the drawing\n";
    }
    const std::string start = "views broken, " + std::string{word(place->condition)} + ": ";
    switch (place->condition) {
    case zarpalume::Condition::output:
        return start + output(*place);
    case zarpalume::Condition::respect:
        return start + respect(*place);
    case zarpalume::Condition::step:
        break;
    }
    return start + step(*place);
}

std::string_view kind(Drawn drawn) {
    switch (drawn) {
    case Drawn::arrow:
        return "drawn";
    case Drawn::path:
        return "drawn as a path";
    case Drawn::nothing:
        break;
    }
    return "no drawn path";
}

std::string Sentences::needed() const {
    std::string result = verdict_.needed().empty() ? "no arrows are needed\n" : "needed arrows:\n";
    for (const zarpalume::Arrow &arrow : verdict_.needed()) {
        result.append("  ").append(drawing_.name(arrow)).append(": ").append(kind(drawing_.drawn(arrow))).append("\n");
    }
    return result;
}

std::string Sentences::depths() const {
    std::string result = "actions in a bench run, at most:";
    for (const zarpalume::Depth &depth : verdict_.depths()) {
        result.append(&depth == verdict_.depths().data() ? " " : ", ").append(name(depth.box)).append(" ").append(to_string(depth.depth));
    }
    return result + "\n";
}

std::string Sentences::reach() const {
    return "states that a run reaches: " + to_string(verdict_.reach()) + " of " + to_string(tables_.states) + "\n";
}

} // namespace

std::string explained(std::string_view name, std::string_view sheet, const zarpalume::Verdict &verdict) {
    const Inspection inspection = inspect(sheet);
    if (const auto refusal = verdict.refused()) {
        return refused_text(name, sheet, fault_of(*refusal, inspection));
    }
    // Nothing is said that doesn't agree with the verdict.
    if (inspection.fault) {
        return std::string{name} + ":\n" + std::string{verdict.text()};
    }
    const Sentences sentences{sheet, verdict, inspection.tables};
    return std::string{name} + ": " + sentences.views() + sentences.needed() + sentences.depths() + sentences.reach();
}

} // namespace sites
