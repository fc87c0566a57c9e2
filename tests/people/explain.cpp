// Holds what judge --explain says to the verdict, on every sheet of a stream of verdict requests.
#include "../../sites/common/drawing.hpp"
#include "../../sites/judge/explanation.hpp"
#include "../../sites/judge/inspection.hpp"
#include "../cpp/requests.hpp"

#include <algorithm>
#include <array>
#include <cstdio>
#include <string>
#include <string_view>

extern "C" {
std::size_t __real_zarpalume_verdict(const std::uint8_t *, std::size_t, std::uint8_t *, std::size_t);
std::size_t __wrap_zarpalume_verdict(const std::uint8_t *, std::size_t, std::uint8_t *, std::size_t);
}

namespace {

// What the call says instead of the truth, where it isn't empty.
std::string_view lie;

std::size_t wrong = 0;
std::array<std::size_t, 16> refused{};
std::array<std::size_t, 3> broken{};
std::size_t accepted = 0;

void check(bool right, std::string_view what, std::string_view sheet) {
    if (!right && wrong++ < 5) {
        std::printf("explain: wrong: %.*s, on the sheet\n%.*s\n", static_cast<int>(what.size()), what.data(), static_cast<int>(std::min<std::size_t>(sheet.size(), 600)),
                    sheet.data());
    }
}

std::string_view line_of(std::string_view sheet, std::size_t number) {
    for (; number > 1; number--) {
        sheet.remove_prefix(std::min(sheet.find('\n') + 1, sheet.size()));
    }
    return sheet.substr(0, sheet.find('\n'));
}

// From a column of a line to the next tab.
std::string_view field_at(std::string_view line, std::size_t column) {
    const std::string_view rest = line.substr(std::min(column - 1, line.size()));
    return rest.substr(0, rest.find('\t'));
}

bool good_number(std::string_view field) {
    if (field.empty() || field.size() > 5 || field.find_first_not_of("0123456789") != std::string_view::npos || (field.size() > 1 && field.front() == '0')) {
        return false;
    }
    return std::stoul(std::string{field}) <= 65535;
}

bool printable(char each) {
    return each >= ' ' && each <= '~';
}

// The place that is named must have what the number speaks of.
void check_place(const sites::Fault &fault, std::string_view sheet) {
    const std::string_view line = line_of(sheet, fault.line);
    const std::string_view field = field_at(line, fault.column);
    const std::uint32_t number = fault.refusal.number;
    check(fault.column <= line.size() + 1, "the column is on its line", sheet);
    if (number != 3 && number != 9 && number != 1) {
        check(fault.column == 1 || line[fault.column - 2] == '\t', "a field begins there", sheet);
    }
    switch (number) {
    case 1:
        check(sheet.empty() || sheet.size() > 32768 || fault.column == line.size() + 1, "1 is at the end", sheet);
        break;
    case 2:
        check(fault.column == 1, "2 is about the first field", sheet);
        break;
    case 4:
        check(!good_number(field), "4 is about a bad number", sheet);
        break;
    case 5:
    case 6:
    case 7:
    case 8:
        check(good_number(field), "5 to 8 are about a good number", sheet);
        break;
    case 9:
        check(field.empty() || !printable(field.front()) || fault.column > 32, "9 is about a byte that a label can't have there", sheet);
        break;
    default:
        break;
    }
}

std::size_t position(const std::vector<sites::Box> &boxes, std::uint32_t id) {
    return static_cast<std::size_t>(std::find_if(boxes.begin(), boxes.end(), [&](const sites::Box &box) { return box.id == id; }) - boxes.begin());
}

// By the definitions, on the tables that the sentences are taken from.
bool is_broken(const zarpalume::Place &place, const sites::Tables &tables, const sites::Drawing &drawing) {
    const std::size_t box = position(drawing.boxes(), place.box);
    const std::uint32_t owner = drawing.owners().at(place.action);
    const auto alike = [&](std::size_t at, std::size_t s, std::size_t t) { return tables.view(at, s) == tables.view(at, t); };
    const std::uint32_t t = place.t.value_or(0);
    switch (place.condition) {
    case zarpalume::Condition::output:
        return owner == place.box && alike(box, place.s, t) && tables.output(place.s, place.action) != tables.output(t, place.action);
    case zarpalume::Condition::respect:
        return drawing.drawn({owner, place.box}) != sites::Drawn::arrow && !alike(box, place.s, tables.next(place.s, place.action));
    case zarpalume::Condition::step:
        break;
    }
    return alike(box, place.s, t) && alike(position(drawing.boxes(), owner), place.s, t) &&
           !alike(box, tables.next(place.s, place.action), tables.next(t, place.action));
}

std::size_t count(std::string_view text, std::string_view part) {
    std::size_t result = 0;
    for (std::size_t at = text.find(part); at != std::string_view::npos; at = text.find(part, at + 1)) {
        result++;
    }
    return result;
}

void check_refused(const zarpalume::Refusal &refusal, const sites::Inspection &inspection, std::string_view said, std::string_view sheet) {
    if (!inspection.fault) {
        check(false, "a refused sheet has a fault", sheet);
        return;
    }
    const sites::Fault &fault = *inspection.fault;
    check(fault.refusal == refusal, "number and line are the verdict's", sheet);
    check(refusal.line == 0 || fault.line == refusal.line, "the place is on the verdict's line", sheet);
    check(!fault.message.empty() && !fault.due.empty(), "something is said", sheet);
    check(said.starts_with("NAME:" + std::to_string(fault.line) + ":" + std::to_string(fault.column) + ": refused, number " +
                           std::to_string(refusal.number) + ": " + fault.message + "\n"), "it begins as a compiler's message does", sheet);
    check_place(fault, sheet);
    refused.at(refusal.number)++;
}

void check_judged(const zarpalume::Verdict &verdict, const sites::Inspection &inspection, std::string_view said, std::string_view sheet) {
    check(!inspection.fault, "a good sheet has no fault", sheet);
    const sites::Drawing drawing{sheet};
    if (const auto place = verdict.broken()) {
        check(said.starts_with("NAME: views broken, " + std::string{word(place->condition)} + ": "), "the condition is the verdict's", sheet);
        check(is_broken(*place, inspection.tables, drawing), "what is said to be broken is", sheet);
        broken.at(static_cast<std::size_t>(place->condition))++;
    } else {
        check(said.starts_with("NAME: views accepted: "), "accepted as in the verdict", sheet);
        accepted++;
    }
    std::array<std::size_t, 3> kinds{};
    for (const zarpalume::Arrow &arrow : verdict.needed()) {
        kinds.at(static_cast<std::size_t>(drawing.drawn(arrow)))++;
    }
    check(count(said, ": drawn\n") == kinds[0] && count(said, ": drawn as a path\n") == kinds[1] && count(said, ": no drawn path\n") == kinds[2],
          "each needed arrow has its kind", sheet);
    check(said.ends_with(": " + std::to_string(verdict.reach()) + " of " + std::to_string(inspection.tables.states) + "\n"), "the reach", sheet);
}

void check_sheet(std::string_view sheet) {
    const zarpalume::Verdict verdict = zarpalume::judge(sheet);
    const sites::Inspection inspection = sites::inspect(sheet);
    const std::string said = sites::explained("NAME", sheet, verdict);
    if (const auto refusal = verdict.refused()) {
        check_refused(*refusal, inspection, said, sheet);
    } else {
        check_judged(verdict, inspection, said, sheet);
    }
}

// Whatever the call says, no more is said than that.
void check_lies(std::string_view good, std::string_view bad) {
    const auto said_of = [](std::string_view sheet, std::string_view told) {
        lie = told;
        return sites::explained("NAME", sheet, zarpalume::judge(sheet));
    };
    check(said_of(good, "refused\t8\t34\n").starts_with("NAME:34:1: refused, number 8: why is not known here\n"), "a good sheet called refused", good);
    check(said_of(bad, "refused\t9\t2\n").starts_with("NAME:2:1: refused, number 9: why is not known here\n"), "another number", bad);
    check(said_of(bad, "views\taccepted\nreach\t1\n") == "NAME:\nviews\taccepted\nreach\t1\n", "a bad sheet called accepted", bad);
    lie = {};
}

} // namespace

std::size_t __wrap_zarpalume_verdict(const std::uint8_t *sheet, std::size_t sheet_length, std::uint8_t *verdict, std::size_t verdict_length) {
    if (lie.empty()) {
        return __real_zarpalume_verdict(sheet, sheet_length, verdict, verdict_length);
    }
    return lie.copy(reinterpret_cast<char *>(verdict), verdict_length);
}

// explain REQUESTS ANSWERS: the answers aren't looked at.
int main(int count, char **words) {
    if (count != 3) {
        return 2;
    }
    std::size_t sheets = 0;
    for (const Request &request : read_requests(words[1], words[2])) {
        check_sheet({reinterpret_cast<const char *>(request.sheet.data()), request.sheet.size()});
        sheets++;
    }
    check_lies("sheet\t1\t1\t1\t0\nbox\t0\tA\nact\t0\ngo\t0\t0\t0\t0\nview\t0\t0\t0\n", "sheet\t1\t1\t1\t0\nbocks\n");
    std::printf("explain: %zu sheets, %zu accepted, broken %zu by output, %zu by respect, %zu by step; refused", sheets, accepted, broken[0], broken[1], broken[2]);
    for (const std::uint32_t number : {1, 2, 3, 4, 5, 6, 7, 8, 9, 11}) {
        std::printf(" %u: %zu", number, refused.at(number));
        check(refused.at(number) > 1, "every number comes", "");
    }
    check(accepted > 1 && *std::min_element(broken.begin(), broken.end()) > 1, "every condition comes", "");
    std::printf("; %zu wrong\n", wrong);
    return wrong == 0 ? 0 : 1;
}
