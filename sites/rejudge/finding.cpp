#include "finding.hpp"

#include "../common/drawing.hpp"
#include "../common/file.hpp"
#include "../common/text.hpp"
#include "../common/verdict.hpp"
#include "change.hpp"

#include <zarpalume.hpp>

#include <array>
#include <initializer_list>

namespace sites {

namespace {

// By the enums' order.
constexpr std::array<std::string_view, outcome_count> outcome_words{"accepted", "broken", "refused", "unread", "skipped"};
constexpr std::array<std::string_view, stored_count> stored_words{"-", "same", "changed", "none", "new", "unread", "unwritten"};
static_assert(!outcome_words.back().empty() && !stored_words.back().empty(), "a word for each");

template <typename Enum, std::size_t count>
constexpr std::string_view word_of(Enum value, const std::array<std::string_view, count> &words) {
    return words[static_cast<std::size_t>(value)];
}

std::string joined(std::initializer_list<std::string_view> parts, char between) {
    std::string result;
    for (const std::string_view &part : parts) {
        if (&part != parts.begin()) {
            result += between;
        }
        result += part;
    }
    return result;
}

// Lays the needed arrows beside the drawing.
void describe_arrows(Finding &finding, const zarpalume::Verdict &verdict, const Drawing &drawing) {
    Counts counts{.needed = verdict.needed().size(), .reach = verdict.reach()};
    std::string lost;
    for (const zarpalume::Arrow &arrow : verdict.needed()) {
        const Drawn drawn = drawing.drawn(arrow);
        counts.not_drawn += drawn != Drawn::arrow;
        counts.no_path += drawn == Drawn::nothing;
        if (drawn == Drawn::nothing) {
            lost.append(lost.empty() ? "" : ", ").append(drawing.name(arrow));
        }
    }
    finding.counts = counts;
    finding.lost_arrows = lost.empty() ? "-" : lost;
}

void describe(Finding &finding, const zarpalume::Verdict &verdict, std::string_view sheet) {
    using std::to_string;
    if (const auto refusal = verdict.refused()) {
        finding.outcome = Outcome::refused;
        finding.place = joined({to_string(refusal->number), to_string(refusal->line)}, ' ');
        return;
    }
    finding.outcome = Outcome::accepted;
    if (const auto place = verdict.broken()) {
        finding.outcome = Outcome::broken;
        finding.place = joined({word(place->condition), to_string(place->box), to_string(place->action), to_string(place->s),
                                place->t ? to_string(*place->t) : "-"}, ' ');
    }
    describe_arrows(finding, verdict, Drawing{sheet});
}

void compare(Finding &finding, std::string_view verdict, const std::optional<Store> &store) {
    const std::string name = verdict_name(finding.path);
    // One byte more than any verdict has, so that a longer file can't look the same.
    const Reading stored = read_file(name, ZARPALUME_VERDICT_BYTES);
    if (stored.missing) {
        finding.stored = store ? Stored::written : Stored::none;
    } else if (!stored.problem.empty()) {
        finding.stored = Stored::unread;
        finding.change = stored.problem;
        return;
    } else if (stored.bytes == verdict) {
        finding.stored = Stored::same;
        if (store) {
            store->tidy(name);
        }
        return;
    } else {
        finding.stored = Stored::changed;
        finding.change = change(stored.bytes, verdict);
    }
    if (!store) {
        return;
    }
    if (const std::string problem = store->replace(name, verdict); !problem.empty()) {
        finding.stored = Stored::unwritten;
        finding.change = finding.change == "-" ? problem : problem + ", " + finding.change;
    }
}

} // namespace

Finding find(const Name &name, const std::optional<Store> &store) {
    if (name.kind != Name::Kind::sheet) {
        return {.path = name.path, .outcome = name.kind == Name::Kind::skipped ? Outcome::skipped : Outcome::unread, .place = name.reason};
    }
    const Reading sheet = read_file(name.path, sheet_reading);
    if (!sheet.problem.empty()) {
        return {.path = name.path, .place = sheet.problem};
    }
    Finding finding{.path = name.path};
    const zarpalume::Verdict verdict = verdict_on(sheet.bytes);
    describe(finding, verdict, sheet.bytes);
    compare(finding, verdict.text(), store);
    return finding;
}

Row row(const Finding &finding) {
    const auto counted = [&](std::size_t Counts::*count) { return finding.counts ? std::to_string((*finding.counts).*count) : "-"; };
    return {escaped(finding.path),
            std::string{word_of(finding.outcome, outcome_words)},
            finding.place,
            counted(&Counts::needed),
            counted(&Counts::not_drawn),
            counted(&Counts::no_path),
            counted(&Counts::reach),
            std::string{word_of(finding.stored, stored_words)},
            finding.change,
            finding.lost_arrows};
}

int status(const Finding &finding) {
    if (finding.outcome == Outcome::unread || finding.stored == Stored::unread || finding.stored == Stored::unwritten) {
        return 2;
    }
    const bool wrong = finding.outcome == Outcome::broken || finding.outcome == Outcome::refused || finding.stored == Stored::changed ||
                       (finding.counts && finding.counts->no_path > 0);
    return wrong ? 1 : 0;
}

} // namespace sites
