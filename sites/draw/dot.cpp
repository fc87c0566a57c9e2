#include "dot.hpp"

#include "../common/drawing.hpp"
#include "../common/text.hpp"
#include "markup.hpp"

#include <algorithm>
#include <cstddef>
#include <cstdint>
#include <optional>

namespace sites {

namespace {

using std::to_string;

// A kind of arrow: its colour, its dashes (for those to whom colours look alike), and what the legend says.
struct Kind {
    std::string_view name, colour, style, width, meaning;
};

constexpr Kind drawn_needed{"drawn-needed", "#1f2933", "solid", "1.6", "drawn and needed"};
constexpr Kind drawn_only{"drawn-only", "#b4bcc4", "solid", "1.6", "drawn and not needed"};
constexpr Kind needed_path{"needed-path", "#2563a8", "dotted", "2.2", "needed, and drawn only as a path"};
constexpr Kind needed_lost{"needed-lost", "#c0271d", "dashed", "2", "needed, and no drawn path"};

constexpr std::string_view grey = "#52606d";
constexpr std::string_view green = "#1b7a3d";
constexpr std::string_view red = "#c0271d";
constexpr std::string_view broken_look = R"(, color="#c0271d", fillcolor="#fdecea", penwidth=3)";

constexpr std::string_view head = R"(digraph sheet {
  graph [rankdir=LR, labelloc=t, nodesep=0.45, ranksep=0.9, pad=0.2, fontname="Liberation Sans,Arial,Helvetica,sans-serif", fontsize=12, fontcolor="#1f2933"]
  node [shape=box, style="rounded,filled", fillcolor="#eef1f4", color="#1f2933", penwidth=1.4, margin="0.16,0.06", fontname="Liberation Sans,Arial,Helvetica,sans-serif", fontsize=14, fontcolor="#1f2933"]
  edge [arrowsize=0.8]
)";

// The states of a broken place: one for respect, two otherwise.
std::string states(const zarpalume::Place &place) {
    return place.t ? "states " + to_string(place.s) + " and " + to_string(*place.t) : "state " + to_string(place.s);
}

std::string node_line(const Box &box, const std::optional<zarpalume::Place> &broken) {
    std::string rows = row("14", drawn_needed.colour, bold(marked_up(box.label))) + row("11", grey, "id " + to_string(box.id));
    const bool marked = broken && broken->box == box.id;
    if (marked) {
        rows += row("11", red, bold(std::string{word(broken->condition)} + " broken")) +
                row("11", red, "action " + to_string(broken->action) + ", " + states(*broken));
    }
    return "  b" + to_string(box.id) + " [" + label(rows) + tooltip(std::string{box.label} + ", id " + to_string(box.id)) +
           std::string{marked ? broken_look : ""} + "]\n";
}

std::string arrow_line(const Drawing &drawing, const zarpalume::Arrow &arrow, const Kind &kind) {
    return "  b" + to_string(arrow.source) + " -> b" + to_string(arrow.target) + " [class=" + quoted(kind.name) + ", color=" + quoted(kind.colour) +
           ", style=" + quoted(kind.style) + ", penwidth=" + quoted(kind.width) + tooltip(drawing.name(arrow) + ": " + std::string{kind.meaning}) + "]\n";
}

const Kind &kind(Drawn drawn) {
    switch (drawn) {
    case Drawn::arrow:
        return drawn_needed;
    case Drawn::path:
        return needed_path;
    case Drawn::nothing:
        break;
    }
    return needed_lost;
}

std::string arrow_lines(const Drawing &drawing, const zarpalume::Verdict &verdict, Shown shown) {
    std::string result;
    if (shown == Shown::lost) {
        for (const zarpalume::Arrow &arrow : verdict.needed()) {
            result += drawing.drawn(arrow) == Drawn::nothing ? arrow_line(drawing, arrow, needed_lost) : "";
        }
        return result;
    }
    const auto needed = verdict.needed();
    for (const Box &source : drawing.boxes()) {
        for (const Box &target : drawing.boxes()) {
            const zarpalume::Arrow arrow{source.id, target.id};
            const Drawn drawn = drawing.drawn(arrow);
            if (std::find(needed.begin(), needed.end(), arrow) != needed.end()) {
                result += arrow_line(drawing, arrow, kind(drawn));
            } else if (drawn == Drawn::arrow && source.id != target.id) {
                result += arrow_line(drawing, arrow, drawn_only);
            }
        }
    }
    return result;
}

bool has_lost_arrow(const Drawing &drawing, const zarpalume::Verdict &verdict, std::uint32_t box) {
    const auto needed = verdict.needed();
    return std::any_of(needed.begin(), needed.end(), [&](const zarpalume::Arrow &arrow) {
        return (arrow.source == box || arrow.target == box) && drawing.drawn(arrow) == Drawn::nothing;
    });
}

// A cell with a line through its middle, as an arrow of this kind has it, and a cell with its meaning.
std::string legend_cells(const Kind &kind) {
    return R"(<td><table border="0" cellspacing="0" cellpadding="0"><tr><td width="44" height="8" border="2" sides="b" style=)" + quoted(kind.style) +
           " color=" + quoted(kind.colour) + R"(></td></tr><tr><td height="8"></td></tr></table></td><td align="left">)" + std::string{kind.meaning} + "</td>";
}

std::string legend() {
    constexpr std::string_view gap = R"(<td width="12"></td>)";
    const auto two = [&](const Kind &one, const Kind &other) {
        return "<tr>" + legend_cells(one) + std::string{gap} + legend_cells(other) + "</tr>";
    };
    const auto space = [](std::string_view height) { return "<tr><td height=" + quoted(height) + "></td></tr>"; };
    return space("6") + "<tr><td>" + table(two(drawn_needed, needed_path) + two(drawn_only, needed_lost)) + "</td></tr>" + space("16");
}

std::string owner(const Drawing &drawing, std::uint32_t action) {
    return action < drawing.owners().size() ? " of box " + to_string(drawing.owners()[action]) : "";
}

std::string views_rows(const Drawing &drawing, const zarpalume::Verdict &verdict) {
    const auto broken = verdict.broken();
    if (!broken) {
        return row("14", green, bold("views accepted"));
    }
    return row("14", red, bold("views broken: " + std::string{word(broken->condition)})) +
           row("12", red, "box " + to_string(broken->box) + ", action " + to_string(broken->action) + owner(drawing, broken->action) + ", " + states(*broken));
}

// The text of a line, counted from 1; nothing where there is none.
std::string_view text_of_line(std::string_view sheet, std::uint32_t number) {
    std::string_view line;
    for (; number > 0; number--) {
        line = take_line(sheet);
    }
    return line;
}

std::string refused_node(const zarpalume::Refusal &refusal, std::string_view sheet) {
    constexpr std::size_t shown_bytes = 60;
    const std::string line = marked_up(text_of_line(sheet, refusal.line).substr(0, shown_bytes));
    const std::string rows = row("14", red, bold("refused: number " + to_string(refusal.number) + ", line " + to_string(refusal.line)));
    return "  refused [" + label(rows + (line.empty() ? "" : row("12", red, line))) + std::string{broken_look} + "]\n";
}

// The title, and what is to be said below it.
std::string caption(std::string_view title, std::string_view rows) {
    return "  graph [" + label(row("16", drawn_needed.colour, bold(marked_up(title))) + std::string{rows}) + "]\n";
}

} // namespace

std::string dot(std::string_view title, std::string_view sheet, const zarpalume::Verdict &verdict, Shown shown) {
    if (const auto refusal = verdict.refused()) {
        return std::string{head} + caption(title, "") + refused_node(*refusal, sheet) + "}\n";
    }
    const Drawing drawing{sheet};
    const std::string note = shown == Shown::lost ? row("12", grey, "only needed arrows with no drawn path are shown") : "";
    std::string result = std::string{head} + caption(title, views_rows(drawing, verdict) + note + legend());
    for (const Box &box : drawing.boxes()) {
        if (shown == Shown::everything || has_lost_arrow(drawing, verdict, box.id)) {
            result += node_line(box, verdict.broken());
        }
    }
    return result + arrow_lines(drawing, verdict, shown) + "}\n";
}

} // namespace sites
