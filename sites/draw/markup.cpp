#include "markup.hpp"

namespace sites {

std::string marked_up(std::string_view text) {
    std::string result;
    for (const char each : text) {
        switch (each) {
        case '&':
            result += "&amp;";
            break;
        case '<':
            result += "&lt;";
            break;
        case '>':
            result += "&gt;";
            break;
        case '"':
            result += "&quot;";
            break;
        // dot reads references first and then expands \N, so it takes two for one that stays.
        case '\\':
            result += "&#92;&#92;";
            break;
        // A plain one may be the start of an end of CDATA, for which the parser waits in vain.
        case ']':
            result += "&#93;";
            break;
        // Plain ones would be dropped, and a label may be all spaces.
        case ' ':
        case '\t':
            result += "&#160;";
            break;
        default:
            result += each > ' ' && each <= '~' ? each : '?';
        }
    }
    return result;
}

std::string quoted(std::string_view text) {
    return "\"" + std::string{text} + "\"";
}

std::string bold(std::string_view marked) {
    return "<b>" + std::string{marked} + "</b>";
}

std::string row(std::string_view size, std::string_view colour, std::string_view marked) {
    return "<tr><td><font point-size=" + quoted(size) + " color=" + quoted(colour) + ">" + std::string{marked} + "</font></td></tr>";
}

std::string table(std::string_view rows) {
    return R"(<table border="0" cellspacing="0" cellpadding="2">)" + std::string{rows} + "</table>";
}

std::string label(std::string_view rows) {
    return "label=<" + table(rows) + ">";
}

std::string tooltip(std::string_view text) {
    std::string doubled;
    for (const char each : text) {
        // dot expands a tooltip once more than a label.
        doubled.append(each == '\\' ? 2 : 1, each);
    }
    return ", tooltip=" + quoted(marked_up(doubled));
}

} // namespace sites
