#include <iostream>
#include <string_view>
#include <zarpalume.hpp>

using zarpalume::Arrow, zarpalume::Drawing, zarpalume::Edited;

constexpr std::uint32_t red = 1, crypto = 2, bypass = 3, black = 4;

void print(std::string_view when, const Drawing &drawing) {
    std::cout << when << ":";
    for (const auto &[source, target] : drawing.arrows()) {
        std::cout << " " << source << ">" << target;
    }
    std::cout << ", " << drawing.arrows_touching(bypass).size() << " of " << drawing.arrows().size() << " touch Bypass\n";
}

int main() {
    Drawing drawing;
    bool done = true;
    for (const std::uint32_t id : {red, crypto, bypass, black}) {
        done &= drawing.add(id) == Edited::done;
    }
    for (const auto &[source, target] : {Arrow{red, crypto}, {red, bypass}, {crypto, black}, {bypass, black}}) {
        done &= drawing.draw(source, target) == Edited::done;
    }
    print("drawn", drawing);
    done &= drawing.remove(bypass) == Edited::done;
    print("Bypass deleted", drawing);
    done &= drawing.undo() == Edited::done;
    print("undone", drawing);
    return done ? 0 : 1;
}
