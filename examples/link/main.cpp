#include <iostream>
#include <iterator>
#include <string>
#include <zarpalume.hpp>

int main() {
    const std::string sheet{std::istreambuf_iterator<char>{std::cin}, {}};
    const auto verdict = zarpalume::judge(sheet);
    std::cout << verdict.text();
    return verdict.accepted() ? 0 : 1;
}
