// A second translation unit with the header: what it defines must not clash.
#include <zarpalume.hpp>

zarpalume::Verdict judged_elsewhere(std::string_view sheet) noexcept {
    return zarpalume::judge(sheet);
}
