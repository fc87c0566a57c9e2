// The commands of the program.
#pragma once

#include "common/program.hpp"

namespace sites {

extern const Command judge_command;
extern const Command rejudge_command;
extern const Command draw_command;

} // namespace sites
