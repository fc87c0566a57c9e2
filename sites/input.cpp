#include "common/program.hpp"

#include <fcntl.h>
#include <unistd.h>

namespace sites {

Reading read_standard_input(std::size_t most) {
    return read_open(STDIN_FILENO, most);
}

Reading read_pipe(const std::string &name, std::size_t most) {
    const Descriptor pipe{name, O_RDONLY};
    return pipe.open() ? read_open(pipe.number(), most) : Reading{{}, last_problem()};
}

} // namespace sites
