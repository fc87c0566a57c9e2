// zarpalume COMMAND [WORD]...: the scripts judge, rejudge and draw are doors to it.
#include "commands.hpp"

int main(int count, char **words) {
    const sites::Command commands[] = {sites::judge_command, sites::rejudge_command, sites::draw_command};
    return sites::run(commands, count, words);
}
