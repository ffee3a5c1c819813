/* Takes a command line as superframe does and ends with USABLE where there is nothing to say of it. It needs no library: help and faults are told before that is proved. */
#include "command_line.h"

int main(int argc, char **argv) {
    command_line(argc, argv);
    return USABLE;
}
