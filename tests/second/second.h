/* The second program: the calls of trestlepip.h, written again from the paper alone, to be compared with the library call by call. */
#ifndef SECOND_H
#define SECOND_H

#include "../exports.h"

start_call second_start;
command_call second_command;
compose_call second_compose;
release_call second_release;
tally_call second_transferred, second_fused, second_stacked, second_cancel, second_restart;
feet_call second_feet;

#endif
