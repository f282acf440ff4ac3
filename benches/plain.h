/*
 * The printer of document 01 again, with the requests of document 02 that have landed, in plain C and written for speed: what the library's times are
 * held against. The calls, their numbers and their packed answers are those of trestlepip.h; the state's bytes are its own.
 */
#ifndef PLAIN_H
#define PLAIN_H

#include "../tests/exports.h"

#define PLAIN_STATE_BYTES 206

/* The places of the selected slot and of the page counters in the state. */
#define PLAIN_STATE_SELECTED 3
#define PLAIN_STATE_COUNTERS 198

start_call plain_start;
command_call plain_command;
compose_call plain_compose;
release_call plain_release;
tally_call plain_transferred, plain_fused, plain_stacked, plain_cancel, plain_restart;
feet_call plain_feet;

#endif
