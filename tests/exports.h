/* The library's exports as types: another program that plays the printer is declared by them, and called through the same pointers. */
#ifndef EXPORTS_H
#define EXPORTS_H

#include "../include/trestlepip.h"

typedef __typeof__(trestlepip_start) start_call;
typedef __typeof__(trestlepip_command) command_call;
typedef __typeof__(trestlepip_compose) compose_call;
typedef __typeof__(trestlepip_release) release_call;
typedef __typeof__(trestlepip_transferred) tally_call; /* and of fused, stacked, cancel and restart */
typedef __typeof__(trestlepip_feet) feet_call;

/* The calls of one program. */
struct exports {
    start_call *start;
    command_call *command;
    compose_call *compose;
    release_call *release;
    tally_call *transferred, *fused, *stacked, *cancel, *restart;
    feet_call *feet;
};

/* Those whose names begin so. */
#define EXPORTS(name) \
    { name##_start, name##_command, name##_compose, name##_release, \
      name##_transferred, name##_fused, name##_stacked, name##_cancel, name##_restart, \
      name##_feet }

#endif
