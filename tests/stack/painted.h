/* A call of the library on a stack of its own, which is painted before: what is no longer paint was used. */
#ifndef PAINTED_H
#define PAINTED_H

#include <stddef.h>
#include <stdint.h>

/* The arguments of a call, as words: the first six go into registers, the others to the stack. */
enum { REGISTERS = 6, WORDS_MOST = 14, WORD_BYTES = 8 };

struct call {
    void (*function)(void);
    size_t count;
    uint64_t words[WORDS_MOST];
};

/* The bytes of the arguments that the caller puts on the stack. */
size_t pushed_bytes(const struct call *c);

/*
 * Makes the call. `*bytes` is how far down the stack was written: the arguments that the caller puts there, the return address, and all that the library
 * and the C library's functions under it write below. Of this program nothing is counted. It is STACK_BYTES if the stack was too small to tell.
 */
enum { STACK_BYTES = 65536 };
uint64_t painted_call(const struct call *c, uint8_t paint, size_t *bytes);

#endif
