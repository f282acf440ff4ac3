/* The generator's random numbers. */
#include "making.h"

/* splitmix64: spreads a seed over the words of the generator. */
uint64_t splitmix(uint64_t *x)
{
    uint64_t z = *x += UINT64_C(0x9E3779B97F4A7C15);
    z = (z ^ (z >> 30)) * UINT64_C(0xBF58476D1CE4E5B9);
    z = (z ^ (z >> 27)) * UINT64_C(0x94D049BB133111EB);
    return z ^ (z >> 31);
}

static uint64_t rotate(uint64_t x, unsigned by)
{
    return x << by | x >> (64 - by);
}

/* xoshiro256**. */
uint64_t next(struct generator *g)
{
    uint64_t *s = g->word;
    uint64_t result = rotate(s[1] * 5, 7) * 9;
    uint64_t t = s[1] << 17;
    s[2] ^= s[0];
    s[3] ^= s[1];
    s[1] ^= s[2];
    s[0] ^= s[3];
    s[2] ^= t;
    s[3] = rotate(s[3], 45);
    return result;
}

/* A number from 0 to below the bound; a bound of 0 gives 0. */
unsigned below(struct generator *g, size_t bound)
{
    return (unsigned)(((next(g) >> 32) * (uint64_t)bound) >> 32);
}

/* A number from low to high, both among them. */
unsigned between(struct generator *g, unsigned low, unsigned high)
{
    return low + below(g, (size_t)high - low + 1);
}

bool percent(struct generator *g, unsigned chance)
{
    return below(g, 100) < chance;
}

bool permille(struct generator *g, unsigned chance)
{
    return below(g, 1000) < chance;
}

uint8_t byte(struct generator *g)
{
    return (uint8_t)(next(g) >> 56);
}

static unsigned sum_of(const unsigned *weights, size_t count)
{
    unsigned sum = 0;
    for (size_t i = 0; i < count; i++)
        sum += weights[i];
    return sum;
}

/* The place of one weight among some, each as likely as it is heavy. */
unsigned weighted(struct generator *g, const unsigned *weights, size_t count)
{
    unsigned i = 0, at = below(g, sum_of(weights, count));
    while (at >= weights[i])
        at -= weights[i++];
    return i;
}

void generator_fill(struct generator *g, uint8_t *bytes, size_t count)
{
    for (size_t i = 0; i < count; i++)
        bytes[i] = byte(g);
}
