/*
 * Random numbers that a seed repeats on any machine (splitmix64). C leaves open which of two arguments, operands or sides
 * of an assignment comes first, so no expression draws twice but by ?:, && and ||, or in an argument of what draws next.
 */
#ifndef CHANCE_H
#define CHANCE_H

#include <stddef.h>
#include <stdint.h>

struct chance {
    uint64_t state;
};

static inline uint64_t chance_word(struct chance *c)
{
    uint64_t z = c->state += 0x9e3779b97f4a7c15u;

    z = (z ^ z >> 30) * 0xbf58476d1ce4e5b9u;
    z = (z ^ z >> 27) * 0x94d049bb133111ebu;
    return z ^ z >> 31;
}

/* A number below limit; 0 where limit is 0. */
static inline uint32_t chance_below(struct chance *c, uint32_t limit)
{
    return (uint32_t)((chance_word(c) >> 32) * limit >> 32);
}

/* Whether a thing that happens once in n happens now. */
static inline int chance_once_in(struct chance *c, uint32_t n)
{
    return chance_below(c, n) == 0;
}

static inline uint8_t chance_byte(struct chance *c)
{
    return (uint8_t)(chance_word(c) >> 56);
}

/* One of the n numbers of a list. */
static inline uint32_t chance_of(struct chance *c, const uint32_t *list, uint32_t n)
{
    return list[chance_below(c, n)];
}

static inline void chance_fill(struct chance *c, uint8_t *bytes, size_t n)
{
    size_t i;

    for (i = 0; i < n; i++)
        bytes[i] = chance_byte(c);
}

/* Puts a byte at one of n places. */
static inline void chance_put(struct chance *c, uint8_t *bytes, size_t n, uint8_t byte)
{
    bytes[chance_below(c, (uint32_t)n)] = byte;
}

/* Turns one bit of n bytes over. */
static inline void chance_flip(struct chance *c, uint8_t *bytes, size_t n)
{
    uint8_t bit = (uint8_t)(1u << chance_below(c, 8));

    bytes[chance_below(c, (uint32_t)n)] ^= bit;
}

#endif
