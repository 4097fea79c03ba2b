/* splitmix64: every case of a run follows from its seed. */
#include "compare.h"

static uint64_t state, other;

void seed_with(uint64_t seed) { state = seed, other = ~seed; }

void other_chance(void)
{
    uint64_t was = state;
    state = other, other = was;
}

uint64_t draw64(void)
{
    uint64_t z = state += 0x9e3779b97f4a7c15u;
    z = (z ^ z >> 30) * 0xbf58476d1ce4e5b9u;
    z = (z ^ z >> 27) * 0x94d049bb133111ebu;
    return z ^ z >> 31;
}

int below(int n) { return (int)((draw64() >> 33) % (uint64_t)n); }
bool chance(int percent) { return below(100) < percent; }

uint32_t wide(uint32_t low)
{
    static const uint32_t high[] = {256, 65536, 1u << 31};
    return chance(10) ? UINT32_MAX : high[below(3)] | low;
}
