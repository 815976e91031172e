#include "dice.h"

/* The steps of splitmix64. */
static uint64_t mixed(uint64_t x)
{
    x = (x ^ (x >> 30)) * 0xBF58476D1CE4E5B9u;
    x = (x ^ (x >> 27)) * 0x94D049BB133111EBu;
    return x ^ (x >> 31);
}

uint64_t case_seed(uint64_t seed, uint64_t stage, uint64_t index)
{
    return mixed(mixed(mixed(seed + 1) + stage) + index);
}

struct dice dice_from(uint64_t seed)
{
    return (struct dice){seed};
}

uint64_t roll(struct dice *dice)
{
    dice->state += 0x9E3779B97F4A7C15u;
    return mixed(dice->state);
}

uint32_t below(struct dice *dice, uint32_t bound)
{
    return (uint32_t)((roll(dice) >> 32) * bound >> 32);
}

uint32_t between(struct dice *dice, uint32_t low, uint32_t high)
{
    return low + below(dice, high - low + 1);
}

int once_in(struct dice *dice, uint32_t times)
{
    return below(dice, times) == 0;
}
