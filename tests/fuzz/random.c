#include "random.h"

static uint64_t state;

void random_seed(uint64_t seed) {
    state = seed;
}

uint64_t random_word(void) {
    state += 0x9e3779b97f4a7c15u;
    uint64_t mixed = state;
    mixed = (mixed ^ (mixed >> 30)) * 0xbf58476d1ce4e5b9u;
    mixed = (mixed ^ (mixed >> 27)) * 0x94d049bb133111ebu;
    return mixed ^ (mixed >> 31);
}

size_t random_below(size_t bound) {
    return (size_t)(random_word() % bound);
}
