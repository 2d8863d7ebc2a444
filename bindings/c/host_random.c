#include "host_random.h"

#include <stdint.h>

static uint64_t seed = 1;

/* A linear congruential generator; its upper bits are the good ones. */
void fill_random(void *memory, size_t size) {
    uint8_t *bytes = memory;
    size_t i;
    for (i = 0; i < size; i++) {
        seed = seed * 6364136223846793005u + 1442695040888963407u;
        bytes[i] = (uint8_t)(seed >> 56);
    }
}
