/* Does the million random actions of crates/chi_library_tests through the library, and prints the same line. */
#include "chihome.h"

#include <inttypes.h>
#include <stdio.h>

static uint64_t drawn(uint64_t state) {
    uint64_t word = (state ^ (state >> 30)) * UINT64_C(0xBF58476D1CE4E5B9);
    word = (word ^ (word >> 27)) * UINT64_C(0x94D049BB133111EB);
    return word ^ (word >> 31);
}

static ChiAction action_of(uint64_t word) {
    ChiAction action = {
        .agent = (uint8_t)(word % 5), .line = (uint8_t)((word >> 8) % 5), .step = (uint8_t)((word >> 16) % 17),
        .kind = (uint8_t)((word >> 24) % 8), .slot = (uint8_t)((word >> 32) % 9), .word = (uint8_t)((word >> 40) % 9),
        .value = word >> 48};
    return action;
}

static uint64_t told(const ChiEffect *effect) {
    if (effect->effect == CHI_Value) return effect->value + 256;
    if (effect->effect == CHI_Completed) return (uint64_t)effect->slot + 512;
    return 0;
}

int main(void) {
    const ChiConfig config = {.agents = 4, .lines = 4, .slices = 1, .entries = {1, 1}, .journal = 65536};
    ChiSlice slice = {0};
    uint32_t done = 0, refused = 0;
    uint64_t state = 0, sum = 0;
    if (chi_slice_open(&slice, &config, 0) != CHI_OK) return 1;
    for (int count = 0; count < 1000000; count++) {
        ChiEffect effect;
        state += UINT64_C(0x9E3779B97F4A7C15);
        ChiAction action = action_of(drawn(state));
        uint8_t before = chi_slice_refusal(&slice, &action);
        uint8_t answer = chi_slice_act(&slice, &action, &effect);
        if (before != answer) return 1;
        if (answer == CHI_OK) done++;
        else refused++;
        sum = sum * 31 + (answer == CHI_OK ? told(&effect) : answer);
    }
    printf("%" PRIu32 " done, %" PRIu32 " refused, sum %" PRIu64 "\n", done, refused, sum);
    return chi_slice_close(&slice) == CHI_OK ? 0 : 1;
}
