/* Saves a slice after each of some random actions, and loads it again: the same slice, which does the next action alike.
 * Each byte of some snapshots is changed in turn, and each is cut at each place, and all of these are refused. */
#include "chihome.h"
#include "drawn.h"

#include <stdio.h>
#include <string.h>

enum { RUNS = 100, EACH = 200, ROOM = 65536 };

static const ChiConfig SIZES = {.agents = 4, .lines = 4, .slices = 2, .entries = {1, 1}, .journal = 64};
static uint8_t bytes[ROOM], wanted[ROOM];
static ChiSlice model, again;

static int is_same(void) {
    uint8_t equal = 2;
    HOLDS(chi_slice_equal(&model, &again, &equal) == CHI_OK);
    return equal == 1;
}

/* Saves the slice where there is just enough room, and not where there is less. */
static size_t save(void) {
    size_t length = 1, told = 1;
    HOLDS(chi_slice_save(&model, bytes, 0, &length) == CHI_JournalFull && length > 100 && length < ROOM);
    memset(bytes, 0xA5, ROOM);
    HOLDS(chi_slice_save(&model, bytes, length - 1, &told) == CHI_JournalFull && told == length && bytes[0] == 0xA5);
    HOLDS(chi_slice_save(&model, bytes, length, &told) == CHI_OK && told == length && bytes[length] == 0xA5);
    memcpy(wanted, bytes, ROOM);
    HOLDS(chi_slice_save(&model, bytes, ROOM, &told) == CHI_OK && told == length && memcmp(bytes, wanted, ROOM) == 0);
    return length;
}

static void load_again(size_t length) {
    HOLDS(chi_slice_load(&again, &SIZES, 1, bytes, length) == CHI_OK && is_same());
    HOLDS(chi_slice_load(&again, &SIZES, 1, bytes, length) == CHI_AlreadyOpen && is_same());
}

static int step(void) {
    uint64_t word = drawn();
    ChiAction action = {.agent = (uint8_t)(word % 4), .line = (uint8_t)(2 * ((word >> 8) % 2) + 1),
        .step = (uint8_t)((word >> 16) % 17), .kind = (uint8_t)((word >> 24) % 8), .slot = (uint8_t)((word >> 32) % 8),
        .word = (uint8_t)((word >> 40) % 8), .value = word};
    ChiEffect effect, told;
    load_again(save());
    uint8_t answer = chi_slice_act(&model, &action, &effect);
    HOLDS(chi_slice_act(&again, &action, &told) == answer && effect.value == told.value && is_same());
    HOLDS(chi_slice_close(&again) == CHI_OK);
    return answer == CHI_OK;
}

static uint8_t loaded(const ChiConfig *config, uint8_t index, size_t length) {
    uint8_t answer = chi_slice_load(&again, config, index, bytes, length);
    HOLDS((answer == CHI_OK) == (again.at != NULL));
    if (answer == CHI_OK) chi_slice_close(&again);
    return answer;
}

static void refuse(void) {
    size_t length = save();
    for (size_t place = 0; place < length && failures < 10; place++) {
        bytes[place] ^= (uint8_t)(1 + drawn() % 255);
        HOLDS(loaded(&SIZES, 1, length) == (place == 4 || place == 5 ? CHI_OtherVersion : CHI_Damaged));
        bytes[place] = wanted[place];
        HOLDS(loaded(&SIZES, 1, place) == (place == 4 || place == 5 ? CHI_OtherVersion : CHI_Damaged));
    }
    ChiConfig other = SIZES;
    other.journal = 65;
    HOLDS(loaded(&SIZES, 1, length) == CHI_OK && loaded(&SIZES, 0, length) == CHI_OtherSize);
    HOLDS(loaded(&SIZES, 2, length) == CHI_OutOfRange && loaded(&other, 1, length) == CHI_OtherSize);
}

int main(void) {
    size_t length = 1;
    int done = 0;
    HOLDS(chi_slice_save(&model, bytes, ROOM, &length) == CHI_Closed && length == 0);
    for (int run = 0; run < RUNS && failures < 10; run++) {
        HOLDS(chi_slice_open(&model, &SIZES, 1) == CHI_OK);
        for (int count = 0; count < EACH && failures < 10; count++) done += step();
        if (run % 32 == 0) refuse();
        HOLDS(chi_slice_close(&model) == CHI_OK);
    }
    HOLDS(done > 0);
    printf("%d actions done, each by a slice that was loaded too\n", done);
    return failures == 0 ? 0 : 1;
}
