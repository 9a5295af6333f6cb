/* Does random actions on a slice and on copies of it, in each second run with a journal that keeps no records. A copy made before an action is the same until the action is done,
 * and differs then; once it has done the action itself it is the same again. Another copy, made at the start of each run,
 * goes along with all of it. */
#include "chihome.h"
#include "drawn.h"

#include <inttypes.h>
#include <stdio.h>

enum { AGENTS = 4, LINES = 4, RUNS = 1000, EACH = 1000 };

static ChiSlice model, along, before;
static int are_same(ChiSlice *one, ChiSlice *other) {
    uint8_t equal = 2, back = 2;
    HOLDS(chi_slice_equal(one, other, &equal) == CHI_OK && chi_slice_equal(other, one, &back) == CHI_OK);
    HOLDS(equal <= 1 && equal == back);
    return equal;
}

static int is_same_effect(const ChiEffect *one, const ChiEffect *other) {
    return one->effect == other->effect && one->slot == other->slot && one->value == other->value;
}

static int follow(const ChiAction *action) {
    ChiEffect effect, told;
    ChiSent sent[CHI_MostSent], taken;
    uint8_t count;
    HOLDS(chi_slice_copy(&before, &model) == CHI_OK && are_same(&before, &model));
    uint8_t answer = chi_slice_step(&model, action, &effect, sent, &count, &taken);
    HOLDS(are_same(&before, &model) == (answer != CHI_OK));
    HOLDS(chi_slice_act(&before, action, &told) == answer && is_same_effect(&effect, &told));
    HOLDS(chi_slice_act(&along, action, &told) == answer && is_same_effect(&effect, &told));
    HOLDS(are_same(&before, &model) && are_same(&along, &model));
    return answer == CHI_OK;
}

/* The loads and stores of a slice are those that were done; a journal without records tells none of them. */
static void audit(int accesses, int keeps) {
    ChiAudit told, same;
    ChiRecord entry;
    HOLDS(chi_slice_audit(&model, &told) == CHI_OK && chi_slice_audit(&along, &same) == CHI_OK);
    HOLDS(told.loads + told.stores == (uint64_t)accesses && told.coherent == 1);
    HOLDS(told.loads == same.loads && told.stores == same.stores && same.coherent == 1);
    HOLDS(chi_slice_journal(&model, 0, &entry) == (keeps && accesses > 0 ? CHI_OK : CHI_OutOfRange));
}

static int run(int keeps) {
    const ChiConfig config = {.agents = AGENTS, .lines = LINES, .slices = 1, .entries = {1, 1}, .journal = keeps ? 64 : 0};
    int done = 0, accesses = 0;
    HOLDS(chi_slice_open(&model, &config, 0) == CHI_OK && chi_slice_copy(&along, &model) == CHI_OK);
    for (int count = 0; count < EACH && failures < 10; count++) {
        uint64_t word = drawn();
        ChiAction action = {.agent = (uint8_t)(word % 5), .line = (uint8_t)((word >> 8) % 5),
            .step = (uint8_t)((word >> 16) % 18), .kind = (uint8_t)((word >> 24) % 9), .slot = (uint8_t)((word >> 32) % 9),
            .word = (uint8_t)((word >> 40) % 9), .value = word >> 48};
        int did = follow(&action);
        done += did;
        accesses += did && (action.step == CHI_Load || action.step == CHI_Store);
    }
    audit(accesses, keeps);
    HOLDS(chi_slice_close(&model) == CHI_OK);
    return done;
}

int main(void) {
    int done = 0;
    for (int count = 0; count < RUNS && failures < 10; count++) done += run(count % 2);
    HOLDS(chi_slice_close(&along) == CHI_OK && chi_slice_close(&before) == CHI_OK && done > 0);
    printf("%d actions done, each by copies too\n", done);
    return failures == 0 ? 0 : 1;
}
