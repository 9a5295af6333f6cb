/* Does random actions on two slices, by chi_slice_act on one and by chi_slice_step on the other: both have to answer and
 * tell the same, and the flits in flight without the one that was taken and with those that were sent have to be those
 * in flight afterwards. The actions of an agent at a line that chi_slice_enabled lists have to be those that
 * chi_slice_refusal would let be done, of each step once, with the lowest slot. */
#include "chihome.h"
#include "drawn.h"
#include "told.h"

#include <inttypes.h>
#include <stdio.h>
#include <string.h>

enum { AGENTS = 4, LINES = 4, MANY = 1000000 };

static ChiSlice one, other;

static int is_action(const ChiAction *action, const ChiAction *wanted) {
    return action->agent == wanted->agent && action->line == wanted->line && action->step == wanted->step &&
        action->kind == wanted->kind && action->slot == wanted->slot && action->word == wanted->word &&
        action->value == wanted->value;
}

static void read_flits(uint8_t line, ChiFlits *flits) {
    for (uint8_t agent = 0; agent < AGENTS; agent++) HOLDS(chi_slice_flits(&other, agent, line, &flits[agent]) == CHI_OK);
}

static int tell_flits(const ChiAction *action) {
    ChiFlits before[AGENTS], after[AGENTS];
    ChiEffect effect, told;
    ChiSent sent[CHI_MostSent], taken;
    uint8_t count, line = action->line % LINES;
    read_flits(line, before);
    uint8_t answer = chi_slice_act(&one, action, &effect);
    memset(sent, UNWRITTEN, sizeof sent);
    memset(&taken, UNWRITTEN, sizeof taken);
    HOLDS(chi_slice_step(&other, action, &told, sent, &count, &taken) == answer);
    HOLDS(effect.effect == told.effect && effect.slot == told.slot && effect.value == told.value);
    HOLDS(count <= CHI_MostSent && (answer == CHI_OK || (count == 0 && is_blank(&taken))));
    HOLDS(is_unwritten(&sent[count], (size_t)(CHI_MostSent - count) * sizeof *sent));
    read_flits(line, after);
    move_flits(before, sent, count, &taken);
    are_same(before, after, AGENTS);
    return answer == CHI_OK;
}

/* Finds the actions of an agent at a line that are not refused one by one. */
static uint8_t find_enabled(uint8_t agent, uint8_t line, ChiAction *found) {
    uint8_t count = 0;
    for (uint8_t step = 0; step <= CHI_RecvWrData; step++)
        for (uint8_t kind = 0; kind < (step == CHI_Issue ? 8 : 1); kind++)
            for (uint8_t slot = 0; slot < (step == CHI_Issue ? 8 : 1); slot++) {
                ChiAction action = {.agent = agent, .line = line, .step = step, .kind = kind, .slot = slot};
                if (chi_slice_refusal(&other, &action) != CHI_OK) continue;
                found[count++] = action;
                break;
            }
    return count;
}

static uint64_t tell_enabled(uint8_t agent, uint8_t line) {
    ChiAction actions[CHI_MostEnabled], found[CHI_MostEnabled];
    uint8_t count;
    memset(actions, UNWRITTEN, sizeof actions);
    HOLDS(chi_slice_enabled(&other, agent, line, actions, &count) == CHI_OK);
    HOLDS(count == find_enabled(agent, line, found));
    for (int place = 0; place < count; place++) HOLDS(is_action(&actions[place], &found[place]));
    HOLDS(is_unwritten(&actions[count], (size_t)(CHI_MostEnabled - count) * sizeof *actions));
    return count;
}

int main(void) {
    const ChiConfig config = {.agents = AGENTS, .lines = LINES, .slices = 1, .entries = {1, 1}, .journal = 65536};
    uint64_t done = 0, enabled = 0;
    HOLDS(chi_slice_open(&one, &config, 0) == CHI_OK && chi_slice_open(&other, &config, 0) == CHI_OK);
    for (int count = 0; count < MANY && failures < 10; count++) {
        uint64_t word = drawn();
        ChiAction action = {.agent = (uint8_t)(word % 5), .line = (uint8_t)((word >> 8) % 5),
            .step = (uint8_t)((word >> 16) % 18), .kind = (uint8_t)((word >> 24) % 9), .slot = (uint8_t)((word >> 32) % 9),
            .word = (uint8_t)((word >> 40) % 9), .value = word >> 48};
        if (count % 8 == 0) enabled += tell_enabled((uint8_t)((word >> 3) % AGENTS), (uint8_t)((word >> 11) % LINES));
        done += tell_flits(&action);
    }
    HOLDS(chi_slice_close(&one) == CHI_OK && chi_slice_close(&other) == CHI_OK && done > 0 && enabled > 0);
    printf("%" PRIu64 " actions done, %" PRIu64 " were enabled\n", done, enabled);
    return failures == 0 ? 0 : 1;
}
