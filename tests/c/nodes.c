/* Does random calls on two nodes, by chi_node_arrive and chi_node_step on one and by chi_node_arrive_flits and
 * chi_node_step_flits on the other: both have to answer and tell the same, and the flits in flight without the one that
 * was taken and with those that were sent have to be those in flight afterwards. Copies of the second node's slices are the
 * same as the first one's, until one of the two goes on. */
#include "chihome.h"
#include "drawn.h"
#include "told.h"

#include <inttypes.h>
#include <stdio.h>
#include <string.h>

enum { AGENTS = 4, LINES = 2, MANY = 500000 };

static ChiNode one, other;

static uint64_t admitted, retried, done, completed;

/* What a call of the other node told of its flits. */
typedef struct {
    ChiSent sent[CHI_MostSent], taken;
    uint8_t count;
} Told;

static void blank(Told *told) {
    memset(told, UNWRITTEN, sizeof *told);
}

static void read_flits(uint8_t line, ChiFlits *flits) {
    for (uint8_t agent = 0; agent < AGENTS; agent++) HOLDS(chi_node_flits(&other, agent, line, &flits[agent]) == CHI_OK);
}

static void tell(uint8_t answer, uint8_t line, ChiFlits *before, const Told *told) {
    ChiFlits after[AGENTS];
    HOLDS(told->count <= CHI_MostSent && (answer == CHI_OK || (told->count == 0 && is_blank(&told->taken))));
    HOLDS(is_unwritten(&told->sent[told->count], (size_t)(CHI_MostSent - told->count) * sizeof *told->sent));
    read_flits(line, after);
    move_flits(before, told->sent, told->count, &told->taken);
    are_same(before, after, AGENTS);
}

static void arrive(uint8_t agent, uint8_t line) {
    ChiFlits before[AGENTS];
    ChiArrival arrival, same;
    Told told;
    read_flits(line % LINES, before);
    blank(&told);
    uint8_t answer = chi_node_arrive(&one, agent, line, &arrival);
    HOLDS(chi_node_arrive_flits(&other, agent, line, &same, told.sent, &told.count, &told.taken) == answer);
    HOLDS(arrival.arrival == same.arrival && arrival.entry == same.entry && arrival.credit == same.credit);
    HOLDS(answer != CHI_OK || told.taken.flit.message == CHI_Request);
    HOLDS(told.count == (same.arrival == CHI_RetriedWith));
    HOLDS(told.count == 0 || (told.sent[0].agent == agent && told.sent[0].flit.message == CHI_RetryAck));
    tell(answer, line % LINES, before, &told);
    admitted += same.arrival == CHI_Admitted;
    retried += same.arrival == CHI_RetriedWith;
}

static void step(const ChiAction *action) {
    ChiFlits before[AGENTS];
    ChiEffect effect, same;
    ChiRelease release, went;
    Told told;
    read_flits(action->line % LINES, before);
    blank(&told);
    uint8_t answer = chi_node_step(&one, action, &effect, &release);
    HOLDS(chi_node_step_flits(&other, action, &same, &went, told.sent, &told.count, &told.taken) == answer);
    HOLDS(effect.effect == same.effect && effect.slot == same.slot && effect.value == same.value);
    HOLDS(release.release == went.release && release.agent == went.agent);
    tell(answer, action->line % LINES, before, &told);
    done += answer == CHI_OK;
    completed += went.release != CHI_NotReleased;
}

/* A copy of the slice of a line does the step that the node did, and is the same as the node's slice before and after. */
static void copy(const ChiAction *action) {
    ChiSlice slice = {0};
    ChiEffect effect, same;
    ChiRelease release;
    uint8_t equal = 2;
    HOLDS(chi_node_slice(&slice, &other, action->line) == CHI_OK);
    HOLDS(chi_node_slice_equal(&one, action->line, &slice, &equal) == CHI_OK && equal == 1);
    uint8_t answer = chi_node_step(&one, action, &effect, &release);
    HOLDS(chi_node_step(&other, action, &same, &release) == answer);
    HOLDS(chi_node_slice_equal(&other, action->line, &slice, &equal) == CHI_OK && equal == (answer != CHI_OK));
    HOLDS(answer != CHI_OK || chi_slice_act(&slice, action, &same) == CHI_OK);
    HOLDS(chi_node_slice_equal(&one, action->line, &slice, &equal) == CHI_OK && equal == 1);
    HOLDS(chi_slice_close(&slice) == CHI_OK && chi_node_slice_equal(&one, 0, &slice, &equal) == CHI_Closed && equal == 0);
}

/* The agent looks at its credits, so that it may send a retried request again. */
static void see(uint8_t agent) {
    ChiCredits credits, same;
    uint8_t answer = chi_node_see(&one, agent, &credits);
    HOLDS(chi_node_see(&other, agent, &same) == answer && memcmp(&credits, &same, sizeof same) == 0);
}

int main(void) {
    const ChiConfig config = {.agents = AGENTS, .lines = LINES, .slices = 2, .entries = {1, 1}, .journal = 0};
    HOLDS(chi_node_open(&one, &config) == CHI_OK && chi_node_open(&other, &config) == CHI_OK);
    for (int count = 0; count < MANY && failures < 10; count++) {
        uint64_t word = drawn();
        ChiAction action = {.agent = (uint8_t)(word % 5), .line = (uint8_t)((word >> 8) % 3),
            .step = (uint8_t)((word >> 16) % 18), .kind = (uint8_t)((word >> 24) % 9), .slot = (uint8_t)((word >> 32) % 9),
            .word = (uint8_t)((word >> 40) % 9), .value = word >> 48};
        if (count % 4 == 0)
            arrive(action.agent, action.line);
        else if (count % 4 == 1 && action.step < 4)
            see(action.agent);
        else if (count % 16 == 2)
            copy(&action);
        else
            step(&action);
    }
    HOLDS(chi_node_close(&one) == CHI_OK && chi_node_close(&other) == CHI_OK);
    HOLDS(admitted > 0 && retried > 0 && done > 0 && completed > 0);
    printf("%" PRIu64 " admitted, %" PRIu64 " retried, %" PRIu64 " steps done, %" PRIu64 " entries released\n", admitted, retried,
           done, completed);
    return failures == 0 ? 0 : 1;
}
