/* A cold read, and a request that is retried, on a node of two requesters, with each answer printed. */
#include "chihome.h"

#include <stdio.h>

static ChiNode node;

/* The agent does a step on line 0; a request is of this kind, and takes slot 0. */
static void step(const char *what, uint8_t agent, uint8_t number, uint8_t kind) {
    ChiAction action = {.agent = agent, .line = 0, .step = number, .kind = kind, .slot = 0, .word = 0};
    ChiEffect effect;
    ChiRelease release;
    uint8_t answer = chi_node_step(&node, &action, &effect, &release);
    printf("agent %u %-10s answers %u", agent, what, answer);
    if (effect.effect == CHI_Value) printf(", value %llu", (unsigned long long)effect.value);
    if (effect.effect == CHI_Completed) printf(", slot %u is complete", effect.slot);
    if (release.release == CHI_Freed) printf(", its entry is free");
    if (release.release == CHI_Granted) printf(", its entry is promised to agent %u", release.agent);
    printf("\n");
}

/* The agent's request to line 0 arrives at the home. */
static void arrive(uint8_t agent) {
    ChiArrival arrival;
    uint8_t answer = chi_node_arrive(&node, agent, 0, &arrival);
    printf("agent %u %-10s answers %u", agent, "arrives", answer);
    if (arrival.arrival == CHI_Admitted) printf(", admitted with entry %u", arrival.entry);
    if (arrival.arrival == CHI_RetriedWith) printf(", retried: a credit of type %u is owed", arrival.credit);
    printf("\n");
}

static void see(uint8_t agent) {
    ChiCredits credits;
    uint8_t answer = chi_node_see(&node, agent, &credits);
    printf("agent %u %-10s answers %u, credits %u and %u\n", agent, "sees", answer, credits.seen[0], credits.seen[1]);
}

int main(void) {
    /* One entry for all requests that are no copy-backs, so that a second one is retried. */
    const ChiConfig config = {.agents = 2, .lines = 1, .slices = 1, .entries = {1, 1}, .journal = 16};
    if (chi_node_open(&node, &config) != CHI_OK) return 1;

    printf("a cold read, and a second reader that is retried meanwhile\n");
    step("issues", 0, CHI_Issue, CHI_ReadShared);
    arrive(0);
    step("issues", 1, CHI_Issue, CHI_ReadShared);
    arrive(1);
    step("starts", 0, CHI_Start, 0);
    step("gets data", 0, CHI_RecvData, 0);
    step("is acked", 0, CHI_RecvAck, 0);
    step("loads", 0, CHI_Load, 0);

    printf("the second reader resends its request with the credit\n");
    step("is retried", 1, CHI_RecvRetry, 0);
    see(1);
    step("resends", 1, CHI_Resend, 0);
    arrive(1);
    step("starts", 1, CHI_Start, 0);
    step("is snooped", 0, CHI_RecvSnp, 0);
    step("answers", 0, CHI_RecvSnpResp, 0);
    step("gets data", 1, CHI_RecvData, 0);
    step("is acked", 1, CHI_RecvAck, 0);
    step("loads", 1, CHI_Load, 0);
    return chi_node_close(&node) == CHI_OK ? 0 : 1;
}
