/* How fast chi_slice_act is, or chi_slice_step where `step` is the first word: about COUNT actions of the mix of
 * crates/chi_speed over LINES lines (64, 8 or one), on a new slice. Each effect is read. Prints what `act LINES COUNT` of
 * that crate prints: nanoseconds, actions, and the sum of what the effects told. */
#define _POSIX_C_SOURCE 200809L /* clock_gettime */
#include "chihome.h"

#include <inttypes.h>
#include <stdio.h>
#include <stdlib.h>
#include <string.h>
#include <time.h>

/* A line's cycle. The agent of a row is the one that comes so many after the line's own: line l is agent l mod 8's. */
static const ChiAction CYCLE[] = {
    {.agent = 0, .step = CHI_Issue, .kind = CHI_ReadNotSharedDirty, .slot = 0},
    {.agent = 0, .step = CHI_Admit},
    {.agent = 0, .step = CHI_Start},
    {.agent = 0, .step = CHI_RecvData},
    {.agent = 0, .step = CHI_RecvAck},
    {.agent = 0, .step = CHI_Load, .word = 0},
    {.agent = 1, .step = CHI_Issue, .kind = CHI_ReadShared, .slot = 1},
    {.agent = 1, .step = CHI_Admit},
    {.agent = 1, .step = CHI_Start},
    {.agent = 0, .step = CHI_RecvSnp},
    {.agent = 0, .step = CHI_RecvSnpResp},
    {.agent = 1, .step = CHI_RecvData},
    {.agent = 1, .step = CHI_RecvAck},
    {.agent = 2, .step = CHI_Issue, .kind = CHI_ReadUnique, .slot = 2},
    {.agent = 2, .step = CHI_Admit},
    {.agent = 2, .step = CHI_Start},
    {.agent = 0, .step = CHI_RecvSnp},
    {.agent = 1, .step = CHI_RecvSnp},
    {.agent = 1, .step = CHI_RecvSnpResp},
    {.agent = 0, .step = CHI_RecvSnpResp},
    {.agent = 2, .step = CHI_RecvData},
    {.agent = 2, .step = CHI_RecvAck},
    {.agent = 2, .step = CHI_Store, .word = 3, .value = 7},
    {.agent = 2, .step = CHI_Load, .word = 3},
    {.agent = 0, .step = CHI_Issue, .kind = CHI_ReadShared, .slot = 0},
    {.agent = 0, .step = CHI_Admit},
    {.agent = 0, .step = CHI_Start},
    {.agent = 2, .step = CHI_RecvSnp},
    {.agent = 2, .step = CHI_RecvSnpResp},
    {.agent = 0, .step = CHI_RecvData},
    {.agent = 0, .step = CHI_RecvAck},
    {.agent = 0, .step = CHI_Issue, .kind = CHI_CleanUnique, .slot = 0},
    {.agent = 0, .step = CHI_Admit},
    {.agent = 0, .step = CHI_Start},
    {.agent = 2, .step = CHI_RecvSnp},
    {.agent = 2, .step = CHI_RecvSnpResp},
    {.agent = 0, .step = CHI_RecvComp},
    {.agent = 0, .step = CHI_RecvAck},
    {.agent = 0, .step = CHI_Store, .word = 4, .value = 9},
    {.agent = 0, .step = CHI_Issue, .kind = CHI_WriteCleanFull, .slot = 0},
    {.agent = 0, .step = CHI_Retry},
    {.agent = 0, .step = CHI_RecvRetry},
    {.agent = 0, .step = CHI_Resend},
    {.agent = 0, .step = CHI_Admit},
    {.agent = 0, .step = CHI_Start},
    {.agent = 0, .step = CHI_RecvDbid},
    {.agent = 0, .step = CHI_RecvWrData},
    {.agent = 0, .step = CHI_Issue, .kind = CHI_WriteEvictFull, .slot = 0},
    {.agent = 0, .step = CHI_Admit},
    {.agent = 0, .step = CHI_Start},
    {.agent = 0, .step = CHI_RecvDbid},
    {.agent = 0, .step = CHI_RecvWrData},
    {.agent = 1, .step = CHI_Issue, .kind = CHI_ReadUnique, .slot = 1},
    {.agent = 1, .step = CHI_Retry},
    {.agent = 1, .step = CHI_RecvRetry},
    {.agent = 1, .step = CHI_Resend},
    {.agent = 1, .step = CHI_Admit},
    {.agent = 1, .step = CHI_Start},
    {.agent = 1, .step = CHI_RecvData},
    {.agent = 1, .step = CHI_RecvAck},
    {.agent = 1, .step = CHI_Store, .word = 1, .value = 5},
    {.agent = 1, .step = CHI_Issue, .kind = CHI_WriteBackFull, .slot = 1},
    {.agent = 1, .step = CHI_Admit},
    {.agent = 1, .step = CHI_Start},
    {.agent = 1, .step = CHI_RecvDbid},
    {.agent = 1, .step = CHI_RecvWrData},
    {.agent = 2, .step = CHI_Issue, .kind = CHI_ReadShared, .slot = 2},
    {.agent = 2, .step = CHI_Admit},
    {.agent = 2, .step = CHI_Start},
    {.agent = 2, .step = CHI_RecvData},
    {.agent = 2, .step = CHI_RecvAck},
    {.agent = 2, .step = CHI_Issue, .kind = CHI_Evict, .slot = 2},
    {.agent = 2, .step = CHI_Admit},
    {.agent = 2, .step = CHI_Start},
    {.agent = 2, .step = CHI_RecvComp},
};

enum { ROWS = sizeof CYCLE / sizeof *CYCLE };

static ChiAction script[ROWS * 64];

/* Blocks of lines take their turns, and those of a block go side by side. */
static size_t mix(int blocks, int width) {
    size_t count = 0;
    for (int block = 0; block < blocks; block++)
        for (int row = 0; row < ROWS; row++)
            for (int place = 0; place < width; place++) {
                ChiAction action = CYCLE[row];
                action.line = (uint8_t)(block * width + place);
                action.agent = (uint8_t)((action.line + action.agent) % 8);
                script[count++] = action;
            }
    return count;
}

static uint64_t nanoseconds(void) {
    struct timespec now;
    clock_gettime(CLOCK_MONOTONIC, &now);
    return (uint64_t)now.tv_sec * 1000000000 + (uint64_t)now.tv_nsec;
}

/* Does the script's actions, and answers the sum of their effects' numbers. */
static uint64_t act_all(ChiSlice *slice, size_t count) {
    uint64_t told = 0;
    for (const ChiAction *action = script; action < script + count; action++) {
        ChiEffect effect;
        if (chi_slice_act(slice, action, &effect) != CHI_OK) exit(1);
        told += effect.value + effect.slot;
    }
    return told;
}

/* The same by chi_slice_step, with the flits of each. */
static uint64_t step_all(ChiSlice *slice, size_t count) {
    uint64_t told = 0;
    for (const ChiAction *action = script; action < script + count; action++) {
        ChiEffect effect;
        ChiSent sent[CHI_MostSent], taken;
        uint8_t flits;
        if (chi_slice_step(slice, action, &effect, sent, &flits, &taken) != CHI_OK) exit(1);
        told += effect.value + effect.slot;
    }
    return told;
}

int main(int words, char **word) {
    int steps = words == 4 && strcmp(word[1], "step") == 0;
    if (words != 3 + steps) return 2;
    int lines = atoi(word[1 + steps]);
    if (lines != 64 && lines != 8 && lines != 1) return 2;
    size_t count = lines == 64 ? mix(8, 8) : mix(1, lines);
    size_t times = strtoul(word[2 + steps], NULL, 10) / count;
    ChiConfig config = {.agents = 8, .lines = (uint8_t)lines, .slices = 1, .entries = {32, 32}, .journal = 65536};
    ChiSlice slice = {0};
    if (chi_slice_open(&slice, &config, 0) != CHI_OK) return 1;
    uint64_t told = 0, start = nanoseconds();
    for (size_t time = 0; time < times; time++) told += steps ? step_all(&slice, count) : act_all(&slice, count);
    printf("%" PRIu64 " %zu %" PRIu64 "\n", nanoseconds() - start, times * count, told);
    return chi_slice_close(&slice) == CHI_OK ? 0 : 1;
}
