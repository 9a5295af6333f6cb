/* Runs a replay file or a check file through the calls on a node, and prints what `chihome replay` or `chihome check`
 * prints of it; the status is 5, as the program's, where answers differ. It takes good files alone: what is wrong with
 * a file is the grammar's, and none of the library's. */
#include "chihome.h"

#include <stdio.h>
#include <stdlib.h>
#include <string.h>

enum { WORDS = 9, ANSWER = 512 };

static const char *const SERVING[] = {"none", "snooping", "compack", "wrdata"};
/* The words of the steps, by their numbers; those of an arrival have none. */
static const char *const STEPS[] = {"load", "store", "drop", "issue", "", "", "retryack", "resend", "cancel", "start",
    "snp", "snpresp", "data", "comp", "ack", "dbid", "wrdata"};

static ChiNode node;
static ChiConfig config;

/* The text of one answer. */
static char text[ANSWER];
static size_t used;

#define SAY(...) (used += (size_t)snprintf(text + used, sizeof text - used, __VA_ARGS__))

static uint8_t small(const char *word) {
    unsigned long long number = strtoull(word, NULL, 10);
    return number > 255 ? 255 : (uint8_t)number;
}

static unsigned types(void) { return config.profile == CHI_Four ? 4 : 2; }

static int is_refused(uint8_t answer) {
    if (answer == CHI_OK) {
        SAY("ok");
        return 0;
    }
    SAY("refused %u %s", answer, chi_refusal_name(answer));
    return 1;
}

static void say_release(const ChiRelease *release) {
    if (release->release == CHI_Granted) SAY(" granted %u", release->agent);
    if (release->release == CHI_Freed) SAY(" freed");
}

static void say_step(const ChiAction *action) {
    ChiEffect effect;
    ChiRelease release;
    if (is_refused(chi_node_step(&node, action, &effect, &release))) return;
    if (effect.effect == CHI_Value) SAY(" value %llu", (unsigned long long)effect.value);
    if (effect.effect == CHI_Completed) SAY(" completed %u", effect.slot);
    say_release(&release);
}

static void say_arrival(uint8_t agent, uint8_t line) {
    ChiArrival arrival;
    if (is_refused(chi_node_arrive(&node, agent, line, &arrival))) return;
    if (arrival.arrival == CHI_Admitted) SAY(" admitted %u", arrival.entry);
    if (arrival.arrival == CHI_RetriedWith) SAY(" retry %u", arrival.credit);
}

static void say_counts(const char *word, const uint32_t *counts) {
    SAY(" %s", word);
    for (unsigned type = 0; type < types(); type++) SAY(" %u", counts[type]);
}

static void say_credits(uint8_t agent) {
    ChiCredits credits;
    if (is_refused(chi_node_see(&node, agent, &credits))) return;
    say_counts("credits", credits.seen);
}

static void say_give_back(uint8_t agent, uint8_t credit) {
    ChiRelease release;
    if (is_refused(chi_node_give_back(&node, agent, credit, &release))) return;
    say_release(&release);
}

static void say_tend(uint8_t agent, uint8_t credit) {
    ChiRelease release;
    if (is_refused(chi_node_tend(&node, agent, credit, &release))) return;
    if (release.release == CHI_NotReleased) SAY(" idle");
    say_release(&release);
}

static void say_totals(void) {
    ChiTotals totals;
    if (is_refused(chi_node_totals(&node, &totals))) return;
    say_counts("free", totals.free);
    say_counts("hand", totals.hand);
    say_counts("promised", totals.promised);
    say_counts("owed", totals.owed);
}

static void say_audit(void) {
    ChiAudit audit;
    if (is_refused(chi_node_audit(&node, &audit))) return;
    SAY(" loads %llu stores %llu %s", (unsigned long long)audit.loads, (unsigned long long)audit.stores,
        audit.coherent ? "coherent" : "broken");
}

static void say_flits(uint8_t agent, uint8_t line) {
    ChiFlits flits;
    int some = 0;
    if (is_refused(chi_node_flits(&node, agent, line, &flits))) return;
    for (int channel = 0; channel < 6; channel++) {
        const ChiFlit *flit = &flits.channels[channel];
        if (flit->message == CHI_NoMessage) continue;
        some = 1;
        if (flit->message == CHI_Request)
            SAY(" %s/%u/%s", chi_kind_name(flit->kind), flit->slot, flit->allow_retry ? "allow" : "credit");
        else if (flit->message == CHI_RetryAck)
            SAY(" RetryAck/%u", flit->credit);
        else
            SAY(" %s", chi_message_name(flit->message));
    }
    if (!some) SAY(" none");
}

static void say_members(const char *word, const uint8_t *are) {
    char before = ' ';
    SAY(" %s", word);
    for (unsigned agent = 0; agent < 8; agent++) {
        if (!are[agent]) continue;
        SAY("%c%u", before, agent);
        before = ',';
    }
    if (before == ' ') SAY(" -");
}

static void say_line(uint8_t line) {
    ChiLine shown;
    uint8_t waits[8];
    if (is_refused(chi_node_show(&node, line, &shown))) return;
    SAY(" copies");
    for (unsigned agent = 0; agent < config.agents; agent++)
        SAY("%c%s", agent ? ',' : ' ', chi_state_name(shown.copies[agent].state));
    say_members("named", shown.named);
    SAY(" unique %s serving %s", shown.unique ? "yes" : "no", SERVING[shown.serving.form]);
    if (shown.serving.form != CHI_Idle) SAY(" %u", shown.serving.agent);
    for (int agent = 0; agent < 8; agent++) waits[agent] = shown.waiting[agent].phase;
    say_members("waiting", waits);
    SAY(" memory");
    for (int word = 0; word < 8; word++) SAY(" %llu", (unsigned long long)shown.memory[word]);
}

static uint8_t step_of(const char *word) {
    for (uint8_t step = 0; step < sizeof STEPS / sizeof *STEPS; step++)
        if (strcmp(STEPS[step], word) == 0) return step;
    return 255;
}

static uint8_t kind_of(const char *word) {
    for (uint8_t kind = 0; kind < 8; kind++)
        if (strcmp(chi_kind_name(kind), word) == 0) return kind;
    return 255;
}

static void say_action(char **words, int count) {
    ChiAction action = {.agent = small(words[1]), .line = small(words[2])};
    action.step = step_of(words[0]);
    if (action.step == CHI_Issue && count == 5) {
        action.kind = kind_of(words[3]);
        action.slot = small(words[4]);
    } else if (count >= 4) {
        action.word = small(words[3]);
        if (count == 5) action.value = strtoull(words[4], NULL, 10);
    }
    say_step(&action);
}

static void answer(char **words, int count) {
    const char *verb = words[0];
    used = 0;
    if (strcmp(verb, "totals") == 0) say_totals();
    else if (strcmp(verb, "audit") == 0) say_audit();
    else if (strcmp(verb, "show") == 0) say_line(small(words[1]));
    else if (strcmp(verb, "see") == 0) say_credits(small(words[1]));
    else if (strcmp(verb, "flits") == 0) say_flits(small(words[1]), small(words[2]));
    else if (strcmp(verb, "arrive") == 0) say_arrival(small(words[1]), small(words[2]));
    else if (strcmp(verb, "giveback") == 0) say_give_back(small(words[1]), small(words[2]));
    else if (strcmp(verb, "tend") == 0) say_tend(small(words[1]), small(words[2]));
    else say_action(words, count);
    if (chi_node_agrees(&node) != CHI_OK) SAY(" DISAGREES");
}

static int split(char *line, char **words) {
    int count = 0;
    for (char *word = strtok(line, " "); word != NULL && count < WORDS; word = strtok(NULL, " ")) words[count++] = word;
    return count;
}

static uint8_t open_node(char **words, int count) {
    int profile = count == 9 ? 4 : 2;
    config.agents = small(words[1]);
    config.lines = small(words[2]);
    config.slices = small(words[3]);
    config.profile = profile == 4 ? CHI_Four : CHI_Two;
    for (int type = 0; type < profile; type++) config.entries[type] = (uint16_t)strtoul(words[4 + type], NULL, 10);
    config.journal = (uint32_t)strtoul(words[count - 1], NULL, 10);
    return chi_node_open(&node, &config);
}

int main(int argc, char **argv) {
    static char line[1 << 16];
    int number = 0, opened = 0, wanted = 0, different = 0;
    FILE *file = argc == 2 ? fopen(argv[1], "r") : NULL;
    if (file == NULL) return 2;
    int checks = strstr(argv[1], ".check") != NULL;
    while (fgets(line, sizeof line, file) != NULL) {
        char *words[WORDS] = {"", "", "", "", "", "", "", "", ""};
        char *want = NULL;
        number++;
        line[strcspn(line, "\n")] = '\0';
        if (checks && (line[0] == '\0' || line[0] == '#')) continue;
        if (checks && (want = strstr(line, " -> ")) != NULL) {
            *want = '\0';
            want += 4;
        }
        int count = split(line, words);
        if (!opened) {
            if (open_node(words, count) != CHI_OK) return 3;
            opened = 1;
            continue;
        }
        answer(words, count);
        if (!checks) puts(text);
        if (want == NULL) continue;
        wanted++;
        if (strcmp(want, text) == 0) continue;
        different++;
        printf("line %d: wanted %s, is %s\n", number, want, text);
    }
    fclose(file);
    if (checks && different == 0) printf("checked %d answers\n", wanted);
    if (checks && different != 0) printf("%d of %d answers differ\n", different, wanted);
    if (chi_node_close(&node) != CHI_OK) return 1;
    return different == 0 ? 0 : 5;
}
