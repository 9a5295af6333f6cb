/* Observes a trace by the library's calls, and prints what `chihome observe` prints of it, but for what is open, with its
 * status.
 *
 *     observe FILE [--types two|four|any] [--stores hidden|listed] [--early-grants] [--complete]
 *             [--opcodes any] [--unjudged allowed]
 */
#include "chihome.h"
#include "trace.h"

#include <inttypes.h>

static ChiObserver observer;

/* What isn't judged, as lines. */
static int print_unjudged(void) {
    static uint8_t bytes[65536];
    size_t length;
    if (chi_observer_unjudged_text(&observer, bytes, sizeof bytes, &length) != CHI_OK) return 0;
    printf("%.*s", (int)length, (const char *)bytes);
    return 1;
}

static int print_end(int complete, int allowed) {
    ChiObserverCounts counts;
    ChiUnjudged not_judged;
    if (chi_observer_counts(&observer, &counts) != CHI_OK || chi_observer_unjudged(&observer, &not_judged) != CHI_OK) return 1;
    if ((counts.flits | counts.accesses) == 0) {
        printf("no flit, load or store is in the trace\n");
        return 8;
    }
    uint64_t flits = not_judged.of_flits - not_judged.flits, accesses = not_judged.of_accesses - not_judged.accesses;
    if (!print_unjudged()) return 1;
    printf("accepted %" PRIu64 " flits on %" PRIu64 " cache lines\n", flits, not_judged.of_lines - not_judged.lines);
    if (accesses > 0) printf("accepted %" PRIu64 " loads and stores\n", accesses);
    if (!allowed && (not_judged.flits | not_judged.accesses) != 0) return (flits | accesses) == 0 ? 8 : 9;
    uint32_t open = counts.requests | counts.completions | counts.snoops | counts.retried | counts.unsettled;
    return complete && open != 0 ? 7 : 0;
}

static int print_fault(uint64_t number) {
    static uint8_t bytes[65536];
    ChiObserverFault fault;
    size_t length;
    if (chi_observer_fault(&observer, &fault) != CHI_OK || fault.number != number) return 1;
    if (chi_observer_text(&observer, bytes, sizeof bytes, &length) != CHI_OK) return 1;
    printf("%.*s\n", (int)length, (const char *)bytes);
    return 6;
}

/* Gives the observer each flit of the file, up to the first fault. */
static int observe(FILE *file, int complete, int allowed) {
    static char line[LINE];
    ChiSeen seen;
    for (uint64_t number = 1; fgets(line, sizeof line, file) != NULL; number++) {
        if (!read_flit(line, number, &seen)) continue;
        uint8_t answer = chi_observer_take(&observer, &seen);
        if (answer == CHI_Fault) return print_fault(number);
        if (answer == CHI_OK || answer == CHI_SetAside) continue;
        printf("line %" PRIu64 ": %s\n", number, chi_refusal_name(answer));
        return 1;
    }
    return print_end(complete, allowed);
}

int main(int count, char **words) {
    ChiObserverConfig config = {.lines = 4096, .ids = 4096, .accounts = 1024, .requesters = 32, .homes = 255};
    int complete = 0, allowed = 0;
    for (int word = 2; word < count; word++) {
        complete |= strcmp(words[word], "--complete") == 0;
        allowed |= strcmp(words[word], "allowed") == 0;
        config.early_grants |= strcmp(words[word], "--early-grants") == 0;
        if (strcmp(words[word], "two") == 0) config.types = 2;
        if (strcmp(words[word], "four") == 0) config.types = 4;
        if (strcmp(words[word], "listed") == 0) config.stores = CHI_Stores_Listed;
    }
    FILE *file = count > 1 ? fopen(words[1], "r") : NULL;
    if (file == NULL || chi_observer_open(&observer, &config) != CHI_OK) return 2;
    int status = observe(file, complete, allowed);
    fclose(file);
    uint8_t closed = chi_observer_close(&observer);
    if (status == 8 || status == 9) return closed == (status == 8 ? CHI_NothingJudged : CHI_PartlyJudged) ? status : 2;
    return status == 6 || allowed || closed == CHI_OK ? status : 2;
}
