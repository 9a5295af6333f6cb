/* Gives monitors the flits that chi_slice_step tells of random runs, whose actions are drawn from those that are enabled:
 * no run has a fault, each kept one is explained, and what is open is what the slice has. Of a run with one flit dropped,
 * doubled or changed no fault is told before that flit, and the first stays. A monitor that keeps no flits takes a run of
 * many without a fault. */
#include "chihome.h"
#include "drawn.h"

#include <stdio.h>
#include <string.h>

enum { AGENTS = 3, LINES = 2, RUNS = 400, ACTIONS = 400, LONG = 300000, MOST = 4096 };

static uint8_t below(uint8_t many) { return (uint8_t)(drawn() % many); }

/* A flit of a run. */
typedef struct {
    uint8_t line;
    ChiSent sent;
} Seen;

static Seen run[MOST];
static size_t length;

/* Whether a fault tells of this flit's agent and line. */
static int tells(const ChiFault *fault, const Seen *seen) {
    return fault->line == seen->line && fault->agent == seen->sent.agent;
}

/* Does one of the enabled actions of an agent at a line, if there is one; what it sent. */
static uint8_t act(ChiSlice *slice, uint8_t line, ChiSent *sent) {
    ChiAction actions[CHI_MostEnabled];
    ChiEffect effect;
    ChiSent taken;
    uint8_t count, sents;
    HOLDS(chi_slice_enabled(slice, below(AGENTS), line, actions, &count) == CHI_OK);
    if (count == 0) return 0;
    ChiAction action = actions[below(count)];
    action.word = below(8);
    action.value = drawn() % 4;
    HOLDS(chi_slice_step(slice, &action, &effect, sent, &sents, &taken) == CHI_OK);
    return sents;
}

/* What a monitor tells is open of each agent at each line, beside the slice. */
static void compare_open(ChiSlice *slice, ChiMonitor *monitor) {
    for (uint8_t line = 0; line < LINES; line++) {
        ChiOpen open[8];
        ChiLine shown;
        HOLDS(chi_monitor_end(monitor, line, open) == CHI_OK && chi_slice_show(slice, line, &shown) == CHI_OK);
        for (uint8_t agent = 0; agent < AGENTS; agent++) {
            ChiFlits flits;
            HOLDS(chi_slice_flits(slice, agent, line, &flits) == CHI_OK);
            const ChiFlit *cells = flits.channels;
            int served = shown.serving.form == CHI_Snooping && shown.serving.agent == agent;
            HOLDS(open[agent].request == (cells[CHI_Req].message != 0 || shown.waiting[agent].phase != 0 || served));
            HOLDS(open[agent].snoop == (cells[CHI_Snp].message != 0));
            HOLDS(open[agent].completion == (cells[CHI_DatDown].message != 0 || cells[CHI_RspDown].message == CHI_Comp_UC));
            HOLDS(open[agent].write_data == (cells[CHI_RspDown].message == CHI_CompDBIDResp));
            HOLDS(open[agent].retried == 1 || shown.pending[agent].phase != CHI_Retried);
        }
    }
}

static void run_once(const ChiConfig *config) {
    ChiSlice slice = {0};
    ChiMonitor monitor = {0};
    ChiFault fault;
    length = 0;
    HOLDS(chi_slice_open(&slice, config, 0) == CHI_OK && chi_monitor_open(&monitor, 0, AGENTS, LINES, MOST) == CHI_OK);
    for (int count = 0; count < ACTIONS && length < MOST - CHI_MostSent; count++) {
        ChiSent sent[CHI_MostSent];
        uint8_t line = below(LINES), sents = act(&slice, line, sent);
        for (uint8_t place = 0; place < sents; place++) {
            run[length++] = (Seen){line, sent[place]};
            HOLDS(chi_monitor_flit(&monitor, line, &sent[place]) == CHI_OK);
        }
    }
    compare_open(&slice, &monitor);
    for (uint8_t line = 0; line < LINES; line++) HOLDS(chi_monitor_explain(&monitor, line) == CHI_OK);
    HOLDS(chi_monitor_fault(&monitor, &fault) == CHI_OK && fault.reason == CHI_NoReason && fault.number == 0);
    HOLDS(chi_monitor_close(&monitor) == CHI_OK && chi_slice_close(&slice) == CHI_OK);
}

/* Gives the run to a new monitor; the place of the first fault, or the run's length. */
static size_t fault_place(void) {
    ChiMonitor monitor = {0};
    ChiFault first, later;
    size_t place = 0;
    HOLDS(chi_monitor_open(&monitor, 0, AGENTS, LINES, 0) == CHI_OK);
    while (place < length && chi_monitor_flit(&monitor, run[place].line, &run[place].sent) == CHI_OK) place++;
    HOLDS(chi_monitor_fault(&monitor, &first) == CHI_OK && (first.reason != CHI_NoReason) == (place < length));
    if (place < length) {
        HOLDS(first.number == place && tells(&first, &run[place]));
        for (size_t behind = place; behind < length; behind++)
            HOLDS(chi_monitor_flit(&monitor, run[behind].line, &run[behind].sent) == CHI_Fault);
        HOLDS(chi_monitor_fault(&monitor, &later) == CHI_OK && later.reason == first.reason && later.number == first.number);
        HOLDS(tells(&later, &run[place]) && chi_monitor_explain(&monitor, first.line) == CHI_NotKept);
    }
    HOLDS(chi_monitor_close(&monitor) == CHI_OK);
    return place;
}

/* Changes the flit at a place of the run: its message, its words, its agent, or it is dropped or doubled. */
static void change(size_t place, uint8_t how) {
    ChiFlit *flit = &run[place].sent.flit;
    if (how == 0) flit->message = (uint8_t)(1 + drawn() % 22);
    if (how == 1) flit->words[below(8)] ^= 4;
    if (how == 2) run[place].sent.agent = (uint8_t)((run[place].sent.agent + 1) % AGENTS);
    if (how == 3) memmove(&run[place], &run[place + 1], (--length - place) * sizeof *run);
    if (how == 4) memmove(&run[place + 1], &run[place], (length++ - place) * sizeof *run);
}

static int runs_with_changes(void) {
    const ChiConfig config = {.agents = AGENTS, .lines = LINES, .slices = 1, .entries = {1, 1}, .journal = 65536};
    int faults = 0;
    for (int count = 0; count < RUNS && failures < 10; count++) {
        run_once(&config);
        HOLDS(length > 0 && fault_place() == length);
        size_t place = drawn() % length;
        change(place, (uint8_t)(count % 5));
        size_t found = fault_place();
        HOLDS(found >= place);
        faults += found < length;
    }
    return faults;
}

static size_t long_run(void) {
    const ChiConfig config = {.agents = AGENTS, .lines = LINES, .slices = 1, .entries = {1, 1}, .journal = 65536};
    ChiSlice slice = {0};
    ChiMonitor monitor = {0};
    size_t taken = 0;
    HOLDS(chi_slice_open(&slice, &config, 0) == CHI_OK && chi_monitor_open(&monitor, 0, AGENTS, LINES, 0) == CHI_OK);
    for (int count = 0; count < LONG && failures < 10; count++) {
        ChiSent sent[CHI_MostSent];
        uint8_t line = below(LINES), sents = act(&slice, line, sent);
        for (uint8_t place = 0; place < sents; place++, taken++)
            HOLDS(chi_monitor_flit(&monitor, line, &sent[place]) == CHI_OK);
    }
    compare_open(&slice, &monitor);
    HOLDS(chi_monitor_close(&monitor) == CHI_OK && chi_slice_close(&slice) == CHI_OK);
    return taken;
}

static void answers(void) {
    ChiMonitor monitor = {0};
    ChiFault fault;
    ChiOpen open[8];
    ChiSent request = {.flit = {.message = CHI_Request, .kind = CHI_ReadShared, .allow_retry = 1}}, wrong = request;
    static const char TEXT[] = "CHI: the home awaits no CompAck of it there";
    uint8_t bytes[256];
    size_t told;
    memset(bytes, 165, sizeof bytes);
    memset(open, 255, sizeof open);
    memset(&fault, 255, sizeof fault);
    HOLDS(chi_monitor_flit(&monitor, 0, &request) == CHI_Closed && chi_monitor_fault(&monitor, &fault) == CHI_Closed);
    HOLDS(chi_monitor_end(&monitor, 0, open) == CHI_Closed && chi_monitor_explain(&monitor, 0) == CHI_Closed);
    HOLDS(fault.reason == 0 && fault.number == 0 && open[7].write_data == 0 && chi_monitor_close(&monitor) == CHI_Closed);
    HOLDS(chi_monitor_open(&monitor, 0, 0, 1, 1) == CHI_OutOfRange && chi_monitor_open(&monitor, 0, 9, 1, 1) == CHI_OutOfRange);
    HOLDS(chi_monitor_open(&monitor, 0, 1, 0, 1) == CHI_OutOfRange && chi_monitor_open(&monitor, 0, 1, 65, 1) == CHI_OutOfRange);
    HOLDS(chi_monitor_open(&monitor, 0, 1, 1, 65537) == CHI_OutOfRange && monitor.at == NULL);
    HOLDS(chi_monitor_open(&monitor, 0, 2, 2, 1) == CHI_OK);
    void *at = monitor.at;
    HOLDS(chi_monitor_open(&monitor, 0, 2, 2, 1) == CHI_AlreadyOpen && monitor.at == at);
    HOLDS(chi_monitor_flit(&monitor, 2, &request) == CHI_OutOfRange);
    wrong.agent = 2;
    HOLDS(chi_monitor_flit(&monitor, 0, &wrong) == CHI_OutOfRange);
    wrong = request;
    wrong.flit.kind = 8;
    HOLDS(chi_monitor_flit(&monitor, 0, &wrong) == CHI_OutOfRange);
    wrong.flit = (ChiFlit){.message = 23};
    HOLDS(chi_monitor_flit(&monitor, 0, &wrong) == CHI_OutOfRange);
    wrong.flit = (ChiFlit){.message = CHI_RetryAck, .credit = 4};
    HOLDS(chi_monitor_flit(&monitor, 0, &wrong) == CHI_OutOfRange);
    HOLDS(chi_monitor_flit(&monitor, 0, &request) == CHI_OK && chi_monitor_flit(&monitor, 0, &request) == CHI_JournalFull);
    HOLDS(chi_monitor_end(&monitor, 2, open) == CHI_OutOfRange && open[0].request == 0);
    HOLDS(chi_monitor_end(&monitor, 0, open) == CHI_OK && open[0].request == 1 && open[1].request == 0);
    HOLDS(chi_monitor_explain(&monitor, 2) == CHI_OutOfRange && chi_monitor_explain(&monitor, 0) == CHI_OK);
    wrong.flit = (ChiFlit){.message = CHI_CompAck};
    HOLDS(chi_monitor_flit(&monitor, 1, &wrong) == CHI_Fault && chi_monitor_flit(&monitor, 1, &request) == CHI_Fault);
    HOLDS(chi_monitor_fault(&monitor, &fault) == CHI_OK && fault.reason == CHI_NotAwaited && fault.number == 1);
    HOLDS(fault.line == 1 && fault.agent == 0 && chi_monitor_text(&monitor, bytes, 2, &told) == CHI_JournalFull);
    HOLDS(told == sizeof TEXT - 1 && bytes[0] == 165 && chi_monitor_text(&monitor, bytes, told, &told) == CHI_OK);
    HOLDS(memcmp(bytes, TEXT, told) == 0 && bytes[told] == 165 && chi_monitor_close(&monitor) == CHI_OK);
    HOLDS(chi_monitor_text(&monitor, bytes, 2, &told) == CHI_Closed && told == 0 && monitor.at == NULL);
}

int main(void) {
    answers();
    int faults = runs_with_changes();
    size_t taken = long_run();
    HOLDS(faults > RUNS / 4 && taken > LONG / 4);
    printf("%d runs, %d faults in changed ones, a run of %zu flits\n", RUNS, faults, taken);
    return failures == 0 ? 0 : 1;
}
