/* Opens a slice, a node, a monitor and an observer, and copies, saves and loads a slice, while each allocation in turn is refused: the answer is
 * CHI_NoMemory, the handle is closed, or as it was before the copy, nothing leaks (valgrind looks), and the next try with
 * ample memory opens it. Then what a handle answers in each of its states, and numbers outside an enum. */
#include "chihome.h"

#include <stdio.h>
#include <stdlib.h>
#include <string.h>

extern void *__real_malloc(size_t size);
extern void *__real_realloc(void *block, size_t size);

/* How many allocations are granted before one is refused; none is where this is negative. */
static int granted = -1;
static int failures;

static int refuses(void) { return granted >= 0 && granted-- == 0; }

void *__wrap_malloc(size_t size) { return refuses() ? NULL : __real_malloc(size); }

void *__wrap_realloc(void *block, size_t size) { return refuses() ? NULL : __real_realloc(block, size); }

#define HOLDS(it) ((it) ? (void)0 : (void)(failures++, printf("%s:%d: %s\n", __FILE__, __LINE__, #it)))

static const ChiConfig SIZES = {.agents = 2, .lines = 4, .slices = 2, .entries = {1, 1}, .journal = 4};

static int is_blank(const void *told, size_t size) {
    const unsigned char *bytes = told;
    while (size > 0 && bytes[size - 1] == 0) size--;
    return size == 0;
}

static int slice_allocations(void) {
    for (int count = 0;; count++) {
        ChiSlice slice = {0};
        granted = count;
        uint8_t answer = chi_slice_open(&slice, &SIZES, 1);
        int spent = granted < 0;
        granted = -1;
        HOLDS(answer == (spent ? CHI_NoMemory : CHI_OK));
        HOLDS(chi_slice_close(&slice) == (spent ? CHI_Closed : CHI_OK));
        if (!spent) return count;
    }
}

static int node_allocations(void) {
    for (int count = 0;; count++) {
        ChiNode node = {0};
        granted = count;
        uint8_t answer = chi_node_open(&node, &SIZES);
        int spent = granted < 0;
        granted = -1;
        HOLDS(answer == (spent ? CHI_NoMemory : CHI_OK));
        HOLDS(chi_node_close(&node) == (spent ? CHI_Closed : CHI_OK));
        if (!spent) return count;
    }
}

/* With no allocation granted once it is open, an observer takes reads that are retried and sent again, for as long as there
 * are some: none of them adds more than there is room for. */
static void observer_without_memory(void) {
    static const ChiObserverConfig ROOM = {.lines = 4, .ids = 2, .accounts = 2, .requesters = 2, .homes = 1};
    static const uint8_t OPCODES[] = {CHI_Op_ReadUnique, CHI_Op_RetryAck, CHI_Op_PCrdGrant, CHI_Op_ReadUnique, CHI_Op_SnpUnique,
        CHI_Op_SnpResp, CHI_Op_CompData, CHI_Op_CompAck};
    ChiObserver observer = {0};
    ChiObserverCounts counts;
    HOLDS(chi_observer_open(&observer, &ROOM) == CHI_OK);
    granted = 0;
    for (int place = 0; place < 80000 && failures == 0; place++) {
        int round = place / 8, step = place % 8;
        uint16_t node = (uint16_t)(8 + round / 4 % 2), other = (uint16_t)(17 - node), asked = step == 4 || step == 5 ? other : node;
        int is_up = step == 0 || step == 3 || step == 5 || step == 7;
        ChiSeen seen = {.number = (uint64_t)place + 1, .opcode = OPCODES[step], .source = is_up ? asked : 64,
            .target = is_up ? 64 : asked, .txn = 5, .dbid = 5, .has_dbid = 1, .address = 64 * (uint64_t)(round % 4),
            .allow_retry = step == 0, .credit = 1, .mask = 255, .resp = step == 6 ? CHI_Resp_UC : CHI_Resp_I};
        HOLDS(chi_observer_take(&observer, &seen) == CHI_OK);
    }
    HOLDS(chi_observer_counts(&observer, &counts) == CHI_OK && counts.flits == 80000 && counts.ids == 0 && counts.lines == 4);
    HOLDS(granted == 0);
    granted = -1;
    HOLDS(chi_observer_close(&observer) == CHI_OK);
}

/* Opens an observer, gives it a flit and a fault, and asks for its text: with one allocation refused, the opening or the text
 * is answered so; a flit takes no memory. */
static int observer_allocations(void) {
    static const ChiObserverConfig ROOM = {.lines = 4, .ids = 4, .accounts = 4, .requesters = 2, .homes = 1};
    static const ChiSeen REQUEST = {.opcode = CHI_Op_ReadShared, .number = 1, .source = 8, .target = 64, .allow_retry = 1};
    for (int count = 0;; count++) {
        ChiObserver observer = {0};
        ChiSeen wrong = REQUEST;
        uint8_t bytes[512];
        size_t length = 0;
        wrong.number = 2;
        granted = count;
        uint8_t opened = chi_observer_open(&observer, &ROOM);
        int left = granted;
        if (opened == CHI_OK) {
            HOLDS(chi_observer_take(&observer, &REQUEST) == CHI_OK && chi_observer_take(&observer, &wrong) == CHI_Fault);
            HOLDS(granted == left);
        }
        uint8_t answer = chi_observer_text(&observer, bytes, sizeof bytes, &length);
        int spent = granted < 0;
        granted = -1;
        HOLDS(opened == CHI_OK || (opened == CHI_NoMemory && answer == CHI_Closed && observer.at == NULL));
        HOLDS((opened == CHI_NoMemory || answer == CHI_NoMemory) == spent && (length > 0) == !spent);
        if (opened == CHI_OK) HOLDS(chi_observer_text(&observer, bytes, sizeof bytes, &length) == CHI_OK && length > 0);
        HOLDS(chi_observer_close(&observer) == (opened == CHI_OK ? CHI_OK : CHI_Closed));
        if (!spent) return count;
    }
}

/* The observer that the other handle holds stays where its copy is refused, and is closed where it isn't; flits that a copy is
 * given take no memory. */
static int observer_copy_allocations(void) {
    static const ChiObserverConfig ROOM = {.lines = 4, .ids = 4, .accounts = 4, .requesters = 2, .homes = 1};
    static const ChiSeen REQUEST = {.opcode = CHI_Op_ReadShared, .number = 1, .source = 8, .target = 64, .allow_retry = 1};
    ChiObserver from = {0};
    ChiObserverCounts counts;
    HOLDS(chi_observer_open(&from, &ROOM) == CHI_OK && chi_observer_take(&from, &REQUEST) == CHI_OK);
    for (int count = 0;; count++) {
        ChiObserver to = {0};
        ChiSeen next = REQUEST;
        HOLDS(chi_observer_open(&to, &ROOM) == CHI_OK);
        void *at = to.at;
        granted = count;
        uint8_t answer = chi_observer_copy(&to, &from);
        int spent = granted < 0, left = granted;
        for (uint16_t line = 1; line < 4 && !spent; line++) {
            next.number = next.txn = line + 1;
            next.address = 64 * line;
            HOLDS(chi_observer_take(&to, &next) == CHI_OK && granted == left);
        }
        granted = -1;
        HOLDS(answer == (spent ? CHI_NoMemory : CHI_OK) && (to.at == at) == spent && from.at != NULL);
        HOLDS(chi_observer_counts(&to, &counts) == CHI_OK && counts.lines == (spent ? 0 : 4));
        HOLDS(chi_observer_counts(&from, &counts) == CHI_OK && counts.lines == 1);
        HOLDS(chi_observer_close(&to) == (spent ? CHI_NothingJudged : CHI_OK));
        if (spent) continue;
        HOLDS(chi_observer_close(&from) == CHI_OK);
        return count;
    }
}

/* Gives a monitor a read, and asks for its explanation: with one allocation refused, what asked for it is answered so. */
static int monitor_allocations(void) {
    static const ChiSent READ[] = {{.flit = {.message = CHI_Request, .kind = CHI_ReadUnique, .allow_retry = 1}},
        {.flit = {.message = CHI_CompData_UC, .words = {7}}}, {.flit = {.message = CHI_CompAck}}};
    for (int count = 0;; count++) {
        ChiMonitor monitor = {0};
        ChiFault fault;
        granted = count;
        uint8_t answer = chi_monitor_open(&monitor, 0, 2, 2, 8), opened = answer;
        for (int place = 0; place < 3 && answer == CHI_OK; place++) answer = chi_monitor_flit(&monitor, 1, &READ[place]);
        uint8_t taken = answer;
        if (answer == CHI_OK) answer = chi_monitor_explain(&monitor, 1);
        int spent = granted < 0;
        granted = -1;
        HOLDS(answer == (spent ? CHI_NoMemory : CHI_OK));
        if (opened == CHI_OK && taken == CHI_NoMemory) {
            HOLDS(chi_monitor_fault(&monitor, &fault) == CHI_OK && fault.reason == CHI_MemoryRanOut);
            HOLDS(chi_monitor_flit(&monitor, 0, &READ[0]) == CHI_NoMemory);
        }
        if (taken == CHI_OK) HOLDS(chi_monitor_explain(&monitor, 1) == CHI_OK);
        HOLDS(chi_monitor_close(&monitor) == (opened == CHI_OK ? CHI_OK : CHI_Closed));
        if (!spent) return count;
    }
}

/* The slice that the other handle holds stays where its copy is refused, and is closed where it isn't. */
static int copy_allocations(void) {
    ChiSlice from = {0};
    ChiAction issue = {.line = 1, .step = CHI_Issue, .kind = CHI_ReadShared};
    ChiEffect effect;
    HOLDS(chi_slice_open(&from, &SIZES, 1) == CHI_OK && chi_slice_act(&from, &issue, &effect) == CHI_OK);
    for (int count = 0;; count++) {
        ChiSlice to = {0};
        ChiLine shown;
        uint8_t equal = 2;
        HOLDS(chi_slice_open(&to, &SIZES, 0) == CHI_OK);
        void *at = to.at;
        granted = count;
        uint8_t answer = chi_slice_copy(&to, &from);
        int spent = granted < 0;
        granted = -1;
        HOLDS(answer == (spent ? CHI_NoMemory : CHI_OK) && (to.at == at) == spent && from.at != NULL);
        HOLDS(chi_slice_equal(&from, &to, &equal) == CHI_OK && equal == !spent);
        HOLDS(chi_slice_show(&to, 0, &shown) == (spent ? CHI_OK : CHI_OutOfRange));
        HOLDS(chi_slice_close(&to) == CHI_OK);
        if (spent) continue;
        HOLDS(chi_slice_close(&from) == CHI_OK);
        return count;
    }
}

static void copy_answers(void) {
    ChiSlice closed = {0}, slice = {0}, to = {0};
    ChiNode node = {0};
    ChiAudit audit;
    uint8_t equal = 2;
    HOLDS(chi_node_slice(&to, &node, 0) == CHI_Closed && to.at == NULL && node.at == NULL);
    HOLDS(chi_node_slice_equal(&node, 0, &to, &equal) == CHI_Closed && equal == 0);
    HOLDS(chi_slice_audit(&closed, &audit) == CHI_Closed && audit.loads == 0 && audit.stores == 0 && audit.coherent == 0);
    equal = 2;
    HOLDS(chi_slice_copy(&to, &closed) == CHI_Closed && to.at == NULL && closed.at == NULL);
    HOLDS(chi_slice_open(&slice, &SIZES, 1) == CHI_OK);
    void *at = slice.at;
    HOLDS(chi_slice_copy(&slice, &closed) == CHI_Closed && slice.at == at && closed.at == NULL);
    HOLDS(chi_slice_equal(&slice, &closed, &equal) == CHI_Closed && equal == 0);
    equal = 2;
    HOLDS(chi_slice_equal(&closed, &slice, &equal) == CHI_Closed && equal == 0);
    equal = 2;
    HOLDS(chi_slice_equal(&closed, &to, &equal) == CHI_Closed && equal == 0);
    HOLDS(chi_slice_copy(&to, &slice) == CHI_OK && to.at != NULL && to.at != at && slice.at == at);
    HOLDS(chi_slice_equal(&to, &slice, &equal) == CHI_OK && equal == 1 && slice.at == at);
    HOLDS(chi_slice_close(&slice) == CHI_OK && chi_slice_close(&to) == CHI_OK);
}

/* What was written stays where memory runs out, and a handle that is to be opened stays closed. */
static void saved_allocations(void) {
    static uint8_t bytes[8192];
    ChiSlice from = {0};
    size_t length = 0, told = 1;
    HOLDS(chi_slice_open(&from, &SIZES, 1) == CHI_OK && chi_slice_save(&from, bytes, sizeof bytes, &length) == CHI_OK);
    for (int count = 0, spent = 1; spent; count++) {
        uint8_t again[sizeof bytes] = {0};
        granted = count;
        uint8_t answer = chi_slice_save(&from, again, sizeof again, &told);
        spent = granted < 0;
        granted = -1;
        HOLDS(answer == (spent ? CHI_NoMemory : CHI_OK) && told == (spent ? 0 : length));
        HOLDS(spent ? is_blank(again, sizeof again) : memcmp(again, bytes, sizeof bytes) == 0);
    }
    for (int count = 0, spent = 1; spent; count++) {
        ChiSlice to = {0};
        granted = count;
        uint8_t answer = chi_slice_load(&to, &SIZES, 1, bytes, length);
        spent = granted < 0;
        granted = -1;
        HOLDS(answer == (spent ? CHI_NoMemory : CHI_OK) && (to.at == NULL) == spent);
        HOLDS(chi_slice_close(&to) == (spent ? CHI_Closed : CHI_OK));
    }
    HOLDS(chi_slice_close(&from) == CHI_OK);
    HOLDS(chi_slice_save(&from, bytes, sizeof bytes, &told) == CHI_Closed && told == 0);
}

static void slice_answers(void) {
    ChiSlice slice = {0};
    ChiAction load = {.step = CHI_Load};
    ChiEffect effect;
    ChiLine shown, same;
    ChiFlits flits;
    ChiRecord entry;
    ChiSent sent[CHI_MostSent], taken;
    ChiAction enabled[CHI_MostEnabled];
    uint8_t count = 255;
    ChiConfig wrong = SIZES;
    HOLDS(chi_slice_act(&slice, &load, &effect) == CHI_Closed);
    memset(&taken, 0, sizeof taken);
    HOLDS(chi_slice_step(&slice, &load, &effect, sent, &count, &taken) == CHI_Closed && count == 0);
    HOLDS(is_blank(&taken, sizeof taken));
    count = 255;
    HOLDS(chi_slice_enabled(&slice, 0, 0, enabled, &count) == CHI_Closed && count == 0);
    HOLDS(chi_slice_refusal(&slice, &load) == CHI_Closed && chi_slice_show(&slice, 0, &shown) == CHI_Closed);
    HOLDS(chi_slice_flits(&slice, 0, 0, &flits) == CHI_Closed && chi_slice_journal(&slice, 0, &entry) == CHI_Closed);
    HOLDS(chi_slice_close(&slice) == CHI_Closed && slice.at == NULL);
    wrong.profile = 2;
    HOLDS(chi_slice_open(&slice, &wrong, 0) == CHI_OutOfRange && slice.at == NULL);
    wrong.profile = CHI_Two;
    wrong.entries[3] = 1;
    HOLDS(chi_slice_open(&slice, &wrong, 0) == CHI_OutOfRange);
    HOLDS(chi_slice_open(&slice, &SIZES, 2) == CHI_OutOfRange);
    HOLDS(chi_slice_open(&slice, &SIZES, 1) == CHI_OK);
    void *at = slice.at;
    HOLDS(chi_slice_open(&slice, &SIZES, 0) == CHI_AlreadyOpen && slice.at == at);
    HOLDS(chi_slice_show(&slice, 1, &shown) == CHI_OK && shown.owner == CHI_Nobody);
    ChiAction actions[] = {{.line = 1, .step = 17}, {.line = 1, .step = CHI_Issue, .kind = 8}, {.line = 0, .step = CHI_Load},
        {.agent = 2, .line = 1, .step = CHI_Load}, {.line = 1, .step = CHI_Load, .word = 8}};
    for (size_t place = 0; place < sizeof actions / sizeof *actions; place++) {
        memset(&effect, 255, sizeof effect);
        HOLDS(chi_slice_act(&slice, &actions[place], &effect) == CHI_OutOfRange);
        HOLDS(effect.effect == CHI_Nothing && effect.slot == 0 && effect.value == 0);
        memset(&taken, 255, sizeof taken);
        HOLDS(chi_slice_step(&slice, &actions[place], &effect, sent, &count, &taken) == CHI_OutOfRange && count == 0);
        HOLDS(taken.flit.message == CHI_NoMessage && taken.flit.words[7] == 0);
        HOLDS(chi_slice_show(&slice, 1, &same) == CHI_OK && memcmp(shown.copies, same.copies, sizeof same.copies) == 0);
    }
    memset(&shown, 0, sizeof shown);
    HOLDS(chi_slice_show(&slice, 0, &shown) == CHI_OutOfRange && is_blank(&shown, sizeof shown));
    HOLDS(chi_slice_journal(&slice, 0, &entry) == CHI_OutOfRange);
    HOLDS(chi_slice_enabled(&slice, 0, 0, enabled, &count) == CHI_OutOfRange && count == 0);
    HOLDS(chi_slice_enabled(&slice, 2, 1, enabled, &count) == CHI_OutOfRange && count == 0);
    HOLDS(chi_slice_enabled(&slice, 1, 1, enabled, &count) == CHI_OK && count == 3 && enabled[2].kind == CHI_ReadUnique);
    HOLDS(chi_slice_close(&slice) == CHI_OK && slice.at == NULL && chi_slice_close(&slice) == CHI_Closed);
}

static void node_answers(void) {
    ChiNode node = {0};
    ChiAction admit = {.step = CHI_Admit};
    ChiEffect effect;
    ChiRelease release;
    ChiArrival arrival;
    ChiCredits credits;
    ChiTotals totals;
    ChiAudit audit;
    ChiFlits flits;
    ChiLine shown;
    ChiSent sent[CHI_MostSent], taken;
    uint8_t count = 255;
    HOLDS(chi_node_step(&node, &admit, &effect, &release) == CHI_Closed);
    memset(&taken, 0, sizeof taken);
    HOLDS(chi_node_step_flits(&node, &admit, &effect, &release, sent, &count, &taken) == CHI_Closed && count == 0);
    HOLDS(is_blank(&taken, sizeof taken) && effect.effect == CHI_Nothing && release.release == CHI_NotReleased);
    count = 255;
    memset(&taken, 0, sizeof taken);
    HOLDS(chi_node_arrive_flits(&node, 0, 0, &arrival, sent, &count, &taken) == CHI_Closed && count == 0);
    HOLDS(is_blank(&taken, sizeof taken) && arrival.arrival == CHI_NotArrived);
    HOLDS(chi_node_arrive(&node, 0, 0, &arrival) == CHI_Closed && chi_node_see(&node, 0, &credits) == CHI_Closed);
    HOLDS(chi_node_give_back(&node, 0, 0, &release) == CHI_Closed && chi_node_tend(&node, 0, 0, &release) == CHI_Closed);
    HOLDS(chi_node_show(&node, 0, &shown) == CHI_Closed && chi_node_flits(&node, 0, 0, &flits) == CHI_Closed);
    HOLDS(chi_node_totals(&node, &totals) == CHI_Closed && chi_node_audit(&node, &audit) == CHI_Closed);
    HOLDS(chi_node_agrees(&node) == CHI_Closed && chi_node_close(&node) == CHI_Closed && node.at == NULL);
    HOLDS(chi_node_open(&node, &SIZES) == CHI_OK);
    void *at = node.at;
    HOLDS(chi_node_open(&node, &SIZES) == CHI_AlreadyOpen && node.at == at);
    HOLDS(chi_node_step(&node, &admit, &effect, &release) == CHI_OutOfRange && effect.effect == CHI_Nothing);
    HOLDS(chi_node_tend(&node, 0, 4, &release) == CHI_OutOfRange && chi_node_tend(&node, 0, 1, &release) == CHI_OK);
    HOLDS(chi_node_give_back(&node, 0, 0, &release) == CHI_NoCredit && release.release == CHI_NotReleased);
    HOLDS(chi_node_arrive(&node, 0, 0, &arrival) == CHI_NoFlit && arrival.arrival == CHI_NotArrived);
    ChiAction actions[] = {admit, {.step = CHI_Retry}, {.step = 17}, {.step = CHI_Issue, .kind = 8}, {.line = 64, .step = CHI_Load},
        {.agent = 2, .step = CHI_Load}, {.step = CHI_Load, .word = 8}, {.step = CHI_Issue, .slot = 8}};
    for (size_t place = 0; place < sizeof actions / sizeof *actions; place++) {
        memset(&effect, 255, sizeof effect);
        memset(&taken, 255, sizeof taken);
        count = 255;
        HOLDS(chi_node_step_flits(&node, &actions[place], &effect, &release, sent, &count, &taken) == CHI_OutOfRange);
        HOLDS(count == 0 && effect.effect == CHI_Nothing && effect.slot == 0 && release.release == CHI_NotReleased);
        HOLDS(taken.flit.message == CHI_NoMessage && taken.flit.words[7] == 0);
    }
    memset(&taken, 255, sizeof taken);
    HOLDS(chi_node_arrive_flits(&node, 0, 0, &arrival, sent, &count, &taken) == CHI_NoFlit && count == 0);
    HOLDS(taken.flit.message == CHI_NoMessage && arrival.arrival == CHI_NotArrived);
    HOLDS(chi_node_arrive_flits(&node, 2, 0, &arrival, sent, &count, &taken) == CHI_OutOfRange && count == 0);
    HOLDS(chi_node_arrive_flits(&node, 0, 64, &arrival, sent, &count, &taken) == CHI_OutOfRange && count == 0);
    HOLDS(chi_node_agrees(&node) == CHI_OK && chi_node_totals(&node, &totals) == CHI_OK && totals.free[0] == 1);
    HOLDS(chi_node_audit(&node, &audit) == CHI_OK && audit.coherent == 1);
    HOLDS(chi_node_close(&node) == CHI_OK && node.at == NULL);
}

int main(void) {
    int slice = slice_allocations();
    int node = node_allocations();
    int monitor = monitor_allocations();
    int observer = observer_allocations();
    observer_without_memory();
    HOLDS(slice > 0 && node > slice && monitor > 0 && observer > 0 && copy_allocations() == slice);
    HOLDS(observer_copy_allocations() > 0);
    slice_answers();
    copy_answers();
    saved_allocations();
    node_answers();
    printf("%d allocations of a slice, %d of a node, %d of a monitor and %d of an observer, each refused in turn\n", slice, node,
           monitor, observer);
    return failures == 0 ? 0 : 1;
}
