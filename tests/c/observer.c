/* What the calls of an observer answer: opened and closed, with no room, with numbers that are none of an enum's, to a first
 * fault and behind it, and to lines that are set aside; and what they tell. */
#include "chihome.h"
#include "trace.h"

static int failures;

#define HOLDS(it) ((it) ? (void)0 : (void)(failures++, printf("%s:%d: %s\n", __FILE__, __LINE__, #it)))

static const ChiObserverConfig SIZES = {.lines = 8, .ids = 8, .accounts = 4, .requesters = 4, .homes = 2};
static uint64_t number;

/* Gives the observer a line of a trace, with the next number. */
static uint8_t take(ChiObserver *observer, const char *line) {
    ChiSeen seen;
    HOLDS(read_flit(line, ++number, &seen));
    return chi_observer_take(observer, &seen);
}

/* Gives it lines up to an empty one; the answer to the last. */
static uint8_t take_all(ChiObserver *observer, const char *const *lines) {
    uint8_t answer = CHI_OK;
    for (number = 0; *lines != NULL; lines++) {
        HOLDS(answer == CHI_OK || answer == CHI_SetAside);
        answer = take(observer, *lines);
    }
    return answer;
}

static void opened_for(ChiObserver *observer, ChiObserverConfig config) {
    HOLDS(chi_observer_open(observer, &config) == CHI_OK && observer->at != NULL);
    number = 0;
}

static void closed(void) {
    ChiObserver observer = {0};
    ChiObserverFault fault;
    ChiObserverCounts counts;
    ChiSeen seen = {.opcode = CHI_Op_ReadShared, .number = 1, .allow_retry = 1};
    uint8_t bytes[4];
    size_t length = 9;
    memset(&fault, 255, sizeof fault);
    memset(&counts, 255, sizeof counts);
    HOLDS(chi_observer_take(&observer, &seen) == CHI_Closed && chi_observer_fault(&observer, &fault) == CHI_Closed);
    HOLDS(chi_observer_counts(&observer, &counts) == CHI_Closed && chi_observer_close(&observer) == CHI_Closed);
    HOLDS(chi_observer_text(&observer, bytes, sizeof bytes, &length) == CHI_Closed && length == 0);
    HOLDS(fault.reason == 0 && fault.number == 0 && counts.flits == 0 && counts.homes == 0 && observer.at == NULL);
}

static void openings(void) {
    ChiObserverConfig wrong[16];
    ChiObserver observer = {0};
    for (size_t place = 0; place < 16; place++) wrong[place] = SIZES;
    wrong[0].lines = wrong[1].ids = wrong[2].accounts = 0;
    wrong[3].lines = wrong[4].ids = wrong[5].accounts = 16777217;
    wrong[6].requesters = wrong[7].homes = 0;
    wrong[8].requesters = 33;
    wrong[9].types = 1;
    wrong[10].types = 3;
    wrong[11].types = 5;
    wrong[12].early_grants = 2;
    wrong[13].lines = UINT32_MAX;
    wrong[14].stores = 2;
    wrong[15].stores = 255;
    for (size_t place = 0; place < 16; place++)
        HOLDS(chi_observer_open(&observer, &wrong[place]) == CHI_OutOfRange && observer.at == NULL);
    opened_for(&observer, SIZES);
    void *at = observer.at;
    HOLDS(chi_observer_open(&observer, &SIZES) == CHI_AlreadyOpen && observer.at == at);
    HOLDS(chi_observer_close(&observer) == CHI_NothingJudged && observer.at == NULL);
    opened_for(&observer, (ChiObserverConfig){.lines = 1, .ids = 1, .accounts = 1, .requesters = 1, .homes = 1, .types = 4});
    HOLDS(chi_observer_close(&observer) == CHI_NothingJudged);
}

/* Numbers of no enum, number 0 and what lacks are refused, and nothing has changed; what an opcode hasn't may be anything. */
static void numbers(void) {
    ChiObserver observer = {0};
    ChiObserverCounts counts;
    ChiSeen good = {.number = 1, .source = 8, .target = 0x40, .txn = 1, .address = 0x1040, .allow_retry = 1, .resp = 255,
        .credit = 255, .mask = 0, .dbid = 9, .opcode = CHI_Op_ReadShared};
    ChiSeen wrong[10];
    for (size_t place = 0; place < 10; place++) wrong[place] = good;
    wrong[0].opcode = CHI_Op_None;
    wrong[1].opcode = CHI_Op_WriteDataCancel + 1;
    wrong[2].number = 0;
    wrong[3].allow_retry = 0; /* with a credit type of 255 */
    wrong[4].opcode = CHI_Op_RetryAck;
    wrong[5].opcode = CHI_Op_Comp; /* with a RESP of 255 */
    wrong[6].opcode = CHI_Op_SnpResp;
    wrong[6].resp = CHI_Resp_SD_PD + 1;
    wrong[7].opcode = CHI_Op_CompDBIDResp;
    wrong[8].opcode = CHI_Op_CompData;
    wrong[8].resp = CHI_Resp_UC; /* with no word */
    wrong[9].opcode = CHI_Op_PCrdGrant;
    wrong[9].credit = 16;
    opened_for(&observer, SIZES);
    for (size_t place = 0; place < 10; place++) HOLDS(chi_observer_take(&observer, &wrong[place]) == CHI_OutOfRange);
    HOLDS(chi_observer_counts(&observer, &counts) == CHI_OK && counts.flits == 0 && counts.ids == 0 && counts.homes == 0);
    HOLDS(chi_observer_take(&observer, &good) == CHI_OK && chi_observer_counts(&observer, &counts) == CHI_OK);
    HOLDS(counts.flits == 1 && counts.lines == 1 && counts.requests == 1 && counts.requesters == 1 && counts.homes == 1);
    HOLDS(chi_observer_close(&observer) == CHI_OK);
}

/* With room for one of a thing, what needs a second one is answered so, and the observer goes on. */
static void room(void) {
    static const char *const READ[] = {"REQ 8 40 1 ReadUnique 1040 - - 1 - -", "DAT 40 8 1 CompData - UC 11 - - 0,0,0,0,0,0,0,0",
        "RSP 8 40 11 CompAck - - - - - -", NULL};
    static const char *const RETRIED[] = {"REQ 8 40 1 ReadUnique 1040 - - 1 - -", "RSP 40 8 1 RetryAck - - - - 0 -",
        "REQ 8 40 1 ReadUnique 1080 - - 1 - -", NULL};
    ChiObserverConfig small = SIZES;
    ChiObserver observer = {0};
    small.lines = small.requesters = small.homes = 1;
    opened_for(&observer, small);
    HOLDS(take_all(&observer, READ) == CHI_OK && take(&observer, "REQ 8 40 1 ReadUnique 1080 - - 1 - -") == CHI_Full);
    HOLDS(take(&observer, "REQ 9 40 1 ReadUnique 1040 - - 1 - -") == CHI_Full);
    HOLDS(take(&observer, "REQ 8 41 1 WriteBackFull 1040 - - 1 - -") == CHI_Full);
    HOLDS(take(&observer, "REQ 8 40 1 WriteBackFull 1040 - - 1 - -") == CHI_OK && chi_observer_close(&observer) == CHI_OK);
    small = SIZES;
    small.ids = 1;
    opened_for(&observer, small);
    HOLDS(take_all(&observer, READ) == CHI_OK && take(&observer, "REQ 8 40 1 ReadUnique 1080 - - 1 - -") == CHI_OK);
    HOLDS(take(&observer, "REQ 8 40 2 ReadUnique 10c0 - - 1 - -") == CHI_Full);
    HOLDS(take(&observer, "DAT 40 8 1 CompData - UC 11 - - 0,0,0,0,0,0,0,0") == CHI_OK);
    /* (so too where its line wouldn't take it, but not where ids don't allow it) */
    HOLDS(take(&observer, "SNP 40 8 5 SnpUnique 1080 - - - - -") == CHI_Full);
    HOLDS(take(&observer, "RSP 8 40 12 CompAck - - - - - -") == CHI_Fault && chi_observer_close(&observer) == CHI_OK);
    small = SIZES;
    small.accounts = 1;
    opened_for(&observer, small);
    HOLDS(take_all(&observer, RETRIED) == CHI_OK && take(&observer, "RSP 40 8 1 RetryAck - - - - 1 -") == CHI_Full);
    HOLDS(take(&observer, "RSP 40 8 1 RetryAck - - - - 0 -") == CHI_OK && chi_observer_close(&observer) == CHI_OK);
}

/* What the observer holds behind a beat of data, a retry, a grant and a snoop. */
static void told(void) {
    static const char *const LINES[] = {"REQ 8 40 1 ReadUnique 1040 - - 1 - -", "DAT 40 8 1 CompData - UC 11 - - 5,0,0,0,x,x,x,x",
        "REQ 9 40 2 ReadShared 1080 - - 1 - -", "RSP 40 9 2 RetryAck - - - - 3 -", "RSP 40 9 - PCrdGrant - - - - 3 -",
        "REQ a 40 1 ReadShared 10c0 - - 1 - -", "SNP 40 9 7 SnpShared 10ff - - - - -", NULL};
    ChiObserver observer = {0};
    ChiObserverCounts counts;
    ChiObserverFault fault;
    opened_for(&observer, SIZES);
    HOLDS(take_all(&observer, LINES) == CHI_OK && chi_observer_counts(&observer, &counts) == CHI_OK);
    HOLDS(counts.flits == 7 && counts.accesses == 0 && counts.lines == 3 && counts.aside == 0);
    HOLDS(counts.ids == 5 && counts.requests == 2 && counts.completions == 1 && counts.snoops == 1 && counts.retried == 1);
    HOLDS(counts.accounts == 1 && counts.unsettled == 1 && counts.requesters == 3 && counts.homes == 1);
    HOLDS(chi_observer_fault(&observer, &fault) == CHI_OK && fault.reason == CHI_Fault_None && fault.number == 0);
    HOLDS(chi_observer_close(&observer) == CHI_OK);
}

/* A sharer that is forgotten: the first fault stays, and each flit behind it is answered so. */
static void forgotten(void) {
    static const char *const LINES[] = {"REQ 8 40 1 ReadShared 1040 - - 1 - -", "DAT 40 8 1 CompData - SC 11 - - 0,0,0,0,0,0,0,0",
        "RSP 8 40 11 CompAck - - - - - -", "REQ 9 40 2 ReadShared 1040 - - 1 - -",
        "DAT 40 9 2 CompData - SC 12 - - 0,0,0,0,0,0,0,0", "RSP 9 40 12 CompAck - - - - - -",
        "REQ 8 40 3 CleanUnique 1048 - - 1 - -", "RSP 40 8 3 Comp - UC 13 - - -", NULL};
    static const char TEXT[] = "line 8: Comp_UC to node 8 at 1040: the copy of node 9 was last told to be SC, by line 5; allowed: "
        "RetryAck, SnpOnce, SnpClean, SnpShared, SnpNotSharedDirty, SnpCleanShared, SnpUnique, SnpCleanInvalid";
    ChiObserver observer = {0};
    ChiObserverFault fault, later;
    ChiObserverCounts counts;
    uint8_t bytes[1024];
    size_t length;
    opened_for(&observer, SIZES);
    HOLDS(chi_observer_text(&observer, bytes, 0, &length) == CHI_OK && length == 0);
    HOLDS(take_all(&observer, LINES) == CHI_Fault && chi_observer_fault(&observer, &fault) == CHI_OK);
    HOLDS(fault.reason == CHI_Fault_OtherCopy && fault.number == 8 && fault.node == 8);
    HOLDS(fault.has_line == 1 && fault.line == 0x1040);
    HOLDS(take(&observer, "REQ 8 40 1 ReadShared 1080 - - 1 - -") == CHI_Fault && take(&observer, LINES[0]) == CHI_Fault);
    HOLDS(chi_observer_fault(&observer, &later) == CHI_OK && later.number == 8 && later.reason == fault.reason);
    HOLDS(chi_observer_counts(&observer, &counts) == CHI_OK && counts.flits == 7 && counts.requests == 1);
    memset(bytes, 165, sizeof bytes);
    HOLDS(chi_observer_text(&observer, bytes, sizeof TEXT - 2, &length) == CHI_JournalFull && length == sizeof TEXT - 1);
    HOLDS(bytes[0] == 165 && chi_observer_text(&observer, bytes, length, &length) == CHI_OK && length == sizeof TEXT - 1);
    HOLDS(memcmp(bytes, TEXT, length) == 0 && bytes[length] == 165 && chi_observer_close(&observer) == CHI_OK);
}

/* A fault of one flit more than some that are taken. */
static ChiObserverFault fault_of(const char *const *lines, uint8_t types) {
    ChiObserver observer = {0};
    ChiObserverFault fault;
    ChiObserverConfig config = SIZES;
    config.types = types;
    opened_for(&observer, config);
    HOLDS(take_all(&observer, lines) == CHI_Fault && chi_observer_fault(&observer, &fault) == CHI_OK);
    HOLDS(fault.number == number && chi_observer_close(&observer) == CHI_OK);
    return fault;
}

static void faults(void) {
    static const char *const WORDS[] = {"REQ 8 40 1 ReadUnique 1040 - - 1 - -", "DAT 40 8 1 CompData - UC 11 - - 5,0,0,0,0,0,0,7",
        "RSP 8 40 11 CompAck - - - - - -", "REQ 9 40 1 ReadUnique 1040 - - 1 - -", "SNP 40 8 5 SnpUnique 1040 - - - - -",
        "DAT 8 40 5 SnpRespData - I_PD - - - 6,0,0,0,0,0,0,9", "DAT 40 9 1 CompData - UD_PD 11 - - 6,0,0,0,0,0,0,7", NULL};
    static const char *const IN_USE[] = {"REQ 8 40 1 ReadUnique 1040 - - 1 - -", "REQ 8 40 1 ReadUnique 1080 - - 1 - -", NULL};
    static const char *const NOT_OPEN[] = {"REQ 8 40 1 ReadUnique 1040 - - 1 - -", "RSP 8 40 2 CompAck - - - - - -", NULL};
    static const char *const TYPE[] = {"REQ 8 40 1 ReadUnique 1040 - - 1 - -", "RSP 40 8 1 RetryAck - - - - 1 -", NULL};
    static const char *const FORM[] = {"REQ 8 40 1 ReadUnique 1040 - - 1 - -", "SNP 40 9 5 SnpUnique 1040 - - - - -",
        "RSP 9 40 5 SnpResp - SD - - - -", NULL};
    static const char *const HOME[] = {"REQ 8 40 1 ReadUnique 1040 - - 1 - -", "SNP 41 9 5 SnpUnique 1040 - - - - -", NULL};
    ChiObserverFault fault = fault_of(WORDS, 0);
    HOLDS(fault.reason == CHI_Fault_OtherWords && fault.node == 9 && fault.has_line == 1 && fault.line == 0x1040);
    fault = fault_of(IN_USE, 0);
    HOLDS(fault.reason == CHI_Fault_InUse && fault.node == 8 && fault.has_line == 1 && fault.line == 0x1080);
    fault = fault_of(NOT_OPEN, 0);
    HOLDS(fault.reason == CHI_Fault_NotOpen && fault.node == 8 && fault.has_line == 0 && fault.line == 0);
    fault = fault_of(TYPE, 4);
    HOLDS(fault.reason == CHI_Fault_OtherType && fault.node == 8);
    fault = fault_of(FORM, 0);
    HOLDS(fault.reason == CHI_Fault_Form && fault.node == 9);
    fault = fault_of(HOME, 0);
    HOLDS(fault.reason == CHI_Fault_OtherHome && fault.node == 9 && fault.line == 0x1040);
}

/* A clean copy whose owner answers with dirty data has stored before, unseen: where stores are listed it hasn't. */
static void stores(void) {
    static const char *const READ[] = {"REQ 8 40 1 ReadUnique 1040 - - 1 - -", "DAT 40 8 1 CompData - UC 11 - - 0,0,0,0,0,0,0,0",
        "RSP 8 40 11 CompAck - - - - - -", "REQ 9 40 1 ReadUnique 1040 - - 1 - -", NULL};
    static const char *const SNOOP = "SNP 40 8 5 SnpUnique 1040 - - - - -", *const STORE = "CPU 8 - - Store 1048 - - - - 7";
    static const char *const DIRTY = "DAT 8 40 5 SnpRespData - I_PD - - - 0,7,0,0,0,0,0,0";
    for (uint8_t listed = CHI_Stores_Hidden; listed <= CHI_Stores_Listed; listed++)
        for (int told = 0; told < 2; told++) {
            ChiObserverConfig config = SIZES;
            ChiObserver observer = {0};
            ChiObserverFault fault;
            int taken = listed == CHI_Stores_Hidden || told;
            config.stores = listed;
            opened_for(&observer, config);
            HOLDS(take_all(&observer, READ) == CHI_OK && (!told || take(&observer, STORE) == CHI_OK));
            HOLDS(take(&observer, SNOOP) == CHI_OK && take(&observer, DIRTY) == (taken ? CHI_OK : CHI_Fault));
            HOLDS(chi_observer_fault(&observer, &fault) == CHI_OK);
            HOLDS(fault.reason == (taken ? CHI_Fault_None : CHI_Fault_NotSent) && chi_observer_close(&observer) == CHI_OK);
        }
}

/* What isn't judged, as text. */
static int is_unjudged(ChiObserver *observer, const char *text) {
    uint8_t bytes[1024];
    size_t length = 1;
    HOLDS(chi_observer_unjudged_text(observer, bytes, sizeof bytes, &length) == CHI_OK);
    return length == strlen(text) && memcmp(bytes, text, length) == 0;
}

/* A line with a flit that isn't judged is set aside, and other lines go on to be judged. */
static void aside(void) {
    static const char *const LINES[] = {"REQ 8 40 1 ReadUnique 1040 - - 1 - -", "DAT 40 8 1 CompData - UC 11 - - 0,0,0,0,0,0,0,0",
        "RSP 8 40 11 CompAck - - - - - -", "REQ 9 40 1 AtomicLoad 1040 - - 1 - -", NULL};
    static const char TEXT[] = "not judged: 3 of 7 flits, on 1 of 2 cache lines\n"
        "AtomicLoad: 1 cache lines, the first 1040 by trace line 4\nnot judged: 1 of 1 loads and stores\n";
    ChiObserver observer = {0};
    ChiObserverCounts counts;
    ChiUnjudged unjudged;
    uint8_t bytes[4];
    size_t length;
    opened_for(&observer, SIZES);
    HOLDS(is_unjudged(&observer, "") && take_all(&observer, LINES) == CHI_SetAside);
    HOLDS(chi_observer_counts(&observer, &counts) == CHI_OK);
    HOLDS(counts.aside == 1 && counts.requests == 0);
    HOLDS(take(&observer, "REQ 9 40 2 ReadUnique 1040 - - 1 - -") == CHI_SetAside);
    HOLDS(take(&observer, "DAT 40 9 2 CompData - UC 11 - - 0,0,0,0,0,0,0,0") == CHI_SetAside);
    HOLDS(take(&observer, "CPU 9 - - Load 1040 - - - - 5") == CHI_SetAside);
    HOLDS(take(&observer, "REQ 8 40 2 ReadUnique 1080 - - 1 - -") == CHI_OK);
    HOLDS(chi_observer_counts(&observer, &counts) == CHI_OK && counts.aside == 1 && counts.lines == 2 && counts.accesses == 1);
    HOLDS(take(&observer, "DAT 40 8 2 CompData - SC 12 - - 0,0,0,0,0,0,0,0") == CHI_Fault);
    HOLDS(chi_observer_unjudged(&observer, &unjudged) == CHI_OK && unjudged.flits == 3 && unjudged.of_flits == 7);
    HOLDS(unjudged.lines == 1 && unjudged.of_lines == 2 && unjudged.accesses == 1 && unjudged.of_accesses == 1);
    HOLDS(is_unjudged(&observer, TEXT));
    HOLDS(chi_observer_unjudged_text(&observer, bytes, sizeof bytes, &length) == CHI_JournalFull && length == strlen(TEXT));
    HOLDS(chi_observer_close(&observer) == CHI_PartlyJudged && observer.at == NULL);
    /* of one line, set aside by its first flit, nothing is judged */
    opened_for(&observer, SIZES);
    HOLDS(take(&observer, LINES[3]) == CHI_SetAside && chi_observer_close(&observer) == CHI_NothingJudged);
    HOLDS(chi_observer_unjudged(&observer, &unjudged) == CHI_Closed && unjudged.of_flits == 0);
    HOLDS(chi_observer_unjudged_text(&observer, bytes, sizeof bytes, &length) == CHI_Closed && length == 0);
}

/* A copy is the same, and each goes on by itself: what one takes, the other hasn't; a fault and a line that is set aside are
 * copied too. What the other handle held is closed, but stays where nothing is copied. */
static void copies(void) {
    static const char *const LINES[] = {"REQ 8 40 1 ReadUnique 1040 - - 1 - -", "REQ 8 40 2 ReadShared 10c0 - - 1 - -",
        "RSP 40 8 2 RetryAck - - - - 0 -", "REQ 9 40 1 AtomicLoad 1080 - - 1 - -", NULL};
    ChiObserver from = {0}, to = {0}, closed_one = {0};
    ChiObserverCounts counts, copied;
    ChiObserverFault fault;
    HOLDS(chi_observer_copy(&to, &closed_one) == CHI_Closed && to.at == NULL && closed_one.at == NULL);
    opened_for(&from, SIZES);
    HOLDS(take_all(&from, LINES) == CHI_SetAside && chi_observer_counts(&from, &counts) == CHI_OK);
    void *at = from.at;
    HOLDS(chi_observer_copy(&from, &closed_one) == CHI_Closed && from.at == at);
    HOLDS(chi_observer_open(&to, &SIZES) == CHI_OK && chi_observer_copy(&to, &from) == CHI_OK && from.at == at);
    HOLDS(to.at != NULL && to.at != at && chi_observer_counts(&to, &copied) == CHI_OK);
    HOLDS(memcmp(&counts, &copied, sizeof counts) == 0 && copied.aside == 1 && copied.retried == 1 && copied.requests == 1);
    HOLDS(take(&to, "DAT 40 8 1 CompData - UC 11 - - 0,0,0,0,0,0,0,0") == CHI_OK);
    HOLDS(take(&to, "DAT 40 8 1 CompData - UC 11 - - 0,0,0,0,0,0,0,0") == CHI_Fault);
    HOLDS(chi_observer_counts(&from, &copied) == CHI_OK && copied.requests == 1);
    HOLDS(chi_observer_fault(&from, &fault) == CHI_OK && fault.reason == 0);
    HOLDS(chi_observer_copy(&from, &to) == CHI_OK && chi_observer_fault(&from, &fault) == CHI_OK);
    HOLDS(fault.reason == CHI_Fault_NotOpen && chi_observer_close(&to) == CHI_PartlyJudged);
    HOLDS(chi_observer_fault(&from, &fault) == CHI_OK && fault.reason == CHI_Fault_NotOpen);
    HOLDS(chi_observer_close(&from) == CHI_PartlyJudged);
}

int main(void) {
    closed();
    openings();
    numbers();
    room();
    told();
    forgotten();
    faults();
    stores();
    aside();
    copies();
    return failures == 0 ? 0 : 1;
}
