/* What chihome_pkg.sv calls: the calls of chihome.h with a handle as a chandle, and structs as single numbers. Bytes
 * by agent, by channel or by place are packed into one number of 64 bits, the first in the lowest byte; flags by agent
 * are bits. The eight words of a line are 512 bits, the first in the lowest.
 */
#include "chihome.h"

#include <stdlib.h>

typedef uint8_t u8;
typedef uint16_t u16;
typedef uint32_t u32;
typedef unsigned long long u64;

/* A null chandle is a closed handle. */
#define SLICE(handle) ((handle) == NULL ? &(ChiSlice){0} : (ChiSlice *)(handle))
#define MONITOR(handle) ((handle) == NULL ? &(ChiMonitor){0} : (ChiMonitor *)(handle))
#define NODE(handle) ((handle) == NULL ? &(ChiNode){0} : (ChiNode *)(handle))
#define OBSERVER(handle) ((handle) == NULL ? &(ChiObserver){0} : (ChiObserver *)(handle))

static ChiConfig sizes(u8 agents, u8 lines, u8 slices, u8 profile, u64 entries, u32 journal) {
    ChiConfig config = {.agents = agents, .lines = lines, .slices = slices, .profile = profile, .journal = journal};
    for (int type = 0; type < 4; type++) config.entries[type] = (uint16_t)(entries >> 16 * type);
    return config;
}

static u64 flags(const uint8_t *each) {
    u64 bits = 0;
    for (int agent = 0; agent < 8; agent++) bits |= (u64)(each[agent] != 0) << agent;
    return bits;
}

static void tell_line(const ChiLine *line, u64 *states, u8 *named, u8 *unique, u8 *serving, u8 *served, u8 *waiting) {
    uint8_t waits[8];
    *states = 0;
    for (int agent = 0; agent < 8; agent++) {
        *states |= (u64)line->copies[agent].state << 8 * agent;
        waits[agent] = line->waiting[agent].phase;
    }
    *named = (u8)flags(line->named);
    *unique = line->unique;
    *serving = line->serving.form;
    *served = line->serving.agent;
    *waiting = (u8)flags(waits);
}

static u64 tell_messages(const ChiFlits *flits) {
    u64 messages = 0;
    for (int channel = 0; channel < 6; channel++) messages |= (u64)flits->channels[channel].message << 8 * channel;
    return messages;
}

/* A vector of 512 bits of SystemVerilog is sixteen numbers of 32, the lowest first. */
static void tell_words(const uint64_t *words, u32 *data) {
    for (int word = 0; word < 8; word++) {
        data[2 * word] = (u32)words[word];
        data[2 * word + 1] = (u32)(words[word] >> 32);
    }
}

/* And the other way round. */
static void words_in(const u32 *data, uint64_t *words) {
    for (int word = 0; word < 8; word++) words[word] = (uint64_t)data[2 * word + 1] << 32 | data[2 * word];
}

static void tell_flit(const ChiFlit *flit, u8 *message, u8 *kind, u8 *slot, u8 *allow_retry, u8 *credit, u32 *data) {
    *message = flit->message;
    *kind = flit->kind;
    *slot = flit->slot;
    *allow_retry = flit->allow_retry;
    *credit = flit->credit;
    tell_words(flit->words, data);
}

static void tell_request(const ChiRequest *request, u8 *phase, u8 *kind, u8 *slot) {
    *phase = request->phase;
    *kind = request->kind;
    *slot = request->slot;
}

static void tell_home(const ChiLine *line, u32 *memory, u32 *last, u8 *owner, u8 *awaited, u8 *kind, u8 *slot) {
    tell_words(line->memory, memory);
    tell_words(line->last, last);
    *owner = line->owner;
    *awaited = (u8)flags(line->awaited);
    *kind = line->serving.kind;
    *slot = line->serving.slot;
}

void *chi_dpi_slice_open(u8 agents, u8 lines, u8 slices, u8 profile, u64 entries, u32 journal, u8 index, u8 *answer) {
    ChiConfig config = sizes(agents, lines, slices, profile, entries, journal);
    ChiSlice *slice = calloc(1, sizeof *slice);
    *answer = slice == NULL ? CHI_NoMemory : chi_slice_open(slice, &config, index);
    if (*answer == CHI_OK) return slice;
    free(slice);
    return NULL;
}

static ChiAction action_of(u8 agent, u8 line, u8 step, u8 kind, u8 slot, u8 word, u64 value) {
    return (ChiAction){.agent = agent, .line = line, .step = step, .kind = kind, .slot = slot, .word = word, .value = value};
}

u8 chi_dpi_slice_act(void *slice, u8 agent, u8 line, u8 step, u8 kind, u8 slot, u8 word, u64 value, u8 *effect,
                     u8 *completed, u64 *loaded) {
    ChiAction action = action_of(agent, line, step, kind, slot, word, value);
    ChiEffect told;
    u8 answer = chi_slice_act(SLICE(slice), &action, &told);
    *effect = told.effect;
    *completed = told.slot;
    *loaded = told.value;
    return answer;
}

u8 chi_dpi_slice_refusal(void *slice, u8 agent, u8 line, u8 step, u8 kind, u8 slot, u8 word, u64 value) {
    ChiAction action = action_of(agent, line, step, kind, slot, word, value);
    return chi_slice_refusal(SLICE(slice), &action);
}

u8 chi_dpi_slice_show(void *slice, u8 line, u64 *states, u8 *named, u8 *unique, u8 *serving, u8 *served, u8 *waiting) {
    ChiLine shown;
    u8 answer = chi_slice_show(SLICE(slice), line, &shown);
    tell_line(&shown, states, named, unique, serving, served, waiting);
    return answer;
}

u8 chi_dpi_slice_flits(void *slice, u8 agent, u8 line, u64 *messages) {
    ChiFlits flits;
    u8 answer = chi_slice_flits(SLICE(slice), agent, line, &flits);
    *messages = tell_messages(&flits);
    return answer;
}

u8 chi_dpi_slice_flit(void *slice, u8 agent, u8 line, u8 channel, u8 *message, u8 *kind, u8 *slot, u8 *allow_retry,
                      u8 *credit, u32 *data) {
    static const ChiFlit NONE;
    ChiFlits flits;
    u8 answer = chi_slice_flits(SLICE(slice), agent, line, &flits);
    if (answer == CHI_OK && channel > CHI_DatUp) answer = CHI_OutOfRange;
    tell_flit(answer == CHI_OK ? &flits.channels[channel] : &NONE, message, kind, slot, allow_retry, credit, data);
    return answer;
}

u8 chi_dpi_slice_home(void *slice, u8 line, u32 *memory, u32 *last, u8 *owner, u8 *awaited, u8 *kind, u8 *slot) {
    ChiLine shown;
    u8 answer = chi_slice_show(SLICE(slice), line, &shown);
    tell_home(&shown, memory, last, owner, awaited, kind, slot);
    return answer;
}

u8 chi_dpi_slice_copy_of(void *slice, u8 agent, u8 line, u8 *state, u32 *data) {
    static const ChiCopy NONE;
    ChiLine shown;
    u8 answer = chi_slice_show(SLICE(slice), line, &shown);
    if (answer == CHI_OK && agent > 7) answer = CHI_OutOfRange;
    const ChiCopy *copy = answer == CHI_OK ? &shown.copies[agent] : &NONE;
    *state = copy->state;
    tell_words(copy->words, data);
    return answer;
}

u8 chi_dpi_slice_requests(void *slice, u8 agent, u8 line, u8 *pending, u8 *pending_kind, u8 *pending_slot, u8 *waiting,
                          u8 *waiting_kind, u8 *waiting_slot) {
    static const ChiRequest NONE;
    ChiLine shown;
    u8 answer = chi_slice_show(SLICE(slice), line, &shown);
    if (answer == CHI_OK && agent > 7) answer = CHI_OutOfRange;
    tell_request(answer == CHI_OK ? &shown.pending[agent] : &NONE, pending, pending_kind, pending_slot);
    tell_request(answer == CHI_OK ? &shown.waiting[agent] : &NONE, waiting, waiting_kind, waiting_slot);
    return answer;
}

static void tell_sent(const ChiSent *sent, u8 count, u64 *agents, u64 *channels, u64 *messages) {
    *agents = *channels = *messages = 0;
    for (int place = 0; place < count; place++) {
        *agents |= (u64)sent[place].agent << 8 * place;
        *channels |= (u64)sent[place].channel << 8 * place;
        *messages |= (u64)sent[place].flit.message << 8 * place;
    }
}

u8 chi_dpi_slice_step(void *slice, u8 agent, u8 line, u8 step, u8 kind, u8 slot, u8 word, u64 value, u8 *effect,
                      u8 *completed, u64 *loaded, u8 *count, u64 *agents, u64 *channels, u64 *messages, u8 *taken_channel,
                      u8 *taken_message, u8 *taken_kind, u8 *taken_slot, u8 *taken_allow_retry, u8 *taken_credit,
                      u32 *taken_data) {
    ChiAction action = action_of(agent, line, step, kind, slot, word, value);
    ChiEffect told;
    ChiSent sent[CHI_MostSent], taken;
    u8 answer = chi_slice_step(SLICE(slice), &action, &told, sent, count, &taken);
    *effect = told.effect;
    *completed = told.slot;
    *loaded = told.value;
    tell_sent(sent, *count, agents, channels, messages);
    *taken_channel = taken.channel;
    tell_flit(&taken.flit, taken_message, taken_kind, taken_slot, taken_allow_retry, taken_credit, taken_data);
    return answer;
}

u8 chi_dpi_slice_enabled(void *slice, u8 agent, u8 line, u32 *steps, u8 *kinds, u8 *slot) {
    ChiAction actions[CHI_MostEnabled];
    u8 count, answer = chi_slice_enabled(SLICE(slice), agent, line, actions, &count);
    *steps = 0;
    *kinds = *slot = 0;
    for (int place = 0; place < count; place++) {
        *steps |= (u32)1 << actions[place].step;
        if (actions[place].step != CHI_Issue) continue;
        *kinds |= (u8)(1 << actions[place].kind);
        *slot = actions[place].slot;
    }
    return answer;
}

u8 chi_dpi_slice_journal(void *slice, u32 place, u8 *store, u8 *agent, u8 *line, u8 *word, u64 *value) {
    ChiRecord entry;
    u8 answer = chi_slice_journal(SLICE(slice), place, &entry);
    *store = entry.store;
    *agent = entry.agent;
    *line = entry.line;
    *word = entry.word;
    *value = entry.value;
    return answer;
}

u8 chi_dpi_slice_audit(void *slice, u64 *loads, u64 *stores, u8 *coherent) {
    ChiAudit audit;
    u8 answer = chi_slice_audit(SLICE(slice), &audit);
    *loads = audit.loads;
    *stores = audit.stores;
    *coherent = audit.coherent;
    return answer;
}

void *chi_dpi_slice_copy(void *slice, u8 *answer) {
    ChiSlice *copy = calloc(1, sizeof *copy);
    *answer = copy == NULL ? CHI_NoMemory : chi_slice_copy(copy, SLICE(slice));
    if (*answer == CHI_OK) return copy;
    free(copy);
    return NULL;
}

/* A slice is the same as itself: the two handles of chi_slice_equal don't overlap. */
u8 chi_dpi_slice_equal(void *one, void *other, u8 *equal) {
    if (one != other || one == NULL) return chi_slice_equal(SLICE(one), SLICE(other), equal);
    *equal = 1;
    return CHI_OK;
}

u8 chi_dpi_slice_close(void *slice) {
    u8 answer = chi_slice_close(SLICE(slice));
    free(slice);
    return answer;
}

void *chi_dpi_node_open(u8 agents, u8 lines, u8 slices, u8 profile, u64 entries, u32 journal, u8 *answer) {
    ChiConfig config = sizes(agents, lines, slices, profile, entries, journal);
    ChiNode *node = calloc(1, sizeof *node);
    *answer = node == NULL ? CHI_NoMemory : chi_node_open(node, &config);
    if (*answer == CHI_OK) return node;
    free(node);
    return NULL;
}

u8 chi_dpi_node_arrive(void *node, u8 agent, u8 line, u8 *arrival, u8 *entry, u8 *credit) {
    ChiArrival told;
    u8 answer = chi_node_arrive(NODE(node), agent, line, &told);
    *arrival = told.arrival;
    *entry = told.entry;
    *credit = told.credit;
    return answer;
}

u8 chi_dpi_node_step(void *node, u8 agent, u8 line, u8 step, u8 kind, u8 slot, u8 word, u64 value, u8 *effect,
                     u8 *completed, u64 *loaded, u8 *release, u8 *granted) {
    ChiAction action = action_of(agent, line, step, kind, slot, word, value);
    ChiEffect told;
    ChiRelease went;
    u8 answer = chi_node_step(NODE(node), &action, &told, &went);
    *effect = told.effect;
    *completed = told.slot;
    *loaded = told.value;
    *release = went.release;
    *granted = went.agent;
    return answer;
}

u8 chi_dpi_node_arrive_flits(void *node, u8 agent, u8 line, u8 *arrival, u8 *entry, u8 *credit, u8 *count, u64 *agents,
                             u64 *channels, u64 *messages, u8 *taken_channel, u8 *taken_message, u8 *taken_kind,
                             u8 *taken_slot, u8 *taken_allow_retry, u8 *taken_credit, u32 *taken_data) {
    ChiArrival told;
    ChiSent sent[CHI_MostSent], taken;
    u8 answer = chi_node_arrive_flits(NODE(node), agent, line, &told, sent, count, &taken);
    *arrival = told.arrival;
    *entry = told.entry;
    *credit = told.credit;
    tell_sent(sent, *count, agents, channels, messages);
    *taken_channel = taken.channel;
    tell_flit(&taken.flit, taken_message, taken_kind, taken_slot, taken_allow_retry, taken_credit, taken_data);
    return answer;
}

u8 chi_dpi_node_step_flits(void *node, u8 agent, u8 line, u8 step, u8 kind, u8 slot, u8 word, u64 value, u8 *effect,
                           u8 *completed, u64 *loaded, u8 *release, u8 *granted, u8 *count, u64 *agents, u64 *channels,
                           u64 *messages, u8 *taken_channel, u8 *taken_message, u8 *taken_kind, u8 *taken_slot,
                           u8 *taken_allow_retry, u8 *taken_credit, u32 *taken_data) {
    ChiAction action = action_of(agent, line, step, kind, slot, word, value);
    ChiEffect told;
    ChiRelease went;
    ChiSent sent[CHI_MostSent], taken;
    u8 answer = chi_node_step_flits(NODE(node), &action, &told, &went, sent, count, &taken);
    *effect = told.effect;
    *completed = told.slot;
    *loaded = told.value;
    *release = went.release;
    *granted = went.agent;
    tell_sent(sent, *count, agents, channels, messages);
    *taken_channel = taken.channel;
    tell_flit(&taken.flit, taken_message, taken_kind, taken_slot, taken_allow_retry, taken_credit, taken_data);
    return answer;
}

u8 chi_dpi_node_see(void *node, u8 agent, u64 *seen) {
    ChiCredits credits;
    u8 answer = chi_node_see(NODE(node), agent, &credits);
    *seen = 0;
    for (int type = 0; type < 4; type++) *seen |= (u64)(uint16_t)credits.seen[type] << 16 * type;
    return answer;
}

u8 chi_dpi_node_give_back(void *node, u8 agent, u8 credit, u8 *release, u8 *granted) {
    ChiRelease went;
    u8 answer = chi_node_give_back(NODE(node), agent, credit, &went);
    *release = went.release;
    *granted = went.agent;
    return answer;
}

u8 chi_dpi_node_tend(void *node, u8 agent, u8 credit, u8 *release, u8 *granted) {
    ChiRelease went;
    u8 answer = chi_node_tend(NODE(node), agent, credit, &went);
    *release = went.release;
    *granted = went.agent;
    return answer;
}

u8 chi_dpi_node_show(void *node, u8 line, u64 *states, u8 *named, u8 *unique, u8 *serving, u8 *served, u8 *waiting) {
    ChiLine shown;
    u8 answer = chi_node_show(NODE(node), line, &shown);
    tell_line(&shown, states, named, unique, serving, served, waiting);
    return answer;
}

u8 chi_dpi_node_flits(void *node, u8 agent, u8 line, u64 *messages) {
    ChiFlits flits;
    u8 answer = chi_node_flits(NODE(node), agent, line, &flits);
    *messages = tell_messages(&flits);
    return answer;
}

u8 chi_dpi_node_flit(void *node, u8 agent, u8 line, u8 channel, u8 *message, u8 *kind, u8 *slot, u8 *allow_retry,
                      u8 *credit, u32 *data) {
    static const ChiFlit NONE;
    ChiFlits flits;
    u8 answer = chi_node_flits(NODE(node), agent, line, &flits);
    if (answer == CHI_OK && channel > CHI_DatUp) answer = CHI_OutOfRange;
    tell_flit(answer == CHI_OK ? &flits.channels[channel] : &NONE, message, kind, slot, allow_retry, credit, data);
    return answer;
}

u8 chi_dpi_node_home(void *node, u8 line, u32 *memory, u32 *last, u8 *owner, u8 *awaited, u8 *kind, u8 *slot) {
    ChiLine shown;
    u8 answer = chi_node_show(NODE(node), line, &shown);
    tell_home(&shown, memory, last, owner, awaited, kind, slot);
    return answer;
}

u8 chi_dpi_node_copy_of(void *node, u8 agent, u8 line, u8 *state, u32 *data) {
    static const ChiCopy NONE;
    ChiLine shown;
    u8 answer = chi_node_show(NODE(node), line, &shown);
    if (answer == CHI_OK && agent > 7) answer = CHI_OutOfRange;
    const ChiCopy *copy = answer == CHI_OK ? &shown.copies[agent] : &NONE;
    *state = copy->state;
    tell_words(copy->words, data);
    return answer;
}

u8 chi_dpi_node_requests(void *node, u8 agent, u8 line, u8 *pending, u8 *pending_kind, u8 *pending_slot, u8 *waiting,
                          u8 *waiting_kind, u8 *waiting_slot) {
    static const ChiRequest NONE;
    ChiLine shown;
    u8 answer = chi_node_show(NODE(node), line, &shown);
    if (answer == CHI_OK && agent > 7) answer = CHI_OutOfRange;
    tell_request(answer == CHI_OK ? &shown.pending[agent] : &NONE, pending, pending_kind, pending_slot);
    tell_request(answer == CHI_OK ? &shown.waiting[agent] : &NONE, waiting, waiting_kind, waiting_slot);
    return answer;
}

u8 chi_dpi_node_totals(void *node, u8 credit, u32 *unclaimed, u32 *hand, u32 *promised, u32 *owed) {
    ChiTotals totals;
    u8 answer = chi_node_totals(NODE(node), &totals);
    *unclaimed = totals.free[credit % 4];
    *hand = totals.hand[credit % 4];
    *promised = totals.promised[credit % 4];
    *owed = totals.owed[credit % 4];
    return answer;
}

u8 chi_dpi_node_agrees(void *node) { return chi_node_agrees(NODE(node)); }

u8 chi_dpi_node_audit(void *node, u64 *loads, u64 *stores, u8 *coherent) {
    ChiAudit audit;
    u8 answer = chi_node_audit(NODE(node), &audit);
    *loads = audit.loads;
    *stores = audit.stores;
    *coherent = audit.coherent;
    return answer;
}

void *chi_dpi_node_slice(void *node, u8 line, u8 *answer) {
    ChiSlice *copy = calloc(1, sizeof *copy);
    *answer = copy == NULL ? CHI_NoMemory : chi_node_slice(copy, NODE(node), line);
    if (*answer == CHI_OK) return copy;
    free(copy);
    return NULL;
}

u8 chi_dpi_node_slice_equal(void *node, u8 line, void *slice, u8 *equal) {
    return chi_node_slice_equal(NODE(node), line, SLICE(slice), equal);
}

u8 chi_dpi_node_close(void *node) {
    u8 answer = chi_node_close(NODE(node));
    free(node);
    return answer;
}

/* A monitor, and the text of its first fault. */
typedef struct {
    ChiMonitor monitor;
    uint8_t text[1024];
} Watched;

void *chi_dpi_monitor_open(u8 profile, u8 agents, u8 lines, u32 kept, u8 *answer) {
    Watched *monitor = calloc(1, sizeof *monitor);
    *answer = monitor == NULL ? CHI_NoMemory : chi_monitor_open(&monitor->monitor, profile, agents, lines, kept);
    if (*answer == CHI_OK) return monitor;
    free(monitor);
    return NULL;
}

u8 chi_dpi_monitor_flit(void *monitor, u8 line, u8 agent, u8 message, u8 kind, u8 allow_retry, u8 credit, const u32 *data) {
    ChiSent sent = {.agent = agent,
        .flit = {.message = message, .kind = kind, .allow_retry = allow_retry, .credit = credit}};
    words_in(data, sent.flit.words);
    return chi_monitor_flit(MONITOR(monitor), line, &sent);
}

u8 chi_dpi_monitor_fault(void *monitor, u8 *reason, u64 *number, u8 *line, u8 *agent) {
    ChiFault fault;
    u8 answer = chi_monitor_fault(MONITOR(monitor), &fault);
    *reason = fault.reason;
    *number = fault.number;
    *line = fault.line;
    *agent = fault.agent;
    return answer;
}

const char *chi_dpi_monitor_text(void *monitor) {
    Watched *watched = monitor;
    size_t length = 0;
    if (watched == NULL || chi_monitor_text(&watched->monitor, watched->text, sizeof watched->text - 1, &length) != CHI_OK)
        return "";
    watched->text[length] = 0;
    return (const char *)watched->text;
}

u8 chi_dpi_monitor_end(void *monitor, u8 line, u8 *requests, u8 *retried, u8 *snoops, u8 *completions, u8 *write_data) {
    ChiOpen agents[8];
    u8 answer = chi_monitor_end(MONITOR(monitor), line, agents);
    *requests = *retried = *snoops = *completions = *write_data = 0;
    for (int agent = 0; agent < 8; agent++) {
        *requests |= (u8)(agents[agent].request << agent);
        *retried |= (u8)(agents[agent].retried << agent);
        *snoops |= (u8)(agents[agent].snoop << agent);
        *completions |= (u8)(agents[agent].completion << agent);
        *write_data |= (u8)(agents[agent].write_data << agent);
    }
    return answer;
}

u8 chi_dpi_monitor_explain(void *monitor, u8 line) { return chi_monitor_explain(MONITOR(monitor), line); }

u8 chi_dpi_monitor_close(void *monitor) {
    u8 answer = chi_monitor_close(MONITOR(monitor));
    free(monitor);
    return answer;
}

/* An observer, and the text that was told of it last. */
typedef struct {
    ChiObserver observer;
    uint8_t *text;
} Observed;

void *chi_dpi_observer_open(u32 lines, u32 ids, u32 accounts, u8 requesters, u8 homes, u8 types, u8 early_grants,
                            u8 stores, u8 *answer) {
    ChiObserverConfig config = {.lines = lines, .ids = ids, .accounts = accounts, .requesters = requesters,
        .homes = homes, .types = types, .early_grants = early_grants, .stores = stores};
    Observed *observer = calloc(1, sizeof *observer);
    *answer = observer == NULL ? CHI_NoMemory : chi_observer_open(&observer->observer, &config);
    if (*answer == CHI_OK) return observer;
    free(observer);
    return NULL;
}

u8 chi_dpi_observer_take(void *observer, u64 number, u8 opcode, u16 source, u16 target, u16 txn, u8 has_address, u64 address,
                         u8 resp, u8 has_dbid, u16 dbid, u8 allow_retry, u8 credit, u8 mask, const u32 *data) {
    ChiSeen seen = {.number = number, .address = address, .source = source, .target = target, .txn = txn, .dbid = dbid,
        .opcode = opcode, .resp = resp, .credit = credit, .allow_retry = allow_retry, .has_address = has_address,
        .has_dbid = has_dbid, .mask = mask};
    words_in(data, seen.words);
    return chi_observer_take(OBSERVER(observer), &seen);
}

u8 chi_dpi_observer_fault(void *observer, u8 *reason, u64 *number, u16 *node, u8 *has_line, u64 *line) {
    ChiObserverFault fault;
    u8 answer = chi_observer_fault(OBSERVER(observer), &fault);
    *reason = fault.reason;
    *number = fault.number;
    *node = fault.node;
    *has_line = fault.has_line;
    *line = fault.line;
    return answer;
}

/* A text of the observer, by the call that writes it. */
static const char *said(Observed *observed, u8 (*call)(ChiObserver *, uint8_t *, size_t, size_t *)) {
    uint8_t none;
    size_t length = 0;
    if (observed == NULL || call(&observed->observer, &none, 0, &length) != CHI_JournalFull) return "";
    uint8_t *text = realloc(observed->text, length + 1);
    if (text == NULL) return "";
    observed->text = text;
    if (call(&observed->observer, text, length, &length) != CHI_OK) return "";
    text[length] = 0;
    return (const char *)text;
}

const char *chi_dpi_observer_text(void *observer) { return said(observer, chi_observer_text); }

u8 chi_dpi_observer_unjudged(void *observer, u64 *flits, u64 *of_flits, u64 *lines, u64 *of_lines, u64 *accesses,
                             u64 *of_accesses) {
    ChiUnjudged unjudged;
    u8 answer = chi_observer_unjudged(OBSERVER(observer), &unjudged);
    *flits = unjudged.flits;
    *of_flits = unjudged.of_flits;
    *lines = unjudged.lines;
    *of_lines = unjudged.of_lines;
    *accesses = unjudged.accesses;
    *of_accesses = unjudged.of_accesses;
    return answer;
}

const char *chi_dpi_observer_unjudged_text(void *observer) { return said(observer, chi_observer_unjudged_text); }

u8 chi_dpi_observer_counts(void *observer, u64 *flits, u64 *accesses, u64 *lines, u64 *aside, u32 *ids,
                           u32 *accounts, u32 *requests, u32 *completions, u32 *snoops, u32 *retried, u32 *unsettled,
                           u8 *requesters, u8 *homes) {
    ChiObserverCounts counts;
    u8 answer = chi_observer_counts(OBSERVER(observer), &counts);
    *flits = counts.flits;
    *accesses = counts.accesses;
    *lines = counts.lines;
    *aside = counts.aside;
    *ids = counts.ids;
    *accounts = counts.accounts;
    *requests = counts.requests;
    *completions = counts.completions;
    *snoops = counts.snoops;
    *retried = counts.retried;
    *unsettled = counts.unsettled;
    *requesters = counts.requesters;
    *homes = counts.homes;
    return answer;
}

void *chi_dpi_observer_copy(void *observer, u8 *answer) {
    Observed *copy = calloc(1, sizeof *copy);
    *answer = copy == NULL ? CHI_NoMemory : chi_observer_copy(&copy->observer, OBSERVER(observer));
    if (*answer == CHI_OK) return copy;
    free(copy);
    return NULL;
}

u8 chi_dpi_observer_close(void *observer) {
    Observed *observed = observer;
    u8 answer = chi_observer_close(OBSERVER(observer));
    if (observed != NULL) free(observed->text);
    free(observed);
    return answer;
}
