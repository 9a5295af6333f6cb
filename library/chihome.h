/* chihome: a proved reference model of an AMBA CHI coherent system in miniature.
 *
 * Four things can be opened: a slice, whose lines are stepped action by action; a whole node on one thread, with its
 * tracker and its requesters; a monitor, which is given flits and finds the first that no run of the model sends; and an
 * observer, which is given those of any home and any caches, and finds the first that isn't safe or that nothing explains.
 * What each call does is in docs/PROTOCOL.md, and the contracts of crates/chi_library say which of it is proved of each
 * call; docs/LIBRARY.md says what is proved up to this header, and what C must uphold:
 *
 * - A handle is a variable of the caller's, set to zero before its first use: `ChiSlice slice = {0};`. It is opened
 *   by the call of its name and closed by another, which frees its memory; a closed handle may be opened again. It
 *   is never copied, and nobody writes its field. A handle that is forgotten open leaks its memory.
 * - A handle belongs to one thread at a time: calls on it never overlap. Calls on two handles may.
 * - Each pointer that is passed points to a variable of its type, and no two of a call overlap. What a call is told
 *   is `const` here; what it tells is written by every call, of an array with a count the first `count` entries.
 *
 * Each call answers CHI_OK, or the number of a refusal, after which nothing has changed; CHI_Closed of a closed
 * handle, which is not touched; and an opening of an open handle CHI_AlreadyOpen, which stays. Where a call is not
 * done, all numbers of what it tells are 0, so also such a count; but what tells a length of bytes tells it too where
 * there is not room for them. The openings take memory, chi_slice_load, chi_slice_save, chi_slice_copy, chi_node_slice,
 * chi_observer_copy, chi_observer_text, and a monitor's calls.
 */
#ifndef CHIHOME_H
#define CHIHOME_H

#include <stddef.h>
#include <stdint.h>

/* The version of this header; chi_version() is that of the library. */
#define CHI_VERSION "0.1.0"

#ifdef __cplusplus
extern "C" {
#endif

/* What a call answers: the refusals by their numbers (docs/PROTOCOL.md, "Refusals"). */
enum ChiAnswer {
    CHI_OK = 0,
    CHI_JournalFull = 1,
    CHI_WrongState = 2,
    CHI_Pending = 3,
    CHI_NothingPending = 4,
    CHI_LineBusy = 5,
    CHI_NotWaiting = 6,
    CHI_NoFlit = 7,
    CHI_NoMemory = 8,
    CHI_MustAccept = 9,
    CHI_OutOfRange = 10, /* also of a number that is none of an enum's */
    CHI_NotOpen = 11,    /* never answered: the requesters of a node agree with its slices */
    CHI_NoCredit = 12,
    CHI_NothingJudged = 245, /* of the close of an observer: nothing that it took was judged */
    CHI_PartlyJudged = 246, /* of the close of an observer: some that it took wasn't judged */
    CHI_Full = 247,         /* of an observer: there is no room for what the flit would add */
    CHI_SetAside = 248,     /* of an observer: the flit is of a line that is set aside, and isn't judged */
    CHI_OtherVersion = 249, /* of a snapshot: it is of another version */
    CHI_OtherSize = 250,    /* of a snapshot: it is of another node, or of another slice of the node */
    CHI_Damaged = 251,      /* of a snapshot: it is none, or not as it was saved */
    CHI_NotKept = 252,      /* of a monitor: no flits are kept */
    CHI_Fault = 253,        /* of a monitor: no run of the model sends the flit; of an observer: it doesn't take it */
    CHI_AlreadyOpen = 254,
    CHI_Closed = 255
};

/* The actions (docs/PROTOCOL.md, "The actions"). */
enum ChiStep {
    CHI_Load = 0,      /* reads `word` of the copy */
    CHI_Store = 1,     /* writes `value` to `word` of the copy */
    CHI_Drop = 2,      /* drops a clean copy */
    CHI_Issue = 3,     /* issues a request of `kind`, which takes `slot` */
    CHI_Admit = 4,     /* the home lets the request in (a node: chi_node_arrive) */
    CHI_Retry = 5,     /* the home refuses it by RetryAck (a node: chi_node_arrive) */
    CHI_RecvRetry = 6, /* the requester takes the RetryAck */
    CHI_Resend = 7,    /* sends the request again, with a credit */
    CHI_Cancel = 8,    /* gives the retried request up */
    CHI_Start = 9,     /* the home begins to serve the request */
    CHI_RecvSnp = 10,
    CHI_RecvSnpResp = 11,
    CHI_RecvData = 12,
    CHI_RecvComp = 13,
    CHI_RecvAck = 14,
    CHI_RecvDbid = 15,
    CHI_RecvWrData = 16
};

/* The kinds of request (docs/PROTOCOL.md, "Kinds of request"). */
enum ChiKind {
    CHI_ReadNotSharedDirty = 0,
    CHI_ReadShared = 1,
    CHI_ReadUnique = 2,
    CHI_CleanUnique = 3,
    CHI_Evict = 4,
    CHI_WriteBackFull = 5,
    CHI_WriteCleanFull = 6,
    CHI_WriteEvictFull = 7
};

/* The cache states. */
enum ChiState { CHI_I = 0, CHI_SC = 1, CHI_UC = 2, CHI_UD = 3, CHI_SD = 4 };

/* How many credit types a node has (docs/PROTOCOL.md, "Limits"). */
enum ChiProfile { CHI_Two = 0, CHI_Four = 1 };

/* The channels (docs/PROTOCOL.md, "Messages"). */
enum ChiChannel { CHI_Req = 0, CHI_Snp = 1, CHI_RspDown = 2, CHI_DatDown = 3, CHI_RspUp = 4, CHI_DatUp = 5 };

/* The messages (docs/PROTOCOL.md, "Messages"). */
enum ChiMessage {
    CHI_NoMessage = 0,
    CHI_Request = 1, /* of ChiFlit's kind, slot and allow_retry */
    CHI_SnpShared = 2,
    CHI_SnpNotSharedDirty = 3,
    CHI_SnpUnique = 4,
    CHI_SnpCleanInvalid = 5,
    CHI_RetryAck = 6, /* of ChiFlit's credit */
    CHI_Comp_UC = 7,
    CHI_Comp_I = 8,
    CHI_CompDBIDResp = 9,
    CHI_CompData_SC = 10,
    CHI_CompData_UC = 11,
    CHI_SnpResp_I = 12,
    CHI_SnpResp_SC = 13,
    CHI_CompAck = 14,
    CHI_SnpRespData_I_PD = 15,
    CHI_SnpRespData_SC_PD = 16,
    CHI_SnpRespData_SD = 17,
    CHI_CopyBackWrData_I = 18,
    CHI_CopyBackWrData_SC = 19,
    CHI_CopyBackWrData_UC = 20,
    CHI_CopyBackWrData_UD_PD = 21,
    CHI_CopyBackWrData_SD_PD = 22
};

/* Why no run of the model sends a flit (docs/LIBRARY.md, "A monitor"). */
enum ChiReason {
    CHI_NoReason = 0, /* there is no fault */
    CHI_MemoryRanOut = 1,
    CHI_NoAgent = 2,
    CHI_EarlierRequest = 3,
    CHI_CopyNotNeeded = 4,
    CHI_NotRetried = 5,
    CHI_NothingToRetry = 6,
    CHI_ServedRetry = 7,
    CHI_NobodyAsks = 8,
    CHI_HomeAwaits = 9,
    CHI_SnoopedTwice = 10,
    CHI_NothingToAnswer = 11,
    CHI_AnswerOfCopy = 12,
    CHI_OtherWords = 13,
    CHI_NothingToComplete = 14,
    CHI_SnoopsBefore = 15,
    CHI_FormOfFilter = 16,
    CHI_NotAwaited = 17,
    CHI_FormOfCopy = 18,
    CHI_OtherReason = 19,
    CHI_OtherCredit = 20
};

/* The opcodes of flits as an observer is given them (docs/TRACES.md, "Traces" and "Other opcodes"). Loads and stores are
 * those of a processor. Those behind CHI_Op_OtherReply aren't judged. CHI_Op_OtherRequest to OtherReply stand for opcodes of a
 * design's own, which aren't either: OtherAnswer for those of RSP and DAT whose names begin with `Snp`, OtherReply for the
 * others of these channels. */
enum ChiOpcode {
    CHI_Op_None = 0,
    CHI_Op_ReadNotSharedDirty = 1,
    CHI_Op_ReadShared = 2,
    CHI_Op_ReadClean = 3,
    CHI_Op_ReadOnce = 4,
    CHI_Op_ReadUnique = 5,
    CHI_Op_CleanUnique = 6,
    CHI_Op_MakeUnique = 7,
    CHI_Op_CleanShared = 8,
    CHI_Op_CleanInvalid = 9,
    CHI_Op_MakeInvalid = 10,
    CHI_Op_Evict = 11,
    CHI_Op_WriteBackFull = 12,
    CHI_Op_WriteCleanFull = 13,
    CHI_Op_WriteEvictFull = 14,
    CHI_Op_WriteUniqueFull = 15,
    CHI_Op_PCrdReturn = 16,
    CHI_Op_SnpOnce = 17,
    CHI_Op_SnpClean = 18,
    CHI_Op_SnpShared = 19,
    CHI_Op_SnpNotSharedDirty = 20,
    CHI_Op_SnpCleanShared = 21,
    CHI_Op_SnpUnique = 22,
    CHI_Op_SnpCleanInvalid = 23,
    CHI_Op_SnpMakeInvalid = 24,
    CHI_Op_RetryAck = 25,
    CHI_Op_Comp = 26,
    CHI_Op_CompDBIDResp = 27,
    CHI_Op_PCrdGrant = 28,
    CHI_Op_SnpResp = 29,
    CHI_Op_CompAck = 30,
    CHI_Op_CompData = 31,
    CHI_Op_SnpRespData = 32,
    CHI_Op_CopyBackWrData = 33,
    CHI_Op_NonCopyBackWrData = 34,
    CHI_Op_Load = 35,
    CHI_Op_Store = 36,
    CHI_Op_OtherRequest = 37,
    CHI_Op_OtherSnoop = 38,
    CHI_Op_OtherAnswer = 39,
    CHI_Op_OtherReply = 40,
    CHI_Op_ReqLCrdReturn = 41,
    CHI_Op_ReadNoSnp = 42,
    CHI_Op_DVMOp = 43,
    CHI_Op_WriteUniquePtl = 44,
    CHI_Op_WriteBackPtl = 45,
    CHI_Op_WriteNoSnpPtl = 46,
    CHI_Op_WriteNoSnpFull = 47,
    CHI_Op_WriteUniqueFullStash = 48,
    CHI_Op_WriteUniquePtlStash = 49,
    CHI_Op_StashOnceShared = 50,
    CHI_Op_StashOnceUnique = 51,
    CHI_Op_ReadOnceCleanInvalid = 52,
    CHI_Op_ReadOnceMakeInvalid = 53,
    CHI_Op_CleanSharedPersist = 54,
    CHI_Op_AtomicStore = 55,
    CHI_Op_AtomicLoad = 56,
    CHI_Op_AtomicSwap = 57,
    CHI_Op_AtomicCompare = 58,
    CHI_Op_PrefetchTgt = 59,
    CHI_Op_SnpLCrdReturn = 60,
    CHI_Op_SnpUniqueStash = 61,
    CHI_Op_SnpMakeInvalidStash = 62,
    CHI_Op_SnpStashUnique = 63,
    CHI_Op_SnpStashShared = 64,
    CHI_Op_SnpDVMOp = 65,
    CHI_Op_SnpSharedFwd = 66,
    CHI_Op_SnpCleanFwd = 67,
    CHI_Op_SnpOnceFwd = 68,
    CHI_Op_SnpNotSharedDirtyFwd = 69,
    CHI_Op_SnpUniqueFwd = 70,
    CHI_Op_RespLCrdReturn = 71,
    CHI_Op_DBIDResp = 72,
    CHI_Op_ReadReceipt = 73,
    CHI_Op_SnpRespFwded = 74,
    CHI_Op_DataLCrdReturn = 75,
    CHI_Op_SnpRespDataPtl = 76,
    CHI_Op_SnpRespDataFwded = 77,
    CHI_Op_WriteDataCancel = 78
};

/* What the Resp field of a flit holds: the state that is left or given, and `_PD` where the responsibility for the data
 * goes along. */
enum ChiResp {
    CHI_Resp_I = 0,
    CHI_Resp_SC = 1,
    CHI_Resp_UC = 2,
    CHI_Resp_UD = 3,
    CHI_Resp_SD = 4,
    CHI_Resp_I_PD = 5,
    CHI_Resp_SC_PD = 6,
    CHI_Resp_UC_PD = 7,
    CHI_Resp_UD_PD = 8,
    CHI_Resp_SD_PD = 9
};

/* Why an observer doesn't take a flit (docs/OBSERVER.md, "Faults" and "Ids and credits"): the ids or the credits don't allow
 * it (1 to 11, and 25), or its line doesn't (12 to 24). */
enum ChiObserverReason {
    CHI_Fault_None = 0,           /* there is no fault */
    CHI_Fault_InUse = 1,          /* it opens an id that is in use */
    CHI_Fault_NotOpen = 2,        /* it names an id that isn't open */
    CHI_Fault_Unfinished = 3,     /* it frees an id whose data lack words */
    CHI_Fault_WordAgain = 4,      /* an earlier beat of the id's data had such a word */
    CHI_Fault_WrongAddress = 5,   /* its address is in one line, and its id is of another */
    CHI_Fault_NotRetryable = 6,   /* a RetryAck of a request without AllowRetry */
    CHI_Fault_OtherType = 7,      /* its credit type isn't that of the request */
    CHI_Fault_NothingRetried = 8, /* a credit is granted, and no request waits for one */
    CHI_Fault_NoCredit = 9,       /* there is no credit of the type */
    CHI_Fault_NoDbid = 10,        /* a completion names no DBID, and CompAck or write data are to name it */
    CHI_Fault_Form = 11,          /* no flit of the opcode has this RESP */
    CHI_Fault_OtherHome = 12,     /* another node is the line's home */
    CHI_Fault_NotJudged = 13,     /* never: all flits of these opcodes are judged */
    CHI_Fault_NoAgent = 14,       /* never: a requester that has 32 before it sets its line aside */
    CHI_Fault_NotSent = 15,       /* no copy that the requester may have sends it now */
    CHI_Fault_NotDue = 16,        /* what is due of the requester doesn't let the home send it */
    CHI_Fault_Busy = 17,          /* nothing is snooped while CompAck or write data are due at the line */
    CHI_Fault_NoMoment = 18,      /* of a CleanShared or a ReadOnce: there was no moment for its completion */
    CHI_Fault_NoOverwriter = 19,  /* of SnpMakeInvalid: no request is open for which copies may be thrown away */
    CHI_Fault_NoDuty = 20,        /* the home has no dirty data to pass on */
    CHI_Fault_OtherWords = 21,    /* the words are known to be others */
    CHI_Fault_OtherCopy = 22,     /* another copy was told to be what doesn't go with the one that it makes */
    CHI_Fault_Lost = 23,          /* the value last stored may have been thrown away */
    CHI_Fault_Other = 24,         /* another reason, which chi_observer_text says */
    CHI_Fault_OtherBeat = 25      /* the first beat of the id's data has another RESP, or another DBID */
};

/* What an action gives, how far a request has come, what a line serves, what an arrival came to, and where a released
 * entry went. */
enum ChiEffectForm { CHI_Nothing = 0, CHI_Value = 1, CHI_Completed = 2 };
enum ChiPhase { CHI_NoRequest = 0, CHI_Sent = 1, CHI_Retried = 2, CHI_Waiting = 3 };
enum ChiServingForm { CHI_Idle = 0, CHI_Snooping = 1, CHI_AwaitingCompAck = 2, CHI_AwaitingWriteData = 3 };
enum ChiArrivalForm { CHI_NotArrived = 0, CHI_Admitted = 1, CHI_RetriedWith = 2 };
enum ChiReleaseForm { CHI_NotReleased = 0, CHI_Freed = 1, CHI_Granted = 2 };

/* The number of no agent, as the owner of a line. */
enum { CHI_Nobody = 255 };

/* The most flits that an action sends, and the most actions of an agent at a line that can be enabled. */
enum { CHI_MostSent = 8, CHI_MostEnabled = 24 };

/* The sizes of a node (docs/PROTOCOL.md, "Limits"). */
typedef struct {
    uint8_t agents;      /* 1 to 8 */
    uint8_t lines;       /* 1 to 64 */
    uint8_t slices;      /* 1, 2, 4 or 8, and no more than lines: line l is in slice l mod slices */
    uint8_t profile;     /* ChiProfile */
    uint16_t entries[4]; /* of the tracker, by credit type; in CHI_Two the last two are 0 */
    uint32_t journal;    /* records of a slice, 1 to 65,536; 0: none are kept, and none are refused 1 */
} ChiConfig;

/* An action. Fields that its step does not read may hold anything. */
typedef struct {
    uint8_t agent;
    uint8_t line;
    uint8_t step; /* ChiStep */
    uint8_t kind; /* ChiKind, of CHI_Issue */
    uint8_t slot; /* of CHI_Issue */
    uint8_t word; /* of CHI_Load and CHI_Store */
    uint64_t value; /* of CHI_Store */
} ChiAction;

/* What an action gives. */
typedef struct {
    uint8_t effect; /* ChiEffectForm */
    uint8_t slot;   /* of CHI_Completed: the request that the home is done with */
    uint64_t value; /* of CHI_Value: the word that a load read */
} ChiEffect;

/* A message in flight. */
typedef struct {
    uint8_t message;     /* ChiMessage */
    uint8_t kind;        /* ChiKind, of CHI_Request */
    uint8_t slot;        /* of CHI_Request */
    uint8_t allow_retry; /* of CHI_Request: 1 on a first attempt, 0 with a credit */
    uint8_t credit;      /* of CHI_RetryAck: the credit type */
    uint64_t words[8];   /* of a message with data */
} ChiFlit;

/* What is in flight between an agent and the home for a line: one message a channel at most. */
typedef struct {
    ChiFlit channels[6]; /* by ChiChannel */
} ChiFlits;

/* A flit that an action sent or took: between the agent and the home, on a channel. */
typedef struct {
    uint8_t agent;
    uint8_t channel; /* ChiChannel */
    ChiFlit flit;
} ChiSent;

/* An agent's copy of a line. */
typedef struct {
    uint8_t state; /* ChiState */
    uint64_t words[8];
} ChiCopy;

/* A request that is pending, or that waits at the home. */
typedef struct {
    uint8_t phase; /* ChiPhase */
    uint8_t kind;  /* ChiKind */
    uint8_t slot;
} ChiRequest;

/* What the home does at a line. */
typedef struct {
    uint8_t form; /* ChiServingForm */
    uint8_t agent;
    uint8_t kind; /* ChiKind, of CHI_Snooping and CHI_AwaitingWriteData */
    uint8_t slot;
} ChiServing;

/* All parts of a line but its flits. Arrays of eight are by agent, or by word. */
typedef struct {
    ChiCopy copies[8];
    uint64_t memory[8];
    uint64_t last[8]; /* the values last stored */
    ChiRequest pending[8];
    ChiRequest waiting[8];
    uint8_t named[8];   /* 1 for the agents that the snoop filter names */
    uint8_t awaited[8]; /* 1 for the agents whose snoop answer is awaited */
    ChiServing serving;
    uint8_t unique; /* the filter's flag */
    uint8_t owner;  /* the agent that answers for dirty shared data, or CHI_Nobody */
} ChiLine;

/* A load or a store that was answered. */
typedef struct {
    uint8_t store; /* 1 of a store, 0 of a load */
    uint8_t agent;
    uint8_t line;
    uint8_t word;
    uint64_t value;
} ChiRecord;

/* What an arrival came to. */
typedef struct {
    uint8_t arrival; /* ChiArrivalForm */
    uint8_t entry;   /* of CHI_Admitted: the tracker's entry */
    uint8_t credit;  /* of CHI_RetriedWith: the credit type */
} ChiArrival;

/* Where a released entry went. */
typedef struct {
    uint8_t release; /* ChiReleaseForm */
    uint8_t agent;   /* of CHI_Granted: the agent that it was promised to */
} ChiRelease;

/* The credits that an agent has seen granted, by type. */
typedef struct {
    uint32_t seen[4];
} ChiCredits;

/* Entries that are free, in hand and promised, and credits that are owed, by type. */
typedef struct {
    uint32_t free[4];
    uint32_t hand[4];
    uint32_t promised[4];
    uint32_t owed[4];
} ChiTotals;

/* The loads and stores of a slice or a node, and the verdict on its lines. */
typedef struct {
    uint64_t loads;
    uint64_t stores;
    uint8_t coherent; /* 1, always */
} ChiAudit;

/* A slice. */
typedef struct {
    void *at;
} ChiSlice;

/* Opens slice `index` of a node of these sizes, in its opening state. CHI_AlreadyOpen of an open handle; CHI_OutOfRange
 * where a size is outside its limits or the index is not below the slices; CHI_NoMemory. */
uint8_t chi_slice_open(ChiSlice *slice, const ChiConfig *config, uint8_t index);

/* Does an action, and tells what it gives. Refused as docs/PROTOCOL.md, "The actions", says. */
uint8_t chi_slice_act(ChiSlice *slice, const ChiAction *action, ChiEffect *effect);

/* Does an action as chi_slice_act does it, and tells the flits that it sent, by agent, their number, and the one that it
 * took, whose message is CHI_NoMessage where it took none. `sent` is CHI_MostSent long; of its entries the first `count`
 * are written, and the others stay as they were. */
uint8_t chi_slice_step(ChiSlice *slice, const ChiAction *action, ChiEffect *effect, ChiSent sent[8], uint8_t *count,
                       ChiSent *taken);

/* Tells the agent's actions at the line that chi_slice_act would do, and their number: each step once, Load and Store of
 * word 0 with value 0, Issue for each kind with the agent's lowest slot that is idle in this slice, in the order of
 * their numbers. `actions` is CHI_MostEnabled long; of its entries the first `count` are written, and the others stay
 * as they were. Nothing is done. CHI_OutOfRange where the agent or the line is outside the node, or the line in another slice. */
uint8_t chi_slice_enabled(ChiSlice *slice, uint8_t agent, uint8_t line, ChiAction actions[24], uint8_t *count);

/* What chi_slice_act would answer. Nothing is done. */
uint8_t chi_slice_refusal(ChiSlice *slice, const ChiAction *action);

/* Tells a line. CHI_OutOfRange where the line is outside the node or in another slice. */
uint8_t chi_slice_show(ChiSlice *slice, uint8_t line, ChiLine *shown);

/* Tells what is in flight between an agent and the home for a line. CHI_OutOfRange where the agent or the line is
 * outside the node, or the line in another slice. */
uint8_t chi_slice_flits(ChiSlice *slice, uint8_t agent, uint8_t line, ChiFlits *flits);

/* Tells the record of a place in the journal, from 0. CHI_OutOfRange behind its end, and of a journal without records. */
uint8_t chi_slice_journal(ChiSlice *slice, uint32_t place, ChiRecord *entry);

/* Tells how many loads and stores there were, and whether each line is coherent and the journal legal, as always. */
uint8_t chi_slice_audit(ChiSlice *slice, ChiAudit *audit);

/* Copies the slice of `from`: `to` holds a slice that is the same, which takes its own memory, and what `to` held before
 * is closed. `from` stays, and each goes on by itself. CHI_NoMemory, and CHI_Closed where `from` is closed: `to` is then
 * as it was. */
uint8_t chi_slice_copy(ChiSlice *to, ChiSlice *from);

/* Tells whether two slices are the same: 1 where they have the same sizes and index, each line with its flits is the same,
 * and the journals keep the same, and else 0. Nothing is done. CHI_Closed where one of them is closed. */
uint8_t chi_slice_equal(ChiSlice *one, ChiSlice *other, uint8_t *equal);

/* Writes the slice into `bytes`, where there is room for `room` of them: `length` is how many it has, and those behind
 * stay. CHI_JournalFull where there is room for fewer: then nothing is written, and `length` is how many there would be. So
 * with no room it tells how much is wanted. CHI_NoMemory, and CHI_Closed: nothing is written, and `length` is 0. `bytes`
 * isn't null, and `length` isn't in it. */
uint8_t chi_slice_save(ChiSlice *slice, uint8_t *bytes, size_t room, size_t *length);

/* Opens the slice `index` of a node of these sizes as it was saved in these bytes, `length` of them. CHI_OutOfRange as by
 * chi_slice_open; CHI_OtherVersion, CHI_OtherSize and CHI_Damaged where the bytes are of no such slice; CHI_NoMemory. The
 * handle is closed then. CHI_AlreadyOpen. `bytes` isn't null. */
uint8_t chi_slice_load(ChiSlice *slice, const ChiConfig *config, uint8_t index, const uint8_t *bytes, size_t length);

/* Closes the handle, and frees the slice. */
uint8_t chi_slice_close(ChiSlice *slice);

/* A node on one thread: its slices, its tracker and its requesters. */
typedef struct {
    void *at;
} ChiNode;

/* Opens a node of these sizes, in its opening state. CHI_AlreadyOpen of an open handle; CHI_OutOfRange where a size is
 * outside its limits; CHI_NoMemory. */
uint8_t chi_node_open(ChiNode *node, const ChiConfig *config);

/* The agent's request in flight at the line arrives: it is admitted with an entry, or retried where each of its type is
 * claimed. CHI_OutOfRange; CHI_NoFlit where none is in flight. */
uint8_t chi_node_arrive(ChiNode *node, uint8_t agent, uint8_t line, ChiArrival *arrival);

/* Does an action, and tells what it gives and where the entry of a completed request went. Refused as docs/PROTOCOL.md,
 * "A requester and its calls", says; CHI_OutOfRange also of CHI_Admit and CHI_Retry, which are chi_node_arrive's. */
uint8_t chi_node_step(ChiNode *node, const ChiAction *action, ChiEffect *effect, ChiRelease *release);

/* As chi_node_arrive and as chi_node_step, and tell the flits that were sent and the one that was taken, as chi_slice_step
 * tells them: of an arrival the request, and the RetryAck where it was retried. */
uint8_t chi_node_arrive_flits(ChiNode *node, uint8_t agent, uint8_t line, ChiArrival *arrival, ChiSent sent[8],
                              uint8_t *count, ChiSent *taken);
uint8_t chi_node_step_flits(ChiNode *node, const ChiAction *action, ChiEffect *effect, ChiRelease *release,
                            ChiSent sent[8], uint8_t *count, ChiSent *taken);

/* The agent looks at what is promised to it. CHI_OutOfRange of the agent. */
uint8_t chi_node_see(ChiNode *node, uint8_t agent, ChiCredits *credits);

/* The agent gives a seen credit of the type back, for a request that it cancelled. CHI_OutOfRange; CHI_NoCredit. */
uint8_t chi_node_give_back(ChiNode *node, uint8_t agent, uint8_t credit, ChiRelease *release);

/* The agent claims a free entry of the type for whoever is owed one, and releases it: CHI_NotReleased where nobody was
 * seen owed one or none was free. CHI_OutOfRange. */
uint8_t chi_node_tend(ChiNode *node, uint8_t agent, uint8_t credit, ChiRelease *release);

/* Tells a line, and what is in flight between an agent and the home for one. CHI_OutOfRange. */
uint8_t chi_node_show(ChiNode *node, uint8_t line, ChiLine *shown);
uint8_t chi_node_flits(ChiNode *node, uint8_t agent, uint8_t line, ChiFlits *flits);

/* Tells how many entries of each type are free, in hand and promised, and how many credits are owed. */
uint8_t chi_node_totals(ChiNode *node, ChiTotals *totals);

/* Asks whether each requester agrees with each slice: CHI_OK, always. */
uint8_t chi_node_agrees(ChiNode *node);

/* Tells how many loads and stores there were, and whether each line is coherent and each journal legal, as always. */
uint8_t chi_node_audit(ChiNode *node, ChiAudit *audit);

/* Copies the slice of a line of the node, that whose index is the line modulo the slices, as chi_slice_copy copies one: `to`
 * holds the same slice, without the node's tracker and requesters. */
uint8_t chi_node_slice(ChiSlice *to, ChiNode *from, uint8_t line);

/* Tells whether the slice of a line of the node is the same as a slice, as chi_slice_equal tells it. */
uint8_t chi_node_slice_equal(ChiNode *node, uint8_t line, ChiSlice *slice, uint8_t *equal);

/* Closes the handle, and frees the node. */
uint8_t chi_node_close(ChiNode *node);

/* The first flit that no run of the model sends; chi_monitor_text says why. */
typedef struct {
    uint64_t number; /* how many flits were taken before it, of all lines */
    uint8_t reason;  /* ChiReason, CHI_NoReason where there is no fault */
    uint8_t agent;   /* the flit's */
    uint8_t line;
    uint8_t reserved[5];
} ChiFault;

/* What is open of an agent at a line: 1 where it is. */
typedef struct {
    uint8_t request;    /* a request that was neither completed nor retried */
    uint8_t retried;    /* a retried one that was not sent again */
    uint8_t snoop;      /* a snoop without its answer */
    uint8_t completion; /* a completion without its CompAck */
    uint8_t write_data; /* a CompDBIDResp without its write data */
} ChiOpen;

/* A monitor of the lines of a node. */
typedef struct {
    void *at;
} ChiMonitor;

/* Opens a monitor of a node of this profile, 0 with two credit types and 1 with four, of so many agents, 1 to 8, and
 * lines, 1 to 64, which keeps so many flits of each line, up to 65,536, for chi_monitor_explain; with 0 it keeps none,
 * and takes flits without an end. CHI_AlreadyOpen of an open handle; CHI_OutOfRange; CHI_NoMemory. */
uint8_t chi_monitor_open(ChiMonitor *monitor, uint8_t profile, uint8_t agents, uint8_t lines, uint32_t kept);

/* Takes the next flit of a line, in the order in which senders put them on their ports. Its channel and slot are not
 * read. CHI_Fault where no run of the model sends it behind those before: it is kept as the first fault, and each flit
 * behind it is answered so too. CHI_OutOfRange where the agent or the line is outside the node, or a number names no
 * message, kind or credit type; CHI_JournalFull where so many flits of the line are kept; then nothing changes.
 * CHI_NoMemory, which is kept as a fault is. */
uint8_t chi_monitor_flit(ChiMonitor *monitor, uint8_t line, const ChiSent *sent);

/* Tells the first fault. */
uint8_t chi_monitor_fault(ChiMonitor *monitor, ChiFault *fault);

/* Writes why no run of the model sends that flit, in words with these agents and flits, without a 0 behind them; none where
 * there is no fault. `length` is how many bytes they are. CHI_JournalFull where there is not room for all; CHI_NoMemory. */
uint8_t chi_monitor_text(ChiMonitor *monitor, uint8_t *bytes, size_t room, size_t *length);

/* Tells what is open of each agent at a line behind the flits that were taken. CHI_OutOfRange of the line. */
uint8_t chi_monitor_end(ChiMonitor *monitor, uint8_t line, ChiOpen agents[8]);

/* Explains the flits that were kept of a line: CHI_OK where actions of the model are found, and done, and send just
 * these. CHI_OutOfRange of the line; CHI_NotKept; CHI_Fault where none are found; CHI_NoMemory. Nothing changes. */
uint8_t chi_monitor_explain(ChiMonitor *monitor, uint8_t line);

/* Closes the handle, and frees the monitor. */
uint8_t chi_monitor_close(ChiMonitor *monitor);

/* Whether stores may be done that an observer isn't given (docs/OBSERVER.md, "Stores that are listed"). */
enum ChiStores {
    CHI_Stores_Hidden = 0,
    CHI_Stores_Listed = 1 /* none: each is given as CHI_Op_Store */
};

/* What an observer is opened for. It takes all memory then: a flit that would add more is answered CHI_Full. */
typedef struct {
    uint32_t lines;       /* of memory that flits touch, 1 to 16,777,216 */
    uint32_t ids;         /* that are open at once, 1 to 16,777,216: requests, completions, snoops and retried requests */
    uint32_t accounts;    /* of credits, 1 to 16,777,216: one for each home, requester and type that has any */
    uint8_t requesters;   /* 1 to 32 */
    uint8_t homes;        /* 1 to 255 */
    uint8_t types;        /* of credits: 2 or 4, each with its kinds of request, or 0, any with any kind */
    uint8_t early_grants; /* 1 where monitors stand at the requesters, which may see a grant before its RetryAck; else 0 */
    uint8_t stores;       /* ChiStores */
    uint8_t reserved[3];
} ChiObserverConfig;

/* A flit, whole, as a monitor sees it, or a load or a store of a processor. Fields that its opcode hasn't may hold anything:
 *
 *     requests, CHI_Op_OtherRequest   source, target, txn, address, allow_retry, and credit where that is 0
 *     CHI_Op_PCrdReturn, PCrdGrant    source, target, credit
 *     snoops, CHI_Op_OtherSnoop       source, target, txn, address
 *     responses and data              source, target, txn, and address where has_address is 1
 *         CHI_Op_RetryAck             credit
 *         CHI_Op_Comp, CompData       resp, and dbid where has_dbid is 1
 *         CHI_Op_CompDBIDResp         dbid, and has_dbid has to be 1
 *         CHI_Op_SnpResp, SnpRespData, CopyBackWrData, NonCopyBackWrData  resp
 *         CHI_Op_OtherReply           dbid where has_dbid is 1
 *     those of Issue B that aren't judged have the fields of CHI_Op_OtherRequest, OtherSnoop, OtherAnswer or OtherReply
 *         CompData, SnpRespData, CopyBackWrData, NonCopyBackWrData        mask, and words of which its bits are set
 *     CHI_Op_Load, Store              source, address, and the value in words[0]
 *
 * The txn of CompAck, CopyBackWrData and NonCopyBackWrData is the DBID that they name. */
typedef struct {
    uint64_t number;     /* of the flit, as the caller counts, from 1: faults and open ids name flits by it */
    uint64_t address;    /* of any byte of the line; of a load or a store, of the word */
    uint64_t words[8];   /* of data, those of the beat; of a load or a store the value is words[0] */
    uint16_t source;     /* the node that sent it, or whose processor it was */
    uint16_t target;     /* the node that it is sent to */
    uint16_t txn;
    uint16_t dbid;
    uint8_t opcode;      /* ChiOpcode */
    uint8_t resp;        /* ChiResp */
    uint8_t credit;      /* the PCrdType, 0 to 15 */
    uint8_t allow_retry; /* 1 where a request asserts AllowRetry */
    uint8_t has_address; /* of a response or data: 1 where its address is known */
    uint8_t has_dbid;    /* 1 where it names a DBID */
    uint8_t mask;        /* of data: bit n is set where this beat has word n; 255 where it has all */
    uint8_t reserved;
} ChiSeen;

/* The first flit that isn't taken; chi_observer_text says why. */
typedef struct {
    uint64_t number;  /* of the flit, as it was given; 0 where there is no fault */
    uint64_t line;    /* the address of the first byte of its line of memory, where has_line is 1 */
    uint16_t node;    /* the requester that the flit is of or to */
    uint8_t reason;   /* ChiObserverReason */
    uint8_t has_line;
    uint8_t reserved[4];
} ChiObserverFault;

/* How much an observer has seen, and what it holds. */
typedef struct {
    uint64_t flits;        /* that were taken; data that come in beats are one */
    uint64_t accesses;     /* loads and stores that were taken */
    uint64_t lines;        /* of memory that flits have touched */
    uint64_t aside;        /* lines that were set aside */
    uint32_t ids;          /* that are held, open or not */
    uint32_t accounts;     /* of credits */
    uint32_t requests;     /* open requests: without their completion */
    uint32_t completions;  /* open completions: without CompAck or write data */
    uint32_t snoops;       /* open snoops: without their answer */
    uint32_t retried;      /* requests that were retried, and neither sent again nor surely cancelled */
    uint32_t unsettled;    /* accounts with credits that are owed or unused */
    uint8_t requesters;    /* that are known */
    uint8_t homes;         /* that are known */
    uint8_t reserved[2];
} ChiObserverCounts;

/* How much of what it was given an observer hasn't judged: of a line that is set aside nothing is, from the flit on that did it. */
typedef struct {
    uint64_t flits;       /* that weren't judged */
    uint64_t of_flits;    /* of so many */
    uint64_t lines;       /* of memory that were set aside */
    uint64_t of_lines;    /* of so many that flits have touched */
    uint64_t accesses;    /* loads and stores that weren't judged */
    uint64_t of_accesses; /* of so many */
} ChiUnjudged;

/* An observer of any home and any caches. */
typedef struct {
    void *at;
} ChiObserver;

/* Opens an observer for so much, that has seen no flit. It takes all memory that it ever needs, but for what
 * chi_observer_text and chi_observer_unjudged_text have meanwhile. CHI_AlreadyOpen of an open handle; CHI_OutOfRange where a size is outside its limits, or
 * `types`, `early_grants` or `stores` is none of theirs; CHI_NoMemory. */
uint8_t chi_observer_open(ChiObserver *observer, const ChiObserverConfig *config);

/* Takes the next flit, in the order in which senders put them on their ports, without an end:
 *
 * - CHI_OK: it is taken.
 * - CHI_SetAside: it is taken, and its line is set aside, by it or before it: the line isn't judged.
 * - CHI_Full: the ids and the credits allow it, and there is no room for what it would add, whether its line takes it or
 *   not. Nothing changes.
 * - CHI_Fault: the ids, the credits or its line don't allow it. It is kept as the first fault, and each flit behind it is
 *   answered so too. But for that nothing changes.
 * - CHI_OutOfRange: `opcode`, or a `resp` or `credit` that the opcode has, is none of its enum's, or `number` is 0, or a
 *   field lacks: the dbid of CompDBIDResp, or each word of data. Nothing changes.
 * - CHI_NoMemory: memory ran out, as it doesn't where all was taken at the opening; so too each flit behind that. */
uint8_t chi_observer_take(ChiObserver *observer, const ChiSeen *seen);

/* Tells the first fault. Where there is none all numbers are 0. */
uint8_t chi_observer_fault(ChiObserver *observer, ChiObserverFault *fault);

/* Writes the first fault in words, as `chihome observe` prints it of a trace whose lines have the flits' numbers, without a
 * line end and without a 0 behind it; none where there is no fault. `length` is how many bytes they are. CHI_JournalFull
 * where there is not room for all; CHI_NoMemory. */
uint8_t chi_observer_text(ChiObserver *observer, uint8_t *bytes, size_t room, size_t *length);

/* Tells how much it has seen, and what it holds. */
uint8_t chi_observer_counts(ChiObserver *observer, ChiObserverCounts *counts);

/* Tells how much of what it was given isn't judged. */
uint8_t chi_observer_unjudged(ChiObserver *observer, ChiUnjudged *unjudged);

/* Writes what isn't judged, and why, as `chihome observe` prints it: lines, each with its end, without a 0 behind them; none
 * where all is judged. `length` is how many bytes they are. CHI_JournalFull where there is not room for all; CHI_NoMemory. */
uint8_t chi_observer_unjudged_text(ChiObserver *observer, uint8_t *bytes, size_t room, size_t *length);

/* Copies the observer of `from`: `to` holds an observer that is the same, which takes its own memory, and what `to` held before
 * is closed. `from` stays, and each goes on by itself. CHI_NoMemory, and CHI_Closed where `from` is closed: `to` is then
 * as it was. */
uint8_t chi_observer_copy(ChiObserver *to, ChiObserver *from);

/* Closes the handle, and frees the observer. CHI_NothingJudged where nothing that it took was judged, be it that it took nothing;
 * CHI_PartlyJudged where some wasn't. It is closed then too. */
uint8_t chi_observer_close(ChiObserver *observer);

/* The version of the library, as CHI_VERSION. */
const char *chi_version(void);

/* The name of a number in its enum, without CHI_, and "?" of a number that is none of the enum's. Kinds, messages, states
 * and refusals are printed so by `chihome`. They need no handle, and nobody frees them. */
const char *chi_step_name(uint8_t step);       /* ChiStep: "Load" */
const char *chi_kind_name(uint8_t kind);       /* ChiKind: "ReadShared" */
const char *chi_message_name(uint8_t message); /* ChiMessage: "CompData_UC" */
const char *chi_state_name(uint8_t state);     /* ChiState: "UC" */
const char *chi_refusal_name(uint8_t answer);  /* ChiAnswer: "NoFlit", and "OK", "Damaged", "Closed" and so on */
const char *chi_reason_name(uint8_t reason);   /* ChiReason: "NobodyAsks" */
const char *chi_opcode_name(uint8_t opcode);            /* ChiOpcode: "ReadShared" */
const char *chi_resp_name(uint8_t resp);                /* ChiResp: "SC_PD" */
const char *chi_observer_reason_name(uint8_t reason);   /* ChiObserverReason: "NotOpen" */

/* The layouts that the library was proved and built with. */
#ifdef __cplusplus
#define CHI_LAYOUT(it) static_assert(it, #it)
#else
#define CHI_LAYOUT(it) _Static_assert(it, #it)
#endif
#include <stddef.h>
CHI_LAYOUT(sizeof(ChiSlice) == 8 && sizeof(ChiNode) == 8 && sizeof(ChiMonitor) == 8);
CHI_LAYOUT(sizeof(ChiConfig) == 16 && offsetof(ChiConfig, entries) == 4 && offsetof(ChiConfig, journal) == 12);
CHI_LAYOUT(sizeof(ChiAction) == 16 && offsetof(ChiAction, word) == 5 && offsetof(ChiAction, value) == 8);
CHI_LAYOUT(sizeof(ChiEffect) == 16 && offsetof(ChiEffect, slot) == 1 && offsetof(ChiEffect, value) == 8);
CHI_LAYOUT(sizeof(ChiFlit) == 72 && offsetof(ChiFlit, credit) == 4 && offsetof(ChiFlit, words) == 8);
CHI_LAYOUT(sizeof(ChiFlits) == 432);
CHI_LAYOUT(sizeof(ChiSent) == 80 && offsetof(ChiSent, channel) == 1 && offsetof(ChiSent, flit) == 8);
CHI_LAYOUT(sizeof(ChiCopy) == 72 && offsetof(ChiCopy, words) == 8);
CHI_LAYOUT(sizeof(ChiRequest) == 3 && sizeof(ChiServing) == 4);
CHI_LAYOUT(sizeof(ChiLine) == 776 && offsetof(ChiLine, memory) == 576 && offsetof(ChiLine, last) == 640);
CHI_LAYOUT(offsetof(ChiLine, pending) == 704 && offsetof(ChiLine, waiting) == 728 && offsetof(ChiLine, named) == 752);
CHI_LAYOUT(offsetof(ChiLine, awaited) == 760 && offsetof(ChiLine, serving) == 768 && offsetof(ChiLine, owner) == 773);
CHI_LAYOUT(sizeof(ChiRecord) == 16 && offsetof(ChiRecord, word) == 3 && offsetof(ChiRecord, value) == 8);
CHI_LAYOUT(sizeof(ChiArrival) == 3 && sizeof(ChiRelease) == 2);
CHI_LAYOUT(sizeof(ChiCredits) == 16 && sizeof(ChiTotals) == 64 && offsetof(ChiTotals, owed) == 48);
CHI_LAYOUT(sizeof(ChiAudit) == 24 && offsetof(ChiAudit, coherent) == 16);
CHI_LAYOUT(sizeof(ChiFault) == 16 && offsetof(ChiFault, reason) == 8 && offsetof(ChiFault, line) == 10);
CHI_LAYOUT(sizeof(ChiOpen) == 5 && offsetof(ChiOpen, snoop) == 2 && offsetof(ChiOpen, write_data) == 4);
CHI_LAYOUT(sizeof(ChiObserver) == 8 && sizeof(ChiObserverConfig) == 20 && offsetof(ChiObserverConfig, requesters) == 12);
CHI_LAYOUT(offsetof(ChiObserverConfig, stores) == 16);
CHI_LAYOUT(sizeof(ChiSeen) == 96 && offsetof(ChiSeen, words) == 16 && offsetof(ChiSeen, source) == 80);
CHI_LAYOUT(offsetof(ChiSeen, opcode) == 88 && offsetof(ChiSeen, mask) == 94);
CHI_LAYOUT(sizeof(ChiObserverFault) == 24 && offsetof(ChiObserverFault, line) == 8 && offsetof(ChiObserverFault, node) == 16);
CHI_LAYOUT(offsetof(ChiObserverFault, reason) == 18 && offsetof(ChiObserverFault, has_line) == 19);
CHI_LAYOUT(sizeof(ChiObserverCounts) == 64 && offsetof(ChiObserverCounts, ids) == 32);
CHI_LAYOUT(offsetof(ChiObserverCounts, requesters) == 60);
CHI_LAYOUT(sizeof(ChiUnjudged) == 48 && offsetof(ChiUnjudged, lines) == 16 && offsetof(ChiUnjudged, of_accesses) == 40);
#undef CHI_LAYOUT

#ifdef __cplusplus
}
#endif

#endif
