/* The names of the numbers of chihome.h's enums, and the library's version (docs/LIBRARY.md, "Names"). */
#include "chihome.h"

#include <stddef.h>

static const char *const STEPS[] = {"Load", "Store", "Drop", "Issue", "Admit", "Retry", "RecvRetry", "Resend", "Cancel",
    "Start", "RecvSnp", "RecvSnpResp", "RecvData", "RecvComp", "RecvAck", "RecvDbid", "RecvWrData"};

static const char *const KINDS[] = {"ReadNotSharedDirty", "ReadShared", "ReadUnique", "CleanUnique", "Evict",
    "WriteBackFull", "WriteCleanFull", "WriteEvictFull"};

static const char *const MESSAGES[] = {"NoMessage", "Request", "SnpShared", "SnpNotSharedDirty", "SnpUnique",
    "SnpCleanInvalid", "RetryAck", "Comp_UC", "Comp_I", "CompDBIDResp", "CompData_SC", "CompData_UC", "SnpResp_I",
    "SnpResp_SC", "CompAck", "SnpRespData_I_PD", "SnpRespData_SC_PD", "SnpRespData_SD", "CopyBackWrData_I",
    "CopyBackWrData_SC", "CopyBackWrData_UC", "CopyBackWrData_UD_PD", "CopyBackWrData_SD_PD"};

static const char *const STATES[] = {"I", "SC", "UC", "UD", "SD"};

static const char *const ANSWERS[] = {"OK", "JournalFull", "WrongState", "Pending", "NothingPending", "LineBusy",
    "NotWaiting", "NoFlit", "NoMemory", "MustAccept", "OutOfRange", "NotOpen", "NoCredit"};

static const char *const REASONS[] = {"NoReason", "MemoryRanOut", "NoAgent", "EarlierRequest", "CopyNotNeeded",
    "NotRetried", "NothingToRetry", "ServedRetry", "NobodyAsks", "HomeAwaits", "SnoopedTwice", "NothingToAnswer",
    "AnswerOfCopy", "OtherWords", "NothingToComplete", "SnoopsBefore", "FormOfFilter", "NotAwaited", "FormOfCopy",
    "OtherReason", "OtherCredit"};

static const char *const OPCODES[] = {"None", "ReadNotSharedDirty", "ReadShared", "ReadClean", "ReadOnce", "ReadUnique",
    "CleanUnique", "MakeUnique", "CleanShared", "CleanInvalid", "MakeInvalid", "Evict", "WriteBackFull", "WriteCleanFull",
    "WriteEvictFull", "WriteUniqueFull", "PCrdReturn", "SnpOnce", "SnpClean", "SnpShared", "SnpNotSharedDirty",
    "SnpCleanShared", "SnpUnique", "SnpCleanInvalid", "SnpMakeInvalid", "RetryAck", "Comp", "CompDBIDResp", "PCrdGrant",
    "SnpResp", "CompAck", "CompData", "SnpRespData", "CopyBackWrData", "NonCopyBackWrData", "Load", "Store",
    "OtherRequest", "OtherSnoop", "OtherAnswer", "OtherReply",
    "ReqLCrdReturn", "ReadNoSnp", "DVMOp", "WriteUniquePtl", "WriteBackPtl", "WriteNoSnpPtl", "WriteNoSnpFull",
    "WriteUniqueFullStash", "WriteUniquePtlStash", "StashOnceShared", "StashOnceUnique", "ReadOnceCleanInvalid",
    "ReadOnceMakeInvalid", "CleanSharedPersist", "AtomicStore", "AtomicLoad", "AtomicSwap", "AtomicCompare",
    "PrefetchTgt", "SnpLCrdReturn", "SnpUniqueStash", "SnpMakeInvalidStash", "SnpStashUnique", "SnpStashShared",
    "SnpDVMOp", "SnpSharedFwd", "SnpCleanFwd", "SnpOnceFwd", "SnpNotSharedDirtyFwd", "SnpUniqueFwd", "RespLCrdReturn",
    "DBIDResp", "ReadReceipt", "SnpRespFwded", "DataLCrdReturn", "SnpRespDataPtl", "SnpRespDataFwded", "WriteDataCancel"};

static const char *const RESPS[] = {"I", "SC", "UC", "UD", "SD", "I_PD", "SC_PD", "UC_PD", "UD_PD", "SD_PD"};

static const char *const OBSERVER_REASONS[] = {"None", "InUse", "NotOpen", "Unfinished", "WordAgain", "WrongAddress",
    "NotRetryable", "OtherType", "NothingRetried", "NoCredit", "NoDbid", "Form", "OtherHome", "NotJudged", "NoAgent",
    "NotSent", "NotDue", "Busy", "NoMoment", "NoOverwriter", "NoDuty", "OtherWords", "OtherCopy", "Lost", "Other",
    "OtherBeat"};

static const char *name_in(const char *const *names, size_t count, uint8_t number) {
    return number < count ? names[number] : "?";
}

#define NAME_IN(names, number) name_in(names, sizeof names / sizeof *names, number)

const char *chi_version(void) { return CHI_VERSION; }

const char *chi_step_name(uint8_t step) { return NAME_IN(STEPS, step); }

const char *chi_kind_name(uint8_t kind) { return NAME_IN(KINDS, kind); }

const char *chi_message_name(uint8_t message) { return NAME_IN(MESSAGES, message); }

const char *chi_state_name(uint8_t state) { return NAME_IN(STATES, state); }

const char *chi_refusal_name(uint8_t answer) {
    if (answer == CHI_NothingJudged) return "NothingJudged";
    if (answer == CHI_PartlyJudged) return "PartlyJudged";
    if (answer == CHI_Full) return "Full";
    if (answer == CHI_SetAside) return "SetAside";
    if (answer == CHI_OtherVersion) return "OtherVersion";
    if (answer == CHI_OtherSize) return "OtherSize";
    if (answer == CHI_Damaged) return "Damaged";
    if (answer == CHI_NotKept) return "NotKept";
    if (answer == CHI_Fault) return "Fault";
    if (answer == CHI_AlreadyOpen) return "AlreadyOpen";
    if (answer == CHI_Closed) return "Closed";
    return NAME_IN(ANSWERS, answer);
}

const char *chi_reason_name(uint8_t reason) { return NAME_IN(REASONS, reason); }

const char *chi_opcode_name(uint8_t opcode) { return NAME_IN(OPCODES, opcode); }

const char *chi_resp_name(uint8_t resp) { return NAME_IN(RESPS, resp); }

const char *chi_observer_reason_name(uint8_t reason) { return NAME_IN(OBSERVER_REASONS, reason); }
