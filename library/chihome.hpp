/* chihome for C++17: the calls of chihome.h behind handles that move and close themselves, with enum classes, and
 * std::optional where there may be nothing. Nothing here throws, and all of it is inline over libchihome; it is tested,
 * not proved. docs/PROTOCOL.md says what each call does, and docs/LIBRARY.md what each bench must uphold.
 *
 *     chihome::Config config;
 *     auto model = chihome::Slice::open(config);
 *     if (!model) return model.answer();
 *     auto effect = model->act({0, 0, chihome::Step::Issue, chihome::Kind::ReadShared, 0, 0, 0});
 *     if (!effect) return effect.answer();
 */
#ifndef CHIHOME_HPP
#define CHIHOME_HPP

#include "chihome.h"

#include <array>
#include <cassert>
#include <cstddef>
#include <cstdint>
#include <optional>
#include <string>
#include <utility>

namespace chihome {

/* What a call answers: done, or the number of a refusal (docs/PROTOCOL.md, "Refusals"). */
enum class Answer : std::uint8_t {
    OK = CHI_OK,
    JournalFull = CHI_JournalFull,
    WrongState = CHI_WrongState,
    Pending = CHI_Pending,
    NothingPending = CHI_NothingPending,
    LineBusy = CHI_LineBusy,
    NotWaiting = CHI_NotWaiting,
    NoFlit = CHI_NoFlit,
    NoMemory = CHI_NoMemory,
    MustAccept = CHI_MustAccept,
    OutOfRange = CHI_OutOfRange,
    NotOpen = CHI_NotOpen,
    NoCredit = CHI_NoCredit,
    NothingJudged = CHI_NothingJudged,
    PartlyJudged = CHI_PartlyJudged,
    Full = CHI_Full,
    SetAside = CHI_SetAside,
    OtherVersion = CHI_OtherVersion,
    OtherSize = CHI_OtherSize,
    Damaged = CHI_Damaged,
    NotKept = CHI_NotKept,
    Fault = CHI_Fault,
    AlreadyOpen = CHI_AlreadyOpen,
    Closed = CHI_Closed
};

/* The actions (docs/PROTOCOL.md, "The actions"). */
enum class Step : std::uint8_t {
    Load = CHI_Load,
    Store = CHI_Store,
    Drop = CHI_Drop,
    Issue = CHI_Issue,
    Admit = CHI_Admit,
    Retry = CHI_Retry,
    RecvRetry = CHI_RecvRetry,
    Resend = CHI_Resend,
    Cancel = CHI_Cancel,
    Start = CHI_Start,
    RecvSnp = CHI_RecvSnp,
    RecvSnpResp = CHI_RecvSnpResp,
    RecvData = CHI_RecvData,
    RecvComp = CHI_RecvComp,
    RecvAck = CHI_RecvAck,
    RecvDbid = CHI_RecvDbid,
    RecvWrData = CHI_RecvWrData
};

/* The kinds of request (docs/PROTOCOL.md, "Kinds of request"). */
enum class Kind : std::uint8_t {
    ReadNotSharedDirty = CHI_ReadNotSharedDirty,
    ReadShared = CHI_ReadShared,
    ReadUnique = CHI_ReadUnique,
    CleanUnique = CHI_CleanUnique,
    Evict = CHI_Evict,
    WriteBackFull = CHI_WriteBackFull,
    WriteCleanFull = CHI_WriteCleanFull,
    WriteEvictFull = CHI_WriteEvictFull
};

/* The cache states. */
enum class State : std::uint8_t { I = CHI_I, SC = CHI_SC, UC = CHI_UC, UD = CHI_UD, SD = CHI_SD };

/* How many credit types a node has (docs/PROTOCOL.md, "Limits"). */
enum class Profile : std::uint8_t { Two = CHI_Two, Four = CHI_Four };

/* The channels (docs/PROTOCOL.md, "Messages"). */
enum class Channel : std::uint8_t {
    Req = CHI_Req,
    Snp = CHI_Snp,
    RspDown = CHI_RspDown,
    DatDown = CHI_DatDown,
    RspUp = CHI_RspUp,
    DatUp = CHI_DatUp
};

/* The messages (docs/PROTOCOL.md, "Messages"). */
enum class Message : std::uint8_t {
    NoMessage = CHI_NoMessage,
    Request = CHI_Request,
    SnpShared = CHI_SnpShared,
    SnpNotSharedDirty = CHI_SnpNotSharedDirty,
    SnpUnique = CHI_SnpUnique,
    SnpCleanInvalid = CHI_SnpCleanInvalid,
    RetryAck = CHI_RetryAck,
    Comp_UC = CHI_Comp_UC,
    Comp_I = CHI_Comp_I,
    CompDBIDResp = CHI_CompDBIDResp,
    CompData_SC = CHI_CompData_SC,
    CompData_UC = CHI_CompData_UC,
    SnpResp_I = CHI_SnpResp_I,
    SnpResp_SC = CHI_SnpResp_SC,
    CompAck = CHI_CompAck,
    SnpRespData_I_PD = CHI_SnpRespData_I_PD,
    SnpRespData_SC_PD = CHI_SnpRespData_SC_PD,
    SnpRespData_SD = CHI_SnpRespData_SD,
    CopyBackWrData_I = CHI_CopyBackWrData_I,
    CopyBackWrData_SC = CHI_CopyBackWrData_SC,
    CopyBackWrData_UC = CHI_CopyBackWrData_UC,
    CopyBackWrData_UD_PD = CHI_CopyBackWrData_UD_PD,
    CopyBackWrData_SD_PD = CHI_CopyBackWrData_SD_PD
};

/* Why no run of the model sends a flit (docs/LIBRARY.md, "A monitor"). */
enum class Reason : std::uint8_t {
    NoReason = CHI_NoReason,
    MemoryRanOut = CHI_MemoryRanOut,
    NoAgent = CHI_NoAgent,
    EarlierRequest = CHI_EarlierRequest,
    CopyNotNeeded = CHI_CopyNotNeeded,
    NotRetried = CHI_NotRetried,
    NothingToRetry = CHI_NothingToRetry,
    ServedRetry = CHI_ServedRetry,
    NobodyAsks = CHI_NobodyAsks,
    HomeAwaits = CHI_HomeAwaits,
    SnoopedTwice = CHI_SnoopedTwice,
    NothingToAnswer = CHI_NothingToAnswer,
    AnswerOfCopy = CHI_AnswerOfCopy,
    OtherWords = CHI_OtherWords,
    NothingToComplete = CHI_NothingToComplete,
    SnoopsBefore = CHI_SnoopsBefore,
    FormOfFilter = CHI_FormOfFilter,
    NotAwaited = CHI_NotAwaited,
    FormOfCopy = CHI_FormOfCopy,
    OtherReason = CHI_OtherReason,
    OtherCredit = CHI_OtherCredit
};

/* The opcodes of flits as an observer is given them (docs/TRACES.md, "Traces" and "Other opcodes"). Those behind
 * OtherReply aren't judged. OtherRequest to OtherReply stand for opcodes of a design's own, which aren't either: OtherAnswer for
 * those of RSP and DAT whose names begin with `Snp`, OtherReply for the others of these channels. */
enum class Opcode : std::uint8_t {
    None = CHI_Op_None,
    ReadNotSharedDirty = CHI_Op_ReadNotSharedDirty,
    ReadShared = CHI_Op_ReadShared,
    ReadClean = CHI_Op_ReadClean,
    ReadOnce = CHI_Op_ReadOnce,
    ReadUnique = CHI_Op_ReadUnique,
    CleanUnique = CHI_Op_CleanUnique,
    MakeUnique = CHI_Op_MakeUnique,
    CleanShared = CHI_Op_CleanShared,
    CleanInvalid = CHI_Op_CleanInvalid,
    MakeInvalid = CHI_Op_MakeInvalid,
    Evict = CHI_Op_Evict,
    WriteBackFull = CHI_Op_WriteBackFull,
    WriteCleanFull = CHI_Op_WriteCleanFull,
    WriteEvictFull = CHI_Op_WriteEvictFull,
    WriteUniqueFull = CHI_Op_WriteUniqueFull,
    PCrdReturn = CHI_Op_PCrdReturn,
    SnpOnce = CHI_Op_SnpOnce,
    SnpClean = CHI_Op_SnpClean,
    SnpShared = CHI_Op_SnpShared,
    SnpNotSharedDirty = CHI_Op_SnpNotSharedDirty,
    SnpCleanShared = CHI_Op_SnpCleanShared,
    SnpUnique = CHI_Op_SnpUnique,
    SnpCleanInvalid = CHI_Op_SnpCleanInvalid,
    SnpMakeInvalid = CHI_Op_SnpMakeInvalid,
    RetryAck = CHI_Op_RetryAck,
    Comp = CHI_Op_Comp,
    CompDBIDResp = CHI_Op_CompDBIDResp,
    PCrdGrant = CHI_Op_PCrdGrant,
    SnpResp = CHI_Op_SnpResp,
    CompAck = CHI_Op_CompAck,
    CompData = CHI_Op_CompData,
    SnpRespData = CHI_Op_SnpRespData,
    CopyBackWrData = CHI_Op_CopyBackWrData,
    NonCopyBackWrData = CHI_Op_NonCopyBackWrData,
    Load = CHI_Op_Load,
    Store = CHI_Op_Store,
    OtherRequest = CHI_Op_OtherRequest,
    OtherSnoop = CHI_Op_OtherSnoop,
    OtherAnswer = CHI_Op_OtherAnswer,
    OtherReply = CHI_Op_OtherReply,
    ReqLCrdReturn = CHI_Op_ReqLCrdReturn,
    ReadNoSnp = CHI_Op_ReadNoSnp,
    DVMOp = CHI_Op_DVMOp,
    WriteUniquePtl = CHI_Op_WriteUniquePtl,
    WriteBackPtl = CHI_Op_WriteBackPtl,
    WriteNoSnpPtl = CHI_Op_WriteNoSnpPtl,
    WriteNoSnpFull = CHI_Op_WriteNoSnpFull,
    WriteUniqueFullStash = CHI_Op_WriteUniqueFullStash,
    WriteUniquePtlStash = CHI_Op_WriteUniquePtlStash,
    StashOnceShared = CHI_Op_StashOnceShared,
    StashOnceUnique = CHI_Op_StashOnceUnique,
    ReadOnceCleanInvalid = CHI_Op_ReadOnceCleanInvalid,
    ReadOnceMakeInvalid = CHI_Op_ReadOnceMakeInvalid,
    CleanSharedPersist = CHI_Op_CleanSharedPersist,
    AtomicStore = CHI_Op_AtomicStore,
    AtomicLoad = CHI_Op_AtomicLoad,
    AtomicSwap = CHI_Op_AtomicSwap,
    AtomicCompare = CHI_Op_AtomicCompare,
    PrefetchTgt = CHI_Op_PrefetchTgt,
    SnpLCrdReturn = CHI_Op_SnpLCrdReturn,
    SnpUniqueStash = CHI_Op_SnpUniqueStash,
    SnpMakeInvalidStash = CHI_Op_SnpMakeInvalidStash,
    SnpStashUnique = CHI_Op_SnpStashUnique,
    SnpStashShared = CHI_Op_SnpStashShared,
    SnpDVMOp = CHI_Op_SnpDVMOp,
    SnpSharedFwd = CHI_Op_SnpSharedFwd,
    SnpCleanFwd = CHI_Op_SnpCleanFwd,
    SnpOnceFwd = CHI_Op_SnpOnceFwd,
    SnpNotSharedDirtyFwd = CHI_Op_SnpNotSharedDirtyFwd,
    SnpUniqueFwd = CHI_Op_SnpUniqueFwd,
    RespLCrdReturn = CHI_Op_RespLCrdReturn,
    DBIDResp = CHI_Op_DBIDResp,
    ReadReceipt = CHI_Op_ReadReceipt,
    SnpRespFwded = CHI_Op_SnpRespFwded,
    DataLCrdReturn = CHI_Op_DataLCrdReturn,
    SnpRespDataPtl = CHI_Op_SnpRespDataPtl,
    SnpRespDataFwded = CHI_Op_SnpRespDataFwded,
    WriteDataCancel = CHI_Op_WriteDataCancel
};

/* What the Resp field of a flit holds. */
enum class Resp : std::uint8_t {
    I = CHI_Resp_I,
    SC = CHI_Resp_SC,
    UC = CHI_Resp_UC,
    UD = CHI_Resp_UD,
    SD = CHI_Resp_SD,
    I_PD = CHI_Resp_I_PD,
    SC_PD = CHI_Resp_SC_PD,
    UC_PD = CHI_Resp_UC_PD,
    UD_PD = CHI_Resp_UD_PD,
    SD_PD = CHI_Resp_SD_PD
};

/* Whether stores may be done that an observer isn't given (docs/OBSERVER.md, "Stores that are listed"). */
enum class Stores : std::uint8_t { Hidden = CHI_Stores_Hidden, Listed = CHI_Stores_Listed };

/* Why an observer doesn't take a flit (docs/OBSERVER.md, "Faults" and "Ids and credits"). */
enum class ObserverReason : std::uint8_t {
    None = CHI_Fault_None,
    InUse = CHI_Fault_InUse,
    NotOpen = CHI_Fault_NotOpen,
    Unfinished = CHI_Fault_Unfinished,
    WordAgain = CHI_Fault_WordAgain,
    WrongAddress = CHI_Fault_WrongAddress,
    NotRetryable = CHI_Fault_NotRetryable,
    OtherType = CHI_Fault_OtherType,
    NothingRetried = CHI_Fault_NothingRetried,
    NoCredit = CHI_Fault_NoCredit,
    NoDbid = CHI_Fault_NoDbid,
    Form = CHI_Fault_Form,
    OtherHome = CHI_Fault_OtherHome,
    NotJudged = CHI_Fault_NotJudged,
    NoAgent = CHI_Fault_NoAgent,
    NotSent = CHI_Fault_NotSent,
    NotDue = CHI_Fault_NotDue,
    Busy = CHI_Fault_Busy,
    NoMoment = CHI_Fault_NoMoment,
    NoOverwriter = CHI_Fault_NoOverwriter,
    NoDuty = CHI_Fault_NoDuty,
    OtherWords = CHI_Fault_OtherWords,
    OtherCopy = CHI_Fault_OtherCopy,
    Lost = CHI_Fault_Lost,
    Other = CHI_Fault_Other,
    OtherBeat = CHI_Fault_OtherBeat
};

/* What an action gives, how far a request has come, what a line serves, what an arrival came to, and where a released
 * entry went. */
enum class EffectForm : std::uint8_t { Nothing = CHI_Nothing, Value = CHI_Value, Completed = CHI_Completed };
enum class Phase : std::uint8_t {
    NoRequest = CHI_NoRequest,
    Sent = CHI_Sent,
    Retried = CHI_Retried,
    Waiting = CHI_Waiting
};
enum class ServingForm : std::uint8_t {
    Idle = CHI_Idle,
    Snooping = CHI_Snooping,
    AwaitingCompAck = CHI_AwaitingCompAck,
    AwaitingWriteData = CHI_AwaitingWriteData
};
enum class ArrivalForm : std::uint8_t {
    NotArrived = CHI_NotArrived,
    Admitted = CHI_Admitted,
    RetriedWith = CHI_RetriedWith
};
enum class ReleaseForm : std::uint8_t { NotReleased = CHI_NotReleased, Freed = CHI_Freed, Granted = CHI_Granted };

using Words = std::array<std::uint64_t, 8>;
using Counts = std::array<std::uint32_t, 4>;

/* The sizes of a node (docs/PROTOCOL.md, "Limits"). */
struct Config {
    std::uint8_t agents = 1;
    std::uint8_t lines = 1;
    std::uint8_t slices = 1;
    Profile profile = Profile::Two;
    std::array<std::uint16_t, 4> entries = {1, 1, 0, 0};
    std::uint32_t journal = 65536;
};

/* An action. Fields that its step does not read may hold anything. */
struct Action {
    std::uint8_t agent = 0;
    std::uint8_t line = 0;
    Step step = Step::Load;
    Kind kind = Kind::ReadNotSharedDirty;
    std::uint8_t slot = 0;
    std::uint8_t word = 0;
    std::uint64_t value = 0;
};

/* What an action gives: the value that a load read, or the slot of a request that the home is done with. */
struct Effect {
    std::optional<std::uint64_t> value;
    std::optional<std::uint8_t> completed;
};

/* A message in flight: of a request its kind, slot and AllowRetry, of a RetryAck its credit type, of data its words. */
struct Flit {
    Message message = Message::NoMessage;
    std::optional<Kind> kind;
    std::optional<std::uint8_t> slot;
    std::optional<bool> allow_retry;
    std::optional<std::uint8_t> credit;
    std::optional<Words> words;
};

/* What is in flight between an agent and the home for a line. */
struct Flits {
    std::array<std::optional<Flit>, 6> channels;
    const std::optional<Flit> &operator[](Channel channel) const { return channels[static_cast<std::size_t>(channel)]; }
};

/* A flit that an action sent or took, between the agent and the home. */
struct Sent {
    std::uint8_t agent = 0;
    Channel channel = Channel::Req;
    Flit flit;
};

/* Up to `Most` things, without memory of their own. */
template <class T, std::size_t Most> class Some {
  public:
    const T *begin() const { return each_.data(); }
    const T *end() const { return each_.data() + count_; }
    std::size_t size() const { return count_; }
    bool empty() const { return count_ == 0; }
    const T &operator[](std::size_t place) const {
        assert(place < count_);
        return each_[place];
    }
    void push_back(const T &it) {
        assert(count_ < Most);
        each_[count_++] = it;
    }

  private:
    std::array<T, Most> each_ = {};
    std::size_t count_ = 0;
};

/* What an action gives, the flits that it sent, and the one that it took. */
struct Stepped {
    Effect effect;
    Some<Sent, CHI_MostSent> sent;
    std::optional<Sent> taken;
};

/* The first flit that no run of the model sends: why, also as text, of which agent and line, and how many were taken before
 * it, of all lines. */
struct FirstFault {
    Reason reason = Reason::NoReason;
    std::uint8_t agent = 0;
    std::uint8_t line = 0;
    std::uint64_t number = 0;
    std::string text;
};

/* What is open of an agent at a line: a request that was neither completed nor retried, a retried one that was not sent
 * again, a snoop without its answer, a completion without its CompAck, a CompDBIDResp without its write data. */
struct Open {
    bool request = false;
    bool retried = false;
    bool snoop = false;
    bool completion = false;
    bool write_data = false;
};

/* What an observer is opened for: so many lines of memory that flits touch, ids that are open at once, accounts of credits,
 * requesters and homes. Of credits there are 2 or 4 types, each with its kinds of request, or, as 0, any with any kind; with
 * early grants monitors stand at the requesters, which may see a grant before its RetryAck. Where stores are listed each is
 * given. */
struct ObserverConfig {
    std::uint32_t lines = 1024;
    std::uint32_t ids = 1024;
    std::uint32_t accounts = 256;
    std::uint8_t requesters = 32;
    std::uint8_t homes = 1;
    std::uint8_t types = 0;
    bool early_grants = false;
    Stores stores = Stores::Hidden;
};

/* A flit, whole, as a monitor sees it, or a load or a store of a processor. Fields that its opcode hasn't may hold anything
 * (ChiSeen of chihome.h says which it has): the address lacks where it isn't known of a response or data, the DBID where
 * none is named, and of data in beats the mask has a bit for each word of this beat. A flit without a number of its own has
 * the one behind that of the flit before. */
struct Seen {
    Opcode opcode = Opcode::None;
    std::uint16_t source = 0;
    std::uint16_t target = 0;
    std::uint16_t txn = 0;
    std::optional<std::uint64_t> address;
    Resp resp = Resp::I;
    std::optional<std::uint16_t> dbid;
    bool allow_retry = true;
    std::uint8_t credit = 0;
    std::uint8_t mask = 255;
    Words words = {};
    std::optional<std::uint64_t> number;
};

/* The first flit that an observer doesn't take: its number, its requester, its line of memory where one is known, and why, also
 * as text. */
struct ObserverFault {
    ObserverReason reason = ObserverReason::None;
    std::uint64_t number = 0;
    std::uint16_t node = 0;
    std::optional<std::uint64_t> line;
    std::string text;
};

/* How much of what it was given an observer hasn't judged: flits, lines of memory, and loads and stores, each of so many
 * (`of_flits`, `of_lines`, `of_accesses`); and why, as text, which is empty where all is judged. */
struct Unjudged : ChiUnjudged {
    std::string text;
};

/* How much an observer has seen, and what it holds: the fields of ChiObserverCounts. */
struct ObserverCounts : ChiObserverCounts {
    /* Whether nothing is open, as it should be at the end of a run. */
    bool is_complete() const { return (requests | completions | snoops | retried | unsettled) == 0; }
};

/* An agent's copy of a line. */
struct Copy {
    State state = State::I;
    Words words = {};
};

/* A request that is pending, or that waits at the home. */
struct Request {
    Phase phase = Phase::NoRequest;
    Kind kind = Kind::ReadNotSharedDirty;
    std::uint8_t slot = 0;
};

/* What the home does at a line: of no kind while a CompAck is awaited. */
struct Serving {
    ServingForm form = ServingForm::Idle;
    std::uint8_t agent = 0;
    std::optional<Kind> kind;
    std::uint8_t slot = 0;
};

/* All parts of a line but its flits. Arrays of eight are by agent, or by word. */
struct Line {
    std::array<Copy, 8> copies;
    Words memory = {};
    Words last = {};
    std::array<std::optional<Request>, 8> pending;
    std::array<std::optional<Request>, 8> waiting;
    std::array<bool, 8> named = {};
    std::array<bool, 8> awaited = {};
    std::optional<Serving> serving;
    bool unique = false;
    std::optional<std::uint8_t> owner;
};

/* A load or a store that was answered. */
struct Record {
    bool store = false;
    std::uint8_t agent = 0;
    std::uint8_t line = 0;
    std::uint8_t word = 0;
    std::uint64_t value = 0;
};

/* What an arrival came to: admitted with an entry of the tracker, or retried with a credit type. */
struct Arrival {
    std::optional<std::uint8_t> entry;
    std::optional<std::uint8_t> credit;
};

/* Where a released entry went, and the agent that it was promised to, if to any. */
struct Release {
    ReleaseForm form = ReleaseForm::NotReleased;
    std::optional<std::uint8_t> agent;
};

/* What an action of a node gives, and where the entry of a completed request went. */
struct Served {
    Effect effect;
    Release release;
};

/* What an arrival came to, the flits that it sent, and the one that it took. */
struct ArrivalFlits {
    Arrival arrival;
    Some<Sent, CHI_MostSent> sent;
    std::optional<Sent> taken;
};

/* What an action of a node gives, where the entry of a completed request went, the flits that it sent, and the one that
 * it took. */
struct ServedFlits {
    Effect effect;
    Release release;
    Some<Sent, CHI_MostSent> sent;
    std::optional<Sent> taken;
};

/* Entries that are free, in hand and promised, and credits that are owed, by type. */
struct Totals {
    Counts free = {};
    Counts hand = {};
    Counts promised = {};
    Counts owed = {};
};

/* How many loads and stores there were, and whether all is coherent, as always. */
struct Audit {
    std::uint64_t loads = 0;
    std::uint64_t stores = 0;
    bool coherent = false;
};

/* What a call that tells something came to: what it tells where it was done, and else the refusal. */
template <class T> class [[nodiscard]] Outcome {
  public:
    Outcome(T told) : told_(std::move(told)) {}
    Outcome(Answer refusal) : answer_(refusal) {}

    Answer answer() const { return answer_; }
    explicit operator bool() const { return told_.has_value(); }
    const std::optional<T> &told() const { return told_; }
    T &operator*() & {
        assert(told_);
        return *told_;
    }
    const T &operator*() const & {
        assert(told_);
        return *told_;
    }
    /* (of a temporary by value, which a loop over it may keep) */
    T operator*() && {
        assert(told_);
        return std::move(*told_);
    }
    T *operator->() {
        assert(told_);
        return &*told_;
    }
    const T *operator->() const {
        assert(told_);
        return &*told_;
    }

  private:
    Answer answer_ = Answer::OK;
    std::optional<T> told_;
};

/* Between the layouts of chihome.h and what stands above. */
namespace layout {

template <class Enum> std::uint8_t number(Enum it) { return static_cast<std::uint8_t>(it); }

inline Words words(const std::uint64_t (&from)[8]) {
    Words to;
    for (std::size_t word = 0; word < 8; word++) to[word] = from[word];
    return to;
}

inline Counts counts(const std::uint32_t (&from)[4]) { return {from[0], from[1], from[2], from[3]}; }

inline ChiConfig config(const Config &from) {
    ChiConfig to = {from.agents, from.lines, from.slices, number(from.profile), {0, 0, 0, 0}, from.journal};
    for (std::size_t type = 0; type < 4; type++) to.entries[type] = from.entries[type];
    return to;
}

inline ChiAction action(const Action &from) {
    return {from.agent, from.line, number(from.step), number(from.kind), from.slot, from.word, from.value};
}

inline Action action(const ChiAction &from) {
    return {from.agent, from.line, Step(from.step), Kind(from.kind), from.slot, from.word, from.value};
}

inline Effect effect(const ChiEffect &from) {
    Effect to;
    if (from.effect == CHI_Value) to.value = from.value;
    if (from.effect == CHI_Completed) to.completed = from.slot;
    return to;
}

inline bool has_data(std::uint8_t message) {
    return message == CHI_CompData_SC || message == CHI_CompData_UC || message >= CHI_SnpRespData_I_PD;
}

inline std::optional<Flit> flit(const ChiFlit &from) {
    if (from.message == CHI_NoMessage) return std::nullopt;
    Flit to;
    to.message = Message(from.message);
    if (from.message == CHI_Request) {
        to.kind = Kind(from.kind);
        to.slot = from.slot;
        to.allow_retry = from.allow_retry != 0;
    }
    if (from.message == CHI_RetryAck) to.credit = from.credit;
    if (has_data(from.message)) to.words = words(from.words);
    return to;
}

inline ChiSent sent(std::uint8_t agent, const Flit &from) {
    ChiSent to = {};
    to.agent = agent;
    to.flit.message = number(from.message);
    to.flit.kind = from.kind ? number(*from.kind) : std::uint8_t{0};
    to.flit.slot = from.slot.value_or(0);
    to.flit.allow_retry = from.allow_retry.value_or(false);
    to.flit.credit = from.credit.value_or(0);
    for (std::size_t word = 0; from.words && word < 8; word++) to.flit.words[word] = (*from.words)[word];
    return to;
}

inline Flits flits(const ChiFlits &from) {
    Flits to;
    for (std::size_t channel = 0; channel < 6; channel++) to.channels[channel] = flit(from.channels[channel]);
    return to;
}

inline std::optional<Sent> sent(const ChiSent &from) {
    std::optional<Flit> it = flit(from.flit);
    if (!it) return std::nullopt;
    return Sent{from.agent, Channel(from.channel), *it};
}

inline Some<Sent, CHI_MostSent> sent(const ChiSent (&from)[CHI_MostSent], std::uint8_t count) {
    Some<Sent, CHI_MostSent> to;
    for (std::size_t place = 0; place < count; place++) to.push_back(*sent(from[place]));
    return to;
}

inline std::optional<Request> request(const ChiRequest &from) {
    if (from.phase == CHI_NoRequest) return std::nullopt;
    return Request{Phase(from.phase), Kind(from.kind), from.slot};
}

inline std::optional<Serving> serving(const ChiServing &from) {
    if (from.form == CHI_Idle) return std::nullopt;
    Serving to = {ServingForm(from.form), from.agent, std::nullopt, from.slot};
    if (from.form != CHI_AwaitingCompAck) to.kind = Kind(from.kind);
    return to;
}

inline Line line(const ChiLine &from) {
    Line to;
    to.memory = words(from.memory);
    to.last = words(from.last);
    for (std::size_t agent = 0; agent < 8; agent++) {
        to.copies[agent] = {State(from.copies[agent].state), words(from.copies[agent].words)};
        to.pending[agent] = request(from.pending[agent]);
        to.waiting[agent] = request(from.waiting[agent]);
        to.named[agent] = from.named[agent] != 0;
        to.awaited[agent] = from.awaited[agent] != 0;
    }
    to.serving = serving(from.serving);
    to.unique = from.unique != 0;
    if (from.owner != CHI_Nobody) to.owner = from.owner;
    return to;
}

inline Arrival arrival(const ChiArrival &from) {
    Arrival to;
    if (from.arrival == CHI_Admitted) to.entry = from.entry;
    if (from.arrival == CHI_RetriedWith) to.credit = from.credit;
    return to;
}

inline Release release(const ChiRelease &from) {
    Release to;
    to.form = ReleaseForm(from.release);
    if (from.release == CHI_Granted) to.agent = from.agent;
    return to;
}

inline ChiObserverConfig config(const ObserverConfig &from) {
    return {from.lines, from.ids, from.accounts, from.requesters, from.homes, from.types, from.early_grants,
            layout::number(from.stores), {}};
}

inline ChiSeen seen(const Seen &from, std::uint64_t number) {
    ChiSeen to = {};
    to.number = number;
    to.address = from.address.value_or(0);
    to.has_address = from.address.has_value();
    to.source = from.source;
    to.target = from.target;
    to.txn = from.txn;
    to.dbid = from.dbid.value_or(0);
    to.has_dbid = from.dbid.has_value();
    to.opcode = layout::number(from.opcode);
    to.resp = layout::number(from.resp);
    to.credit = from.credit;
    to.allow_retry = from.allow_retry;
    to.mask = from.mask;
    for (std::size_t word = 0; word < 8; word++) to.words[word] = from.words[word];
    return to;
}

inline std::optional<ObserverFault> fault(const ChiObserverFault &from) {
    if (from.reason == CHI_Fault_None) return std::nullopt;
    ObserverFault to;
    to.reason = ObserverReason(from.reason);
    to.number = from.number;
    to.node = from.node;
    if (from.has_line != 0) to.line = from.line;
    return to;
}

/* What a call that answered `answer` came to. */
template <class T> Outcome<T> outcome(std::uint8_t answer, T told) {
    if (answer != CHI_OK) return Answer(answer);
    return told;
}

}  // namespace layout

/* A slice by itself. Closed until it is opened or moved to, and after it was moved from; each call on a closed one is
 * answered Answer::Closed. */
class Slice {
  public:
    Slice() = default;
    Slice(Slice &&other) noexcept : handle_(std::exchange(other.handle_, ChiSlice{nullptr})) {}
    Slice &operator=(Slice &&other) noexcept {
        if (this != &other) {
            close();
            handle_ = std::exchange(other.handle_, ChiSlice{nullptr});
        }
        return *this;
    }
    ~Slice() { close(); }

    /* Slice `index` of a node of these sizes, in its opening state. OutOfRange where a size is outside its limits or the
     * index is not below the slices; NoMemory. */
    static Outcome<Slice> open(const Config &config, std::uint8_t index = 0) {
        Slice opened;
        const ChiConfig sizes = layout::config(config);
        const std::uint8_t answer = chi_slice_open(&opened.handle_, &sizes, index);
        return layout::outcome(answer, std::move(opened));
    }

    /* Slice `index` of a node of these sizes as it was saved in `length` bytes. OtherVersion, OtherSize and Damaged where they
     * are of no such slice; OutOfRange as by open; NoMemory. */
    static Outcome<Slice> load(const Config &config, std::uint8_t index, const std::uint8_t *bytes, std::size_t length) {
        Slice loaded;
        const ChiConfig sizes = layout::config(config);
        const std::uint8_t answer = chi_slice_load(&loaded.handle_, &sizes, index, bytes, length);
        return layout::outcome(answer, std::move(loaded));
    }

    /* Writes the slice into `bytes`, where there is room for `room` of them: tells how many it has in `length`. JournalFull
     * where there is room for fewer, and then nothing is written; NoMemory. No other slice has the same bytes. */
    Answer save(std::uint8_t *bytes, std::size_t room, std::size_t &length) {
        return Answer(chi_slice_save(&handle_, bytes, room, &length));
    }

    /* Does an action, and tells what it gives. Refused as docs/PROTOCOL.md, "The actions", says. */
    Outcome<Effect> act(const Action &action) {
        const ChiAction told = layout::action(action);
        ChiEffect effect;
        const std::uint8_t answer = chi_slice_act(&handle_, &told, &effect);
        return layout::outcome(answer, layout::effect(effect));
    }

    /* Does an action as act does it, and tells also the flits that it sent, and the one that it took. */
    Outcome<Stepped> step(const Action &action) {
        const ChiAction told = layout::action(action);
        ChiEffect effect;
        ChiSent sent[CHI_MostSent], taken;
        std::uint8_t count = 0;
        const std::uint8_t answer = chi_slice_step(&handle_, &told, &effect, sent, &count, &taken);
        return layout::outcome(answer, Stepped{layout::effect(effect), layout::sent(sent, count), layout::sent(taken)});
    }

    /* What act would answer. Nothing is done. */
    Answer refusal(const Action &action) {
        const ChiAction told = layout::action(action);
        return Answer(chi_slice_refusal(&handle_, &told));
    }

    /* The agent's actions at the line that act would do: each step once, Load and Store of word 0 with value 0, Issue for
     * each kind with the agent's lowest slot that is idle in this slice. Nothing is done. OutOfRange. */
    Outcome<Some<Action, CHI_MostEnabled>> enabled(std::uint8_t agent, std::uint8_t line) {
        ChiAction actions[CHI_MostEnabled];
        std::uint8_t count = 0;
        const std::uint8_t answer = chi_slice_enabled(&handle_, agent, line, actions, &count);
        Some<Action, CHI_MostEnabled> told;
        for (std::size_t place = 0; place < count; place++) told.push_back(layout::action(actions[place]));
        return layout::outcome(answer, told);
    }

    /* The line. OutOfRange where it is outside the node or in another slice. */
    Outcome<Line> show(std::uint8_t line) {
        ChiLine shown;
        const std::uint8_t answer = chi_slice_show(&handle_, line, &shown);
        return layout::outcome(answer, layout::line(shown));
    }

    /* What is in flight between the agent and the home for the line. OutOfRange as of show, and of the agent. */
    Outcome<Flits> flits(std::uint8_t agent, std::uint8_t line) {
        ChiFlits told;
        const std::uint8_t answer = chi_slice_flits(&handle_, agent, line, &told);
        return layout::outcome(answer, layout::flits(told));
    }

    /* The load or store of a place in the journal, from 0. OutOfRange behind its end. */
    Outcome<Record> journal(std::uint32_t place) {
        ChiRecord entry;
        const std::uint8_t answer = chi_slice_journal(&handle_, place, &entry);
        return layout::outcome(answer, Record{entry.store != 0, entry.agent, entry.line, entry.word, entry.value});
    }

    /* How many loads and stores there were, and whether each line is coherent and the journal legal, as always. */
    Outcome<Audit> audit() {
        ChiAudit told;
        const std::uint8_t answer = chi_slice_audit(&handle_, &told);
        return layout::outcome(answer, Audit{told.loads, told.stores, told.coherent != 0});
    }

    /* A slice that is the same, in memory of its own: each goes on by itself. NoMemory. */
    Outcome<Slice> copy() const {
        Slice copied;
        const std::uint8_t answer = chi_slice_copy(&copied.handle_, &handle_);
        return layout::outcome(answer, std::move(copied));
    }

    /* Whether the slices are the same: their sizes and index, each line with its flits, and the journal. Two
     * closed ones are, and a closed one is the same as no open one. */
    friend bool operator==(const Slice &one, const Slice &other) noexcept {
        if (&one == &other || !one.is_open() || !other.is_open()) return one.is_open() == other.is_open();
        std::uint8_t equal = 0;
        chi_slice_equal(&one.handle_, &other.handle_, &equal);
        return equal != 0;
    }
    friend bool operator!=(const Slice &one, const Slice &other) noexcept { return !(one == other); }

    bool is_open() const { return handle_.at != nullptr; }

    /* Frees what is open. Closed where nothing is. */
    Answer close() noexcept { return is_open() ? Answer(chi_slice_close(&handle_)) : Answer::Closed; }

  private:
    friend class Node;
    mutable ChiSlice handle_ = {nullptr}; /* each call leaves it as it is, and may write it meanwhile */
};

/* A whole node on one thread: its slices, its tracker and its requesters, by the calls of docs/PROTOCOL.md, "A requester
 * and its calls". Closed until it is opened or moved to, and after it was moved from; each call on a closed one is
 * answered Answer::Closed. */
class Node {
  public:
    Node() = default;
    Node(Node &&other) noexcept : handle_(std::exchange(other.handle_, ChiNode{nullptr})) {}
    Node &operator=(Node &&other) noexcept {
        if (this != &other) {
            close();
            handle_ = std::exchange(other.handle_, ChiNode{nullptr});
        }
        return *this;
    }
    ~Node() { close(); }

    /* A node of these sizes, in its opening state. OutOfRange where a size is outside its limits; NoMemory. */
    static Outcome<Node> open(const Config &config) {
        Node opened;
        const ChiConfig sizes = layout::config(config);
        const std::uint8_t answer = chi_node_open(&opened.handle_, &sizes);
        return layout::outcome(answer, std::move(opened));
    }

    /* The agent's request in flight at the line arrives: it is admitted with an entry, or retried where each of its type
     * is claimed. OutOfRange; NoFlit where none is in flight. */
    Outcome<Arrival> arrive(std::uint8_t agent, std::uint8_t line) {
        ChiArrival arrival;
        const std::uint8_t answer = chi_node_arrive(&handle_, agent, line, &arrival);
        return layout::outcome(answer, layout::arrival(arrival));
    }

    /* Does an action, and tells what it gives and where the entry of a completed request went. Refused as
     * docs/PROTOCOL.md, "A requester and its calls", says; OutOfRange also of Admit and Retry, which are arrive's. */
    Outcome<Served> step(const Action &action) {
        const ChiAction told = layout::action(action);
        ChiEffect effect;
        ChiRelease release;
        const std::uint8_t answer = chi_node_step(&handle_, &told, &effect, &release);
        return layout::outcome(answer, Served{layout::effect(effect), layout::release(release)});
    }

    /* As arrive and as step, and tell also the flits that were sent, and the one that was taken. */
    Outcome<ArrivalFlits> arrive_flits(std::uint8_t agent, std::uint8_t line) {
        ChiArrival arrival;
        ChiSent sent[CHI_MostSent], taken;
        std::uint8_t count = 0;
        const std::uint8_t answer = chi_node_arrive_flits(&handle_, agent, line, &arrival, sent, &count, &taken);
        return layout::outcome(
            answer, ArrivalFlits{layout::arrival(arrival), layout::sent(sent, count), layout::sent(taken)});
    }
    Outcome<ServedFlits> step_flits(const Action &action) {
        const ChiAction told = layout::action(action);
        ChiEffect effect;
        ChiRelease release;
        ChiSent sent[CHI_MostSent], taken;
        std::uint8_t count = 0;
        const std::uint8_t answer = chi_node_step_flits(&handle_, &told, &effect, &release, sent, &count, &taken);
        return layout::outcome(answer, ServedFlits{layout::effect(effect), layout::release(release),
                                                   layout::sent(sent, count), layout::sent(taken)});
    }

    /* The agent looks at what is promised to it: the seen credits by type. OutOfRange. */
    Outcome<Counts> see(std::uint8_t agent) {
        ChiCredits credits;
        const std::uint8_t answer = chi_node_see(&handle_, agent, &credits);
        return layout::outcome(answer, layout::counts(credits.seen));
    }

    /* The agent gives a seen credit of the type back, for a request that it cancelled. OutOfRange; NoCredit. */
    Outcome<Release> give_back(std::uint8_t agent, std::uint8_t credit) {
        ChiRelease release;
        const std::uint8_t answer = chi_node_give_back(&handle_, agent, credit, &release);
        return layout::outcome(answer, layout::release(release));
    }

    /* The agent claims a free entry of the type for whoever is owed one, and releases it: NotReleased where nobody was
     * seen owed one or none was free. OutOfRange. */
    Outcome<Release> tend(std::uint8_t agent, std::uint8_t credit) {
        ChiRelease release;
        const std::uint8_t answer = chi_node_tend(&handle_, agent, credit, &release);
        return layout::outcome(answer, layout::release(release));
    }

    /* The line, and what is in flight between the agent and the home for one. OutOfRange. */
    Outcome<Line> show(std::uint8_t line) {
        ChiLine shown;
        const std::uint8_t answer = chi_node_show(&handle_, line, &shown);
        return layout::outcome(answer, layout::line(shown));
    }
    Outcome<Flits> flits(std::uint8_t agent, std::uint8_t line) {
        ChiFlits told;
        const std::uint8_t answer = chi_node_flits(&handle_, agent, line, &told);
        return layout::outcome(answer, layout::flits(told));
    }

    /* How many entries of each type are free, in hand and promised, and how many credits are owed. */
    Outcome<Totals> totals() {
        ChiTotals told;
        const std::uint8_t answer = chi_node_totals(&handle_, &told);
        return layout::outcome(answer, Totals{layout::counts(told.free), layout::counts(told.hand),
                                              layout::counts(told.promised), layout::counts(told.owed)});
    }

    /* Whether each requester agrees with each slice: Answer::OK, always. */
    Answer agrees() { return Answer(chi_node_agrees(&handle_)); }

    /* How many loads and stores there were, and whether each line is coherent and each journal legal, as always. */
    Outcome<Audit> audit() {
        ChiAudit told;
        const std::uint8_t answer = chi_node_audit(&handle_, &told);
        return layout::outcome(answer, Audit{told.loads, told.stores, told.coherent != 0});
    }

    /* The slice of a line, without tracker and requesters, in memory of its own: each goes on by itself. NoMemory. */
    Outcome<Slice> slice(std::uint8_t line) {
        Slice copied;
        const std::uint8_t answer = chi_node_slice(&copied.handle_, &handle_, line);
        return layout::outcome(answer, std::move(copied));
    }

    /* Whether the slice of a line is the same as this one. */
    Outcome<bool> has_slice(std::uint8_t line, const Slice &slice) {
        std::uint8_t equal = 0;
        const std::uint8_t answer = chi_node_slice_equal(&handle_, line, &slice.handle_, &equal);
        return layout::outcome(answer, equal != 0);
    }

    bool is_open() const { return handle_.at != nullptr; }

    /* Frees what is open. Closed where nothing is. */
    Answer close() noexcept { return is_open() ? Answer(chi_node_close(&handle_)) : Answer::Closed; }

  private:
    ChiNode handle_ = {nullptr};
};

/* A monitor of the lines of a node, which is given the flits that were observed, in the order in which their senders put
 * them on their ports, and finds the first that no run of the model sends. Closed until it is opened or moved to, and after
 * it was moved from; each call on a closed one is answered Answer::Closed. */
class Monitor {
  public:
    Monitor() = default;
    Monitor(Monitor &&other) noexcept : handle_(std::exchange(other.handle_, ChiMonitor{nullptr})) {}
    Monitor &operator=(Monitor &&other) noexcept {
        if (this != &other) {
            close();
            handle_ = std::exchange(other.handle_, ChiMonitor{nullptr});
        }
        return *this;
    }
    ~Monitor() { close(); }

    /* A monitor of so many agents and lines, which keeps so many flits of each line to be explained; with 0 it keeps none,
     * and takes flits without an end. The profile is 0, with two credit types, or 1, with four. OutOfRange; NoMemory. */
    static Outcome<Monitor> open(std::uint8_t agents, std::uint8_t lines, std::uint32_t kept = 0,
                                 std::uint8_t profile = 0) {
        Monitor opened;
        const std::uint8_t answer = chi_monitor_open(&opened.handle_, profile, agents, lines, kept);
        return layout::outcome(answer, std::move(opened));
    }

    /* Takes the next flit of the line, between the agent and the home. Fault where no run of the model sends it behind those
     * before, and of each behind that; OutOfRange; JournalFull; NoMemory. */
    Answer flit(std::uint8_t line, std::uint8_t agent, const Flit &flit) {
        const ChiSent told = layout::sent(agent, flit);
        return Answer(chi_monitor_flit(&handle_, line, &told));
    }

    /* The first fault, if there is one. */
    Outcome<std::optional<FirstFault>> fault() {
        ChiFault told;
        const std::uint8_t answer = chi_monitor_fault(&handle_, &told);
        std::optional<FirstFault> first;
        if (told.reason != CHI_NoReason) {
            first.emplace();
            first->reason = Reason(told.reason);
            first->agent = told.agent;
            first->line = told.line;
            first->number = told.number;
            first->text = text();
        }
        return layout::outcome(answer, std::move(first));
    }

    /* Why no run of the model sends the flit of the first fault, in words with these agents and flits; empty where there is
     * none. */
    std::string text() {
        std::uint8_t bytes[1024];
        std::size_t length = 0;
        if (chi_monitor_text(&handle_, bytes, sizeof bytes, &length) != CHI_OK) return "";
        return std::string(bytes, bytes + length);
    }

    /* What is open of each agent at the line, behind the flits that were taken. OutOfRange. */
    Outcome<std::array<Open, 8>> end(std::uint8_t line) {
        ChiOpen told[8];
        const std::uint8_t answer = chi_monitor_end(&handle_, line, told);
        std::array<Open, 8> agents;
        for (std::size_t agent = 0; agent < 8; agent++)
            agents[agent] = {told[agent].request != 0, told[agent].retried != 0, told[agent].snoop != 0,
                             told[agent].completion != 0, told[agent].write_data != 0};
        return layout::outcome(answer, std::move(agents));
    }

    /* Explains the flits that were kept of the line: OK where actions of the model are found, and done, and send just these.
     * Fault where none are found; NotKept; OutOfRange; NoMemory. */
    Answer explain(std::uint8_t line) { return Answer(chi_monitor_explain(&handle_, line)); }

    bool is_open() const { return handle_.at != nullptr; }

    /* Frees what is open. Closed where nothing is. */
    Answer close() noexcept { return is_open() ? Answer(chi_monitor_close(&handle_)) : Answer::Closed; }

  private:
    ChiMonitor handle_ = {nullptr};
};

/* An observer of any home and any caches, which is given the flits that were seen, in the order in which their senders put
 * them on their ports, and finds the first that isn't safe or that nothing explains (docs/OBSERVER.md). Closed until it is
 * opened or moved to, and after it was moved from; each call on a closed one is answered Answer::Closed. */
class Observer {
  public:
    Observer() = default;
    Observer(Observer &&other) noexcept
        : handle_(std::exchange(other.handle_, ChiObserver{nullptr})), last_(std::exchange(other.last_, 0)) {}
    Observer &operator=(Observer &&other) noexcept {
        if (this != &other) {
            static_cast<void>(close());
            handle_ = std::exchange(other.handle_, ChiObserver{nullptr});
            last_ = std::exchange(other.last_, 0);
        }
        return *this;
    }
    ~Observer() { static_cast<void>(close()); }

    /* An observer for so much, that has seen no flit. OutOfRange where a size is outside its limits; NoMemory. */
    static Outcome<Observer> open(const ObserverConfig &config) {
        Observer opened;
        const ChiObserverConfig sizes = layout::config(config);
        const std::uint8_t answer = chi_observer_open(&opened.handle_, &sizes);
        return layout::outcome(answer, std::move(opened));
    }

    /* Takes the next flit. SetAside where it is taken and its line is set aside, by it or before it. Fault where the ids, the
     * credits or its line don't allow it, and of each behind that; Full where there is no room for what it would add;
     * OutOfRange of a number that is none of an enum's, number 0, and where a field lacks: the DBID of a CompDBIDResp, or
     * each word of data. */
    Answer take(const Seen &seen) {
        const std::uint64_t number = seen.number.value_or(last_ + 1);
        const ChiSeen told = layout::seen(seen, number);
        const Answer answer = Answer(chi_observer_take(&handle_, &told));
        if (answer == Answer::OK || answer == Answer::SetAside) last_ = number;
        return answer;
    }

    /* The first fault, if there is one. */
    Outcome<std::optional<ObserverFault>> fault() {
        ChiObserverFault told;
        const std::uint8_t answer = chi_observer_fault(&handle_, &told);
        std::optional<ObserverFault> first = layout::fault(told);
        if (first) first->text = text();
        return layout::outcome(answer, std::move(first));
    }

    /* The first fault in words, as `chihome observe` prints it of a trace whose lines have the flits' numbers; empty where
     * there is none. */
    std::string text() { return said(chi_observer_text); }

    /* How much of what it was given isn't judged, and why, as `chihome observe` prints it. */
    Outcome<Unjudged> unjudged() {
        Unjudged told;
        const std::uint8_t answer = chi_observer_unjudged(&handle_, &told);
        if (answer == CHI_OK) told.text = said(chi_observer_unjudged_text);
        return layout::outcome(answer, std::move(told));
    }

    /* How much it has seen, and what it holds. */
    Outcome<ObserverCounts> counts() {
        ObserverCounts told;
        const std::uint8_t answer = chi_observer_counts(&handle_, &told);
        return layout::outcome(answer, told);
    }

    /* An observer that is the same, in memory of its own: each goes on by itself. NoMemory. */
    Outcome<Observer> copy() const {
        Observer copied;
        const std::uint8_t answer = chi_observer_copy(&copied.handle_, &handle_);
        copied.last_ = answer == CHI_OK ? last_ : 0;
        return layout::outcome(answer, std::move(copied));
    }

    bool is_open() const { return handle_.at != nullptr; }

    /* Frees what is open. NothingJudged where nothing that it took was judged, be it that it took nothing, and PartlyJudged where
     * some wasn't: it is closed then too. Closed where nothing is open. */
    [[nodiscard]] Answer close() noexcept {
        last_ = 0;
        return is_open() ? Answer(chi_observer_close(&handle_)) : Answer::Closed;
    }

  private:
    std::string said(std::uint8_t (*call)(ChiObserver *, std::uint8_t *, std::size_t, std::size_t *)) {
        std::uint8_t bytes[1024];
        std::size_t length = 0;
        std::uint8_t answer = call(&handle_, bytes, sizeof bytes, &length);
        if (answer == CHI_OK) return std::string(bytes, bytes + length);
        if (answer != CHI_JournalFull) return "";
        std::string longer(length, ' ');
        answer = call(&handle_, reinterpret_cast<std::uint8_t *>(&longer[0]), longer.size(), &length);
        return answer == CHI_OK ? longer : "";
    }

    mutable ChiObserver handle_ = {nullptr}; /* a copy leaves it as it is, and may write it meanwhile */
    std::uint64_t last_ = 0; /* the number of the last flit that was taken */
};

/* The version of the library, and the names of numbers, as chihome prints them. */
inline const char *version() { return chi_version(); }
inline const char *name(Step it) { return chi_step_name(layout::number(it)); }
inline const char *name(Kind it) { return chi_kind_name(layout::number(it)); }
inline const char *name(Message it) { return chi_message_name(layout::number(it)); }
inline const char *name(State it) { return chi_state_name(layout::number(it)); }
inline const char *name(Reason it) { return chi_reason_name(layout::number(it)); }
inline const char *name(Answer it) { return chi_refusal_name(layout::number(it)); }
inline const char *name(Opcode it) { return chi_opcode_name(layout::number(it)); }
inline const char *name(Resp it) { return chi_resp_name(layout::number(it)); }
inline const char *name(ObserverReason it) { return chi_observer_reason_name(layout::number(it)); }

}  // namespace chihome

#endif
