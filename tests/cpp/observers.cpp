/* What the handle of an observer in chihome.hpp answers: opened, moved and closed, with no room, to a fault and to a line that
 * is set aside, and what it tells. With traces as arguments it observes each instead, and prints the first line that `chihome
 * observe` prints of it. The status is 0 where all holds. */
#include "chihome.hpp"

#include "../c/trace.h"

#include <cinttypes>
#include <cstring>
#include <fstream>
#include <string>
#include <type_traits>
#include <vector>

using namespace chihome;

static int failures;

#define HOLDS(it) ((it) ? (void)0 : (void)(failures++, std::printf("%s:%d: %s\n", __FILE__, __LINE__, #it)))

static_assert(!std::is_copy_constructible_v<Observer> && !std::is_copy_assignable_v<Observer>);
static_assert(std::is_nothrow_move_constructible_v<Observer> && std::is_nothrow_move_assignable_v<Observer>);

static ObserverConfig sizes(std::uint32_t lines) {
    ObserverConfig config;
    config.lines = lines;
    config.ids = 8;
    config.accounts = 4;
    return config;
}

/* The flit of a line of a trace; without a number of its own. */
static Seen seen(const std::string &line) {
    ChiSeen from;
    HOLDS(read_flit(line.c_str(), 1, &from));
    Seen to;
    to.opcode = Opcode(from.opcode);
    to.source = from.source;
    to.target = from.target;
    to.txn = from.txn;
    if (from.has_address != 0) to.address = from.address;
    to.resp = Resp(from.resp);
    if (from.has_dbid != 0) to.dbid = from.dbid;
    to.allow_retry = from.allow_retry != 0;
    to.credit = from.credit;
    to.mask = from.mask;
    for (std::size_t word = 0; word < 8; word++) to.words[word] = from.words[word];
    return to;
}

static Answer take(Observer &observer, const std::string &line) { return observer.take(seen(line)); }

/* A flit of a trace, and its answer. */
struct Row {
    const char *line;
    Answer wanted = Answer::OK;
};

/* What an observer is given, what its first fault is, if it has one, and what its close answers. */
struct Run {
    ObserverConfig config;
    std::vector<Row> rows;
    std::optional<ObserverFault> fault;
    Answer end = Answer::OK;
};

#define READ(node, kind, resp)                                                                                              \
    {"REQ " node " 40 1 " kind " 1040 - - 1 - -"}, {"DAT 40 " node " 1 CompData - " resp " 11 - - 5,0,0,0,0,0,0,7"},        \
        {"RSP " node " 40 11 CompAck - - - - - -"}

static ObserverConfig listed(Stores stores) {
    ObserverConfig config = sizes(8);
    config.stores = stores;
    return config;
}

static const Run RUNS[] = {
    {sizes(8),
     {READ("8", "ReadUnique", "UC"), {"REQ 9 40 1 ReadUnique 1040 - - 1 - -"},
      {"DAT 40 9 1 CompData - UC 11 - - 5,0,0,0,0,0,0,7", Answer::Fault}, {"REQ 8 40 2 ReadUnique 1080 - - 1 - -", Answer::Fault}},
     ObserverFault{ObserverReason::OtherCopy, 5, 9, 0x1040, "line 5: CompData_UC to node 9 at 1040: the copy of node 8"}},
    {sizes(8),
     {{"REQ 8 40 1 ReadUnique 1040 - - 1 - -"}, {"RSP 8 40 3 CompAck - - - - - -", Answer::Fault}},
     ObserverFault{ObserverReason::NotOpen, 2, 8, {}, "line 2: CompAck of node 8: no completion with DBID 3 of it is open"}},
    {sizes(1),
     {{"REQ 8 40 1 ReadUnique 1040 - - 1 - -"}, {"REQ 9 40 1 ReadUnique 1080 - - 1 - -", Answer::Full}}, {}},
    {listed(Stores::Hidden),
     {READ("8", "ReadUnique", "UC"), {"REQ 9 40 1 ReadUnique 1040 - - 1 - -"}, {"SNP 40 8 5 SnpUnique 1040 - - - - -"},
      {"DAT 8 40 5 SnpRespData - I_PD - - - 0,7,0,0,0,0,0,0"}}, {}},
    /* (where stores are listed a clean copy has none) */
    {listed(Stores::Listed),
     {READ("8", "ReadUnique", "UC"), {"REQ 9 40 1 ReadUnique 1040 - - 1 - -"}, {"SNP 40 8 5 SnpUnique 1040 - - - - -"},
      {"DAT 8 40 5 SnpRespData - I_PD - - - 0,7,0,0,0,0,0,0", Answer::Fault}},
     ObserverFault{ObserverReason::NotSent, 6, 8, 0x1040, "line 6: SnpRespData_I_PD of node 8 at 1040: "}},
    {sizes(8), {{"REQ 9 40 1 AtomicStore 2040 - - 1 - -", Answer::SetAside}}, {}, Answer::NothingJudged},
    {sizes(8), {READ("8", "ReadShared", "SC"), {"REQ 9 40 1 AtomicStore 2040 - - 1 - -", Answer::SetAside}}, {}, Answer::PartlyJudged},
    {sizes(8), {}, {}, Answer::NothingJudged},
};

static void runs() {
    for (const Run &run : RUNS) {
        Observer observer = *Observer::open(run.config);
        for (const Row &row : run.rows) HOLDS(take(observer, row.line) == row.wanted);
        const auto fault = *observer.fault();
        HOLDS(fault.has_value() == run.fault.has_value() && observer.text() == (fault ? fault->text : ""));
        if (fault && run.fault) {
            HOLDS(fault->reason == run.fault->reason && fault->number == run.fault->number && fault->node == run.fault->node);
            HOLDS(fault->line == run.fault->line && fault->text.rfind(run.fault->text, 0) == 0);
        }
        HOLDS(observer.close() == run.end && !observer.is_open() && observer.close() == Answer::Closed);
    }
}

static void moves() {
    Observer closed;
    HOLDS(!closed.is_open() && closed.close() == Answer::Closed && closed.take(Seen()) == Answer::Closed && closed.text().empty());
    HOLDS(closed.fault().answer() == Answer::Closed && closed.counts().answer() == Answer::Closed);
    HOLDS(closed.unjudged().answer() == Answer::Closed && closed.copy().answer() == Answer::Closed);
    HOLDS(Observer::open(sizes(0)).answer() == Answer::OutOfRange && Observer::open(sizes(8)));
    HOLDS(Observer::open(listed(Stores(2))).answer() == Answer::OutOfRange);
    Observer observer = *Observer::open(sizes(8));
    HOLDS(take(observer, "REQ 8 40 1 ReadShared 1040 - - 1 - -") == Answer::OK);
    closed = std::move(observer);
    HOLDS(closed.is_open() && !observer.is_open() && closed.counts()->requests == 1);
    HOLDS(take(closed, "RSP 40 8 9 RetryAck - - - - 0 -") == Answer::Fault && (*closed.fault())->number == 2);
    Observer &same = closed;
    closed = std::move(same);
    HOLDS(closed.is_open());
}

static void copies() {
    Observer observer = *Observer::open(sizes(8));
    HOLDS(take(observer, "REQ 8 40 1 ReadShared 1040 - - 1 - -") == Answer::OK);
    Observer copy = *static_cast<const Observer &>(observer).copy();
    HOLDS(copy.is_open() && observer.is_open() && copy.counts()->requests == 1);
    HOLDS(take(copy, "DAT 40 8 1 CompData - SC 11 - - 1,2,3,4,5,6,7,8") == Answer::OK && copy.counts()->requests == 0);
    HOLDS(take(observer, "RSP 40 8 9 RetryAck - - - - 0 -") == Answer::Fault && (*observer.copy()->fault())->number == 2);
    HOLDS(observer.counts()->requests == 1 && !*copy.fault());
}

/* What is held and what isn't judged is told, and a flit without a number has the next one. */
static void held() {
    Observer observer = *Observer::open(sizes(2));
    Seen wrong = seen("REQ 8 40 1 ReadShared 1040 - - 1 - -");
    wrong.number = 0;
    HOLDS(observer.take(wrong) == Answer::OutOfRange && observer.take(Seen()) == Answer::OutOfRange);
    wrong.number = 7;
    HOLDS(observer.take(wrong) == Answer::OK && take(observer, "DAT 40 8 1 CompData - SC 11 - - 1,2,3,4,x,x,x,x") == Answer::OK);
    HOLDS(observer.counts()->ids == 2 && take(observer, "DAT 40 8 1 CompData - SC 11 - - x,x,x,x,5,6,7,8") == Answer::OK);
    HOLDS(observer.counts()->ids == 1 && observer.counts()->completions == 1 && !observer.counts()->is_complete());
    HOLDS(take(observer, "RSP 8 40 11 CompAck - - - - - -") == Answer::OK && observer.counts()->is_complete());
    HOLDS(take(observer, "REQ 9 40 1 AtomicStore 2040 - - 1 - -") == Answer::SetAside && observer.counts()->aside == 1);
    HOLDS(take(observer, "REQ 9 40 2 ReadShared 1040 - - 1 - -") == Answer::OK && observer.counts()->lines == 2);
    HOLDS(take(observer, "RSP 40 9 2 RetryAck - - - - 2 -") == Answer::OK && observer.counts()->retried == 1);
    HOLDS(observer.counts()->accounts == 1 && observer.counts()->unsettled == 1);
    const Unjudged unjudged = *observer.unjudged();
    HOLDS(unjudged.flits == 1 && unjudged.of_flits == observer.counts()->flits && unjudged.accesses == 0);
    HOLDS(unjudged.lines == 1 && unjudged.of_lines == 2);
    HOLDS(unjudged.text.find("\nAtomicStore: 1 cache lines, the first 2040 by trace line 11\n") != std::string::npos);
    HOLDS(std::strcmp(name(ObserverReason::NotOpen), "NotOpen") == 0 && std::strcmp(name(Answer::Full), "Full") == 0);
    HOLDS(std::strcmp(name(Opcode::SnpOnce), "SnpOnce") == 0 && std::strcmp(name(Resp::SD_PD), "SD_PD") == 0);
}

/* Prints the first line on a trace. */
static void observe(const char *file) {
    ObserverConfig config;
    config.lines = config.ids = config.accounts = 4096;
    config.homes = 255;
    Observer observer = *Observer::open(config);
    std::ifstream trace(file);
    std::uint64_t number = 0;
    for (std::string line; std::getline(trace, line);) {
        ChiSeen from;
        if (number++, read_flit(line.c_str(), number, &from) == 0) continue;
        Seen flit = seen(line);
        flit.number = number;
        if (observer.take(flit) == Answer::Fault) return (void)std::printf("%s\n", observer.text().c_str());
    }
    const ObserverCounts counts = *observer.counts();
    const Unjudged unjudged = *observer.unjudged();
    const std::string left_out = unjudged.text.substr(0, unjudged.text.find('\n'));
    if ((counts.flits | counts.accesses) == 0) std::printf("no flit, load or store is in the trace\n");
    else if (!left_out.empty()) std::printf("%s\n", left_out.c_str());
    else std::printf("accepted %" PRIu64 " flits on %" PRIu64 " cache lines\n", counts.flits, counts.lines);
}

int main(int count, char **words) {
    for (int word = 1; word < count; word++) observe(words[word]);
    if (count > 1) return failures == 0 ? 0 : 1;
    runs();
    moves();
    copies();
    held();
    return failures == 0 ? 0 : 1;
}
