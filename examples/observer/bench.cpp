/* The bench of bench.c, over chihome.hpp. */
#include <chihome.hpp>

#include <cstdio>
#include <cstdlib>
#include <string_view>

using namespace chihome;

constexpr int CACHES = 3, LINES = 2, TURNS = 1000, HOME = 0x40, FIRST_CACHE = 8;

static Copy copies[CACHES][LINES];
static Words memory[LINES];
static bool forgets, early;
static Observer observer;

/* Gives a flit to the observer, as a monitor at the home sees it, and tells the first that it doesn't take. */
static void see(const Seen &flit) {
    const Answer answer = observer.take(flit);
    if (answer == Answer::OK) return;
    std::printf("%s: %s\n", name(answer), observer.text().c_str());
    std::exit(1);
}

/* A flit between a cache and the home about a line, whose number is the TxnID and the DBID of each. */
static Seen flit_of(Opcode opcode, int cache, int line, bool is_up) {
    Seen flit;
    flit.opcode = opcode;
    flit.source = static_cast<std::uint16_t>(is_up ? FIRST_CACHE + cache : HOME);
    flit.target = static_cast<std::uint16_t>(is_up ? HOME : FIRST_CACHE + cache);
    flit.txn = static_cast<std::uint16_t>(line);
    flit.address = 0x1000 + 64 * line;
    if (opcode == Opcode::CompData || opcode == Opcode::CompDBIDResp) flit.dbid = flit.txn;
    return flit;
}

static void send(Opcode opcode, int cache, int line, bool is_up, Resp resp = Resp::I, const Words &words = {}) {
    Seen flit = flit_of(opcode, cache, line, is_up);
    flit.resp = resp;
    flit.words = words;
    see(flit);
}

/* What the home has learnt from the answers to its snoops: whether a shared copy stays, and dirty data that came. */
struct Learnt {
    bool stays = false;
    bool is_dirty = false;
    Words words;
};

/* The snooped cache answers: a dirty copy passes its data, and a copy that may stay is shared. */
static void snooped(int cache, int line, bool may_stay, Learnt &learnt) {
    Copy &copy = copies[cache][line];
    const bool is_dirty = copy.state == State::UD || copy.state == State::SD, stays = may_stay && copy.state != State::I;
    copy.state = stays ? State::SC : State::I;
    learnt.stays |= stays;
    if (!is_dirty) return send(Opcode::SnpResp, cache, line, true, stays ? Resp::SC : Resp::I);
    learnt.is_dirty = true;
    learnt.words = copy.words;
    send(Opcode::SnpRespData, cache, line, true, stays ? Resp::SC_PD : Resp::I_PD, copy.words);
}

/* The home gives a copy: a shared one beside others, and with the duty to write what is dirty. */
static void complete(int cache, int line, bool is_unique, const Learnt &learnt) {
    const bool is_alone = is_unique || !learnt.stays;
    const Resp dirty = is_alone ? Resp::UD_PD : Resp::SD_PD, clean = is_alone ? Resp::UC : Resp::SC;
    send(Opcode::CompData, cache, line, false, learnt.is_dirty ? dirty : clean, learnt.words);
    const State owner = is_alone ? State::UD : State::SD, sharer = is_alone ? State::UC : State::SC;
    copies[cache][line] = {learnt.is_dirty ? owner : sharer, learnt.words};
}

static void read(int cache, int line, bool is_unique) {
    Learnt learnt = {false, false, memory[line]};
    const int last = cache == CACHES - 1 ? CACHES - 2 : CACHES - 1;
    send(is_unique ? Opcode::ReadUnique : Opcode::ReadShared, cache, line, true);
    for (int other = 0; other < CACHES; other++)
        if (other != cache && !(forgets && other == last))
            send(is_unique ? Opcode::SnpUnique : Opcode::SnpShared, other, line, false);
    for (int other = 0; other < CACHES; other++) {
        if (other == cache || (forgets && other == last)) continue;
        if (early && other == last) complete(cache, line, is_unique, learnt);
        snooped(other, line, !is_unique, learnt);
    }
    if (!early) complete(cache, line, is_unique, learnt);
    send(Opcode::CompAck, cache, line, true);
}

static void write_back(int cache, int line) {
    Copy &copy = copies[cache][line];
    send(Opcode::WriteBackFull, cache, line, true);
    send(Opcode::CompDBIDResp, cache, line, false);
    send(Opcode::CopyBackWrData, cache, line, true, copy.state == State::UD ? Resp::UD_PD : Resp::SD_PD, copy.words);
    memory[line] = copy.words;
    copy.state = State::I;
}

/* A cache does what is drawn at a line, if its copy lets it. */
static void turn(std::uint64_t drawn) {
    const int cache = static_cast<int>(drawn % CACHES), line = static_cast<int>(drawn / 3 % LINES);
    const auto act = drawn / 6 % 5;
    Copy &copy = copies[cache][line];
    const State state = copy.state;
    if (act == 0 && (state == State::UC || state == State::UD)) {
        copy.words[drawn / 30 % 8] = drawn / 240 % 1000;
        copy.state = State::UD;
    } else if (act == 1 && (state == State::SC || state == State::UC)) {
        copy.state = State::I;
    } else if (act == 2 && state == State::I) {
        read(cache, line, false);
    } else if (act == 3 && (state == State::I || state == State::SC)) {
        read(cache, line, true);
    } else if (act == 4 && (state == State::UD || state == State::SD)) {
        write_back(cache, line);
    }
}

int main(int count, char **words) {
    const std::string_view mistake = count > 1 ? words[1] : "";
    forgets = mistake == "forgets";
    early = mistake == "early";
    ObserverConfig config;
    config.lines = LINES;
    config.requesters = CACHES;
    auto opened = Observer::open(config);
    if (!opened) return 2;
    observer = std::move(*opened);
    std::uint64_t state = 7;
    for (int made = 0; made < TURNS; made++) {
        state = state * 6364136223846793005u + 1442695040888963407u;
        turn(state >> 33);
    }
    const ObserverCounts counts = *observer.counts();
    std::printf("%llu flits on %llu lines are taken, and %u ids are open\n", static_cast<unsigned long long>(counts.flits),
                static_cast<unsigned long long>(counts.lines), counts.requests + counts.completions + counts.snoops);
    return observer.close() == Answer::OK ? 0 : 1;
}
