// Walks breadth first over all states that a slice of the library can be brought to, by library/chihome.h alone, and
// prints what it answers in each: the listing that tests/murphi/slice.m prints of the model, of the same sizes.
//
//   walk AGENTS LINES SLOTS LARGEST STAYS
//
// Actions name slots below SLOTS, word 0, and values up to LARGEST; STAYS is 1 where the data of a copy in I is
// printed, and 0 where 0 stands in its place. Each action is tried in each state. What the listing has no words for
// must be as at the opening: the words 1 to 7, agents that aren't there, empty cells. Where it isn't, the walk ends
// with status 1.
#include "chihome.h"

#include <cstdio>
#include <cstdlib>
#include <cstring>
#include <string>
#include <string_view>
#include <unordered_map>
#include <vector>

namespace {

struct Sizes {
    int agents, lines, slots;
    uint64_t largest;
    bool stays;
};

[[noreturn]] void fail(const char *why) {
    fprintf(stderr, "walk: %s\n", why);
    exit(1);
}

void require(bool it, const char *why) {
    if (!it) fail(why);
}

// The names of the numbers in chihome.h, which are those of docs/PROTOCOL.md.
const char *const STEPS[] = {"Load",     "Store",   "Drop",     "Issue",   "Admit",       "Retry",
                             "RecvRetry", "Resend",  "Cancel",   "Start",   "RecvSnp",     "RecvSnpResp",
                             "RecvData",  "RecvComp", "RecvAck",  "RecvDbid", "RecvWrData"};
const char *const KINDS[] = {"ReadNotSharedDirty", "ReadShared",    "ReadUnique",     "CleanUnique",
                             "Evict",              "WriteBackFull", "WriteCleanFull", "WriteEvictFull"};
const char *const STATES[] = {"I", "SC", "UC", "UD", "SD"};
const char *const PHASES[] = {"", "/Sent", "/Retried", "/Waiting"};
const char *const SERVES[] = {"", ",Snooping/", ",AwaitingCompAck/", ",AwaitingWriteData/"};

struct Message {
    const char *name;
    ChiChannel channel;
    bool has_data;
};
const Message MESSAGES[] = {
    {"", CHI_Req, false},
    {"", CHI_Req, false},
    {"SnpShared", CHI_Snp, false},
    {"SnpNotSharedDirty", CHI_Snp, false},
    {"SnpUnique", CHI_Snp, false},
    {"SnpCleanInvalid", CHI_Snp, false},
    {"RetryAck", CHI_RspDown, false},
    {"Comp_UC", CHI_RspDown, false},
    {"Comp_I", CHI_RspDown, false},
    {"CompDBIDResp", CHI_RspDown, false},
    {"CompData_SC", CHI_DatDown, true},
    {"CompData_UC", CHI_DatDown, true},
    {"SnpResp_I", CHI_RspUp, false},
    {"SnpResp_SC", CHI_RspUp, false},
    {"CompAck", CHI_RspUp, false},
    {"SnpRespData_I_PD", CHI_DatUp, true},
    {"SnpRespData_SC_PD", CHI_DatUp, true},
    {"SnpRespData_SD", CHI_DatUp, true},
    {"CopyBackWrData_I", CHI_DatUp, true},
    {"CopyBackWrData_SC", CHI_DatUp, true},
    {"CopyBackWrData_UC", CHI_DatUp, true},
    {"CopyBackWrData_UD_PD", CHI_DatUp, true},
    {"CopyBackWrData_SD_PD", CHI_DatUp, true},
};

// One slice on a node of these sizes.
class Slice {
  public:
    explicit Slice(const Sizes &sizes) : sizes(sizes) {
        config.agents = sizes.agents;
        config.lines = sizes.lines;
        config.slices = 1;
        config.profile = CHI_Two;
        config.entries[0] = config.entries[1] = 1;
        config.journal = 1000;
        open();
    }
    ~Slice() { chi_slice_close(&handle); }
    Slice(const Slice &) = delete;
    Slice &operator=(const Slice &) = delete;

    void reopen() {
        require(chi_slice_close(&handle) == CHI_OK, "the slice isn't closed");
        open();
    }
    // What the action is answered, which is what is foretold.
    uint8_t act(const ChiAction &action, ChiEffect &effect) {
        uint8_t foretold = chi_slice_refusal(&handle, &action);
        require(chi_slice_act(&handle, &action, &effect) == foretold, "an answer isn't the one foretold");
        return foretold;
    }
    std::string text() {
        said.clear();
        for (int line = 0; line < sizes.lines; line++) say_line(line);
        return said;
    }

  private:
    Sizes sizes;
    ChiConfig config = {};
    ChiSlice handle = {};
    std::string said;

    void open() { require(chi_slice_open(&handle, &config, 0) == CHI_OK, "the slice isn't opened"); }
    void say(const char *text) { said += text; }
    void say(uint64_t number) { said += std::to_string(number); }
    void say_words(const uint64_t (&words)[8]) {
        require(words[0] <= sizes.largest, "there is a value that was never written");
        for (int word = 1; word < 8; word++) require(words[word] == 0, "there is a word that was never written");
        say(words[0]);
    }
    void say_request(uint8_t kind, uint8_t slot) {
        require(kind < 8, "there is no such kind");
        say(KINDS[kind]);
        say("/");
        say(slot);
    }
    void say_pending(const ChiRequest &request) {
        if (request.phase == CHI_NoRequest) return;
        require(request.phase <= CHI_Waiting, "there is no such phase");
        say(",");
        say_request(request.kind, request.slot);
        say(PHASES[request.phase]);
    }
    void say_copy(const ChiCopy &copy) {
        require(copy.state <= CHI_SD, "there is no such state");
        say(STATES[copy.state]);
        say("=");
        if (copy.state == CHI_I && !sizes.stays) say("0");
        else say_words(copy.words);
    }
    void say_flit(const ChiFlit &flit, int channel) {
        static const ChiFlit none = {};
        if (flit.message == CHI_NoMessage) {
            require(memcmp(&flit, &none, sizeof flit) == 0, "an empty cell has numbers");
            return;
        }
        require(flit.message <= CHI_CopyBackWrData_SD_PD, "there is no such message");
        const Message &message = MESSAGES[flit.message];
        require(message.channel == channel, "a message is on another channel");
        say(",");
        if (flit.message == CHI_Request) {
            say_request(flit.kind, flit.slot);
            say(flit.allow_retry ? "/allow" : "/credit");
            return;
        }
        say(message.name);
        if (flit.message == CHI_RetryAck) {
            say("/");
            say(flit.credit);
        }
        if (message.has_data) {
            say("=");
            say_words(flit.words);
        }
    }
    void say_lane(const ChiLine &shown, uint8_t agent, uint8_t line) {
        ChiFlits flits = {};
        require(chi_slice_flits(&handle, agent, line, &flits) == CHI_OK, "flits aren't told");
        say_copy(shown.copies[agent]);
        say_pending(shown.pending[agent]);
        if (shown.named[agent]) say(",named");
        say_pending(shown.waiting[agent]);
        if (shown.awaited[agent]) say(",awaited");
        for (int channel = 0; channel < 6; channel++) say_flit(flits.channels[channel], channel);
        say("|");
    }
    void say_home(const ChiLine &shown) {
        say_words(shown.memory);
        say(",");
        say_words(shown.last);
        if (shown.unique) say(",unique");
        if (shown.owner != CHI_Nobody) {
            say(",owner/");
            say(shown.owner);
        }
        const ChiServing &serving = shown.serving;
        if (serving.form == CHI_Idle) return;
        require(serving.form <= CHI_AwaitingWriteData, "there is no such service");
        say(SERVES[serving.form]);
        say(serving.agent);
        say("/");
        if (serving.form != CHI_AwaitingCompAck) return say_request(serving.kind, serving.slot);
        say("-/");
        say(serving.slot);
    }
    void say_line(uint8_t line) {
        static const ChiCopy opening = {};
        ChiLine shown = {};
        require(chi_slice_show(&handle, line, &shown) == CHI_OK, "a line isn't told");
        for (int agent = 0; agent < sizes.agents; agent++) say_lane(shown, agent, line);
        for (int agent = sizes.agents; agent < 8; agent++) {
            require(memcmp(&shown.copies[agent], &opening, sizeof opening) == 0 && !shown.pending[agent].phase &&
                        !shown.waiting[agent].phase && !shown.named[agent] && !shown.awaited[agent],
                    "there is an agent more");
        }
        say_home(shown);
        say(";");
    }
};

struct Move {
    ChiAction action;
    std::string text;
};

std::string in_parentheses(const std::string &one) { return "(" + one + ")"; }

// All actions, in the order of the agents, the lines and docs/PROTOCOL.md, "The actions".
class Moves {
  public:
    explicit Moves(const Sizes &sizes) {
        for (int agent = 0; agent < sizes.agents; agent++)
            for (int line = 0; line < sizes.lines; line++) add_site(sizes, agent, line);
    }
    std::vector<Move> all;

  private:
    void add(ChiAction action, const std::string &more) {
        std::string site = std::to_string(action.agent) + "," + std::to_string(action.line);
        all.push_back({action, STEPS[action.step] + in_parentheses(site + more)});
    }
    void add_stores(ChiAction action, uint64_t largest) {
        for (action.value = 0; action.value <= largest; action.value++)
            add(action, "," + std::to_string(action.value));
    }
    void add_issues(ChiAction action, int slots) {
        for (action.kind = 0; action.kind < 8; action.kind++)
            for (action.slot = 0; action.slot < slots; action.slot++)
                add(action, std::string(",") + KINDS[action.kind] + "," + std::to_string(action.slot));
    }
    void add_site(const Sizes &sizes, uint8_t agent, uint8_t line) {
        for (uint8_t step = 0; step <= CHI_RecvWrData; step++) {
            ChiAction action = {};
            action.agent = agent;
            action.line = line;
            action.step = step;
            if (step == CHI_Store) add_stores(action, sizes.largest);
            else if (step == CHI_Issue) add_issues(action, sizes.slots);
            else add(action, "");
        }
    }
};

std::string effect_text(const ChiEffect &effect) {
    if (effect.effect == CHI_Value) return "Value" + in_parentheses(std::to_string(effect.value));
    if (effect.effect == CHI_Completed) return "Completed" + in_parentheses(std::to_string(effect.slot));
    return "Nothing";
}

class Walk {
  public:
    explicit Walk(const Sizes &sizes) : moves(Moves(sizes).all), slice(sizes) { note(slice.text(), 0, 0); }
    void run() {
        for (size_t state = 0; state < found.size(); state++) list(state);
    }

  private:
    // How a state was found: by a move from a state before it.
    struct Found {
        size_t from, move;
    };
    std::vector<Move> moves;
    Slice slice;
    std::vector<Found> found;
    std::unordered_map<std::string, size_t> seen;

    void note(const std::string &text, size_t from, size_t move) {
        if (seen.emplace(text, found.size()).second) found.push_back({from, move});
    }

    // Brings the slice to a state that was found, from the opening.
    void reach(size_t state) {
        std::vector<size_t> path;
        for (; state != 0; state = found[state].from) path.push_back(found[state].move);
        slice.reopen();
        ChiEffect effect;
        for (auto move = path.rbegin(); move != path.rend(); ++move)
            require(slice.act(moves[*move].action, effect) == CHI_OK, "a path isn't the same again");
    }

    // Prints the transition that was made from a state.
    void list_step(size_t state, const std::string &text, size_t move, const ChiEffect &effect) {
        std::string after = slice.text();
        std::string line = "step " + text + " " + moves[move].text + " " + effect_text(effect) + " " + after;
        puts(line.c_str());
        note(after, state, move);
    }

    void list(size_t state) {
        reach(state);
        std::string text = slice.text(), refusals;
        require(seen[text] == state, "a path leads elsewhere");
        for (size_t move = 0; move < moves.size(); move++) {
            ChiEffect effect;
            uint8_t answer = slice.act(moves[move].action, effect);
            refusals += std::to_string(answer);
            if (answer != CHI_OK) continue;
            list_step(state, text, move, effect);
            reach(state);
        }
        require(slice.text() == text, "a refused action changed something");
        printf("state %s %s\n", text.c_str(), refusals.c_str());
    }
};

}  // namespace

int main(int count, char **words) {
    require(count == 6, "it wants AGENTS LINES SLOTS LARGEST STAYS");
    Sizes sizes = {};
    sizes.agents = atoi(words[1]);
    sizes.lines = atoi(words[2]);
    sizes.slots = atoi(words[3]);
    sizes.largest = strtoull(words[4], nullptr, 10);
    sizes.stays = atoi(words[5]) == 1;
    Walk(sizes).run();
    require(fflush(stdout) == 0, "the listing isn't written");
}
