/* What the handles of chihome.hpp answer: opened, moved and closed, and what the calls of a slice, of a node and of a
 * monitor give. The status is 0 where all holds. */
#include "chihome.hpp"

#include <cstdio>
#include <cstring>
#include <type_traits>

using namespace chihome;

static int failures;

#define HOLDS(it) ((it) ? (void)0 : (void)(failures++, std::printf("%s:%d: %s\n", __FILE__, __LINE__, #it)))

static_assert(!std::is_copy_constructible_v<Slice> && !std::is_copy_assignable_v<Slice>);
static_assert(!std::is_copy_constructible_v<Node> && !std::is_copy_assignable_v<Node>);
static_assert(std::is_nothrow_move_constructible_v<Slice> && std::is_nothrow_move_assignable_v<Slice>);
static_assert(std::is_nothrow_move_constructible_v<Node> && std::is_nothrow_move_assignable_v<Node>);

static Config sizes(std::uint8_t agents, std::uint8_t lines) {
    Config config;
    config.agents = agents;
    config.lines = lines;
    config.journal = 4;
    return config;
}

static Action action(std::uint8_t agent, Step step, Kind kind = Kind::ReadShared) {
    Action it;
    it.agent = agent;
    it.step = step;
    it.kind = kind;
    return it;
}

static void moves() {
    Slice closed;
    HOLDS(!closed.is_open() && closed.close() == Answer::Closed);
    HOLDS(closed.act(action(0, Step::Load)).answer() == Answer::Closed && closed.show(0).answer() == Answer::Closed);
    HOLDS(closed.refusal(action(0, Step::Load)) == Answer::Closed && closed.flits(0, 0).answer() == Answer::Closed);
    HOLDS(closed.journal(0).answer() == Answer::Closed);
    HOLDS(Slice::open(sizes(0, 1)).answer() == Answer::OutOfRange && Slice::open(sizes(1, 1), 1).answer() == Answer::OutOfRange);
    auto opened = Slice::open(sizes(1, 1));
    HOLDS(opened && opened.answer() == Answer::OK && opened->is_open());
    Slice model = std::move(*opened);
    HOLDS(model.is_open() && !opened->is_open());
    HOLDS(model.act(action(0, Step::Issue)));
    Slice other = *Slice::open(sizes(2, 2));
    other = std::move(model);
    HOLDS(other.is_open() && !model.is_open() && other.refusal(action(0, Step::Admit)) == Answer::OK);
    Slice &same = other;
    other = std::move(same);
    HOLDS(other.is_open() && other.close() == Answer::OK && other.close() == Answer::Closed);
    Node node = *Node::open(sizes(1, 1)), second;
    second = std::move(node);
    HOLDS(second.is_open() && !node.is_open() && node.agrees() == Answer::Closed && second.agrees() == Answer::OK);
}

static void slice() {
    Slice model = *Slice::open(sizes(2, 1));
    HOLDS(model.act(action(0, Step::Issue)) && model.show(0)->pending[0]->phase == Phase::Sent);
    const Flits request = *model.flits(0, 0);
    HOLDS(request[Channel::Req]->message == Message::Request && request[Channel::Req]->kind == Kind::ReadShared);
    HOLDS(request[Channel::Req]->allow_retry == true && !request[Channel::Snp] && !request[Channel::Req]->words);
    HOLDS(model.act(action(0, Step::Admit)) && model.show(0)->waiting[0]->phase == Phase::Waiting);
    HOLDS(model.act(action(0, Step::Start)) && (*model.flits(0, 0))[Channel::DatDown]->words);
    const Line line = *model.show(0);
    HOLDS(line.serving->form == ServingForm::AwaitingCompAck && line.serving->agent == 0 && !line.serving->kind);
    HOLDS(line.named[0] && !line.named[1] && line.unique && !line.owner && !line.pending[1]);
    HOLDS(model.act(action(0, Step::RecvData)) && model.act(action(0, Step::RecvAck))->completed == 0);
    Action store = action(0, Step::Store);
    store.word = 7;
    store.value = ~UINT64_C(0);
    HOLDS(model.act(store) && model.show(0)->copies[0].state == State::UD && model.show(0)->last[7] == store.value);
    store.step = Step::Load;
    HOLDS(model.act(store)->value == store.value && !model.act(store)->completed);
    HOLDS(model.journal(0)->store && !model.journal(1)->store && model.journal(1)->value == store.value);
    HOLDS(model.act(action(1, Step::Load)).answer() == Answer::WrongState);
    HOLDS(model.journal(3).answer() == Answer::OutOfRange && model.show(1).answer() == Answer::OutOfRange);
    HOLDS(model.act(action(1, Step(17))).answer() == Answer::OutOfRange);
}

static void node() {
    Node model = *Node::open(sizes(2, 1));
    HOLDS(model.step(action(0, Step::Issue)) && model.arrive(0, 0)->entry == 0 && model.step(action(1, Step::Issue)));
    const Arrival retried = *model.arrive(1, 0);
    HOLDS(!retried.entry && retried.credit == 0 && model.totals()->owed[0] == 1 && model.totals()->hand[0] == 1);
    HOLDS((*model.flits(1, 0))[Channel::RspDown]->credit == 0);
    HOLDS(model.step(action(0, Step::Start)) && model.step(action(0, Step::RecvData)));
    const Served served = *model.step(action(0, Step::RecvAck));
    HOLDS(served.effect.completed == 0 && served.release.form == ReleaseForm::Granted && served.release.agent == 1);
    HOLDS((*model.see(1))[0] == 1 && model.step(action(1, Step::RecvRetry)) && model.step(action(1, Step::Resend)));
    HOLDS(model.arrive(1, 0)->entry == 0 && model.give_back(1, 0).answer() == Answer::NoCredit);
    HOLDS(model.tend(0, 0)->form == ReleaseForm::NotReleased && model.tend(0, 2).answer() == Answer::OutOfRange);
    HOLDS(model.audit()->coherent && model.agrees() == Answer::OK && model.show(0)->named[0]);
    HOLDS(model.arrive(0, 0).answer() == Answer::NoFlit && model.close() == Answer::OK);
}

static void copies() {
    Slice model = *Slice::open(sizes(2, 1)), closed;
    HOLDS(model.act(action(0, Step::Issue)));
    Slice copy = *model.copy();
    HOLDS(copy.is_open() && copy == model && model == model && !(copy != model));
    HOLDS(model.act(action(0, Step::Admit)) && copy != model && (*copy.flits(0, 0))[Channel::Req]);
    HOLDS(copy.act(action(0, Step::Admit)) && copy == model);
    HOLDS(closed.copy().answer() == Answer::Closed && closed != model && model != closed && closed == Slice());
    HOLDS(*Slice::open(sizes(2, 1)) != model && *Slice::open(sizes(1, 1)) != *Slice::open(sizes(2, 1)));
    model = std::move(copy);
    HOLDS(model.act(action(0, Step::Start)) && copy == closed);
}

static void saved() {
    static std::uint8_t bytes[65536];
    std::size_t length = 1;
    Slice model = *Slice::open(sizes(2, 1)), closed;
    HOLDS(model.act(action(0, Step::Issue)));
    HOLDS(model.save(bytes, 1, length) == Answer::JournalFull && length > 100);
    HOLDS(model.save(bytes, sizeof bytes, length) == Answer::OK && *Slice::load(sizes(2, 1), 0, bytes, length) == model);
    HOLDS(Slice::load(sizes(1, 1), 0, bytes, length).answer() == Answer::OtherSize);
    HOLDS(Slice::load(sizes(2, 1), 0, bytes, length - 1).answer() == Answer::Damaged);
    HOLDS(closed.save(bytes, sizeof bytes, length) == Answer::Closed && length == 0);
}

static void node_flits() {
    Node model = *Node::open(sizes(2, 1)), closed;
    const ServedFlits issued = *model.step_flits(action(1, Step::Issue));
    HOLDS(issued.sent.size() == 1 && issued.sent[0].agent == 1 && issued.sent[0].channel == Channel::Req && !issued.taken);
    HOLDS(issued.release.form == ReleaseForm::NotReleased && model.step_flits(action(0, Step::Issue)));
    const ArrivalFlits admitted = *model.arrive_flits(1, 0), retried = *model.arrive_flits(0, 0);
    HOLDS(admitted.arrival.entry == 0 && admitted.sent.empty() && admitted.taken->flit.kind == Kind::ReadShared);
    HOLDS(retried.arrival.credit == 0 && retried.sent.size() == 1 && retried.taken->flit.message == Message::Request);
    HOLDS(retried.sent[0].flit.message == Message::RetryAck && retried.sent[0].flit.credit == 0);
    HOLDS((*model.step_flits(action(1, Step::Start))).sent[0].flit.words && model.step_flits(action(1, Step::RecvData)));
    const ServedFlits served = *model.step_flits(action(1, Step::RecvAck));
    HOLDS(served.effect.completed == 0 && served.release.agent == 0 && served.taken->flit.message == Message::CompAck);
    HOLDS(model.arrive_flits(1, 0).answer() == Answer::NoFlit && closed.arrive_flits(0, 0).answer() == Answer::Closed);
    HOLDS(model.step_flits(action(0, Step::Admit)).answer() == Answer::OutOfRange);
    HOLDS(closed.step_flits(action(0, Step::Load)).answer() == Answer::Closed);
}

static void steps() {
    Slice model = *Slice::open(sizes(2, 1));
    const Stepped issued = *model.step(action(1, Step::Issue));
    HOLDS(issued.sent.size() == 1 && issued.sent[0].agent == 1 && issued.sent[0].channel == Channel::Req && !issued.taken);
    HOLDS(model.enabled(1, 0)->size() == 2 && (*model.enabled(1, 0))[0].step == Step::Admit);
    HOLDS(model.step(action(1, Step::Admit))->taken->flit.kind == Kind::ReadShared);
    for (const Action &it : *model.enabled(1, 0)) HOLDS(model.refusal(it) == Answer::OK);
    HOLDS(std::strcmp(version(), CHI_VERSION) == 0 && std::strcmp(name(Step::RecvDbid), "RecvDbid") == 0);
    HOLDS(std::strcmp(name(Answer::NoFlit), "NoFlit") == 0 && std::strcmp(name(Message::CompAck), "CompAck") == 0);
    HOLDS(std::strcmp(name(Kind::Evict), "Evict") == 0 && std::strcmp(name(State::SD), "SD") == 0);
}

static void monitor() {
    Monitor closed, watched = *Monitor::open(2, 1, 8);
    HOLDS(!closed.is_open() && closed.explain(0) == Answer::Closed && closed.fault().answer() == Answer::Closed);
    HOLDS(Monitor::open(9, 1).answer() == Answer::OutOfRange);
    Slice model = *Slice::open(sizes(2, 1));
    for (Step step : {Step::Issue, Step::Admit, Step::Start, Step::RecvData}) {
        HOLDS(model.act(action(0, step)));
        const auto flits = *model.flits(0, 0);
        for (const auto &flit : flits.channels) HOLDS(!flit || watched.flit(0, 0, *flit) == Answer::OK);
    }
    const auto open = *watched.end(0);
    HOLDS(!open[0].request && !open[0].completion && !open[1].snoop && watched.explain(0) == Answer::OK);
    HOLDS(watched.fault() && !*watched.fault() && watched.end(1).answer() == Answer::OutOfRange);
    Flit snoop;
    snoop.message = Message::SnpShared;
    HOLDS(watched.flit(0, 1, snoop) == Answer::Fault);
    const auto fault = **watched.fault();
    HOLDS(fault.reason == Reason::NobodyAsks && fault.number == 3 && fault.agent == 1 && fault.line == 0);
    HOLDS(fault.text == "this profile: no request that waits asks for SnpShared of it now" && watched.text() == fault.text);
    closed = std::move(watched);
    HOLDS(closed.is_open() && !watched.is_open() && closed.close() == Answer::OK);
}

int main() {
    moves();
    slice();
    node();
    monitor();
    copies();
    saved();
    steps();
    node_flits();
    return failures == 0 ? 0 : 1;
}
