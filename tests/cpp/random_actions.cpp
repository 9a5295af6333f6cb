/* Does the million random actions of crates/chi_library_tests through chihome.hpp, and prints the same line. */
#include "chihome.hpp"

#include <cinttypes>
#include <cstdio>

using chihome::Answer;

static std::uint64_t drawn(std::uint64_t state) {
    std::uint64_t word = (state ^ (state >> 30)) * UINT64_C(0xBF58476D1CE4E5B9);
    word = (word ^ (word >> 27)) * UINT64_C(0x94D049BB133111EB);
    return word ^ (word >> 31);
}

static chihome::Action action_of(std::uint64_t word) {
    chihome::Action action;
    action.agent = static_cast<std::uint8_t>(word % 5);
    action.line = static_cast<std::uint8_t>((word >> 8) % 5);
    action.step = chihome::Step((word >> 16) % 17);
    action.kind = chihome::Kind((word >> 24) % 8);
    action.slot = static_cast<std::uint8_t>((word >> 32) % 9);
    action.word = static_cast<std::uint8_t>((word >> 40) % 9);
    action.value = word >> 48;
    return action;
}

static std::uint64_t told(const chihome::Effect &effect) {
    if (effect.value) return *effect.value + 256;
    return effect.completed ? *effect.completed + UINT64_C(512) : 0;
}

int main() {
    chihome::Config config;
    config.agents = config.lines = 4;
    auto model = chihome::Slice::open(config);
    if (!model) return 1;
    int done = 0, refused = 0;
    std::uint64_t state = 0, sum = 0;
    for (int count = 0; count < 1000000; count++) {
        state += UINT64_C(0x9E3779B97F4A7C15);
        const chihome::Action action = action_of(drawn(state));
        const Answer before = model->refusal(action);
        const auto effect = model->act(action);
        if (before != effect.answer()) return 1;
        if (effect) done++;
        else refused++;
        sum = sum * 31 + (effect ? told(*effect) : static_cast<std::uint64_t>(effect.answer()));
    }
    std::printf("%d done, %d refused, sum %" PRIu64 "\n", done, refused, sum);
    return model->close() == Answer::OK ? 0 : 1;
}
