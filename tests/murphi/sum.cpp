// Sums a listing of tests/murphi/slice.m or walk.cpp, whatever the order of its lines.
//
//   sum < LISTING
//
// Prints how many states and transitions it has, and the sum of a hash of 128 bits of each line. What is no line of a
// listing is written to standard error.
#include <cstdint>
#include <cstdio>
#include <cstring>
#include <iostream>
#include <string>
#include <string_view>

namespace {

using Hash = unsigned __int128;

uint64_t mixed(uint64_t word) {
    for (int round = 0; round < 2; round++) {
        word ^= word >> 32;
        word *= 0xd6e8feb86659fd93U;
    }
    return word ^ word >> 32;
}

Hash hash_of(std::string_view line) {
    uint64_t high = 0x9e3779b97f4a7c15U ^ line.size(), low = 0xc2b2ae3d27d4eb4fU + line.size();
    for (size_t at = 0; at < line.size(); at += 8) {
        uint64_t word = 0;
        memcpy(&word, line.data() + at, std::min<size_t>(8, line.size() - at));
        high = mixed(high ^ word) + 0x165667b19e3779f9U;
        low = mixed(low + word * 0x27d4eb2f165667c5U) ^ high >> 7;
    }
    return Hash(mixed(high)) << 64 | mixed(low);
}

bool begins(std::string_view line, std::string_view word) { return line.substr(0, word.size()) == word; }

}  // namespace

int main() {
    std::ios::sync_with_stdio(false);
    uint64_t states = 0, transitions = 0;
    Hash sum = 0;
    for (std::string line; std::getline(std::cin, line);) {
        bool is_state = begins(line, "state "), is_step = begins(line, "step ");
        states += is_state;
        transitions += is_step;
        if (is_state || is_step) sum += hash_of(line);
        else std::cerr << line << '\n';
    }
    printf("%llu %llu %016llx%016llx\n", (unsigned long long)states, (unsigned long long)transitions,
           (unsigned long long)(sum >> 64), (unsigned long long)sum);
}
