// The limits on a model and on a call: paper 01's, with 32 components and 128 states.
#pragma once

#include <cstdint>

namespace second {

constexpr unsigned max_components = 32;
constexpr unsigned max_rows = 1024;
constexpr unsigned max_states = 128;
constexpr unsigned members = 64;  // actions and clocks are both 0 to 63
constexpr std::uint64_t max_text = 32768;
constexpr std::uint64_t max_budget = 4096;   // also the longest list
constexpr std::uint64_t max_rounds = 4096;
constexpr std::uint64_t max_path = 4096;  // steps, of two bytes each
constexpr std::uint64_t max_request = 256;   // with its LF
constexpr std::uint64_t clock_values = 64;
constexpr std::int64_t tick_bound = std::int64_t{1} << 40;  // also the floor, negated

}  // namespace second
