// A simulation of rounds: a timed step, settling, and a sample for each clock set or reset.
#pragma once

#include <array>
#include <functional>

#include "composition.hpp"
#include "refusal.hpp"

namespace second {

using Values = std::array<std::int64_t, clock_values>;

// Where samples come from.
struct Supply {
  // Whether the clock has another sample, and that sample. The second is asked only after the first.
  std::function<bool(unsigned clock)> has_next;
  std::function<std::int64_t(unsigned clock)> next;
  unsigned ran_out = 0;  // the refusal where there is none
};

struct Simulation {
  Refusal refusal;
  std::uint64_t rounds = 0;  // later rounds done
  State state;
  Values values{};
};

// Of a model whose settling doesn't depend on the order.
Simulation simulated(const Model& model, std::uint64_t rounds, Supply& supply);

}  // namespace second
