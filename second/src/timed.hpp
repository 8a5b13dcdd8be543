// One timed step on an accepted model and a state that fits it: refusals 27 to 30.
#pragma once

#include <array>
#include <optional>

#include "composition.hpp"
#include "lent.hpp"
#include "refusal.hpp"

namespace second {

struct Firing {
  std::int64_t v = 0;
  Move move;
  std::array<std::int64_t, clock_values> fallen{};  // the clock values afterwards
};

struct TimedStep {
  Refusal refusal;
  std::optional<Firing> firing;  // nothing where quiet
};

TimedStep timed(const Model& model, const State& state, Lent<const std::int64_t> ticks);

}  // namespace second
