#include "timed.hpp"

#include <algorithm>

namespace second {
namespace {

bool in_bounds(Set declared, const std::int64_t* ticks) {
  for (unsigned clock = 0; clock < clock_values; ++clock)
    if (has(declared, clock) && (ticks[clock] < -tick_bound || ticks[clock] > tick_bound)) return false;
  return true;
}

}  // namespace

TimedStep timed(const Model& model, const State& state, Lent<const std::int64_t> ticks) {
  if (!stable(model, state)) return {refuse(27, {0}), {}};
  const Set declared = clocks_of(model);
  if (ticks.length != clock_values || !in_bounds(declared, ticks.front)) return {refuse(28, {0}), {}};
  const Set waiting = enabling(model, state);
  if (waiting == 0) return {};

  std::optional<unsigned> least;
  for (unsigned clock = 0; clock < clock_values; ++clock) {
    if (!has(waiting, clock)) continue;
    if (ticks.front[clock] < 0) return {refuse(29, {clock}), {}};
    if (!least || ticks.front[clock] < ticks.front[*least]) least = clock;
  }
  // `least` is the lowest clock of the least value, so a tie's place is it.
  for (unsigned clock = *least + 1; clock < clock_values; ++clock)
    if (has(waiting, clock) && ticks.front[clock] == ticks.front[*least]) return {refuse(30, {*least}), {}};

  Firing firing;
  firing.v = ticks.front[*least];
  firing.move = clock_step(model, state, *least);
  for (unsigned clock = 0; clock < clock_values; ++clock) {
    firing.fallen[clock] = ticks.front[clock];
    if (!has(declared, clock)) continue;
    // No enabling clock comes near the floor: the least of them falls to 0.
    firing.fallen[clock] = std::max(ticks.front[clock] - firing.v, -tick_bound);
  }
  return {Refusal{}, firing};
}

}  // namespace second
