#include "simulation.hpp"

#include "settling.hpp"
#include "timed.hpp"

namespace second {
namespace {

// Settles and gives each of these clocks, and of those reset on the way, one sample.
Refusal close_round(const Model& model, std::uint64_t round, Set due, Supply& supply, Simulation& at) {
  const Run run = settle_by_rule(model, at.state, max_budget);
  if (!run.stable) return refuse(42, {round});
  at.state = run.last;
  due = joined(due, resets_of(run));
  for (unsigned clock = 0; clock < members; ++clock)
    if (has(due, clock) && !supply.has_next(clock)) return refuse(supply.ran_out, {clock});
  for (unsigned clock = 0; clock < members; ++clock)
    if (has(due, clock)) at.values[clock] = supply.next(clock);
  return {};
}

}  // namespace

Simulation simulated(const Model& model, std::uint64_t rounds, Supply& supply) {
  Simulation at;
  at.state = start_of(model);
  if (Refusal refused = close_round(model, 0, started_of(model), supply, at)) return {refused, 0, {}, {}};
  while (at.rounds < rounds) {
    const TimedStep timely = timed(model, at.state, {at.values.data(), at.values.size()});
    if (timely.refusal) return {timely.refusal, 0, {}, {}};
    if (!timely.firing) break;
    at.values = timely.firing->fallen;
    at.state = timely.firing->move.after;
    if (Refusal refused = close_round(model, at.rounds + 1, timely.firing->move.resets, supply, at))
      return {refused, 0, {}, {}};
    ++at.rounds;
  }
  return at;
}

}  // namespace second
