// The timed step against its words, place by place, and settling against single steps.
#include <algorithm>

#include "active.hpp"
#include "check.hpp"
#include "generate.hpp"
#include "lending.hpp"
#include "tests.hpp"

namespace {

constexpr std::int64_t floor_tick = -(std::int64_t{1} << 40);

unsigned long floored = 0;  // clocks that would have gone below the floor

void check_timed(const second::Model& model, const Part& state, const Clocks& before) {
  second::Set declared = 0, waiting = 0;
  bool stable = true;
  for (std::size_t c = 0; c < model.components.size(); ++c) {
    declared |= model.components[c].clocks;
    waiting |= second::enabling(model.components[c], state[c]);
    stable = stable && second::stable(model.components[c], state[c]);
  }
  Clocks after = before;
  const auto answer = lend_timed_step(second::image_of_model(model), state, after);

  std::uint64_t expected = 0, place = 0;
  std::int64_t least = INT64_MAX;
  if (!stable) expected = 27;
  else if (before.size() != 64) expected = 28;
  if (expected == 0)
    for (unsigned x = 0; x < 64; ++x)
      if (second::has(declared, x) && (before[x] < floor_tick || before[x] > -floor_tick)) expected = 28;
  if (expected == 0)
    for (unsigned x = 64; x-- > 0;)
      if (second::has(waiting, x) && before[x] < 0) expected = 29, place = x;
  if (expected == 0) {
    for (unsigned x = 0; x < 64; ++x)
      if (second::has(waiting, x)) least = std::min(least, before[x]);
    unsigned sharing = 0;
    for (unsigned x = 64; x-- > 0;)
      if (second::has(waiting, x) && before[x] == least) ++sharing, place = x;
    if (sharing > 1) expected = 30;
  }
  if (expected != 0) {
    check(answer.refusal == second::refuse(expected, {expected >= 29 ? place : 0}), "timed: " + shown(answer.refusal));
    return;
  }
  check(!answer.refusal, "timed: not refused");
  if (waiting == 0) {
    check(answer.outcome == second::TimedOutcome::quiet, "timed: quiet");
    return;
  }
  check(answer.outcome == second::TimedOutcome::fired && answer.v == least, "timed: the least value fires");
  for (unsigned x = 0; x < 64; ++x) {
    const bool falls = second::has(declared, x);
    if (falls && before[x] - least < floor_tick) ++floored;
    check(after[x] == (falls ? std::max(before[x] - least, floor_tick) : before[x]), "timed: each clock");
  }
}

// Settling is its single steps, one after the other.
void check_settling(const second::Model& model, const Part& from, std::uint64_t budget) {
  const Table table = second::image_of_model(model);
  Part trace(budget, 0), actions;
  const auto run = lend_settle(table, from, budget, trace);
  Part state = from;
  second::Set resets = 0;
  bool stable = false;
  for (;;) {
    const auto step = lend_step(table, state);
    stable = step.outcome == second::StepOutcome::stable;
    if (stable || actions.size() == budget) break;
    actions.push_back(static_cast<std::uint8_t>(step.action));
    resets |= step.resets;
    state = parts_of(step.state);
  }
  check((run.verdict == second::Verdict::stable) == stable, "settling: stable tells of the last state");
  check(run.steps == actions.size() && run.resets == resets && parts_of(run.state) == state, "settling: as its steps");
  actions.resize(budget, 0);
  check(trace == actions, "settling: the trace");
}

}  // namespace

void test_timed_runs() {
  second::Random random(8);
  for (unsigned round = 0; round < rounds(1500); ++round) {
    const second::Family family = second::families[round % 6];
    const second::Model model = second::generate(random, family, static_cast<second::Size>(round % 20 == 0 ? 2 : round % 2));
    for (unsigned tries = 0; tries < 3; ++tries) {
      const Part state = tries == 2 ? second::generate_state(random, model) : second::generate_calm_state(random, model);
      check_timed(model, state, tries == 0 ? second::generate_ticks_for(random, model, state)
                                : tries == 1 ? second::generate_odd_ticks(random) : second::generate_ticks(random));
    }
    if (family == second::Family::accepted || family == second::Family::clashing) continue;
    const Part from = second::generate_reached_state(random, model);
    const unsigned budget = random.below(40);
    check_settling(model, from, budget);
  }
  check_common(floored > 500, "the floor is often met: " + std::to_string(floored));
}
