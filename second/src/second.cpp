#include "second.hpp"

#include <algorithm>
#include <array>
#include <optional>
#include <string>

#include "acceptance.hpp"
#include "compatible.hpp"
#include "composition.hpp"
#include "draws.hpp"
#include "merging.hpp"
#include "names.hpp"
#include "path.hpp"
#include "reach.hpp"
#include "repairing.hpp"
#include "samples.hpp"
#include "settling.hpp"
#include "simulation.hpp"
#include "text_reading.hpp"
#include "text_writing.hpp"
#include "timed.hpp"
#include "tree_model.hpp"

namespace second {
namespace {

// A table and a state as most calls take them: 20, then `checks`, then 21.
struct Ground {
  Refusal refusal;
  Model model;
  State state;
};

Ground ground(Words table, Refusal (*checks)(const Model&)) {
  auto model = model_of_image(table);
  if (!model) return {refuse(20, {0}), {}, {}};
  if (Refusal broken = checks(*model)) return {broken, {}, {}};
  return {Refusal{}, std::move(*model), {}};
}

Ground ground(Words table, Refusal (*checks)(const Model&), Bytes state) {
  Ground found = ground(table, checks);
  if (found.refusal) return found;
  if (!fits(found.model, state.front, state.length)) return {refuse(21, {0}), {}, {}};
  found.state.count = state.length;
  std::copy_n(state.front, state.length, found.state.parts);
  return found;
}

// As settling after a path takes them: the state is the one after the path.
Ground walked_ground(Words table, Bytes path) {
  Ground found = ground(table, acceptance_and_either);
  if (found.refusal) return found;
  const Walk walk = walked(found.model, path);
  if (walk.refusal) return {walk.refusal, {}, {}};
  found.state = walk.state;
  return found;
}

// As settling takes them: each part must be a state that its component can get to, or 19.
Ground settling_ground(Words table, Bytes state) {
  Ground found = ground(table, acceptance_and_confluence, state);
  if (found.refusal) return found;
  if (const auto part = unreached_part(found.model, found.state)) return {refuse(19, {*part}), {}, {}};
  return found;
}

template <class Refused>
Refused refused(const Refusal& refusal) {
  Refused answer;
  answer.refusal = refusal;
  return answer;
}

StepAnswer moved(const Move& move) {
  return {Refusal{}, StepOutcome::moved, move.action, move.resets, move.after};
}

SettleAnswer settled(const Run& run) {
  return {Refusal{}, run.stable ? Verdict::stable : Verdict::unsettled, run.moves.size(),
          resets_of(run), run.last};
}

// 22, 24.
SettleAnswer settle_from(const Ground& on, std::uint64_t budget, BytesToWrite trace) {
  if (on.refusal) return refused<SettleAnswer>(on.refusal);
  if (budget > max_budget) return refused<SettleAnswer>(refuse(22, {0}));
  if (trace.length < budget) return refused<SettleAnswer>(refuse(24, {budget}));
  const Run run = settle_by_rule(on.model, on.state, budget);
  for (std::size_t m = 0; m < run.moves.size(); ++m)
    trace.front[m] = static_cast<std::uint8_t>(run.moves[m].action);
  return settled(run);
}

// 22, 23.
SettleAnswer settle_list_from(const Ground& on, Bytes list) {
  if (on.refusal) return refused<SettleAnswer>(on.refusal);
  if (list.length > max_budget) return refused<SettleAnswer>(refuse(22, {0}));
  const ListRun listed = settle_by_list(on.model, on.state, list);
  if (listed.refusal) return refused<SettleAnswer>(listed.refusal);
  return settled(listed.run);
}

// As both simulations take them: 22, 28.
Ground simulation_ground(Words table, std::uint64_t rounds, Ticks clocks) {
  Ground found = ground(table, acceptance_and_either);
  if (found.refusal) return found;
  if (rounds > max_rounds) return {refuse(22, {0}), {}, {}};
  if (clocks.length != clock_values) return {refuse(28, {0}), {}, {}};
  return found;
}

std::string_view text_in(Bytes text) {
  return {reinterpret_cast<const char*>(text.front), static_cast<std::size_t>(text.length)};
}

// The 64 values are written once, at the end, and only those that are declared.
SimulateAnswer run_simulation(const Model& model, std::uint64_t rounds, Supply& supply, Ticks clocks) {
  const Simulation simulation = simulated(model, rounds, supply);
  if (simulation.refusal) return refused<SimulateAnswer>(simulation.refusal);
  const Set declared = clocks_of(model);
  for (unsigned clock = 0; clock < clock_values; ++clock)
    if (has(declared, clock)) clocks.front[clock] = simulation.values[clock];
  return {Refusal{}, simulation.rounds, simulation.state};
}

void put(const Model& model, WordsToWrite into) {
  const auto image = image_of_model(model);
  std::copy(image.begin(), image.end(), into.front);
}

// A text in the other form: 24, 26.
WriteAnswer converted(const std::string& text, BytesToWrite into) {
  if (into.length < text.size()) return refused<WriteAnswer>(refuse(24, {text.size()}));
  if (text.size() > max_text) return refused<WriteAnswer>(refuse(26, {0}));
  std::copy(text.begin(), text.end(), into.front);
  return {Refusal{}, text.size()};
}

}  // namespace

Answer read(Bytes text, WordsToWrite into) {
  const Reading reading = model_of_text(text_in(text));
  if (reading.refusal) return {reading.refusal};
  if (into.length < image_words) return {refuse(24, {image_bytes})};
  put(reading.model, into);
  return {};
}

Answer read_tree(Bytes text, WordsToWrite into) {
  const TreeReading reading = tree_of_text(text_in(text));
  if (reading.refusal) return {reading.refusal};
  if (Refusal broken = tree_conditions(reading.tree)) return {broken};
  const TreeModel written = model_of_tree(reading.tree);
  if (written.refusal) return {written.refusal};
  if (into.length < image_words) return {refuse(24, {image_bytes})};
  put(written.model, into);
  return {};
}

WriteAnswer write(Words table, BytesToWrite into) {
  const auto model = model_of_image(table);
  if (!model) return refused<WriteAnswer>(refuse(20, {0}));
  const std::string text = text_of_model(*model);
  if (into.length < text.size()) return refused<WriteAnswer>(refuse(24, {text.size()}));
  std::copy(text.begin(), text.end(), into.front);
  return {Refusal{}, text.size()};
}

WriteAnswer to_names(Bytes text, BytesToWrite into) {
  const Reading reading = model_of_text(text_in(text));
  if (reading.refusal) return refused<WriteAnswer>(reading.refusal);
  return converted(named_text_of_model(reading.model, default_sheet(reading.model)), into);
}

WriteAnswer to_numbers(Bytes text, BytesToWrite into) {
  const NamedReading reading = model_of_named_text(text_in(text));
  if (reading.refusal) return refused<WriteAnswer>(reading.refusal);
  return converted(text_of_model(reading.model), into);
}

Answer recognise(Words table) {
  if (!model_of_image(table)) return {refuse(20, {0})};
  return {};
}

StartAnswer start(Words table) {
  const auto model = model_of_image(table);
  if (!model) return refused<StartAnswer>(refuse(20, {0}));
  return {Refusal{}, model->components.size(), started_of(*model), start_of(*model)};
}

Answer component(Words table, std::uint64_t i) {
  const auto model = model_of_image(table);
  if (!model) return {refuse(20, {0})};
  if (i >= model->components.size()) return {refuse(25, {0})};
  return {component_acceptance(*model, i)};
}

Answer compatible(Words table) { return {ground(table, compatible).refusal}; }

Answer accept(Words table) { return {ground(table, acceptance).refusal}; }

Answer confluent(Words table) { return {ground(table, acceptance_and_confluence).refusal}; }

StepAnswer step(Words table, Bytes state) {
  const Ground on = ground(table, acceptance, state);
  if (on.refusal) return refused<StepAnswer>(on.refusal);
  if (const auto move = lowest_urgent_step(on.model, on.state)) return moved(*move);
  return {Refusal{}, StepOutcome::stable, 0, 0, on.state};
}

StepAnswer step_by(Words table, Bytes state, std::uint64_t action) {
  const Ground on = ground(table, acceptance, state);
  if (on.refusal) return refused<StepAnswer>(on.refusal);
  if (const auto move = urgent_step(on.model, on.state, action)) return moved(*move);
  return refused<StepAnswer>(refuse(23, {0}));
}

SettleAnswer settle(Words table, Bytes state, std::uint64_t budget, BytesToWrite trace) {
  return settle_from(settling_ground(table, state), budget, trace);
}

SettleAnswer settle_list(Words table, Bytes state, Bytes list) {
  return settle_list_from(settling_ground(table, state), list);
}

Answer orderly(Words table) { return {ground(table, acceptance_and_orderliness).refusal}; }

SettleAnswer settle_after(Words table, Bytes path, std::uint64_t budget, BytesToWrite trace) {
  return settle_from(walked_ground(table, path), budget, trace);
}

SettleAnswer settle_list_after(Words table, Bytes path, Bytes list) {
  return settle_list_from(walked_ground(table, path), list);
}

TimedAnswer timed_step(Words table, Bytes state, Ticks ticks) {
  const Ground on = ground(table, acceptance, state);
  if (on.refusal) return refused<TimedAnswer>(on.refusal);
  const TimedStep timely = timed(on.model, on.state, {ticks.front, ticks.length});
  if (timely.refusal) return refused<TimedAnswer>(timely.refusal);
  if (!timely.firing) return {Refusal{}, TimedOutcome::quiet, 0, 0, 0, on.state};
  const Firing& firing = *timely.firing;
  std::copy(firing.fallen.begin(), firing.fallen.end(), ticks.front);
  return {Refusal{}, TimedOutcome::fired, firing.v, firing.move.action, firing.move.resets,
          firing.move.after};
}

SimulateAnswer simulate(Words table, Bytes samples, std::uint64_t rounds, Ticks clocks) {
  const Ground on = simulation_ground(table, rounds, clocks);
  if (on.refusal) return refused<SimulateAnswer>(on.refusal);
  const SampleReading reading = samples_of_text(text_in(samples), clocks_of(on.model));
  if (reading.refusal) return refused<SimulateAnswer>(reading.refusal);
  std::array<std::size_t, members> taken{};
  Supply supply{[&](unsigned clock) { return taken[clock] < reading.lists[clock].size(); },
                [&](unsigned clock) { return reading.lists[clock][taken[clock]++]; }, 41};
  return run_simulation(on.model, rounds, supply, clocks);
}

SimulateAnswer simulate_drawn(Words table, Bytes laws, Words numbers, std::uint64_t rounds, Ticks clocks) {
  const Ground on = simulation_ground(table, rounds, clocks);
  if (on.refusal) return refused<SimulateAnswer>(on.refusal);
  const LawReading reading = laws_of_text(text_in(laws), clocks_of(on.model));
  if (reading.refusal) return refused<SimulateAnswer>(reading.refusal);
  std::array<std::uint64_t, members> taken{};
  const auto place = [](std::uint64_t k, unsigned clock) { return members * k + clock; };
  Supply supply{[&](unsigned clock) {
                  return place(taken[clock] + reading.laws[clock].numbers() - 1, clock) < numbers.length;
                },
                [&](unsigned clock) {
                  const Law& law = reading.laws[clock];
                  const std::uint64_t first = numbers.front[place(taken[clock], clock)];
                  const std::uint64_t second = law.mixture ? numbers.front[place(taken[clock] + 1, clock)] : 0;
                  taken[clock] += law.numbers();
                  return drawn(law, first, second);
                },
                50};
  return run_simulation(on.model, rounds, supply, clocks);
}

RepairAnswer repair(WordsToWrite table, BytesToWrite list) {
  const auto model = model_of_image({table.front, table.length});
  if (!model) return refused<RepairAnswer>(refuse(20, {0}));
  const std::vector<Cell> cells = lacking_rows(*model);
  if (list.length < 3 * cells.size()) return refused<RepairAnswer>(refuse(24, {3 * cells.size()}));
  if (count_rows(*model) + cells.size() > max_rows) return refused<RepairAnswer>(refuse(26, {0}));
  const Model whole = repaired(*model, cells);
  if (text_of_model(whole).size() > max_text) return refused<RepairAnswer>(refuse(26, {0}));
  std::uint8_t* next = list.front;
  for (const Cell& cell : cells) {
    *next++ = static_cast<std::uint8_t>(cell.component);
    *next++ = static_cast<std::uint8_t>(cell.state);
    *next++ = static_cast<std::uint8_t>(cell.action);
  }
  put(whole, table);
  return {Refusal{}, cells.size()};
}

Answer merge(Words table, std::uint64_t i, WordsToWrite into) {
  const Ground on = ground(table, acceptance);
  if (on.refusal) return {on.refusal};
  if (into.length < image_words) return {refuse(24, {image_bytes})};
  const Merging merging = merged(on.model, i);
  if (merging.refusal) return {merging.refusal};
  put(merging.model, into);
  return {};
}

}  // namespace second
