#include "settling.hpp"

namespace second {
namespace {

void take(Run& run, const Move& move) {
  run.moves.push_back(move);
  run.last = move.after;
}

}  // namespace

Set resets_of(const Run& run) {
  Set resets = 0;
  for (const Move& move : run.moves) resets = joined(resets, move.resets);
  return resets;
}

Run settle_by_rule(const Model& model, const State& from, std::uint64_t budget) {
  Run run;
  run.last = from;
  while (run.moves.size() < budget) {
    const auto move = lowest_urgent_step(model, run.last);
    if (!move) break;
    take(run, *move);
  }
  run.stable = stable(model, run.last);
  return run;
}

ListRun settle_by_list(const Model& model, const State& from, Bytes list) {
  Run run;
  run.last = from;
  for (std::uint64_t index = 0; index < list.length; ++index) {
    const auto move = urgent_step(model, run.last, list.front[index]);
    if (!move) return {refuse(23, {index}), {}};
    take(run, *move);
  }
  run.stable = stable(model, run.last);
  return {Refusal{}, std::move(run)};
}

}  // namespace second
