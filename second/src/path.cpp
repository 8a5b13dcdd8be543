#include "path.hpp"

namespace second {
namespace {

std::optional<Move> path_step(const Model& model, const State& state, unsigned action, unsigned guard) {
  if (guard == 0) return urgent_step(model, state, action);
  const unsigned clock = guard - 1;
  if (clock >= members || !stable(model, state) || !has(enabling(model, state), clock)) return std::nullopt;
  // By (c) the clock tells the row.
  const Move move = clock_step(model, state, clock);
  if (move.action != action) return std::nullopt;
  return move;
}

}  // namespace

Walk walked(const Model& model, Bytes path) {
  // A last byte alone begins a step that has no guard, and none such is possible.
  if (path.length > 2 * max_path) return {refuse(22, {0}), {}};
  State at = start_of(model);
  for (std::uint64_t index = 0; 2 * index < path.length; ++index) {
    if (2 * index + 1 == path.length) return {refuse(46, {index}), {}};
    const auto move = path_step(model, at, path.front[2 * index], path.front[2 * index + 1]);
    if (!move) return {refuse(46, {index}), {}};
    at = move->after;
  }
  return {Refusal{}, at};
}

}  // namespace second
