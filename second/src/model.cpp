#include "model.hpp"

#include <algorithm>
#include <tuple>

namespace second {

bool operator==(const Row& a, const Row& b) {
  return std::tie(a.from, a.action, a.guard, a.resets, a.target) ==
         std::tie(b.from, b.action, b.guard, b.resets, b.target);
}

bool operator<(const Row& a, const Row& b) {
  return std::tie(a.from, a.action, a.guard, a.resets, a.target) <
         std::tie(b.from, b.action, b.guard, b.resets, b.target);
}

Set guard_set(const Row& row) {
  return row.guard == no_clock ? Set{0} : only(static_cast<unsigned>(row.guard));
}

RowRange Component::leaving(unsigned state) const {
  const auto first = std::partition_point(rows.begin(), rows.end(),
                                          [&](const Row& row) { return row.from < state; });
  const auto last = std::partition_point(first, rows.end(),
                                         [&](const Row& row) { return row.from <= state; });
  return {rows.data() + (first - rows.begin()), rows.data() + (last - rows.begin())};
}

bool operator==(const Component& a, const Component& b) {
  return a.states == b.states && a.start == b.start && a.kind == b.kind &&
         a.clocks == b.clocks && a.started == b.started && a.rows == b.rows;
}

bool operator==(const Model& a, const Model& b) { return a.components == b.components; }

std::uint64_t count_rows(const Model& model) {
  std::uint64_t rows = 0;
  for (const Component& component : model.components) rows += component.rows.size();
  return rows;
}

Set clocks_of(const Model& model) {
  Set clocks = 0;
  for (const Component& component : model.components) clocks = joined(clocks, component.clocks);
  return clocks;
}

bool operator==(const State& a, const State& b) {
  return a.count == b.count &&
         std::equal(a.parts, a.parts + std::min<std::uint64_t>(a.count, max_components), b.parts);
}

State start_of(const Model& model) {
  State state;
  for (const Component& component : model.components)
    state.parts[state.count++] = static_cast<std::uint8_t>(component.start);
  return state;
}

Set started_of(const Model& model) {
  Set clocks = 0;
  for (const Component& component : model.components) clocks = joined(clocks, component.started);
  return clocks;
}

}  // namespace second
