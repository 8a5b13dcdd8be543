#include "conditions.hpp"

#include <array>

#include "active.hpp"

namespace second {
namespace {

// How many rows leave the state by each action.
std::array<unsigned, members> rows_by_action(const Component& component, unsigned state) {
  std::array<unsigned, members> rows{};
  for (const Row& row : component.leaving(state)) ++rows[row.action];
  return rows;
}

// (a), (b): a clock guards rows of `out` and no others.
Refusal guards_fit_kinds(const Component& component, std::uint64_t first_row) {
  for (std::uint64_t r = 0; r < component.rows.size(); ++r) {
    const Row& row = component.rows[r];
    const bool guarded = row.guard != no_clock;
    if (guarded != (component.kind[row.action] == Kind::out)) return refuse(10, {first_row + r});
  }
  return {};
}

// (c). The place is the later of two rows: it is the one that repeats.
Refusal no_clock_repeats(const Component& component, std::uint64_t first_row) {
  Set seen = 0;
  for (std::uint64_t r = 0; r < component.rows.size(); ++r) {
    const Row& row = component.rows[r];
    if (r > 0 && component.rows[r - 1].from != row.from) seen = 0;
    if ((seen & guard_set(row)) != 0) return refuse(11, {first_row + r});
    seen = joined(seen, guard_set(row));
  }
  return {};
}

// (d).
Refusal inputs_everywhere(const Component& component, std::uint64_t c) {
  for (unsigned state = 0; state < component.states; ++state) {
    const auto rows = rows_by_action(component, state);
    for (unsigned action = 0; action < members; ++action)
      if (is_input(component.kind[action]) && rows[action] == 0) return refuse(12, {c, state, action});
  }
  return {};
}

// (e) and the house rule, which are one search; `out` may have several rows.
Refusal single_rows(const Component& component, std::uint64_t c) {
  for (unsigned state = 0; state < component.states; ++state) {
    const auto rows = rows_by_action(component, state);
    for (unsigned action = 0; action < members; ++action) {
      const Kind kind = component.kind[action];
      if ((is_input(kind) || kind == Kind::uout) && rows[action] > 1) return refuse(13, {c, state, action});
    }
  }
  return {};
}

}  // namespace

Refusal component_conditions(const Component& component, std::uint64_t c, std::uint64_t first_row) {
  if (Refusal broken = guards_fit_kinds(component, first_row)) return broken;
  if (Refusal broken = no_clock_repeats(component, first_row)) return broken;
  if (Refusal broken = inputs_everywhere(component, c)) return broken;
  if (Refusal broken = single_rows(component, c)) return broken;
  if (!active_sets_exist(component)) return refuse(14, {c});
  return {};
}

}  // namespace second
