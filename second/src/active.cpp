#include "active.hpp"

namespace second {

Set enabling(const Component& component, unsigned state) {
  Set clocks = 0;
  for (const Row& row : component.leaving(state)) clocks = joined(clocks, guard_set(row));
  return clocks;
}

bool stable(const Component& component, unsigned state) {
  for (const Row& row : component.leaving(state))
    if (component.kind[row.action] == Kind::uout) return false;
  return true;
}

std::vector<Set> greatest_active(const Component& component) {
  std::vector<Set> active(component.states, component.clocks);
  for (unsigned state = 0; state < component.states; ++state)
    if (stable(component, state)) active[state] = enabling(component, state);
  active[component.start] &= component.started;
  // Sets only shrink, so this ends.
  for (bool shrunk = true; shrunk;) {
    shrunk = false;
    for (const Row& row : component.rows) {
      const Set allowed = joined(without(active[row.from], guard_set(row)), row.resets);
      if (within(active[row.target], allowed)) continue;
      active[row.target] &= allowed;
      shrunk = true;
    }
  }
  return active;
}

bool active_sets_exist(const Component& component) {
  const std::vector<Set> active = greatest_active(component);
  for (unsigned state = 0; state < component.states; ++state)
    if (!within(enabling(component, state), active[state])) return false;
  return true;
}

}  // namespace second
