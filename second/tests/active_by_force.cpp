// Condition (f) against every choice of sets.
#include "active.hpp"

#include "check.hpp"
#include "generate_rows.hpp"
#include "lending.hpp"
#include "tests.hpp"

namespace {

using second::Component;
using second::Row;
using second::Set;

// (f) word for word, for one choice.
bool choice_works(const Component& component, const std::vector<Set>& active) {
  if ((active[component.start] & ~component.started) != 0) return false;
  for (unsigned s = 0; s < component.states; ++s) {
    Set enabling = 0;
    bool stable = true;
    for (const Row& row : component.rows) {
      if (row.from != s) continue;
      if (row.guard >= 0) enabling |= Set{1} << row.guard;
      if (component.kind[row.action] == second::Kind::uout) stable = false;
    }
    if ((enabling & ~active[s]) != 0) return false;
    if (stable && enabling != active[s]) return false;
  }
  for (const Row& row : component.rows) {
    Set left = active[row.from];
    if (row.guard >= 0) left &= ~(Set{1} << row.guard);
    if ((active[row.target] & ~(left | row.resets)) != 0) return false;
  }
  return true;
}

bool some_choice_works(const Component& component, unsigned clocks) {
  const unsigned bits = component.states * clocks;
  for (std::uint64_t choice = 0; choice < std::uint64_t{1} << bits; ++choice) {
    std::vector<Set> active;
    for (unsigned s = 0; s < component.states; ++s)
      active.push_back((choice >> (s * clocks)) & ((Set{1} << clocks) - 1));
    if (choice_works(component, active)) return true;
  }
  return false;
}

Component drawn(second::Random& random, unsigned states, unsigned clocks) {
  Component component;
  component.kind[0] = second::Kind::in;
  component.kind[1] = second::Kind::out;
  component.kind[2] = second::Kind::uout;
  component.kind[3] = random.chance(50) ? second::Kind::uin : second::Kind::uout;
  component.clocks = (Set{1} << clocks) - 1;
  second::fill_accepted(random, component, states);
  // Then worse in a few places, so that both answers are common.
  for (unsigned damage = random.below(4); damage > 0; --damage) {
    Row& row = component.rows[random.below(component.rows.size())];
    switch (random.below(4)) {
      case 0: row.resets &= random.next(); break;
      case 1: row.target = random.below(states); break;
      case 2: component.started &= random.next(); break;
      default: component.start = random.below(states);
    }
  }
  return component;
}

}  // namespace

void test_active_by_force() {
  second::Random random(3);
  unsigned given = 0, missing = 0;
  const struct { unsigned states, clocks; } sizes[] = {{1, 3}, {2, 3}, {3, 3}, {4, 2}, {5, 2}, {8, 1}, {3, 4}};
  for (unsigned round = 0; round < rounds(2100); ++round) {
    const auto size = sizes[round % 7];
    const Component component = drawn(random, size.states, size.clocks);
    const bool works = some_choice_works(component, size.clocks);
    (works ? given : missing) += 1;
    check(second::active_sets_exist(component) == works, "(f) as every choice of sets says");
    if (works) check(choice_works(component, second::greatest_active(component)), "the greatest sets work themselves");
  }
  check_common(given > 200 && missing > 200, "both answers are common");
}
