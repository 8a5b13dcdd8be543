#include "generate_limits.hpp"

#include <vector>

#include "text_writing.hpp"

namespace second {
namespace {

Kind heard_as(const Model& model, unsigned action) {
  for (const Component& component : model.components)
    if (component.kind[action] != Kind::absent)
      return is_urgent(component.kind[action]) ? Kind::uin : Kind::in;
  return Kind::in;
}

std::vector<unsigned> lowest_actions(unsigned count) {
  std::vector<unsigned> actions;
  for (unsigned action = 0; action < count; ++action) actions.push_back(action);
  return actions;
}

// The lowest actions that aren't urgent, as many as asked for if there are so many.
std::vector<unsigned> lowest_plain_actions(const Model& model, unsigned count) {
  std::vector<unsigned> actions;
  for (unsigned action = 0; action < members && actions.size() < count; ++action)
    if (heard_as(model, action) == Kind::in) actions.push_back(action);
  return actions;
}

// A component that hears these actions and never moves.
Component hearer(const Model& model, unsigned states, const std::vector<unsigned>& actions) {
  Component component;
  component.states = states;
  for (unsigned action : actions) component.kind[action] = heard_as(model, action);
  for (unsigned state = 0; state < states; ++state)
    for (unsigned action : actions) {
      Row row;
      row.from = row.target = state;
      row.action = action;
      component.rows.push_back(row);
    }
  return component;
}

}  // namespace

Model padded_to_rows(Model model, std::uint64_t rows) {
  auto lacking = static_cast<unsigned>(rows - count_rows(model));
  // Less than 128 are left for two states, and one at most for one: never over 64 actions.
  for (unsigned states : {max_states, 2u, 1u}) {
    if (lacking / states > 0) model.components.push_back(hearer(model, states, lowest_actions(lacking / states)));
    lacking %= states;
  }
  return model;
}

Model padded_to_text(Model model, std::uint64_t bytes) {
  Component padding = hearer(model, max_states, lowest_plain_actions(model, 4));
  padding.clocks = ~clocks_of(model);
  model.components.push_back(padding);
  std::uint64_t length = text_of_model(model).size();
  for (Row& row : model.components.back().rows) {
    // Clocks of two digits first: the first of them costs one byte, so any length can be met.
    for (unsigned clock = members; clock-- > 0;) {
      if (!has(padding.clocks, clock)) continue;
      const unsigned digits = clock < 10 ? 1 : 2;
      const std::uint64_t cost = row.resets == 0 ? digits - 1 : digits + 1;
      if (length + cost > bytes) continue;
      row.resets |= only(clock);
      length += cost;
    }
  }
  return model;
}

Model with_128_states(Random& random, Model model) {
  Component ring = hearer(model, max_states, lowest_actions(3));
  ring.start = random.below(max_states);
  // Turning by a fixed sum for each action commutes.
  const unsigned sums[3] = {random.below(max_states), random.below(max_states), random.below(max_states)};
  for (Row& row : ring.rows) row.target = (row.from + sums[row.action]) % max_states;
  model.components.push_back(ring);
  return model;
}

}  // namespace second
