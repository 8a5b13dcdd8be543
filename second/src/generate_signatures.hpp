// Who has which action and clock: components without rows, compatible with one another.
#pragma once

#include <vector>

#include "model.hpp"
#include "random.hpp"

namespace second {

struct Shape {
  unsigned components = 1;
  unsigned states = 1;           // the most in one component
  unsigned actions = 1;
  unsigned clocks = 0;
  unsigned urgent_percent = 60;
  unsigned hearing_percent = 30; // that a component hears an action it doesn't output
  unsigned orphan_percent = 10;  // that nobody outputs an action
};

std::vector<Component> generate_signatures(Random& random, const Shape& shape);

std::vector<unsigned> actions_of_kind(const Component& component, Kind kind);

}  // namespace second
