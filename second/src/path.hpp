// A listed path of steps from the start, each an action and its guard in two bytes: refusals 22 and 46.
#pragma once

#include "composition.hpp"
#include "lent.hpp"
#include "refusal.hpp"

namespace second {

struct Walk {
  Refusal refusal;
  State state;  // the state after the path
};

// The guard's byte is 0 for `-` and x + 1 for clock x. A non-urgent step must leave a stable state.
Walk walked(const Model& model, Bytes path);

}  // namespace second
