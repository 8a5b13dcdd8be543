// Steps of the composition (000, section 4.3). Everything here asks for an accepted model and a
// state that fits it.
#pragma once

#include <optional>

#include "model.hpp"

namespace second {

struct Move {
  unsigned action = 0;
  Set resets = 0;
  State after;
};

// Whether `parts` is a composed state of the model: refusal 21 asks this. Parts may be wider than
// a byte, and are never cut down to one.
template <class Part>
bool fits(const Model& model, const Part* parts, std::uint64_t count) {
  if (count != model.components.size()) return false;
  for (std::uint64_t c = 0; c < count; ++c)
    if (parts[c] >= model.components[c].states) return false;
  return true;
}

Set enabling(const Model& model, const State& state);

// The `uout` actions of the composition that are enabled.
Set urgent_outputs(const Model& model, const State& state);

bool stable(const Model& model, const State& state);

// The urgent step by this action, where it is an enabled urgent output.
std::optional<Move> urgent_step(const Model& model, const State& state, std::uint64_t action);

// The urgent step by our rule: "the lowest-numbered one".
std::optional<Move> lowest_urgent_step(const Model& model, const State& state);

// The step by the row that waits for this enabling clock.
Move clock_step(const Model& model, const State& state, unsigned clock);

}  // namespace second
