// The states that a component can get to (000, Definition 4.9, of one component).
#pragma once

#include <optional>
#include <vector>

#include "model.hpp"

namespace second {

// For each state whether it is reached from the start by rows of which every non-urgent one leaves a
// stable state.
std::vector<bool> reached(const Component& component);

// The lowest component whose part isn't such a state; nothing where each part is. For a state that
// fits the model.
std::optional<std::uint64_t> unreached_part(const Model& model, const State& state);

}  // namespace second
