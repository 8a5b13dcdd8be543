// Missing self-loops of inputs put in: refusals 24 and 26.
#pragma once

#include <vector>

#include "model.hpp"

namespace second {

struct Cell {
  unsigned component, state, action;
};

// Each state that lacks a row of an input, ascending by component, state, action: what 12 means.
std::vector<Cell> lacking_rows(const Model& model);

// The model with a self-loop in each of these places, without guard or resets.
Model repaired(Model model, const std::vector<Cell>& cells);

}  // namespace second
