#include "repairing.hpp"

#include <algorithm>

namespace second {

std::vector<Cell> lacking_rows(const Model& model) {
  std::vector<Cell> cells;
  for (unsigned c = 0; c < model.components.size(); ++c) {
    const Component& component = model.components[c];
    Set inputs = 0;
    for (unsigned action = 0; action < members; ++action)
      if (is_input(component.kind[action])) inputs |= only(action);
    for (unsigned state = 0; state < component.states; ++state) {
      Set lacking = inputs;
      for (const Row& row : component.leaving(state)) lacking = without(lacking, only(row.action));
      for (unsigned action = 0; action < members && lacking != 0; ++action) {
        if (!has(lacking, action)) continue;
        cells.push_back({c, state, action});
        lacking = without(lacking, only(action));
      }
    }
  }
  return cells;
}

Model repaired(Model model, const std::vector<Cell>& cells) {
  for (const Cell& cell : cells) {
    Row row;
    row.from = row.target = cell.state;
    row.action = cell.action;
    model.components[cell.component].rows.push_back(row);
  }
  for (Component& component : model.components) std::sort(component.rows.begin(), component.rows.end());
  return model;
}

}  // namespace second
