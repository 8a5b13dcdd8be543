#include "acceptance.hpp"

#include "compatible.hpp"
#include "conditions.hpp"
#include "confluence.hpp"
#include "triggering.hpp"

namespace second {

Refusal component_acceptance(const Model& model, std::uint64_t c) {
  std::uint64_t first_row = 0;
  for (std::uint64_t before = 0; before < c; ++before) first_row += model.components[before].rows.size();
  return component_conditions(model.components[c], c, first_row);
}

Refusal acceptance(const Model& model) {
  for (std::uint64_t c = 0; c < model.components.size(); ++c)
    if (Refusal broken = component_acceptance(model, c)) return broken;
  return compatible(model);
}

Refusal acceptance_and_confluence(const Model& model) {
  if (Refusal broken = acceptance(model)) return broken;
  return confluence(model);
}

Refusal acceptance_and_orderliness(const Model& model) {
  if (Refusal broken = acceptance(model)) return broken;
  return orderliness(model);
}

Refusal acceptance_and_either(const Model& model) {
  if (Refusal broken = acceptance(model)) return broken;
  if (!confluence(model)) return {};
  return orderliness(model);
}

}  // namespace second
