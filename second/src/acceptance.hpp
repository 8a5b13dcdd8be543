// The order of the checks on a system: 10 to 14 for each component in turn, then 15 to 17.
#pragma once

#include "model.hpp"
#include "refusal.hpp"

namespace second {

// 10 to 14 of the component that stands at this index, which the model has.
Refusal component_acceptance(const Model& model, std::uint64_t c);

Refusal acceptance(const Model& model);

// As acceptance, then 18.
Refusal acceptance_and_confluence(const Model& model);

// As acceptance, then the new test: 45, 18.
Refusal acceptance_and_orderliness(const Model& model);

// As acceptance; then nothing where the check of confluence passes, else 45, and 18 where neither
// test passes.
Refusal acceptance_and_either(const Model& model);

}  // namespace second
