// The conditions (a) to (f) on one component (000, Definition 4.1): refusals 10 to 14.
#pragma once

#include "model.hpp"
#include "refusal.hpp"

namespace second {

// `c` is the component's number and `first_row` that of its first row, over the system.
Refusal component_conditions(const Component& component, std::uint64_t c, std::uint64_t first_row);

}  // namespace second
