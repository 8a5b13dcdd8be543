// Compatibility of the components of a system: refusals 15 to 17.
#pragma once

#include "model.hpp"
#include "refusal.hpp"

namespace second {

Refusal compatible(const Model& model);

}  // namespace second
