// Systems of components that are not confluent alone (000, Theorem 4.5): an unconfluent pair matters
// only if two urgent outputs that become enabled together lead on to it. Refusals 45 and 18.
#pragma once

#include <array>
#include <optional>

#include "model.hpp"
#include "refusal.hpp"

namespace second {

// For each action a set of actions.
using Relation = std::array<Set, members>;

// Which urgent action triggers which urgent output (000, Definition 4.12), over all components.
Relation triggers(const Model& model);

// The same closed under going on, each action leading to itself (000, Definition 4.13).
Relation leads_on(const Model& model);

// The pairs that two urgent outputs enabled together lead on to; symmetric.
Relation led_pairs(const Model& model);

// The lowest action that is an input and nobody's output.
std::optional<unsigned> open_input(const Model& model);

// The new test itself, for an accepted model: 45, then 18 at the place of the check of confluence.
Refusal orderliness(const Model& model);

}  // namespace second
