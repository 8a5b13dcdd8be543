// Confluence of every component in the states that it can get to: refusal 18.
#pragma once

#include "model.hpp"
#include "refusal.hpp"

namespace second {

// Whether a step by `one` and a step by `other`, both leaving one state, can be closed to the
// same state with the same resets, whichever comes first.
bool closes(const Component& component, const Row& one, const Row& other);

Refusal confluence(const Model& model);

}  // namespace second
