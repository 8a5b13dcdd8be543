// Condition (f): whether sets active(s) can be given for the states of a component.
#pragma once

#include <vector>

#include "model.hpp"

namespace second {

// The clocks that guard rows leaving the state.
Set enabling(const Component& component, unsigned state);

// "A state is stable if no row with a `uout` action leaves it."
bool stable(const Component& component, unsigned state);

// For each state the greatest set that (f)'s upper bounds allow. Every choice of sets that meets
// (f) lies within these, and (f)'s lower bounds only ask for more; so some choice works exactly
// when these do.
std::vector<Set> greatest_active(const Component& component);

bool active_sets_exist(const Component& component);

}  // namespace second
