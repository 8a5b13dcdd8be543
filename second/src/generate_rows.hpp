// Rows for a component whose actions and clocks are given.
#pragma once

#include "model.hpp"
#include "random.hpp"

namespace second {

// (a) to (f) hold: sets active(s) are drawn first, and each row resets what they ask for.
void fill_accepted(Random& random, Component& component, unsigned states);

// Confluent as well. The states are tuples, and each urgent action moves a coordinate that no
// other moves, or one where the moves commute; so all orders close. `always` is a `uout` action
// to be enabled in every state, or 64 for none.
void fill_confluent(Random& random, Component& component, unsigned states, unsigned always);

// One state more, with any number, that no row leads to, or only non-urgent ones that leave unstable
// states. It hears every input, speaks some urgent outputs and mostly clashes; what passed before still
// passes, since it isn't reached.
void add_unreached(Random& random, Component& component);

// Whether 10 to 14 and 18 pass for this component alone.
bool sound_and_confluent(const Component& component);

}  // namespace second
