// Models grown to a limit by further components that only hear; what passed before still passes.
#pragma once

#include "model.hpp"
#include "random.hpp"

namespace second {

// For models with room for three components and fewer rows than asked for.
Model padded_to_rows(Model model, std::uint64_t rows);

// For models with room for one component, half the rows at most and half the text at most. The number may be over the
// limit of a text; the model is then none.
Model padded_to_text(Model model, std::uint64_t bytes);

Model with_128_states(Random& random, Model model);

}  // namespace second
