// From a model to its one text; also how sets and states look wherever they are printed.
#pragma once

#include <array>
#include <optional>
#include <string>

#include "model.hpp"

namespace second {

std::string text_of_model(const Model& model);

// A name for each action that the model declares, and for no other.
using Sheet = std::array<std::optional<std::string>, members>;

// The second form: `form`, `name` lines, and names in the action fields.
std::string named_text_of_model(const Model& model, const Sheet& sheet);

// `-`, or the members ascending and joined by commas.
std::string text_of_set(Set set);
std::string text_of_state(const State& state);

}  // namespace second
