// The second form of the model text, in which actions have names: refusals 43 and 44 beside 1 to 8.
#pragma once

#include <string_view>

#include "model.hpp"
#include "refusal.hpp"
#include "text_writing.hpp"

namespace second {

struct NamedReading {
  Refusal refusal;
  Model model;  // empty beside a refusal
  Sheet sheet;
};

NamedReading model_of_named_text(std::string_view text);

// `a` and the number, for each action that the model declares.
Sheet default_sheet(const Model& model);

// 1 to 16 lower-case letters or digits, a letter first.
bool good_name(std::string_view name);

}  // namespace second
