// The text of recorded samples: a line for each declared clock, ascending, its number and then its
// samples, parted by tabs. Refusal 40.
#pragma once

#include <array>
#include <string>
#include <string_view>
#include <vector>

#include "model.hpp"
#include "refusal.hpp"

namespace second {

using SampleLists = std::array<std::vector<std::int64_t>, members>;

struct SampleReading {
  Refusal refusal;
  SampleLists lists;  // empty beside a refusal
};

SampleReading samples_of_text(std::string_view text, Set declared);

// The one text of these lists.
std::string text_of_samples(const SampleLists& lists, Set declared);

}  // namespace second
