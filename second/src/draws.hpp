// Clocks drawn from distributions: the file of a line for each declared clock (49), and one draw.
#pragma once

#include <array>
#include <string_view>

#include "model.hpp"
#include "refusal.hpp"

namespace second {

struct Range {
  double lower = 1, upper = 1;
};

// `uni` has the first range alone; `mix` picks the first when u is below the weight.
struct Law {
  bool mixture = false;
  double weight = 0;
  Range first, second;

  std::uint64_t numbers() const { return mixture ? 2 : 1; }  // that one draw takes
};

struct LawReading {
  Refusal refusal;
  std::array<Law, members> laws;  // of the declared clocks
};

LawReading laws_of_text(std::string_view text, Set declared);

// The ticks of a draw; `uni` takes the first number alone.
std::int64_t drawn(const Law& law, std::uint64_t first, std::uint64_t second);

}  // namespace second
