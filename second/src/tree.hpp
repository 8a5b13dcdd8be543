// Repairable fault trees (000, sections 5.3 to 5.6): their text, refusals 2, 4, 6 and 5, and the
// conditions of 000's Definition 5.2, refusal 47.
#pragma once

#include <string_view>
#include <vector>

#include "refusal.hpp"
#include "scan.hpp"

namespace second {

enum class Sort { be, both, either, pand, rbox };  // `both` is AND, `either` is OR

struct Element {
  Sort sort = Sort::be;
  unsigned number = 0;
  std::vector<unsigned> inputs;  // numbers of elements, as they stand
};

struct Tree {
  std::vector<Element> elements;  // in the order of the lines
};

struct TreeReading {
  Refusal refusal;
  Tree tree;  // empty beside a refusal
};

TreeReading tree_of_text(std::string_view text);

// 47 with the number of the lowest condition that is broken.
Refusal tree_conditions(const Tree& tree);

}  // namespace second
