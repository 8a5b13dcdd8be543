// A tree as a model, by the modules of 000 (section 5.5) and 001 (section 5): refusal 48.
#pragma once

#include "model.hpp"
#include "refusal.hpp"
#include "tree.hpp"

namespace second {

struct TreeModel {
  Refusal refusal;
  Model model;  // empty beside a refusal
};

// For a tree that meets the conditions. Components stand in the order of the lines. Actions are
// numbered line by line: a basic element takes the next numbers for fl, up, f, u and, in a box, r; a
// gate for f, u; a box none. The k-th basic element has the clocks fc = 2k and rc = 2k + 1.
TreeModel model_of_tree(const Tree& tree);

// The numbers that an element takes.
struct Signals {
  unsigned fl = 0, up = 0, f = 0, u = 0, r = 0;
  bool boxed = false;  // whether there is an r
  unsigned fc = 0, rc = 0;
};

// For each element, in the order of the lines. Numbers may pass 63.
std::vector<Signals> signals_of(const Tree& tree);

}  // namespace second
