// Inputs drawn for an outcome. What is drawn freely meets the rare ones too seldom; these take every outcome of every call in turn.
#pragma once

#include "calls.hpp"
#include "random.hpp"

struct Aim {
  const Call* call;
  std::string outcome;
};

// Every outcome of every call.
const std::vector<Aim>& all_aims();

// A loan for which the second program gives that outcome, if some tries find one.
Loan aimed(second::Random& random, const Aim& aim);
