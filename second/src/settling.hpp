// Settling by our rule and by list, on an accepted model and a state that fits it.
#pragma once

#include <vector>

#include "composition.hpp"
#include "lent.hpp"
#include "refusal.hpp"

namespace second {

struct Run {
  std::vector<Move> moves;
  State last;          // the state reached
  bool stable = false; // of the state reached, not of the way there
};

Set resets_of(const Run& run);  // "clocks reset at least once"

Run settle_by_rule(const Model& model, const State& from, std::uint64_t budget);

// `refusal` is 23 where an entry isn't an enabled urgent output when its turn comes.
struct ListRun {
  Refusal refusal;
  Run run;
};

ListRun settle_by_list(const Model& model, const State& from, Bytes list);

}  // namespace second
