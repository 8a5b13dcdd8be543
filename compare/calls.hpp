// Every call of the engine, made by the proved engine and by the second program on the same loan.
#pragma once

#include <set>
#include <string>

#include "loan.hpp"

struct Call {
  const char* name;
  Said (*engine)(const Lent&);
  Said (*second)(const Lent&);
  std::set<std::string> outcomes;  // every one that there is
  // The outcome in a word: the refusal's number, or the answer's kind.
  std::string (*outcome)(const Said&, const Lent&);
};

namespace calls {

extern const Call recognise, check_text, read, read_tree, write, start, component, compatible, accept, confluent, step, step_by, settle, settle_list, orderly,
    settle_after, settle_list_after, timed_step, simulate, simulate_drawn, merge, repair, report, advance, explain, explain_table, to_names, to_numbers;

// In the order of the header.
extern const Call* const all[28];

}  // namespace calls
