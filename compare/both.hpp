// A call made by both programs on the same loan.
#pragma once

#include "calls.hpp"

struct Comparison {
  Said engine;
  Said second;
  std::string fault;   // where the engine touched what it may not, which byte: then it gave no answer
  bool buffers_agree;  // every lent byte and every guard
  bool read_only;      // whether every lent page was
  Kept left;           // as the second program left it

  bool agree() const { return fault.empty() && engine == second && buffers_agree; }
};

// The second program goes first. Where it changes nothing, by the header's words, every page that the engine is lent is read-only.
Comparison made_by_both(const Call& call, const Loan& loan, const std::string& where);

void print(const char* whose, const Said& said);
