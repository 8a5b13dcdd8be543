// What was tried, by call and outcome, and how many tests passed and failed.
#pragma once

#include "both.hpp"

// Stated inputs stand in compare/stated; the others are drawn, and must meet every outcome of every call by themselves.
enum class Input { stated, generated };

// One input to a call, by both programs; a difference is told in full the first few times. `where` says which input it was.
// Answers what the second program left and said, for the next call in a sequence.
Comparison compare(Input input, const Call& call, const Loan& loan, const std::string& where);

// How many inputs were compared so far.
std::uint64_t inputs();

// A test whose answer is stated: both programs must say `expected` and leave the loan as `left`.
void expect(const std::string& why, const Call& call, const Loan& loan, const Said& expected, const Loan& left);
// The same where no lent byte changes, as with every refusal.
void expect(const std::string& why, const Call& call, const Loan& loan, const Said& expected);

// What must hold of several answers together, by name: counted, and told in full the first few times where it does not.
void hold(const std::string& what, bool good, const std::string& where);

// Counts by call and outcome and by what must hold, a line for each call that differed or, where `all`, for each outcome or each of those that no
// generated input met; then
// 'N passed, M failed'. Answers the exit status.
int conclude(bool all);
