// Counts what passed and what failed, and how often each refusal and each outcome was met.
#pragma once

#include <string>

#include "refusal.hpp"

// How many of a test's rounds are run: all of them, or under the sanitizers (SHARE) one in so many.
#ifndef SHARE
#define SHARE 1
#endif
constexpr unsigned rounds(unsigned all) { return (all + SHARE - 1) / SHARE; }

void check(bool holds, const std::string& what);

// What generated cases must have met often enough, asked where all of them are run.
inline void check_common(bool holds, const std::string& what) {
  if (SHARE == 1) check(holds, what);
}

void count_refusal(const second::Refusal& refusal);
void count_outcome(const std::string& outcome);

// Takes a word of what is lent into a running digest, which is printed at the end: two machines that
// print the same one have tried the same inputs.
void count_lent(std::uint64_t word);

// Prints the counts, fails for each that is zero, then prints the last line. Answers the exit
// status.
int conclude();

std::string shown(const second::Refusal& refusal);
