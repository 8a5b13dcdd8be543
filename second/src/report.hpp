// What the program `settle` prints for the whole of its standard input.
#pragma once

#include <string>

#include "lent.hpp"
#include "refusal.hpp"

namespace second {

std::string report(Bytes input);

// A refusal as the program prints it.
std::string refused_line(const Refusal& refusal);

// A prefix of this length settles the report of any longer input: the request line ends within
// it or is 9, and the text is then over its limit or ends within it.
constexpr std::uint64_t deciding_input = 256 + 32768 + 1;

// The longest report there can be: 32 components in states of three digits, all 64 clocks reset at
// every one of 4,096 steps, and unsettled.
constexpr std::uint64_t longest_report = 1322226;

}  // namespace second
