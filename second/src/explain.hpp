// Why a system isn't confluent: what the program `why` prints for a model text.
#pragma once

#include <string>
#include <vector>

#include "lent.hpp"
#include "model.hpp"

namespace second {

// `confluent`, or the clash that 18 names, a shortest path to its state and both orders of the two
// actions; for a text or a system that is refused otherwise, the `refused` line of `settle`.
std::string explain(Bytes text);

// An upper bound of its length: a line of 19 bytes, 127 path lines of 201, two orders of 384.
constexpr std::uint64_t longest_explanation = 19 + 127 * 201 + 2 * 384;
static_assert(longest_explanation == 26314, "for 128 states");

// The input that decides it.
constexpr std::uint64_t deciding_text = 32768 + 1;

// Of all shortest paths from the start to a reached state, by rows of which every non-urgent one leaves
// a stable state, the one whose first row comes first in the text, and so on.
std::vector<Row> shortest_path(const Component& component, unsigned state);

}  // namespace second
