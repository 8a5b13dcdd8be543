// Two components as one: refusals 25 and 26.
#pragma once

#include "model.hpp"
#include "refusal.hpp"

namespace second {

// "Pair (s, t) as s times the second's state count plus t", unreachable pairs included. For
// compatible components whose product has at most 128 states.
Component product(const Component& first, const Component& second);

struct Merging {
  Refusal refusal;
  Model model;  // empty beside a refusal
};

// Components i and i+1 of an accepted model replaced by their product.
Merging merged(const Model& model, std::uint64_t i);

}  // namespace second
