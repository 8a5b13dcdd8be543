// "A set of clocks or of actions is one 64-bit number, bit x for member x."
#pragma once

#include <cstdint>

namespace second {

using Set = std::uint64_t;

constexpr Set only(unsigned member) { return Set{1} << member; }
constexpr bool has(Set set, unsigned member) { return ((set >> member) & 1) != 0; }
constexpr bool within(Set part, Set whole) { return (part & ~whole) == 0; }
constexpr Set without(Set set, Set taken) { return set & ~taken; }
constexpr Set joined(Set a, Set b) { return a | b; }

}  // namespace second
