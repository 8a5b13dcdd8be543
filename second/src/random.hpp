// A small generator of numbers (splitmix64), so that one seed gives the same inputs on every
// machine. Calls stand in statements of their own where their order matters.
#pragma once

#include <cstddef>
#include <cstdint>
#include <vector>

#include "sets.hpp"

namespace second {

class Random {
 public:
  explicit Random(std::uint64_t seed) : state(seed) {}

  std::uint64_t next() {
    std::uint64_t z = (state += 0x9e3779b97f4a7c15u);
    z = (z ^ (z >> 30)) * 0xbf58476d1ce4e5b9u;
    z = (z ^ (z >> 27)) * 0x94d049bb133111ebu;
    return z ^ (z >> 31);
  }

  // 0 to bound - 1; the bound is 1 at least.
  unsigned below(std::uint64_t bound) { return static_cast<unsigned>(next() % bound); }

  unsigned between(unsigned least, unsigned most) { return least + below(most - least + 1); }

  bool chance(unsigned percent) { return below(100) < percent; }

  template <class T>
  const T& pick(const std::vector<T>& from) {
    return from[below(from.size())];
  }

  template <class T>
  void shuffle(std::vector<T>& items) {
    for (std::size_t left = items.size(); left > 1; --left) {
      const std::size_t other = below(left);
      const T last = items[left - 1];
      items[left - 1] = items[other];
      items[other] = last;
    }
  }

  Set subset(Set of, unsigned percent) {
    Set some = 0;
    for (unsigned member = 0; member < 64; ++member)
      if (has(of, member) && chance(percent)) some |= only(member);
    return some;
  }

 private:
  std::uint64_t state;
};

}  // namespace second
