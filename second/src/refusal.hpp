// A refusal: its number and its place, as paper 01's table of refusals lists them.
#pragma once

#include <cstdint>
#include <initializer_list>

namespace second {

struct Refusal {
  std::uint64_t number = 0;  // 0 where nothing is refused
  std::uint64_t places = 0;  // how many values the place has
  std::uint64_t place[4] = {0, 0, 0, 0};

  explicit operator bool() const { return number != 0; }
};

inline Refusal refuse(std::uint64_t number, std::initializer_list<std::uint64_t> place) {
  Refusal refusal;
  refusal.number = number;
  for (std::uint64_t value : place) refusal.place[refusal.places++] = value;
  return refusal;
}

inline bool operator==(const Refusal& a, const Refusal& b) {
  if (a.number != b.number || a.places != b.places) return false;
  for (unsigned p = 0; p < 4; ++p)
    if (a.place[p] != b.place[p]) return false;
  return true;
}
inline bool operator!=(const Refusal& a, const Refusal& b) { return !(a == b); }

}  // namespace second
