// Distributions of clocks, and the numbers that draws take.
#include <algorithm>
#include <cstring>

#include "damage.hpp"
#include "generate.hpp"

namespace second {
namespace {

std::string hex(std::uint64_t bits) {
  std::string digits;
  for (int shift = 60; shift >= 0; shift -= 4) digits += "0123456789abcdef"[(bits >> shift) & 15];
  return digits;
}

// The bits of an end, 1 to 2^40: positive, so ordered as their bits are.
std::uint64_t some_end(Random& random) {
  constexpr std::uint64_t one = std::uint64_t{1023} << 52, last = std::uint64_t{1063} << 52;
  switch (random.below(4)) {
    case 0: return one;
    case 1: return last - random.below(3);
    case 2: return one + (std::uint64_t{random.below(12)} << 52);
    default: return one + random.next() % (last - one + 1);
  }
}

std::string some_range(Random& random) {
  std::uint64_t lower = some_end(random);
  std::uint64_t upper = random.chance(15) ? lower : some_end(random);
  if (upper < lower) std::swap(lower, upper);
  return '\t' + hex(lower) + '\t' + hex(upper);
}

std::uint64_t some_weight(Random& random) {
  constexpr std::uint64_t one = std::uint64_t{1023} << 52;
  return random.pick(std::vector<std::uint64_t>{0, std::uint64_t{1} << 63, 1, one, one - 1, std::uint64_t{1022} << 52, random.next() % one});
}

}  // namespace

std::string generate_laws(Random& random, const Model& model) {
  std::string text;
  for (unsigned clock = 0; clock < members; ++clock) {
    if (!has(clocks_of(model), clock)) continue;
    text += std::to_string(clock);
    if (random.chance(50)) {
      text += "\tuni";
      text += some_range(random);
    } else {
      text += "\tmix\t";
      text += hex(some_weight(random));
      text += some_range(random);
      text += some_range(random);
    }
    text += '\n';
  }
  return text;
}

std::string generate_odd_laws(Random& random, const Model& model) { return damaged_laws(random, generate_laws(random, model)); }

std::vector<std::uint64_t> generate_numbers(Random& random) {
  const unsigned count = random.chance(50) ? random.below(641) : 640;
  std::vector<std::uint64_t> numbers;
  for (unsigned n = 0; n < count; ++n) {
    const unsigned style = random.below(10);
    if (style == 0) numbers.push_back(~std::uint64_t{0} - random.below(5000));
    else if (style == 1) numbers.push_back(random.below(5000));
    else if (style == 2) numbers.push_back((std::uint64_t{1} << 63) - random.below(2));
    else numbers.push_back(random.next());
  }
  return numbers;
}

}  // namespace second
