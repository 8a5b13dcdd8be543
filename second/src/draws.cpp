#include "draws.hpp"

#include <cmath>
#include <cstring>
#include <optional>

#include "scan.hpp"

namespace second {
namespace {

constexpr double most = 1099511627776.0;  // 2^40

// A NaN fails every comparison, so each test is one that a good number passes.
bool good_range(const Range& range) {
  return 1.0 <= range.lower && range.lower <= most && 1.0 <= range.upper && range.upper <= most && range.lower <= range.upper;
}
bool good_weight(double weight) { return 0.0 <= weight && weight <= 1.0; }

bool scan_real(Scan& scan, double& real) {
  if (!scan.byte('\t')) return false;
  const auto bits = scan.hexadecimal(16);
  if (!bits) return false;
  static_assert(sizeof real == sizeof *bits, "binary64");
  std::memcpy(&real, &*bits, sizeof real);
  return true;
}

bool scan_range(Scan& scan, Range& range) { return scan_real(scan, range.lower) && scan_real(scan, range.upper); }

// One line with its LF; false where it is bad.
bool scan_line(Scan& scan, unsigned clock, Law& law) {
  const auto number = scan.digits(2);
  if (!number || *number != clock || !scan.byte('\t')) return false;
  const auto word = scan.word({"uni", "mix"});
  if (!word) return false;
  law.mixture = *word == 1;
  if (law.mixture && !scan_real(scan, law.weight)) return false;
  if (!scan_range(scan, law.first)) return false;
  if (law.mixture && !scan_range(scan, law.second)) return false;
  if (!scan.byte('\n')) return false;
  return good_weight(law.weight) && good_range(law.first) && good_range(law.second);
}

// The top 53 bits over 2^53; both steps are exact.
double unit(std::uint64_t number) { return static_cast<double>(number >> 11) / 9007199254740992.0; }

// Three operations, each rounded once: this file is compiled without fused operations.
double value_in(const Range& range, std::uint64_t number) {
  const double difference = range.upper - range.lower;
  const double product = unit(number) * difference;
  const double sum = range.lower + product;
  if (sum < range.lower) return range.lower;
  if (range.upper < sum) return range.upper;
  return sum;
}

}  // namespace

LawReading laws_of_text(std::string_view text, Set declared) {
  LawReading reading;
  std::uint64_t line = 1;
  for (unsigned clock = 0; clock < members; ++clock) {
    if (!has(declared, clock)) continue;
    Scan scan(text);
    if (!scan_line(scan, clock, reading.laws[clock])) return {refuse(49, {line}), {}};
    text.remove_prefix(scan.column() - 1);
    ++line;
  }
  if (!text.empty()) return {refuse(49, {line}), {}};
  return reading;
}

std::int64_t drawn(const Law& law, std::uint64_t first, std::uint64_t second) {
  double value = 0;
  if (!law.mixture) value = value_in(law.first, first);
  else value = value_in(unit(first) < law.weight ? law.first : law.second, second);
  return static_cast<std::int64_t>(std::floor(value));
}

}  // namespace second
