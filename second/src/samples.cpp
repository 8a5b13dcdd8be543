#include "samples.hpp"

#include "scan.hpp"

namespace second {
namespace {

// "1 to 2^40", of at most 13 digits.
constexpr unsigned sample_digits = 13;

// One line with its LF; false where it is bad.
bool scan_line(Scan& scan, unsigned clock, std::vector<std::int64_t>& list) {
  const auto number = scan.digits(2);
  if (!number || *number != clock) return false;
  while (scan.byte('\t')) {
    const auto sample = scan.digits(sample_digits);
    if (!sample || *sample < 1 || *sample > static_cast<std::uint64_t>(tick_bound)) return false;
    list.push_back(static_cast<std::int64_t>(*sample));
  }
  return scan.byte('\n');
}

}  // namespace

SampleReading samples_of_text(std::string_view text, Set declared) {
  SampleReading reading;
  std::uint64_t line = 1;
  for (unsigned clock = 0; clock < members; ++clock) {
    if (!has(declared, clock)) continue;
    Scan scan(text);
    if (!scan_line(scan, clock, reading.lists[clock])) return {refuse(40, {line}), {}};
    text.remove_prefix(scan.column() - 1);
    ++line;
  }
  if (!text.empty()) return {refuse(40, {line}), {}};
  return reading;
}

std::string text_of_samples(const SampleLists& lists, Set declared) {
  std::string text;
  for (unsigned clock = 0; clock < members; ++clock) {
    if (!has(declared, clock)) continue;
    text += std::to_string(clock);
    for (std::int64_t sample : lists[clock]) {
      text += '\t';
      text += std::to_string(sample);
    }
    text += '\n';
  }
  return text;
}

}  // namespace second
