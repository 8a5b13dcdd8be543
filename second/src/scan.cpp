#include "scan.hpp"

#include <algorithm>

namespace second {

bool Scan::byte(char expected) {
  if (!next_is(expected)) return false;
  ++at;
  return true;
}

std::optional<unsigned> Scan::word(std::initializer_list<std::string_view> words) {
  const std::size_t first = at;
  for (;; ++at) {
    const std::string_view taken = text.substr(first, at - first);
    unsigned index = 0;
    for (std::string_view word : words) {
      if (word == taken) return index;
      ++index;
    }
    const auto goes_on = [&](std::string_view word) {
      return word.substr(0, taken.size()) == taken && next_is(word[taken.size()]);
    };
    if (std::none_of(words.begin(), words.end(), goes_on)) return std::nullopt;
  }
}

std::string_view Scan::field() {
  const std::size_t first = at;
  while (at < text.size() && text[at] != '\t' && text[at] != '\n') ++at;
  return text.substr(first, at - first);
}

std::optional<Number> Scan::number() {
  const std::uint64_t first = column();
  const auto value = digits(5);
  if (!value) return std::nullopt;
  return Number{static_cast<std::uint32_t>(*value), first};
}

std::optional<std::uint64_t> Scan::digits(unsigned most) {
  if (!next_is_digit()) return std::nullopt;
  std::uint64_t value = 0;
  const std::size_t first = at;
  while (next_is_digit() && at - first < most) {
    value = value * 10 + static_cast<std::uint64_t>(text[at] - '0');
    ++at;
    if (value == 0) break;  // behind a zero in front no digit can stand
  }
  return value;
}

std::optional<std::uint64_t> Scan::hexadecimal(unsigned count) {
  std::uint64_t value = 0;
  for (; count > 0; --count, ++at) {
    const bool letter = at < text.size() && text[at] >= 'a' && text[at] <= 'f';
    if (!letter && !next_is_digit()) return std::nullopt;
    value = value * 16 + static_cast<std::uint64_t>(letter ? text[at] - 'a' + 10 : text[at] - '0');
  }
  return value;
}

}  // namespace second
