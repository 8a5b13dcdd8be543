#include "number.hpp"

namespace second {

std::vector<std::string_view> parted(std::string_view whole, char by) {
  std::vector<std::string_view> parts;
  for (;;) {
    const std::size_t at = whole.find(by);
    parts.push_back(whole.substr(0, at));
    if (at == std::string_view::npos) return parts;
    whole.remove_prefix(at + 1);
  }
}

std::optional<std::uint32_t> number_in(std::string_view field) {
  if (field.empty() || field.size() > 5) return std::nullopt;
  if (field.size() > 1 && field.front() == '0') return std::nullopt;
  std::uint32_t value = 0;
  for (char digit : field) {
    if (digit < '0' || digit > '9') return std::nullopt;
    value = value * 10 + static_cast<std::uint32_t>(digit - '0');
  }
  return value;
}

std::optional<std::vector<std::uint32_t>> numbers_in(std::string_view field) {
  std::vector<std::uint32_t> numbers;
  for (std::string_view part : parted(field, ',')) {
    const auto number = number_in(part);
    if (!number) return std::nullopt;
    numbers.push_back(*number);
  }
  return numbers;
}

}  // namespace second
