// The form of numbers and of fields: "decimal, 1 to 5 digits, with no needless zero in front".
#pragma once

#include <cstdint>
#include <optional>
#include <string_view>
#include <vector>

namespace second {

std::vector<std::string_view> parted(std::string_view whole, char by);

// Nothing where the field isn't of a number's form; ranges are another matter (4 against 2).
std::optional<std::uint32_t> number_in(std::string_view field);

// Numbers joined by single commas, one at least.
std::optional<std::vector<std::uint32_t>> numbers_in(std::string_view field);

}  // namespace second
