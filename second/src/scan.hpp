// One pass over a line, from its first byte on. Each reading moves on, or stops at the first byte
// that could not stand there; no byte behind that one is looked at.
#pragma once

#include <cstdint>
#include <initializer_list>
#include <optional>
#include <string_view>

namespace second {

// A number and the column of its first digit; columns are bytes from 1.
struct Number {
  std::uint32_t value = 0;
  std::uint64_t column = 0;
};

class Scan {
 public:
  // From the line's first byte to the end of the text.
  explicit Scan(std::string_view from) : text(from) {}

  // The column of the next byte: after a reading that failed, of the byte that could not stand there,
  // one past the end where the text ends.
  std::uint64_t column() const { return at + 1; }

  bool next_is(char byte) const { return at < text.size() && text[at] == byte; }
  bool next_is_digit() const { return at < text.size() && text[at] >= '0' && text[at] <= '9'; }

  bool byte(char expected);

  // Which of these words stands here; none of them begins another.
  std::optional<unsigned> word(std::initializer_list<std::string_view> words);

  // All bytes up to a tab, an LF or the end.
  std::string_view field();

  // Decimal, so many digits at most, no needless zero in front.
  std::optional<Number> number();
  std::optional<std::uint64_t> digits(unsigned most);

  // Just so many of 0-9 a-f, the highest first.
  std::optional<std::uint64_t> hexadecimal(unsigned count);

 private:
  std::string_view text;
  std::size_t at = 0;
};

}  // namespace second
