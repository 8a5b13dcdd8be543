#include "text_reading.hpp"

namespace second {

Refusal refuse_line(unsigned number, std::uint64_t line, std::uint64_t column) {
  if (number == 2 || number == 4 || number == 5) return refuse(number, {line, column});
  return refuse(number, {line});
}

Reading model_of_text(std::string_view text) {
  if (text.size() > max_text) return {refuse(1, {0}), {}};
  TextReader reader;
  for (std::uint64_t number = 1; !text.empty(); ++number) {
    Scan scan(text);
    // A missing LF is that line's 2, so lines before it are judged first.
    const auto line = shape_of(scan);
    if (!line) return {refuse_line(2, number, scan.column()), {}};
    const Fault fault = std::visit([&](const auto& shaped) { return reader.take(shaped); }, *line);
    if (fault.number != 0) return {refuse_line(fault.number, number, fault.column), {}};
    text.remove_prefix(scan.column() - 1);
  }
  if (reader.model.components.empty()) return {refuse(8, {0}), {}};
  return {Refusal{}, std::move(reader.model)};
}

}  // namespace second
