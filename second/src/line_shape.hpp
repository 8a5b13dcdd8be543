// The shape of one line of a model text: all that refusal 2 asks, and nothing of 3 to 7.
#pragma once

#include <cstdint>
#include <optional>
#include <string_view>
#include <variant>
#include <vector>

#include "model.hpp"
#include "scan.hpp"

namespace second {

struct CompLine {
  Number states, start;
};
struct ActLine {
  Number action;
  Kind kind;
};
struct ClkLine {
  Number clock, set;
};
struct RowLine {
  Number from;
  std::optional<Number> guard;
  Number action;
  std::vector<Number> resets;  // as they stand, ascending or not
  Number target;
};

using Line = std::variant<CompLine, ActLine, ClkLine, RowLine>;

// Reads one line with its LF. Nothing where it is of wrong shape; the scan then stands at the first
// byte that no well-shaped line could have there.
std::optional<Line> shape_of(Scan& scan);

// A guard and resets, as every form of the text has them; each behind its tab.
bool scan_guard(Scan& scan, std::optional<Number>& guard);
bool scan_resets(Scan& scan, std::vector<Number>& resets);

bool scan_kind(Scan& scan, Kind& kind);

// A number behind its tab.
bool scan_number(Scan& scan, Number& number);

}  // namespace second
