#include "line_shape.hpp"

namespace second {
namespace {

bool scan_comp(Scan& scan, CompLine& line) {
  return scan_number(scan, line.states) && scan_number(scan, line.start) && scan.byte('\n');
}

bool scan_act(Scan& scan, ActLine& line) {
  return scan_number(scan, line.action) && scan_kind(scan, line.kind) && scan.byte('\n');
}

bool scan_clk(Scan& scan, ClkLine& line) {
  return scan_number(scan, line.clock) && scan_number(scan, line.set) && scan.byte('\n');
}

bool scan_row(Scan& scan, RowLine& line) {
  return scan_number(scan, line.from) && scan_guard(scan, line.guard) && scan_number(scan, line.action) &&
         scan_resets(scan, line.resets) && scan_number(scan, line.target) && scan.byte('\n');
}

template <class Shape>
std::optional<Line> shaped(Scan& scan, bool (*fields)(Scan&, Shape&)) {
  Shape line{};
  if (!fields(scan, line)) return std::nullopt;
  return line;
}

}  // namespace

bool scan_kind(Scan& scan, Kind& kind) {
  if (!scan.byte('\t')) return false;
  const auto which = scan.word({"in", "out", "uin", "uout"});
  if (!which) return false;
  constexpr Kind kinds[] = {Kind::in, Kind::out, Kind::uin, Kind::uout};
  kind = kinds[*which];
  return true;
}

bool scan_number(Scan& scan, Number& number) {
  if (!scan.byte('\t')) return false;
  const auto read = scan.number();
  if (!read) return false;
  number = *read;
  return true;
}

bool scan_guard(Scan& scan, std::optional<Number>& guard) {
  if (!scan.byte('\t')) return false;
  if (scan.byte('-')) return true;
  guard = scan.number();
  return guard.has_value();
}

bool scan_resets(Scan& scan, std::vector<Number>& resets) {
  if (!scan.byte('\t')) return false;
  if (scan.byte('-')) return true;
  do {
    const auto clock = scan.number();
    if (!clock) return false;
    resets.push_back(*clock);
  } while (scan.byte(','));
  return true;
}

std::optional<Line> shape_of(Scan& scan) {
  const auto kind = scan.word({"comp", "act", "clk", "row"});
  if (!kind) return std::nullopt;
  switch (*kind) {
    case 0: return shaped(scan, scan_comp);
    case 1: return shaped(scan, scan_act);
    case 2: return shaped(scan, scan_clk);
    default: return shaped(scan, scan_row);
  }
}

}  // namespace second
