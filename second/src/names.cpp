#include "names.hpp"

#include <algorithm>
#include <map>

#include "text_reading.hpp"

namespace second {
namespace {

class NamedReader {
 public:
  Refusal refusal;
  TextReader reader;
  Sheet sheet;

  // One line with its LF, the `line`-th of the text; false where it is refused.
  bool take(Scan& scan, std::uint64_t line) {
    if (line == 1) return first_line(scan) || refused(2, line, scan.column());
    const auto word = scan.word({"form", "name", "comp", "act", "clk", "row"});
    if (!word) return refused(2, line, scan.column());
    switch (*word) {
      case 0:
        // Well shaped, but never in its turn.
        if (!form_fields(scan)) return refused(2, line, scan.column());
        return refused(3, line, 0);
      case 1: return take_name(scan, line);
      case 2: return take_shaped<CompLine>(scan, line, [](Scan& from, CompLine& to) {
        return scan_number(from, to.states) && scan_number(from, to.start);
      });
      case 3: return take_shaped<ActLine>(scan, line, [&](Scan& from, ActLine& to) {
        return scan_name(from, to.action) && scan_kind(from, to.kind);
      });
      case 4: return take_shaped<ClkLine>(scan, line, [](Scan& from, ClkLine& to) {
        return scan_number(from, to.clock) && scan_number(from, to.set);
      });
      default: return take_shaped<RowLine>(scan, line, [&](Scan& from, RowLine& to) {
        return scan_number(from, to.from) && scan_guard(from, to.guard) && scan_name(from, to.action) &&
               scan_resets(from, to.resets) && scan_number(from, to.target);
      });
    }
  }

  // 8, then the first `name` line whose action no `act` line declares.
  void finish() {
    if (reader.model.components.empty()) {
      refusal = refuse(8, {0});
      return;
    }
    for (unsigned action = 0; action < members; ++action) {
      if (!sheet[action]) continue;
      const bool used = std::any_of(reader.model.components.begin(), reader.model.components.end(),
                                    [&](const Component& c) { return c.kind[action] != Kind::absent; });
      if (used) continue;
      refusal = refuse(44, {name_line[action]});
      return;
    }
  }

 private:
  std::map<std::string, unsigned, std::less<>> number_of;
  std::array<std::uint64_t, members> name_line{};

  bool refused(unsigned number, std::uint64_t line, std::uint64_t column) {
    refusal = refuse_line(number, line, column);
    return false;
  }

  static bool form_fields(Scan& scan) { return scan.byte('\t') && scan.byte('2') && scan.byte('\n'); }

  static bool first_line(Scan& scan) { return scan.word({"form"}) && form_fields(scan); }

  // A name behind its tab, as the number that it stands for.
  bool scan_name(Scan& scan, Number& action) {
    if (!scan.byte('\t')) return false;
    action.column = scan.column();
    const auto found = number_of.find(scan.field());
    action.value = found == number_of.end() ? unnamed : found->second;
    return true;
  }

  bool take_name(Scan& scan, std::uint64_t line) {
    Number number;
    if (!scan_number(scan, number) || !scan.byte('\t')) return refused(2, line, scan.column());
    const std::string_view name = scan.field();
    if (!scan.byte('\n')) return refused(2, line, scan.column());
    if (!reader.model.components.empty()) return refused(3, line, 0);
    if (number.value >= members) return refused(4, line, number.column);
    for (unsigned action = number.value; action < members; ++action)
      if (sheet[action]) return refused(6, line, 0);
    if (!good_name(name) || number_of.count(name) != 0) return refused(43, line, 0);
    number_of.emplace(std::string(name), number.value);
    sheet[number.value] = std::string(name);
    name_line[number.value] = line;
    return true;
  }

  template <class Shape, class Fields>
  bool take_shaped(Scan& scan, std::uint64_t line, Fields fields) {
    Shape shaped{};
    if (!fields(scan, shaped) || !scan.byte('\n')) return refused(2, line, scan.column());
    const Fault fault = reader.take(shaped);
    return fault.number == 0 || refused(fault.number, line, fault.column);
  }
};

}  // namespace

bool good_name(std::string_view name) {
  const auto letter = [](char byte) { return byte >= 'a' && byte <= 'z'; };
  const auto digit = [](char byte) { return byte >= '0' && byte <= '9'; };
  return !name.empty() && name.size() <= 16 && letter(name.front()) &&
         std::all_of(name.begin(), name.end(), [&](char byte) { return letter(byte) || digit(byte); });
}

NamedReading model_of_named_text(std::string_view text) {
  if (text.size() > max_text) return {refuse(1, {0}), {}, {}};
  NamedReader named;
  for (std::uint64_t line = 1; !text.empty(); ++line) {
    Scan scan(text);
    if (!named.take(scan, line)) return {named.refusal, {}, {}};
    text.remove_prefix(scan.column() - 1);
  }
  named.finish();
  if (named.refusal) return {named.refusal, {}, {}};
  return {Refusal{}, std::move(named.reader.model), named.sheet};
}

Sheet default_sheet(const Model& model) {
  Sheet sheet;
  for (const Component& component : model.components)
    for (unsigned action = 0; action < members; ++action)
      if (component.kind[action] != Kind::absent) sheet[action] = "a" + std::to_string(action);
  return sheet;
}

}  // namespace second
