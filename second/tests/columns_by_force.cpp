// The columns of 2, 4 and 5 against their words. For 2: the bytes before the column begin some
// well-shaped line, and with the byte at the column they begin none.
#include <set>

#include "check.hpp"
#include "damage.hpp"
#include "generate.hpp"
#include "lending.hpp"
#include "number.hpp"
#include "tests.hpp"
#include "text_writing.hpp"

namespace {

using second::number_in;
using second::numbers_in;
using second::parted;

// The shape of a whole line with its LF, field by field.
bool well_shaped(const Text& line) {
  if (line.empty() || line.find('\n') != line.size() - 1) return false;
  const auto fields = parted(std::string_view(line).substr(0, line.size() - 1), '\t');
  const auto number = [&](std::size_t f) { return number_in(fields[f]).has_value(); };
  if (fields[0] == "comp" || fields[0] == "clk") return fields.size() == 3 && number(1) && number(2);
  if (fields[0] == "act")
    return fields.size() == 3 && number(1) &&
           (fields[2] == "in" || fields[2] == "out" || fields[2] == "uin" || fields[2] == "uout");
  if (fields[0] != "row" || fields.size() != 6) return false;
  return number(1) && (fields[2] == "-" || number(2)) && number(3) &&
         (fields[4] == "-" || numbers_in(fields[4])) && number(5);
}

// Ends of lines: whatever begins a well-shaped line is completed by one of these.
std::set<Text> line_ends() {
  std::set<Text> ends;
  for (const char* line : {"comp 1 1\n", "act 1 in\n", "act 1 out\n", "act 1 uin\n", "act 1 uout\n", "clk 1 1\n",
                           "row 1 - 1 - 1\n", "row 1 1 1 1,1 1\n"}) {
    const Text whole = tabbed(line);
    for (std::size_t at = 0; at <= whole.size(); ++at) ends.insert(whole.substr(at));
  }
  return ends;
}

bool begins_a_line(const Text& front) {
  static const std::set<Text> ends = line_ends();
  for (const Text& end : ends)
    if (well_shaped(front + end)) return true;
  return false;
}

Text line_at(const Text& text, std::uint64_t line) {
  std::size_t at = 0;
  for (std::uint64_t before = 1; before < line; ++before) at = text.find('\n', at) + 1;
  const std::size_t end = text.find('\n', at);
  return text.substr(at, end == Text::npos ? end : end - at + 1);
}

void check_wrong_byte(const Text& line, std::uint64_t column) {
  check(column >= 1 && column <= line.size() + 1, "the column lies in the line or one past it");
  check(begins_a_line(line.substr(0, column - 1)), "what stands before the column begins a line: " + line);
  if (column <= line.size()) check(!begins_a_line(line.substr(0, column)), "with its byte it begins none: " + line);
  else check(line.find('\n') == Text::npos, "one past the end: the LF is missing");
}

// The column must be that of a value's first byte.
void check_value(const Text& line, std::uint64_t column) {
  const bool starts = column >= 2 && column <= line.size() && line[column - 1] >= '0' && line[column - 1] <= '9' &&
                      (line[column - 2] == '\t' || line[column - 2] == ',');
  check(starts, "the first byte of a value: " + line);
}

// Once the value at the column is mended, 4 or 5 lies further right, or the line's fault is another.
void check_first_value(const Text& text, const second::Refusal& refusal) {
  const Text line = line_at(text, refusal.place[0]);
  check_value(line, refusal.place[1]);
  // Every value further left may be mended without a change of the answer; every one further right too.
  const std::size_t at = text.find(line);
  if (at == Text::npos || text.find(line, at + 1) != Text::npos) return;
  std::size_t end = refusal.place[1] - 1;
  while (end < line.size() && line[end] >= '0' && line[end] <= '9') ++end;
  // All values behind it made wrong: the place stays.
  Text worse = line.substr(0, end);
  for (std::size_t b = end; b < line.size(); ++b) {
    const bool digit = line[b] >= '0' && line[b] <= '9';
    if (digit && (b == 0 || line[b - 1] == '\t' || line[b - 1] == ',')) worse += "99999";
    else if (!digit) worse += line[b];
  }
  Text other = text;
  other.replace(at, line.size(), worse);
  Table into(second::image_words, 0);
  const auto again = lend_read(other, into).refusal;
  if (other.size() > second::max_text) return;
  if (refusal.number == 4) check(again == refusal, "values behind the first at fault don't matter");
  else check((again.number == 4 && again.place[1] > refusal.place[1]) || again == refusal, "4 before 5");
}

void check_text(const Text& text) {
  Table into(second::image_words, 0);
  const auto refusal = lend_read(text, into).refusal;
  const bool spot = refusal.number == 2 || refusal.number == 4 || refusal.number == 5;
  if (refusal) check(refusal.places == (spot ? 2 : 1), "2, 4 and 5 carry a column, the others don't");
  if (refusal.number == 2) check_wrong_byte(line_at(text, refusal.place[0]), refusal.place[1]);
  else if (spot) check_first_value(text, refusal);
}

}  // namespace

void test_columns_by_force() {
  for (const char* line : {"comp 7 5\n", "act 12 uout\n", "clk 0 1\n", "row 0 - 3 - 1\n", "row 10 7 3 0,12,5 1\n"}) {
    const Text whole = tabbed(line);
    // Every byte of every line exchanged, taken out or put in.
    for (std::size_t at = 0; at <= whole.size(); ++at)
      for (unsigned byte = 0; byte < 256; ++byte) {
        const char other = static_cast<char>(byte);
        check_text(whole.substr(0, at) + other + whole.substr(at));
        if (at < whole.size()) check_text(whole.substr(0, at) + other + whole.substr(at + 1));
      }
    for (std::size_t at = 0; at < whole.size(); ++at) {
      check_text(whole.substr(0, at) + whole.substr(at + 1));
      check_text(whole.substr(0, at));
    }
  }
  second::Random random(15);
  for (unsigned round = 0; round < rounds(1500); ++round) {
    const Text text = second::text_of_model(second::generate(random, second::families[random.below(5)], second::Size::small));
    check_text(second::damaged_text(random, text));
  }
}
