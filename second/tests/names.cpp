// Names for actions: stated answers, both ways there and back, and refusals of the second form against
// those of the first.
#include <algorithm>
#include <set>

#include "check.hpp"
#include "damage.hpp"
#include "generate.hpp"
#include "lending.hpp"
#include "names.hpp"
#include "number.hpp"
#include "tests.hpp"
#include "text_writing.hpp"

namespace {

using second::Model;
using second::Refusal;
using second::refuse;

struct Converted {
  Refusal refusal;
  Text text;
};

Converted to_numbers(const Text& text, std::size_t room = 40000) {
  Part into(room, 9);
  const auto answer = lend_to_numbers(text, into);
  return {answer.refusal, Text(into.begin(), into.begin() + static_cast<long>(answer.length))};
}

Converted to_names(const Text& text, std::size_t room = 40000) {
  Part into(room, 9);
  const auto answer = lend_to_names(text, into);
  return {answer.refusal, Text(into.begin(), into.begin() + static_cast<long>(answer.length))};
}

void test_stated() {
  const Text new_m = tabbed(
      "form 2\nname 0 a0\nname 1 a1\nname 2 a2\n"
      "comp 2 0\nact a0 out\nact a1 uout\nclk 0 1\nrow 0 0 a0 - 1\nrow 1 - a1 0 0\n"
      "comp 3 0\nact a1 uin\nact a2 uout\nrow 0 - a1 - 1\nrow 1 - a1 - 1\nrow 1 - a2 - 2\nrow 2 - a1 - 2\n");
  check(to_names(m).text == new_m, "M to names");
  check(to_numbers(new_m).text == m, "M to numbers");
  check(to_numbers(new_m, m.size() - 1).refusal == refuse(24, {m.size()}), "24: to numbers");
  check(to_names(m, new_m.size() - 1).refusal == refuse(24, {new_m.size()}), "24: to names");
  check(to_numbers(new_m, m.size()).text == m && to_names(m, new_m.size()).text == new_m, "just enough room");

  const Text one = "form 2\nname 1 x\ncomp 1 0\n", two = "form 2\nname 1 x\nname 2 w\ncomp 1 0\n";
  const Text act = one + "act x in\n";
  const struct {
    Text text;
    Refusal refusal;
  } stated[] = {
      {"", refuse(8, {0})},
      {"form 2\n", refuse(8, {0})},
      {"form 2", refuse(2, {1, 7})},
      {"comp 1 0\n", refuse(2, {1, 1})},
      {"form 1\n", refuse(2, {1, 6})},
      {"form 02\n", refuse(2, {1, 6})},
      {"form 22\n", refuse(2, {1, 7})},
      {"form 2 \n", refuse(2, {1, 7})},
      {"form 2\r\n", refuse(2, {1, 7})},
      {"form\n", refuse(2, {1, 5})},
      {"from 2\n", refuse(2, {1, 2})},
      {"\nform 2\n", refuse(2, {1, 1})},
      {"form 2\nname 0 x\n", refuse(8, {0})},
      {"form 2\nname 0 x\ncomp 1 0\n", refuse(44, {2})},
      {"form 2\nname 0 x\nform 2\n", refuse(3, {3})},
      {"form 2\nform 2\n", refuse(3, {2})},
      {"form 2\nform 3\n", refuse(2, {2, 6})},
      {"form 2\nfoo 3\n", refuse(2, {2, 3})},
      {"form 2\nnome 3\n", refuse(2, {2, 2})},
      {"form 2\nx\n", refuse(2, {2, 1})},
      {"form 2\ncomp 1 0\nform 2\n", refuse(3, {3})},
      {"form 2\ncomp 1 0\nname 0 x\n", refuse(3, {3})},
      {"form 2\ncomp 1 0\nname 64 X\n", refuse(3, {3})},
      {"form 2\nact x in\n", refuse(3, {2})},
      {"form 2\nname 0 x\nclk 0 0\n", refuse(3, {3})},
      {"form 2\nname 0 x\nrow 0 - x - 0\n", refuse(3, {3})},
      {"form 2\nname 64 x\n", refuse(4, {2, 6})},
      {"form 2\nname 64 X\n", refuse(4, {2, 6})},
      {"form 2\nname 1 x\nname 1 x\n", refuse(6, {3})},
      {"form 2\nname 1 x\nname 0 X\n", refuse(6, {3})},
      {"form 2\nname 1 x\nname 2 x\n", refuse(43, {3})},
      {"form 2\nname 1 \n", refuse(43, {2})},
      {"form 2\nname 1\n", refuse(2, {2, 7})},
      {"form 2\nname 1 abcdefghijklmnopq\n", refuse(43, {2})},
      {"form 2\nname 1 x\r\n", refuse(43, {2})},
      {"form 2\nname 1 0x\n", refuse(43, {2})},
      {"form 2\nname 1 xY\n", refuse(43, {2})},
      {"form 2\nname 1 x_y\n", refuse(43, {2})},
      {"form 2\nname 1 \xc3\xa9\n", refuse(43, {2})},
      {"form 2\nname 1 x 2\n", refuse(2, {2, 9})},
      {"form 2\nname 1 x", refuse(2, {2, 9})},
      {"form 2\nname 01 x\n", refuse(2, {2, 7})},
      {one + "act y in\n", refuse(44, {4})},
      {one + "act  in\n", refuse(44, {4})},
      {one + "act X in\n", refuse(44, {4})},
      {one + "act 1 in\n", refuse(44, {4})},
      {one + "act xx in\n", refuse(44, {4})},
      {one + "act y inn\n", refuse(2, {4, 9})},
      {one + "act y\n", refuse(2, {4, 6})},
      {one + "clk 0 0\nact y in\n", refuse(3, {5})},
      {act + "row 0 - y - 0\n", refuse(5, {5, 9})},
      {act + "row 0 -  - 0\n", refuse(5, {5, 9})},
      {act + "row 0 3 y - 0\n", refuse(5, {5, 7})},
      {act + "row 0 - y - 1\n", refuse(4, {5, 13})},
      {act + "row 0 64 y - 0\n", refuse(4, {5, 7})},
      {act + "row 0 - y 64 0\n", refuse(4, {5, 11})},
      {act + "row 0 - x 5 0\n", refuse(5, {5, 11})},
      {act + "row 0 - x - 0\nrow 0 - x - 0\n", refuse(6, {6})},
      {act + "row 0 - x - 0\nact y in\n", refuse(3, {6})},
      {two + "act x in\nrow 0 - w - 0\n", refuse(5, {6, 9})},
      {two + "act w in\nact x in\n", refuse(6, {6})},
      {two + "act x in\nact x in\n", refuse(6, {6})},
      {two + "act x in\n", refuse(44, {3})},
      {two + "act w in\n", refuse(44, {2})},
      {"form 2\nname 1 x\nname 2 w\ncomp 129 0\n", refuse(4, {4, 6})},
      {two + "act x in\nact w in\n", {}},
      {"form 2\nname 63 abcdefghijklmnop\ncomp 1 0\nact abcdefghijklmnop in\n", {}},
      {"form 2\ncomp 1 0\n", {}},
  };
  for (const auto& entry : stated) {
    const Refusal answer = to_numbers(tabbed(entry.text)).refusal;
    check(answer == entry.refusal, shown(answer) + " for the text\n" + entry.text);
    if (entry.refusal) check(to_numbers(tabbed(entry.text), 0).refusal == entry.refusal, "24 comes after it");
  }
  check(to_numbers(Text(32769, 'x')).refusal == refuse(1, {0}), "1");
  check(to_numbers(Text(32768, 'x')).refusal == refuse(2, {1, 1}), "2 at 1, 1");
  // The first form knows neither line.
  Table into(second::image_words, 0);
  check(lend_read(new_m, into).refusal == refuse(2, {1, 1}) && to_names(new_m).refusal == refuse(2, {1, 1}), "the old form alone");
}

// A text of the second form that is short enough while the first form's isn't, and the other way.
void test_lengths() {
  const auto built = [](unsigned states, unsigned extra) {
    Model model;
    model.components.resize(1);
    second::Component& component = model.components[0];
    component.states = states;
    for (unsigned action = 56; action < 64; ++action) component.kind[action] = second::Kind::in;
    component.clocks = ~second::Set{0};
    for (unsigned state = 0; state < states; ++state)
      for (unsigned action = 56; action < 64; ++action) {
        second::Row row;
        row.from = row.target = state;
        row.action = action;
        component.rows.push_back(row);
      }
    // One- or two-digit clocks until the text has `extra` bytes more.
    for (second::Row& row : component.rows)
      for (unsigned clock = 0; clock < 64; ++clock) {
        const unsigned cost = row.resets == 0 ? (clock < 10 ? 0 : 1) : (clock < 10 ? 2 : 3);
        if (cost == 0 || cost > extra) continue;
        row.resets |= second::only(clock);
        extra -= cost;
      }
    return model;
  };
  second::Sheet short_names;
  for (unsigned action = 56; action < 64; ++action) short_names[action] = std::string(1, static_cast<char>('a' + action - 56));
  unsigned new_alone = 0, old_alone = 0;
  for (unsigned extra : {9000u, 14000u, 14500u, 15000u, 16000u, 20000u}) {
    const Model model = built(128, extra);
    const Text old = second::text_of_model(model), fresh = second::named_text_of_model(model, short_names);
    const Text standard = second::named_text_of_model(model, second::default_sheet(model));
    const Converted numbers = to_numbers(fresh), names = to_names(old);
    if (fresh.size() > 32768) check(numbers.refusal == refuse(1, {0}), "1: the new text's own length");
    else if (old.size() > 32768) {
      ++new_alone;
      check(numbers.refusal == refuse(26, {0}) && to_numbers(fresh, 32768).refusal == refuse(24, {old.size()}), "26 last, after 24");
    } else {
      check(numbers.text == old, "both fit");
    }
    if (old.size() > 32768) check(names.refusal == refuse(1, {0}), "1: the old text's own length");
    else if (standard.size() > 32768) {
      ++old_alone;
      check(names.refusal == refuse(26, {0}) && to_names(old, 32768).refusal == refuse(24, {standard.size()}), "26: to names");
    } else {
      check(names.text == standard, "both fit: to names");
    }
  }
  check(new_alone > 0 && old_alone > 0, "26 both ways: " + std::to_string(new_alone) + ", " + std::to_string(old_alone));
}

unsigned long there_and_back = 0, defaults = 0;

void check_ways(second::Random& random, const Model& model) {
  const Text old = second::text_of_model(model);
  const Converted named = to_names(old);
  if (!named.refusal) {
    ++there_and_back;
    check(to_numbers(named.text).text == old, "old to new and back");
  } else {
    check(named.refusal == refuse(26, {0}), "26 alone is left");
  }
  const Text fresh = second::generate_named(random, model);
  const Converted numbers = to_numbers(fresh);
  if (numbers.refusal) {
    check(numbers.refusal == refuse(1, {0}), "1 alone is left: " + shown(numbers.refusal));
    return;
  }
  check(numbers.text == old, "new to old drops the names");
  if (named.refusal) return;
  const second::NamedReading reading = second::model_of_named_text(fresh);
  const bool standard = reading.sheet == second::default_sheet(model);
  defaults += standard ? 1 : 0;
  check((named.text == fresh) == standard, "new to old and back yields the same exactly for the defaults");
}

// A damaged text of the first form, with each action's digits as letters: fields of the same width, so
// that all refusals stay but for the lines in front.
unsigned long mirrored = 0;

bool mirror(const Text& old, Text& fresh, std::uint64_t& in_front) {
  const auto lettered = [](std::string_view digits) {
    Text name;
    for (char digit : digits) name += static_cast<char>('a' + (digit - '0'));
    return name;
  };
  std::set<unsigned> declared;
  Text body;
  std::size_t at = 0;
  while (at < old.size()) {
    const std::size_t end = old.find('\n', at);
    const Text line = old.substr(at, end == Text::npos ? end : end - at);
    if (!line.empty() && (line[0] == 'f' || line[0] == 'n')) return false;
    std::vector<Text> fields;
    for (std::string_view field : second::parted(line, '\t')) fields.emplace_back(field);
    const std::size_t which = fields[0] == "act" ? 1 : fields[0] == "row" ? 3 : 0;
    if (which != 0) {
      if (which >= fields.size()) return false;
      const auto number = second::number_in(fields[which]);
      if (!number || *number > 63) return false;
      if (which == 1) declared.insert(*number);
      fields[which] = lettered(fields[which]);
    }
    for (std::size_t f = 0; f < fields.size(); ++f) body += (f > 0 ? "\t" : "") + fields[f];
    if (end == Text::npos) break;
    body += '\n';
    at = end + 1;
  }
  fresh = "form\t2\n";
  for (unsigned number : declared) fresh += "name\t" + std::to_string(number) + '\t' + lettered(std::to_string(number)) + '\n';
  in_front = declared.size() + 1;
  fresh += body;
  return true;
}

void check_mirror(const Text& old) {
  Text fresh;
  std::uint64_t in_front = 0;
  if (!mirror(old, fresh, in_front) || fresh.size() > 32768) return;
  ++mirrored;
  Table into(second::image_words, 0);
  Refusal expected = lend_read(old, into).refusal;
  if (expected.number != 0 && expected.number != 8) expected.place[0] += in_front;
  const Converted numbers = to_numbers(fresh);
  check(numbers.refusal == expected, "as the first form refuses: " + shown(expected) + ", not " + shown(numbers.refusal) + "\n" + fresh);
  if (!expected) check(numbers.text == old, "as the first form reads");
}

}  // namespace

void test_names() {
  test_stated();
  test_lengths();
  second::Random random(20);
  for (unsigned round = 0; round < rounds(250); ++round) {
    const auto size = static_cast<second::Size>(round % 10 == 0 ? 2 : round % 2);
    const Model model = round % 3 == 0 ? second::generate_faulty(random, size)
                                       : second::generate(random, second::families[random.below(10)], size);
    check_ways(random, model);
    const Text text = second::text_of_model(model);
    check_mirror(text);
    for (unsigned tries = 0; tries < 3; ++tries) check_mirror(second::damaged_text(random, text));
    const Text odd = second::generate_odd_named(random, model);
    const Converted numbers = to_numbers(odd, random.chance(80) ? 40000 : random.below(500));
    if (numbers.refusal) continue;
    // What is read is the text of a good sheet and a model.
    const second::NamedReading reading = second::model_of_named_text(odd);
    check(second::named_text_of_model(reading.model, reading.sheet) == odd, "one text for a sheet and a model");
  }
  check_common(there_and_back > 100 && defaults > 20 && mirrored > 150,
        "all of it is common: " + std::to_string(there_and_back) + ", " + std::to_string(defaults) + ", " + std::to_string(mirrored));
}
