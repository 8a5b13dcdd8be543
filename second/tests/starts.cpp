// Where a system begins: each component's start and the clocks set there. It needs an image only.
#include <sstream>

#include "check.hpp"
#include "damage.hpp"
#include "generate.hpp"
#include "lending.hpp"
#include "model_cases.hpp"
#include "tests.hpp"

namespace {

using second::Set;
using second::only;

const second::Refusal no_image = second::refuse(20, {0});

void check_start(const Table& table, const Part& state, Set started, const std::string& what) {
  const auto answer = lend_start(table);
  check(!answer.refusal, what + ": not refused");
  check(answer.count == state.size(), what + ": components");
  check(answer.started == started, what + ": clocks set");
  check(parts_of(answer.state) == state, what + ": state");
  for (std::size_t c = state.size(); c < second::max_components; ++c)
    check(answer.state.parts[c] == 0, what + ": zero past the components");
}

void test_stated() {
  check_start(image(m), {0, 0}, only(0), "M");
  check_start(image(m_with("clk 0 1\n", "clk 0 0\n")), {0, 0}, 0, "M with no clock set");
  check_start(image(tabbed("comp 1 0\n")), {0}, 0, "one component with nothing");
  check_start(image(tabbed("comp 3 2\nclk 0 0\nclk 5 1\ncomp 2 1\nclk 7 1\nclk 9 0\nclk 63 1\n")), {2, 1},
              only(5) | only(7) | only(63), "clocks of both components");
  check_start(image(tabbed("comp 128 127\nclk 63 1\n")), {127}, only(63), "the last state");
}

// A model that fails 10 to 18 still has a start.
void test_failing() {
  const Table fails_14 = image(tabbed("comp 1 0\nclk 3 1\n" + cases::fails_f + "comp 2 1\nclk 4 1\n"));
  check(lend_accept(fails_14).refusal == second::refuse(14, {1}), "it fails 14");
  check_start(fails_14, {0, 0, 1}, only(3) | only(4), "fails 14");
  const Table fails_16 = image(tabbed("comp 2 1\nclk 4 0\nclk 5 1\ncomp 1 0\nclk 4 1\nclk 5 0\n"));
  check(lend_accept(fails_16).refusal == second::refuse(16, {4, 0, 1}), "it fails 16");
  check_start(fails_16, {1, 0}, only(4) | only(5), "fails 16: set where one component sets it");
}

void test_no_image() {
  const Table good = image(m);
  check(lend_start({}).refusal == no_image, "no word");
  check(lend_start(Table(second::image_words, 0)).refusal == no_image, "all zero");
  check(lend_start(Table(second::image_words, ~std::uint64_t{0})).refusal == no_image, "all ones");
  Table table = good;
  table.pop_back();
  check(lend_start(table).refusal == no_image, "one word short");
  table = good;
  table[2] = 2;  // component 0's start, of 2 states
  check(lend_start(table).refusal == no_image, "a start that is no state");
  table = good;
  table[8] = 2;  // component 0's clocks set at the start, of {0}
  check(lend_start(table).refusal == no_image, "an undeclared clock set");
  table = good;
  table.resize(second::image_words + 3, ~std::uint64_t{0});
  check_start(table, {0, 0}, only(0), "a longer table");
}

void test_all_components() {
  Text text;
  Part state;
  Set started = 0;
  for (unsigned c = 0; c < 32; ++c) {
    const unsigned start = 4 * c + 3, set = 2 * c + c % 2;
    text += "comp 128 " + std::to_string(start) + "\nclk " + std::to_string(2 * c) + (c % 2 == 0 ? " 1" : " 0") +
            "\nclk " + std::to_string(2 * c + 1) + (c % 2 == 0 ? " 0\n" : " 1\n");
    state.push_back(static_cast<std::uint8_t>(start));
    started |= only(set);
  }
  check_start(image(tabbed(text)), state, started, "32 components");
}

// The start as the lines of the model's text tell it.
void check_by_text(const Table& table) {
  Part text(second::max_text, 0);
  const auto written = lend_write(table, text);
  check(lend_start(table).refusal == written.refusal, "an image has a text and a start, nothing else has either");
  if (written.refusal) return;
  std::istringstream lines(Text(text.begin(), text.begin() + static_cast<long>(written.length)));
  Part state;
  Set started = 0;
  for (Text line; std::getline(lines, line);) {
    std::istringstream fields(line);
    Text word;
    unsigned first = 0, last = 0;
    fields >> word >> first >> last;
    if (word == "comp") state.push_back(static_cast<std::uint8_t>(last));
    if (word == "clk" && last == 1) started |= only(first);
  }
  check_start(table, state, started, "as the text tells it");
}

}  // namespace

void test_starts() {
  test_stated();
  test_failing();
  test_no_image();
  test_all_components();
  for (const cases::ModelCase& entry : cases::model_cases) check_by_text(image(tabbed(entry.text)));
  second::Random random(15);
  for (unsigned round = 0; round < rounds(400); ++round) {
    const auto size = round % 5 == 0 ? second::Size::medium : second::Size::small;
    const second::Model model = round % 3 == 0 ? second::generate(random, second::families[random.below(9)], size)
                                : round % 3 == 1 ? second::generate_faulty(random, size)
                                                 : second::generate_failing(random, 10 + random.below(9), size);
    const Table table = second::image_of_model(model);
    check_by_text(table);
    check_by_text(second::lengthened_table(random, table));
    check_by_text(second::damaged_table(random, table));
  }
}
