// A component by itself, and the compatibility of several (paper 02, 10/13): the stated answers, indices at and past the last, places over
// the system, and 20 before 25.
#include "stated.hpp"

namespace {

Loan asked_for(const Table& table, std::uint64_t i) {
  Loan loan = lent_table(table);
  loan.number = i;
  return loan;
}

// Components 0 and 1, every index past them, their compatibility, and both together.
struct Answers {
  Said first, second, past, between, all;
};

void expect_all(const std::string& why, const Table& table, const Answers& stated) {
  expect(why + ": component 0", calls::component, asked_for(table, 0), stated.first);
  expect(why + ": component 1", calls::component, asked_for(table, 1), stated.second);
  for (std::uint64_t i : {std::uint64_t{2}, std::uint64_t{15}, std::uint64_t{16}, std::uint64_t{255}, std::uint64_t{256}, std::uint64_t{1} << 32,
                          std::uint64_t{1} << 63, largest - 1, largest})
    expect(why + ": component " + std::to_string(i), calls::component, asked_for(table, i), stated.past);
  expect(why + ": compatible", calls::compatible, lent_table(table), stated.between);
  expect(why + ": accept", calls::accept, lent_table(table), stated.all);
}

void stated_answers() {
  const Said none = refused(25, {0}), no_image = refused(20, {0}), no_row = refused(12, {1, 2, 1}), not_set = refused(14, {0});
  expect_all("M", image(m), {done(), done(), none, done(), done()});
  expect_all("P8", image(with(m, "row 2 - 1 - 2\n", "")), {done(), no_row, none, done(), no_row});
  const Table shared = image(tabbed("comp 1 0\nact 3 out\nclk 0 0\nrow 0 0 3 - 0\ncomp 1 0\nact 3 out\n"));
  expect_all("14 and 15", shared, {not_set, done(), none, refused(15, {3, 0, 1}), not_set});
  Table wrong = image(m);
  wrong.back() = 1;
  for (const Table& table : {Table(), Table(1, 0), Table(1, 2), Table(second::image_words, 0), wrong})
    expect_all("no image of " + std::to_string(table.size()) + " words", table, {no_image, no_image, no_image, no_image, no_image});
  // A longer buffer is used at its front.
  Table longer = image(m);
  longer.resize(second::image_words + 3, largest);
  expect_all("a longer table", longer, {done(), done(), none, done(), done()});
}

// One component alone is compatible, also with every fault of its own.
void one_alone() {
  const Table deaf = image(tabbed("comp 2 0\nact 0 in\nact 1 uout\nrow 1 - 1 - 0\nrow 1 - 1 - 1\n"));
  expect("one component", calls::compatible, lent_table(deaf), done());
  expect("one component", calls::component, asked_for(deaf, 0), refused(12, {0, 0, 0}));
  expect("one component", calls::component, asked_for(deaf, 1), refused(25, {0}));
}

// Sixteen components of 64 rows: the last row of each repeats the clock before it, or has none, and is told by its number in the system.
void places() {
  const auto sixteen = [](bool repeats) {
    Text text;
    for (unsigned c = 0; c < 16; ++c) {
      text += "comp 1 0\n";
      for (unsigned a = 0; a < 64; ++a) text += "act " + std::to_string(a) + (a < 62 ? " in\n" : " out\n");
      text += "clk " + std::to_string(c) + " 1\n";
      for (unsigned a = 0; a < 62; ++a) text += "row 0 - " + std::to_string(a) + " - 0\n";
      text += "row 0 " + std::to_string(c) + " 62 " + std::to_string(c) + " 0\n";
      text += "row 0 " + (repeats ? std::to_string(c) : Text("-")) + " 63 - 0\n";
    }
    return image(tabbed(text));
  };
  const Table repeated = sixteen(true), guardless = sixteen(false);
  for (std::uint64_t c = 0; c < 16; ++c) {
    expect("11: the row over the system", calls::component, asked_for(repeated, c), refused(11, {64 * c + 63}));
    expect("10: the row over the system", calls::component, asked_for(guardless, c), refused(10, {64 * c + 63}));
  }
  for (const Table& table : {repeated, guardless}) {
    expect("25: 16 components", calls::component, asked_for(table, 16), refused(25, {0}));
    expect("15 of the lowest two", calls::compatible, lent_table(table), refused(15, {62, 0, 1}));
  }
}

// 15, 16, 17: each for all actions or clocks before the next, whatever the components lack.
void in_order() {
  const Text first = "comp 1 0\nact 0 in\nact 1 out\nclk 4 0\n", other = "comp 1 0\nact 0 uin\nact 1 out\nclk 4 0\n";
  expect("15 first", calls::compatible, lent_table(image(tabbed(first + other))), refused(15, {1, 0, 1}));
  expect("16 next", calls::compatible, lent_table(image(with(tabbed(first + other), "act 1 out\nclk 4 0\ncomp", "clk 4 0\ncomp"))), refused(16, {4, 0, 1}));
  expect("then 17", calls::compatible, lent_table(image(tabbed("comp 1 0\nact 0 in\ncomp 1 0\nact 0 uin\n"))), refused(17, {0, 0, 1}));
  // Not confluent, but 18 is asked by neither.
  const Table clashing = image(tabbed("comp 2 0\nact 8 uout\nact 9 uout\nrow 0 - 8 - 1\nrow 0 - 9 - 1\n"));
  expect("18 is not asked", calls::component, asked_for(clashing, 0), done());
  expect("18 is not asked", calls::compatible, lent_table(clashing), done());
}

// Where a system begins: every component's start, and the clocks that any of them sets there. It asks for an image and nothing else.
Said begins(const Bytes& state, std::uint64_t clocks) {
  Said s = done(state.size());
  s.answer.resets = clocks;
  std::copy(state.begin(), state.end(), s.after.begin());
  return s;
}

void starts() {
  expect("M begins", calls::start, lent_table(image(m)), begins({0, 0}, 1));
  expect("M with no clock set", calls::start, lent_table(image(with(m, "clk 0 1", "clk 0 0"))), begins({0, 0}, 0));
  expect("starts and clocks of both", calls::start, lent_table(image(tabbed("comp 4 2\nclk 0 1\nclk 5 0\ncomp 2 1\nclk 63 1\n"))),
         begins({2, 1}, 1 | std::uint64_t{1} << 63));
  Table wrong = image(m);
  wrong.back() = 1;
  for (const Table& table : {Table(), Table(1, 2), wrong}) expect("no image has no start", calls::start, lent_table(table), refused(20, {0}));
}

}  // namespace

void stated_components() {
  starts();
  stated_answers();
  one_alone();
  places();
  in_order();
}
