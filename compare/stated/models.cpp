// 10 to 18: each number alone, every pair of numbers in one model, and the second program's cases.
#include "model_cases.hpp"
#include "stated.hpp"

namespace {

// A fault as lines to add to a component of two states: alone they break one condition and no other. A later fault's actions and clocks are
// higher, so the lines of several still ascend, and the place of the first stays what it is.
struct Lines {
  Text acts, clks, from_0, from_1;
};

Lines operator+(const Lines& a, const Lines& b) { return {a.acts + b.acts, a.clks + b.clks, a.from_0 + b.from_0, a.from_1 + b.from_1}; }

Text component(const Lines& lines) { return "comp 2 0\n" + lines.acts + lines.clks + lines.from_0 + lines.from_1; }

// By number, 10 to 18: what it adds to component 0 and to component 1.
struct Fault {
  unsigned number;
  Lines first, second;
};

const Lines none{};

// Of one component, 10 to 14.
const Lines faults_of_one[] = {
    {"act 0 out\n", "", "row 0 - 0 - 0\n", ""},                              // an output without a clock
    {"act 1 out\nact 2 out\n", "clk 1 1\n", "row 0 1 1 1 0\nrow 0 1 2 1 0\n", ""},  // two rows with clock 1
    {"act 3 in\n", "", "row 0 - 3 - 0\n", ""},                               // no row for the input in state 1
    {"act 4 uout\n", "", "", "row 1 - 4 - 0\nrow 1 - 4 - 1\n"},              // two rows for an urgent output
    {"act 5 out\n", "clk 5 0\n", "row 0 5 5 5 0\n", ""},                     // waits for a clock that is not set
};

// Of two components, 15 to 17, and 18 of component 1.
const Fault faults_of_two[] = {
    {15, {"act 6 out\n", "", "", ""}, {"act 6 out\n", "", "", ""}},
    {16, {"", "clk 6 0\n", "", ""}, {"", "clk 6 0\n", "", ""}},
    {17, {"act 7 in\n", "", "row 0 - 7 - 0\n", "row 1 - 7 - 1\n"}, {"act 7 uout\n", "", "", ""}},
    {18, none, {"act 8 uout\nact 9 uout\n", "", "row 0 - 8 - 1\nrow 0 - 9 - 1\n", ""}},
};

// Where a fault of 10 to 14 is answered in component c, with so many rows in the components before.
Said place_of_one(unsigned number, std::uint64_t c, std::uint64_t rows_before) {
  switch (number) {
    case 10: return refused(10, {rows_before});
    case 11: return refused(11, {rows_before + 1});
    case 12: return refused(12, {c, 1, 3});
    case 13: return refused(13, {c, 1, 4});
    default: return refused(14, {c});
  }
}

Said place_of_two(unsigned number) {
  switch (number) {
    case 15: return refused(15, {6, 0, 1});
    case 16: return refused(16, {6, 0, 1});
    case 17: return refused(17, {7, 0, 1});
    default: return refused(18, {1, 0, 8, 9});
  }
}

// 18 is nothing to `accept`; every other number is the same in both.
void expect_model(const std::string& why, const Text& text, const Said& confluent) {
  const Table table = image(tabbed(text));
  const bool by_confluence = confluent.answer.number == 18;
  expect_checks(why, table, by_confluence ? done() : confluent, confluent);
  // 20 comes before them all: the same model with a word where none should be.
  Table no_image = table;
  if (!no_image.empty()) no_image.back() = 1;
  expect_checks("20 before " + why, no_image, refused(20, {0}), refused(20, {0}));
}

// Component c by itself, and the compatibility of all, whatever `accept` answers of the model.
void expect_component(const std::string& why, const Text& text, std::uint64_t c, const Said& own) {
  Loan loan = lent_table(image(tabbed(text)));
  loan.number = c;
  expect(why + ": component " + std::to_string(c), calls::component, loan, own);
}
void expect_compatible(const std::string& why, const Text& text, const Said& all) {
  expect(why + ": compatible", calls::compatible, lent_table(image(tabbed(text))), all);
}

std::string name(unsigned number) { return std::to_string(number); }

std::uint64_t rows_of(const Lines& lines) {
  std::uint64_t rows = 0;
  const Text text = component(lines);
  for (std::size_t at = text.find("row"); at != Text::npos; at = text.find("row", at + 1)) ++rows;
  return rows;
}

// 10 to 14 in one component: the lower number first, though the fault stands behind the other.
void one_component() {
  const Text before = "comp 1 0\nact 60 in\nact 61 in\nact 62 in\nrow 0 - 60 - 0\nrow 0 - 61 - 0\nrow 0 - 62 - 0\n";
  expect_checks("three rows without fault", image(tabbed(before)), done(), done());
  for (unsigned a = 0; a < 5; ++a) {
    expect_model(name(10 + a), component(faults_of_one[a]), place_of_one(10 + a, 0, 0));
    expect_model(name(10 + a) + " in component 1", before + component(faults_of_one[a]), place_of_one(10 + a, 1, 3));
    expect_component(name(10 + a), component(faults_of_one[a]), 0, place_of_one(10 + a, 0, 0));
    expect_compatible(name(10 + a), component(faults_of_one[a]), done());
    expect_component(name(10 + a) + " in component 1", before + component(faults_of_one[a]), 0, done());
    expect_component(name(10 + a) + " in component 1", before + component(faults_of_one[a]), 1, place_of_one(10 + a, 1, 3));
    expect_compatible(name(10 + a) + " in component 1", before + component(faults_of_one[a]), done());
    for (unsigned b = a + 1; b < 5; ++b)
      expect_model(name(10 + a) + " and " + name(10 + b) + " in one component", component(faults_of_one[a] + faults_of_one[b]),
                   place_of_one(10 + a, 0, 0));
  }
}

// 10 to 14 for each component in turn: whatever component 0 has comes before all that component 1 has.
void components_in_turn() {
  for (unsigned a = 0; a < 5; ++a)
    for (unsigned b = 0; b < 5; ++b) {
      const std::string why = name(10 + a) + " of component 0 and " + name(10 + b) + " of component 1";
      const Text both = component(faults_of_one[a]) + component(faults_of_one[b]);
      expect_model(why, both, place_of_one(10 + a, 0, 0));
      expect_component(why, both, 0, place_of_one(10 + a, 0, 0));
      expect_component(why, both, 1, place_of_one(10 + b, 1, rows_of(faults_of_one[a])));
      expect_component(why, both, 2, refused(25, {0}));
    }
}

// 15, 16, 17 and 18, one by one, in pairs, and behind 10 to 14 of either component.
void two_components() {
  for (unsigned a = 0; a < 4; ++a) {
    const Fault& fault = faults_of_two[a];
    const Said place = place_of_two(fault.number);
    // 18 is nothing to the compatibility, and 15 to 17 are nothing to a component by itself.
    const Said between = fault.number == 18 ? done() : place;
    expect_model(name(fault.number), component(fault.first) + component(fault.second), place);
    expect_compatible(name(fault.number), component(fault.first) + component(fault.second), between);
    for (std::uint64_t c : {0, 1}) expect_component(name(fault.number), component(fault.first) + component(fault.second), c, done());
    for (unsigned b = a + 1; b < 4; ++b) {
      const Fault& later = faults_of_two[b];
      expect_model(name(fault.number) + " and " + name(later.number),
                   component(fault.first + later.first) + component(fault.second + later.second), place);
      expect_compatible(name(fault.number) + " and " + name(later.number),
                        component(fault.first + later.first) + component(fault.second + later.second), between);
    }
    for (unsigned one = 0; one < 5; ++one) {
      const std::string why = name(10 + one) + " and " + name(fault.number);
      expect_model(why, component(faults_of_one[one] + fault.first) + component(fault.second), place_of_one(10 + one, 0, 0));
      expect_component(why, component(faults_of_one[one] + fault.first) + component(fault.second), 0, place_of_one(10 + one, 0, 0));
      expect_compatible(why, component(faults_of_one[one] + fault.first) + component(fault.second), between);
      // Component 0 has the rows of its part of the fault before those of component 1.
      const std::uint64_t rows_before = fault.number == 17 ? 2 : 0;
      expect_model(why + " in component 1", component(fault.first) + component(faults_of_one[one] + fault.second),
                   place_of_one(10 + one, 1, rows_before));
      expect_component(why + " in component 1", component(fault.first) + component(faults_of_one[one] + fault.second), 1,
                       place_of_one(10 + one, 1, rows_before));
      expect_compatible(why + " in component 1", component(fault.first) + component(faults_of_one[one] + fault.second), between);
    }
  }
}

}  // namespace

void stated_models() {
  one_component();
  components_in_turn();
  two_components();
  for (const cases::ModelCase& entry : cases::model_cases) {
    const Said answer = entry.refusal ? said(second::Answer{entry.refusal}) : done();
    expect_model(entry.why, entry.text, answer);
  }
}
