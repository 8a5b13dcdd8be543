// Missing self-loops put in (paper 02, 1/13): the stated answers, what is no lack, lists and models at each limit, and the order of 20, 24, 26.
#include <tuple>

#include "generate_limits.hpp"
#include "stated.hpp"
#include "text_writing.hpp"

namespace {

Loan repairing(const Table& table, std::size_t room) {
  Loan loan = lent_table(table);
  loan.out = Bytes(room, 0x77);
  return loan;
}

// Into a list that just fits and a longer one, in a table and a longer one; 24 of every shorter list comes first. What lies behind stays.
void expect_repaired(const std::string& why, const Table& before, const Bytes& list, const Table& after) {
  for (std::size_t words : {0, 3})
    for (std::size_t bytes : {0, 1, 40}) {
      Loan loan = repairing(before, list.size() + bytes);
      loan.table.resize(before.size() + words, largest);
      Loan left = loan;
      std::copy(after.begin(), after.end(), left.table.begin());
      std::copy(list.begin(), list.end(), left.out.begin());
      expect(why, calls::repair, loan, done(list.size() / 3), left);
    }
  for (std::size_t less : {std::size_t{1}, std::size_t{2}, std::size_t{3}, list.size() / 2, list.size()})
    if (less > 0 && less <= list.size())
      expect("24: " + why, calls::repair, repairing(before, list.size() - less), refused(24, {list.size()}));
}

void expect_repaired(const std::string& why, const Text& before, const Bytes& list, const Text& after) {
  expect_repaired(why, image(tabbed(before)), list, image(tabbed(after)));
}

// So many rows lack, and that is too many: 26 where the list is long enough for them, and else 24.
void expect_too_large(const std::string& why, const Table& table, std::uint64_t lacking) {
  for (std::size_t more : {0, 5}) expect("26: " + why, calls::repair, repairing(table, 3 * lacking + more), refused(26, {0}));
  for (std::uint64_t room : {3 * lacking - 1, 3 * lacking - 3, std::uint64_t{0}})
    expect("24 before 26: " + why, calls::repair, repairing(table, room), refused(24, {3 * lacking}));
}

// A component that hears nothing: so many states and inputs, urgent or not.
Text deaf(unsigned states, unsigned actions, const Text& kind) {
  Text text = "comp " + std::to_string(states) + " 0\n";
  for (unsigned a = 0; a < actions; ++a) text += "act " + std::to_string(a) + " " + kind + "\n";
  return text;
}
Text loop(unsigned s, unsigned a) { return "row " + std::to_string(s) + " - " + std::to_string(a) + " - " + std::to_string(s) + "\n"; }
// The same repaired, and what is listed.
Text heard(unsigned states, unsigned actions, const Text& kind) {
  Text text = deaf(states, actions, kind);
  for (unsigned s = 0; s < states; ++s)
    for (unsigned a = 0; a < actions; ++a) text += loop(s, a);
  return text;
}
Bytes listed(unsigned component, unsigned states, unsigned actions) {
  Bytes list;
  for (unsigned s = 0; s < states; ++s)
    for (unsigned a = 0; a < actions; ++a)
      for (unsigned value : {component, s, a}) list.push_back(static_cast<std::uint8_t>(value));
  return list;
}

void stated_answers() {
  const Table without = image(with(m, "row 2 - 1 - 2\n", "")), whole = image(m);
  expect_repaired("M without its last row", without, {1, 2, 1}, whole);
  expect("M without its last row", calls::accept, lent_table(without), refused(12, {1, 2, 1}));
  expect("M repaired", calls::accept, lent_table(whole), done());
  expect_repaired("M lacks nothing", whole, {}, whole);
  for (const char* kind : {"in", "uin"}) expect_repaired("64 inputs of one state", deaf(1, 64, kind), listed(0, 1, 64), heard(1, 64, kind));
  expect_too_large("17 states by 64 inputs", image(tabbed(deaf(17, 64, "in"))), 1088);
  expect_repaired("16 states by 64 inputs", deaf(16, 64, "uin"), listed(0, 16, 64), heard(16, 64, "uin"));
}

// No list is long enough for a table that is no image; one that is too short for an image is none.
void no_image() {
  Table wrong = image(m), cut = image(with(m, "row 2 - 1 - 2\n", ""));
  wrong.back() = 1;
  cut.pop_back();
  for (const Table& table : {Table(), Table(1, 2), Table(table_words, 0), wrong, cut})
    for (std::size_t room : {0, 3, 4000}) expect("20 before 24", calls::repair, repairing(table, room), refused(20, {0}));
}

// A row is a row, whatever its guard, resets or target, and so are two: nothing is added there. Outputs lack nothing.
void what_lacks() {
  const Text head = "comp 2 0\nact 0 in\nact 1 out\nact 2 uout\nact 3 uin\nclk 0 0\nclk 7 1\n";
  const Text rows = "row 0 0 0 - 1\nrow 0 - 3 - 1\nrow 0 - 3 0,7 0\n";
  expect_repaired("guards, resets and doubles", head + rows, {0, 1, 0, 0, 1, 3}, head + rows + loop(1, 0) + loop(1, 3));
  expect("10 is left", calls::accept, lent_table(image(tabbed(head + rows + loop(1, 0) + loop(1, 3)))), refused(10, {0}));
  expect_repaired("outputs alone", "comp 128 5\nact 0 out\nact 63 uout\n", {}, "comp 128 5\nact 0 out\nact 63 uout\n");
  expect_repaired("no action", "comp 128 5\n", {}, "comp 128 5\n");
  // A loop stands between rows of the same state by its action, before and behind others.
  const Text ends = "comp 3 2\nact 1 in\nact 4 uout\nact 9 uin\nact 63 in\n";
  expect_repaired("between and at the ends", ends + "row 0 - 4 - 1\nrow 1 - 1 - 0\nrow 1 - 63 - 2\nrow 2 - 9 - 0\n",
                  {0, 0, 1, 0, 0, 9, 0, 0, 63, 0, 1, 9, 0, 2, 1, 0, 2, 63},
                  ends + loop(0, 1) + "row 0 - 4 - 1\n" + loop(0, 9) + loop(0, 63) + "row 1 - 1 - 0\n" + loop(1, 9) + "row 1 - 63 - 2\n" + loop(2, 1) +
                      "row 2 - 9 - 0\n" + loop(2, 63));
}

// Rows of later components move up; what is told by the row's number then is told by another.
void later_components() {
  const Text first = "comp 2 1\nact 5 in\n", second = "comp 1 0\nact 6 uout\nrow 0 - 6 - 0\n", third = "comp 2 0\nact 5 in\nclk 3 1\nrow 1 - 5 3 0\n",
             last = "comp 2 0\nact 7 out\nrow 1 - 7 - 0\n";
  const Text before = first + "row 1 - 5 - 0\n" + second + third + last;
  const Text after = first + loop(0, 5) + "row 1 - 5 - 0\n" + second + "comp 2 0\nact 5 in\nclk 3 1\n" + loop(0, 5) + "row 1 - 5 3 0\n" + last;
  expect_repaired("four components", before, {0, 0, 5, 2, 0, 5}, after);
  expect("12 before", calls::accept, lent_table(image(tabbed(before))), refused(12, {0, 0, 5}));
  expect("10 after, two rows on", calls::accept, lent_table(image(tabbed(after))), refused(10, {5}));
  // One cell in each of 32 components, and in the last of 128 states.
  Text deaf_all, heard_all;
  Bytes list;
  for (unsigned c = 0; c < 32; ++c) {
    const Text head = "comp 3 2\nact " + std::to_string(2 * c) + " uin\n", a = std::to_string(2 * c);
    deaf_all += head + "row 0 - " + a + " - 2\nrow 1 - " + a + " - 0\n";
    heard_all += head + "row 0 - " + a + " - 2\nrow 1 - " + a + " - 0\n" + loop(2, 2 * c);
    for (unsigned value : {c, 2u, 2 * c}) list.push_back(static_cast<std::uint8_t>(value));
  }
  expect_repaired("one in each of 32 components", deaf_all, list, heard_all);
  expect_repaired("all of 128 states", deaf(128, 8, "in"), listed(0, 128, 8), heard(128, 8, "in"));
}

void most_rows() {
  // 1,023 rows lack beside one, and 1,024.
  const Text one = "comp 1 0\nact 0 uout\nrow 0 - 0 - 0\n", some = "comp 1 0\nact 62 in\nact 63 in\n";
  const Text many = deaf(11, 62, "in") + deaf(1, 62, "in"), rest = deaf(9, 31, "uin");
  Bytes list = listed(0, 11, 62);
  for (const auto& [c, states, actions] : {std::tuple(1u, 1u, 62u), std::tuple(2u, 9u, 31u)})
    for (std::uint8_t byte : listed(c, states, actions)) list.push_back(byte);
  expect_repaired("1,023 rows and one", many + rest + one, list, heard(11, 62, "in") + heard(1, 62, "in") + heard(9, 31, "uin") + one);
  expect_too_large("1,023 rows and two", image(tabbed(many + rest + one + one)), 1023);
  expect_too_large("1,025 rows", image(tabbed(many + rest + some)), 1025);
  expect_too_large("as many as can lack", image(tabbed(repeated(deaf(128, 64, "in"), 32))), 262144);
}

// The line of the loop has 14 bytes.
void most_bytes() {
  for (std::uint64_t bytes : {32753, 32754, 32755, 32768}) {
    second::Model model;
    model.components.resize(1);
    model.components[0].kind[0] = second::Kind::in;
    model = second::padded_to_text(model, bytes);
    const Table table = second::image_of_model(model);
    second::Row row;
    model.components[0].rows.push_back(row);
    if (bytes + 14 <= 32768) expect_repaired("up to 32,768 bytes", table, {0, 0, 0}, second::image_of_model(model));
    else expect_too_large("over 32,768 bytes", table, 1);
  }
}

}  // namespace

void stated_repairs() {
  stated_answers();
  no_image();
  what_lacks();
  later_components();
  most_rows();
  most_bytes();
}
