// Merging: indices at and past the last component, products at and past each limit, and the order of 24, 25, 26; M merged or not.
#include "generate_limits.hpp"
#include "merging.hpp"
#include "stated.hpp"
#include "text_writing.hpp"

namespace {

Loan merging(const Table& table, std::uint64_t i, std::size_t room) {
  Loan loan = lent_table(table);
  loan.number = i;
  loan.into = Table(room, 0x77);
  return loan;
}

// Into a table that is just long enough and one that is longer; 24 of one that is short comes before 25 and 26.
void expect_merged(const std::string& why, const Table& table, std::uint64_t i, const Said& expected, const Table& merged) {
  for (std::size_t room : {table_words, table_words + 5}) {
    const Loan loan = merging(table, i, room);
    Loan left = loan;
    if (expected.answer.kind == FLOODNEEDLE_DONE) std::copy(merged.begin(), merged.end(), left.into.begin());
    expect(why, calls::merge, loan, expected, left);
  }
  for (std::size_t room : {table_words - 1, std::uint64_t{0}})
    expect("24 first: " + why, calls::merge, merging(table, i, room), refused(24, {table_bytes}));
}

void expect_refused(const std::string& why, const Table& table, std::uint64_t i, std::uint64_t number) {
  expect_merged(why, table, i, refused(number, {0}), {});
}

constexpr std::uint64_t high = std::uint64_t{1} << 63;

void indices() {
  // Component c has c + 1 states, so that each merge gives another model.
  Text all, first_two_merged = tabbed("comp 2 0\n"), last_two_merged;
  for (unsigned c = 0; c < 32; ++c) {
    const Text line = tabbed("comp " + std::to_string(c < 30 ? c + 1 : c - 27) + " 0\n");
    all += line;
    if (c > 1) first_two_merged += line;
    if (c < 30) last_two_merged += line;
  }
  last_two_merged += tabbed("comp 12 0\n");
  expect_merged("i of 0", image(all), 0, done(), image(first_two_merged));
  expect_merged("i of 30", image(all), 30, done(), image(last_two_merged));
  for (std::uint64_t i : {std::uint64_t{31}, std::uint64_t{32}, std::uint64_t{255}, std::uint64_t{256}, std::uint64_t{1} << 32, high, largest - 1, largest}) {
    expect_refused("25: 32 components, i of " + std::to_string(i), image(all), i, 25);
    expect_refused("25: M, i of " + std::to_string(i), image(m), i, 25);
  }
  expect_refused("25: M, i of 1", image(m), 1, 25);
  for (std::uint64_t i : {std::uint64_t{0}, high, largest}) expect_refused("25: one component", image(tabbed("comp 128 0\n")), i, 25);
}

void states() {
  const auto pair = [](unsigned a, unsigned b) { return image(tabbed("comp " + std::to_string(a) + " " + std::to_string(a - 1) + "\ncomp " + std::to_string(b) + " " + std::to_string(b - 1) + "\n")); };
  const Table full = image(tabbed("comp 128 127\n"));
  expect_merged("65 states", pair(13, 5), 0, done(), image(tabbed("comp 65 64\n")));
  expect_merged("128 states, 64 by 2", pair(64, 2), 0, done(), full);
  expect_merged("128 states, 8 by 16", pair(8, 16), 0, done(), full);
  expect_merged("128 states, 128 by 1", pair(128, 1), 0, done(), full);
  expect_merged("128 states, 1 by 128", pair(1, 128), 0, done(), full);
  expect_refused("26: 129 states", pair(43, 3), 0, 26);
  expect_refused("26: 130 states, 10 by 13", pair(10, 13), 0, 26);
  expect_refused("26: 130 states, 65 by 2", pair(65, 2), 0, 26);
  expect_refused("26: 192 states", pair(64, 3), 0, 26);
  expect_refused("26: 256 states", pair(128, 2), 0, 26);
  expect_refused("26: 16,384 states", pair(128, 128), 0, 26);
}

// Hears these actions in every state and goes to state 0.
Text hearer(unsigned states, unsigned lowest, unsigned actions) {
  Text text = "comp " + std::to_string(states) + " 0\n";
  for (unsigned a = lowest; a < lowest + actions; ++a) text += "act " + std::to_string(a) + " in\n";
  for (unsigned s = 0; s < states; ++s)
    for (unsigned a = lowest; a < lowest + actions; ++a) text += "row " + std::to_string(s) + " - " + std::to_string(a) + " - 0\n";
  return text;
}

// Two that hear four actions each, merged: 64 states by 8 actions, 512 rows.
Text merged_hearers() {
  Text text = "comp 64 0\n";
  for (unsigned a = 0; a < 8; ++a) text += "act " + std::to_string(a) + " in\n";
  for (unsigned s = 0; s < 64; ++s)
    for (unsigned a = 0; a < 8; ++a)
      text += "row " + std::to_string(s) + " - " + std::to_string(a) + " - " + std::to_string(a < 4 ? s % 8 : s / 8 * 8) + "\n";
  return text;
}

// Rows of the whole model count, not of the product alone.
void rows() {
  const Text two = hearer(8, 0, 4) + hearer(8, 4, 4), half = hearer(64, 10, 8), one = hearer(1, 20, 1);
  expect_merged("512 rows", image(tabbed(two)), 0, done(), image(tabbed(merged_hearers())));
  expect_merged("1,024 rows in all", image(tabbed(two + half)), 0, done(), image(tabbed(merged_hearers() + half)));
  expect_merged("1,024 rows in all, at 1", image(tabbed(half + two)), 1, done(), image(tabbed(half + merged_hearers())));
  expect_refused("26: 1,025 rows in all", image(tabbed(two + half + one)), 0, 26);
  expect_refused("26: 1,025 rows in all, at 2", image(tabbed(one + half + two)), 2, 26);
  expect_refused("26: 2,048 rows of the product alone", image(tabbed(hearer(8, 0, 16) + hearer(8, 16, 16))), 0, 26);
}

// Bytes of the whole model count: the third component fills the merged model's text up to the limit, or to a byte more.
void bytes() {
  const second::Model two = *second::model_of_image(lent(image(tabbed(hearer(4, 0, 2) + hearer(4, 4, 2)))));
  const second::Model merged{{second::product(two.components[0], two.components[1])}};
  for (std::uint64_t length : {32767, 32768, 32769}) {
    const second::Model after = second::padded_to_text(merged, length);
    second::Model before = two;
    before.components.push_back(after.components.back());
    const bool fits = length <= 32768;
    expect_merged(std::to_string(length) + " bytes of text", second::image_of_model(before), 0, fits ? done() : refused(26, {0}),
                  second::image_of_model(after));
  }
}

// Merging must not matter (02, 11/13): M from 1,0, and merged at 0 from 3, by rule and by list; the pair (1,1) is not got to.
void runs() {
  const Table merged = image(tabbed("comp 6 0\nact 0 out\nact 1 uout\nact 2 uout\nclk 0 1\nrow 0 0 0 - 3\nrow 1 0 0 - 4\nrow 1 - 2 - 2\nrow 2 0 0 - 5\n"
                                    "row 3 - 1 0 1\nrow 4 - 1 0 1\nrow 4 - 2 - 5\nrow 5 - 1 0 2\n"));
  expect_merged("M", image(m), 0, done(), merged);
  const auto settle = [](const Table& table, const Bytes& state, const Said& expected, const Bytes& trace) {
    Loan loan = lent_state(table, state);
    loan.number = 100;
    loan.out = Bytes(100, 0x77);
    Loan left = loan;
    std::copy(trace.begin(), trace.end(), left.out.begin());
    expect("M, merged or not", calls::settle, loan, expected, left);
  };
  settle(image(m), {1, 0}, settled(FLOODNEEDLE_STABLE, 2, 1, {0, 2}), {1, 2});
  settle(merged, {3}, settled(FLOODNEEDLE_STABLE, 2, 1, {2}), {1, 2});
  settle(image(m), {1, 1}, settled(FLOODNEEDLE_STABLE, 2, 1, {0, 2}), {1, 2});
  settle(merged, {4}, refused(19, {0}), {});
  const auto settle_list = [](const Table& table, const Bytes& state, const Bytes& list, const Said& expected) {
    Loan loan = lent_state(table, state);
    loan.bytes = list;
    expect("M by list, merged or not", calls::settle_list, loan, expected);
  };
  settle_list(image(m), {1, 0}, {1, 2}, settled(FLOODNEEDLE_STABLE, 2, 1, {0, 2}));
  settle_list(merged, {3}, {1, 2}, settled(FLOODNEEDLE_STABLE, 2, 1, {2}));
  settle_list(image(m), {1, 0}, {1, 1}, refused(23, {1}));
  settle_list(merged, {3}, {1, 1}, refused(23, {1}));
}

// 26 may refuse one way alone: the last two have 2,048 rows together, and the first has their actions as outputs that it never takes.
void one_way_alone() {
  Text silent = "comp 2 0\n";
  for (unsigned a = 0; a < 32; ++a) (silent += "act " + std::to_string(a)) += " out\n";
  const Text two = hearer(8, 0, 16) + hearer(8, 16, 16);
  Text first = "comp 16 0\n", all = "comp 128 0\n";
  for (unsigned a = 0; a < 32; ++a) (first += "act " + std::to_string(a)) += " out\n";
  for (unsigned a = 0; a < 32; ++a) (all += "act " + std::to_string(a)) += " out\n";
  expect_refused("26: the last two", image(tabbed(silent + two)), 1, 26);
  expect_merged("the first two", image(tabbed(silent + two)), 0, done(), image(tabbed(first + hearer(8, 16, 16))));
  expect_merged("and the third", image(tabbed(first + hearer(8, 16, 16))), 0, done(), image(tabbed(all)));
}

}  // namespace

void stated_merges() {
  indices();
  states();
  rows();
  bytes();
  runs();
  one_way_alone();
}
