// 20: each way in which a buffer is no image (docs/TABLE.md), in every call that takes a table.
#include "stated.hpp"
#include "text_cases.hpp"

namespace {

void expect_no_image(const std::string& why, const Table& table) {
  const Said no_image = refused(20, {0});
  expect(why, calls::recognise, lent_table(table), no_image);
  expect(why, calls::write, lent_table(table), no_image);
  expect(why, calls::repair, lent_table(table), no_image);
  expect_checks(why, table, no_image, no_image);
}

struct Change {
  const char* why;
  std::vector<std::pair<std::size_t, std::uint64_t>> words;
};

constexpr std::uint64_t high = std::uint64_t{1} << 63;
constexpr std::uint64_t wide = std::uint64_t{1} << 32;

// Of M's image (three rows leave state 0 or 1 of component 1: rows 2 to 4).
constexpr std::size_t block_0 = 1, block_1 = block_0 + block_words, block_2 = block_1 + block_words, row_0 = rows_at;

const Change changes[] = {
    {"no component", {{0, 0}}},
    {"33 components", {{0, max_components + 1}}},
    {"2^63 components", {{0, high}}},
    {"a component too few", {{0, 1}}},
    {"a component too many", {{0, 3}}},
    {"no state", {{block_0, 0}}},
    {"129 states", {{block_0, max_states + 1}}},
    {"2^63 states", {{block_0, high}}},
    {"a state too few", {{block_0, 1}}},
    {"a state too many", {{block_0, 3}}},
    {"start is not below states", {{block_0 + 1, 2}}},
    {"start of 2^32", {{block_0 + 1, wide}}},
    {"in and out overlap", {{block_0 + 2, 1}}},
    {"in and uout overlap", {{block_0 + 2, 2}}},
    {"out and uin overlap", {{block_0 + 4, 1}}},
    {"out and uout overlap", {{block_0 + 3, 3}}},
    {"uin and uout overlap", {{block_0 + 4, 2}}},
    {"in and uin overlap", {{block_1 + 2, 2}}},
    {"a started clock that is not declared", {{block_0 + 7, 3}}},
    {"a started clock where none is declared", {{block_1 + 7, high}}},
    {"the first row is not row 0", {{block_0 + 8, 1}}},
    {"first out of order", {{block_0 + 9, 3}}},
    {"first past its end", {{block_0 + 10, 1}}},
    {"a gap between components", {{block_1 + 8, 3}}},
    {"rows of two components overlap", {{block_1 + 8, 1}}},
    {"an end of 1,024 over rows that are zero", {{block_1 + 11, 1024}}},
    {"an end of 1,025", {{block_1 + 11, 1025}}},
    {"an end of 2^63", {{block_1 + 11, high}}},
    {"first above states is not zero", {{block_0 + 11, 2}}},
    {"first[128] is not zero", {{block_0 + 8 + max_states, 2}}},
    {"a row by an action that is not declared", {{row_0, 2}}},
    {"a row by action 64", {{row_0, 64}}},
    {"a row by action 2^32", {{row_0, wide}}},
    {"a guard that is not declared", {{row_0 + 1, 2}}},
    {"a guard of 65", {{row_0 + 1, 65}}},
    {"a guard of 2^63", {{row_0 + 1, high}}},
    {"a guard of 2^32 + 1", {{row_0 + 1, wide + 1}}},
    {"a reset that is not declared", {{row_0 + 2, 2}}},
    {"a reset of clock 63", {{row_0 + 2, high}}},
    {"a target that is not below states", {{row_0 + 3, 2}}},
    {"a target of 2^32", {{row_0 + 3, wide}}},
    {"a row twice", {{row_0 + 16, 1}, {row_0 + 19, 1}}},
    {"rows out of order", {{row_0 + 12, 2}, {row_0 + 15, 2}, {row_0 + 16, 1}, {row_0 + 19, 1}}},
    {"an unused block", {{block_2, 1}}},
    {"the last word of the last block", {{row_0 - 1, 1}}},
    {"an unused row", {{row_0 + 24, 1}}},
    {"the target of an unused row", {{row_0 + 27, 1}}},
    {"the last word", {{table_words - 1, high}}},
};

}  // namespace

void stated_tables() {
  const Table good = image(m);
  expect("M is recognised", calls::recognise, lent_table(good), done());
  for (const Change& change : changes) {
    Table table = good;
    for (const auto& [word, value] : change.words) table[word] = value;
    expect_no_image(change.why, table);
  }
  for (std::uint64_t words : {std::uint64_t{0}, std::uint64_t{1}, table_words - 1})
    expect_no_image("cut to " + std::to_string(words) + " words", Table(good.begin(), good.begin() + words));
  expect_no_image("all zero", Table(table_words, 0));
  expect_no_image("all ones", Table(table_words, largest));
  // A longer buffer is used at its front; the rest is neither read nor changed.
  Table longer = good;
  longer.resize(table_words + 3, largest);
  expect("a longer table", calls::recognise, lent_table(longer), done());
  expect_checks("a longer table", longer, done(), done());
  // A model's text is at most 32,768 bytes long, so one with a longer text has no image.
  const Table full = second::image_of_model(cases::padded_to(32768));
  expect("a text of 32,768 bytes", calls::recognise, lent_table(full), done());
  expect_checks("a text of 32,768 bytes", full, done(), done());
  expect_no_image("a text of 32,769 bytes", second::image_of_model(cases::padded_to(32769)));
}
