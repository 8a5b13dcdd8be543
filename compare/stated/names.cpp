// Names for actions (request 7): the answers of its page, each line's shape, the order of the refusals, buffers that just fit, and texts at 32,768 bytes on either side.
#include "names.hpp"
#include "stated.hpp"
#include "text_writing.hpp"

namespace {

Loan lent_text(const Text& text, std::size_t room) {
  Loan loan;
  loan.bytes = bytes_of(text);
  loan.out = Bytes(room, 0x77);
  return loan;
}

// Whatever room there is, for 24 comes after it.
void expect_refused(const Call& call, const std::string& why, const Text& text, const Said& refusal) {
  for (std::size_t room : {0, 1, 40000}) expect(why, call, lent_text(text, room), refusal);
}

// The buffer's front becomes this, and no byte behind it changes; a byte less is 24.
void expect_written(const Call& call, const std::string& why, const Text& text, const Text& converted) {
  for (std::size_t more : {0, 3}) {
    const Loan loan = lent_text(text, converted.size() + more);
    Loan left = loan;
    std::copy(converted.begin(), converted.end(), left.out.begin());
    expect(why, call, loan, done(converted.size()), left);
  }
  for (std::size_t room : {std::size_t{0}, converted.size() - 1}) expect(why + ", 24", call, lent_text(text, room), refused(24, {converted.size()}));
}

// 1 of the text's own length; 24, then 26 of the converted one's.
void expect_by_length(const Call& call, const Text& text, const Text& converted) {
  const std::string why = "a text of " + std::to_string(text.size()) + " bytes, and of " + std::to_string(converted.size());
  if (text.size() > 32768) {
    expect_refused(call, why, text, refused(1, {0}));
  } else if (converted.size() > 32768) {
    for (std::size_t room : {converted.size(), converted.size() + 1, std::size_t{40000}}) expect(why, call, lent_text(text, room), refused(26, {0}));
    for (std::size_t room : {std::size_t{0}, std::size_t{32768}, converted.size() - 1}) expect(why, call, lent_text(text, room), refused(24, {converted.size()}));
  } else {
    expect_written(call, why, text, converted);
  }
}

const Text new_m = tabbed(
    "form 2\nname 0 a0\nname 1 a1\nname 2 a2\n"
    "comp 2 0\nact a0 out\nact a1 uout\nclk 0 1\nrow 0 0 a0 - 1\nrow 1 - a1 0 0\n"
    "comp 3 0\nact a1 uin\nact a2 uout\nrow 0 - a1 - 1\nrow 1 - a1 - 1\nrow 1 - a2 - 2\nrow 2 - a1 - 2\n");

void new_to_old() {
  expect_written(calls::to_numbers, "M", new_m, m);
  Text renamed = new_m;
  for (std::size_t at = 0; (at = renamed.find("a1", at)) != Text::npos; ++at) renamed.replace(at, 2, "repair");
  expect_written(calls::to_numbers, "M by another name", renamed, m);

  const Text one = "form 2\nname 1 x\ncomp 1 0\n", two = "form 2\nname 1 x\nname 2 w\ncomp 1 0\n";
  const Text act = one + "act x in\n";
  const struct {
    Text text;
    Said answer;
  } stated[] = {
      {"", refused(8, {0})},
      {"form 2\n", refused(8, {0})},
      {"form 2", refused(2, {1, 7})},
      {"comp 1 0\n", refused(2, {1, 1})},
      {"form 1\n", refused(2, {1, 6})},
      {"form 02\n", refused(2, {1, 6})},
      {"form 22\n", refused(2, {1, 7})},
      {"form 2 \n", refused(2, {1, 7})},
      {"form 2\r\n", refused(2, {1, 7})},
      {"form\n", refused(2, {1, 5})},
      {"from 2\n", refused(2, {1, 2})},
      {"\nform 2\n", refused(2, {1, 1})},
      {"form 2\nname 0 x\n", refused(8, {0})},
      {"form 2\nname 0 x\ncomp 1 0\n", refused(44, {2})},
      {"form 2\nname 0 x\nform 2\n", refused(3, {3})},
      {"form 2\nform 2\n", refused(3, {2})},
      {"form 2\nform 3\n", refused(2, {2, 6})},
      {"form 2\nfoo 3\n", refused(2, {2, 3})},
      {"form 2\nnome 3\n", refused(2, {2, 2})},
      {"form 2\nx\n", refused(2, {2, 1})},
      {"form 2\ncomp 1 0\nform 2\n", refused(3, {3})},
      {"form 2\ncomp 1 0\nname 0 x\n", refused(3, {3})},
      {"form 2\ncomp 1 0\nname 64 X\n", refused(3, {3})},
      {"form 2\nact x in\n", refused(3, {2})},
      {"form 2\nname 0 x\nclk 0 0\n", refused(3, {3})},
      {"form 2\nname 0 x\nrow 0 - x - 0\n", refused(3, {3})},
      {"form 2\nname 64 x\n", refused(4, {2, 6})},
      {"form 2\nname 64 X\n", refused(4, {2, 6})},
      {"form 2\nname 1 x\nname 1 x\n", refused(6, {3})},
      {"form 2\nname 1 x\nname 0 X\n", refused(6, {3})},
      {"form 2\nname 1 x\nname 2 x\n", refused(43, {3})},
      {"form 2\nname 1 \n", refused(43, {2})},
      {"form 2\nname 1\n", refused(2, {2, 7})},
      {"form 2\nname 1 abcdefghijklmnopq\n", refused(43, {2})},
      {"form 2\nname 1 x\r\n", refused(43, {2})},
      {"form 2\nname 1 0x\n", refused(43, {2})},
      {"form 2\nname 1 xY\n", refused(43, {2})},
      {"form 2\nname 1 x_y\n", refused(43, {2})},
      {"form 2\nname 1 \xc3\xa9\n", refused(43, {2})},
      {"form 2\nname 1 x 2\n", refused(2, {2, 9})},
      {"form 2\nname 1 x", refused(2, {2, 9})},
      {"form 2\nname 01 x\n", refused(2, {2, 7})},
      {one + "act y in\n", refused(44, {4})},
      {one + "act  in\n", refused(44, {4})},
      {one + "act X in\n", refused(44, {4})},
      {one + "act 1 in\n", refused(44, {4})},
      {one + "act xx in\n", refused(44, {4})},
      {one + "act y inn\n", refused(2, {4, 9})},
      {one + "act y\n", refused(2, {4, 6})},
      {one + "clk 0 0\nact y in\n", refused(3, {5})},
      {act + "row 0 - y - 0\n", refused(5, {5, 9})},
      {act + "row 0 -  - 0\n", refused(5, {5, 9})},
      {act + "row 0 3 y - 0\n", refused(5, {5, 7})},
      {act + "row 0 - y - 1\n", refused(4, {5, 13})},
      {act + "row 0 64 y - 0\n", refused(4, {5, 7})},
      {act + "row 0 - y 64 0\n", refused(4, {5, 11})},
      {act + "row 0 - x 5 0\n", refused(5, {5, 11})},
      {act + "row 0 - x - 0\nrow 0 - x - 0\n", refused(6, {6})},
      {act + "row 0 - x - 0\nact y in\n", refused(3, {6})},
      {two + "act x in\nrow 0 - w - 0\n", refused(5, {6, 9})},
      {two + "act w in\nact x in\n", refused(6, {6})},
      {two + "act x in\nact x in\n", refused(6, {6})},
      {two + "act x in\n", refused(44, {3})},
      {two + "act w in\n", refused(44, {2})},
      {"form 2\nname 1 x\nname 2 w\ncomp 129 0\n", refused(4, {4, 6})},
      {two + "act x in\nact w in\n", done()},
      {"form 2\nname 63 abcdefghijklmnop\ncomp 1 0\nact abcdefghijklmnop in\n", done()},
      {"form 2\ncomp 1 0\n", done()},
  };
  for (const auto& entry : stated) {
    const std::string why = "names: " + entry.text;
    if (entry.answer.answer.kind == FLOODNEEDLE_REFUSED) expect_refused(calls::to_numbers, why, tabbed(entry.text), entry.answer);
  }
  expect_written(calls::to_numbers, "rows and acts go by number, whatever the names", tabbed(two + "act x in\nact w in\nrow 0 - x - 0\nrow 0 - w - 0\n"),
                 tabbed("comp 1 0\nact 1 in\nact 2 in\nrow 0 - 1 - 0\nrow 0 - 2 - 0\n"));
  expect_written(calls::to_numbers, "a name of 16", tabbed("form 2\nname 63 abcdefghijklmnop\ncomp 1 0\nact abcdefghijklmnop in\n"), tabbed("comp 1 0\nact 63 in\n"));
  expect_written(calls::to_numbers, "no name", tabbed("form 2\ncomp 1 0\n"), tabbed("comp 1 0\n"));
  expect_written(calls::to_numbers, "one name of two components", tabbed("form 2\nname 7 x\ncomp 1 0\nact x in\ncomp 1 0\nact x out\n"), tabbed("comp 1 0\nact 7 in\ncomp 1 0\nact 7 out\n"));
  expect_refused(calls::to_numbers, "1", Text(32769, 'x'), refused(1, {0}));
  expect_refused(calls::to_numbers, "2 at 1, 1", Text(32768, 'x'), refused(2, {1, 1}));
}

// The refusals are those of reading the old text, the lines counted from its first; a `form` or `name` line is 2 there.
void old_to_new() {
  expect_written(calls::to_names, "M", m, new_m);
  expect_written(calls::to_names, "no action", tabbed("comp 1 0\n"), tabbed("form 2\ncomp 1 0\n"));
  expect_written(calls::to_names, "one name for two components", tabbed("comp 1 0\nact 7 in\ncomp 1 0\nact 7 out\n"),
                 tabbed("form 2\nname 7 a7\ncomp 1 0\nact a7 in\ncomp 1 0\nact a7 out\n"));
  expect_written(calls::to_names, "names by number, whichever component has them", tabbed("comp 1 0\nact 63 in\ncomp 1 0\nact 0 in\nact 10 in\nrow 0 - 10 - 0\n"),
                 tabbed("form 2\nname 0 a0\nname 10 a10\nname 63 a63\ncomp 1 0\nact a63 in\ncomp 1 0\nact a0 in\nact a10 in\nrow 0 - a10 - 0\n"));
  expect_written(calls::to_names, "an action by no row", tabbed("comp 2 1\nact 3 out\nclk 3 1\n"), tabbed("form 2\nname 3 a3\ncomp 2 1\nact a3 out\nclk 3 1\n"));
  expect_written(calls::to_names, "the action alone is exchanged", tabbed("comp 4 3\nact 3 uin\nclk 3 0\nrow 3 3 3 3 3\n"),
                 tabbed("form 2\nname 3 a3\ncomp 4 3\nact a3 uin\nclk 3 0\nrow 3 3 a3 3 3\n"));
  Text all = "comp 1 0\n", renamed = "form 2\n", named_acts = "comp 1 0\n";
  for (unsigned action = 0; action < 64; ++action) {
    const std::string number = std::to_string(action);
    all += "act " + number + " in\n";
    renamed += "name " + number + " a" + number + "\n";
    named_acts += "act a" + number + " in\n";
  }
  expect_written(calls::to_names, "64 actions", tabbed(all), tabbed(renamed + named_acts));

  const Text one = "comp 1 0\n", act = one + "act 1 in\n";
  const struct {
    Text text;
    Said answer;
  } stated[] = {
      {"", refused(8, {0})},
      {"\n", refused(2, {1, 1})},
      {"form 2\n", refused(2, {1, 1})},
      {"form 2\ncomp 1 0\n", refused(2, {1, 1})},
      {one + "name 0 a0\n", refused(2, {2, 1})},
      {one + "act a1 in\n", refused(2, {2, 5})},
      {"comp 1 0", refused(2, {1, 9})},
      {"act 1 in\n", refused(3, {1})},
      {one + "clk 0 0\nact 1 in\n", refused(3, {3})},
      {one + "act 64 in\n", refused(4, {2, 5})},
      {"comp 129 0\n", refused(4, {1, 6})},
      {act + "row 0 - 2 - 0\n", refused(5, {3, 9})},
      {act + "row 0 3 1 - 0\n", refused(5, {3, 7})},
      {act + "act 1 in\n", refused(6, {3})},
      {act + "act 0 in\n", refused(6, {3})},
      {act + "row 0 - 1 - 0\nrow 0 - 1 - 0\n", refused(6, {4})},
  };
  for (const auto& entry : stated) expect_refused(calls::to_names, "to names: " + entry.text, tabbed(entry.text), entry.answer);
  Text crowded;
  for (unsigned c = 0; c < 33; ++c) crowded += one;
  expect_refused(calls::to_names, "33 components", tabbed(crowded), refused(7, {33}));
  expect_refused(calls::to_names, "1", Text(32769, 'x'), refused(1, {0}));
  expect_refused(calls::to_names, "2 at 1, 1", Text(32768, 'x'), refused(2, {1, 1}));
}

// By these names, or by numbers where there are none.
using Names = second::Sheet (*)(const second::Model&);

second::Sheet one_letter(const second::Model&) {
  second::Sheet names;
  for (unsigned action = 56; action < 64; ++action) names[action] = std::string(1, static_cast<char>('a' + action - 56));
  return names;
}

Text text_by(const second::Model& model, Names names) { return names == nullptr ? second::text_of_model(model) : second::named_text_of_model(model, names(model)); }

// 128 states, eight actions of two digits, and resets until the text by these names has so many bytes.
second::Model grown(std::size_t bytes, Names names) {
  second::Model model;
  model.components.resize(1);
  second::Component& component = model.components.front();
  component.states = 128;
  for (unsigned action = 56; action < 64; ++action) component.kind[action] = second::Kind::in;
  component.clocks = ~second::Set{0};
  for (unsigned state = 0; state < 128; ++state)
    for (unsigned action = 56; action < 64; ++action) {
      second::Row row;
      row.from = row.target = state;
      row.action = action;
      component.rows.push_back(row);
    }
  std::size_t left = bytes - text_by(model, names).size();
  for (second::Row& row : component.rows)
    for (unsigned clock = 0; clock < 64; ++clock) {
      const unsigned cost = row.resets == 0 ? (clock < 10 ? 0 : 1) : (clock < 10 ? 2 : 3);
      // A byte is left for a row of its own: one clock of two digits.
      if (cost == 0 || cost > left || (cost > 1 && left - cost == 1 && &row == &component.rows.back())) continue;
      row.resets |= second::only(clock);
      left -= cost;
    }
  return model;
}

void lengths() {
  for (Names names : {Names{nullptr}, Names{one_letter}, Names{second::default_sheet}})
    for (std::size_t bytes : {31000u, 31800u, 32000u, 32767u, 32768u, 32769u, 33000u}) {
      const second::Model model = grown(bytes, names);
      expect_by_length(calls::to_numbers, text_by(model, one_letter), text_by(model, nullptr));
      expect_by_length(calls::to_numbers, text_by(model, second::default_sheet), text_by(model, nullptr));
      expect_by_length(calls::to_names, text_by(model, nullptr), text_by(model, second::default_sheet));
    }
}

}  // namespace

void stated_names() {
  new_to_old();
  old_to_new();
  lengths();
}
