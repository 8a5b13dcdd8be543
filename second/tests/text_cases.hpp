// Texts and what reading answers: refusals 1 to 8, and the corners between them. Kept apart so that other programs can be held to them too.
#pragma once

#include <cstdint>
#include <vector>

#include "generate.hpp"
#include "generate_limits.hpp"
#include "refusal.hpp"
#include "text_writing.hpp"
#include "texts.hpp"

namespace cases {

struct TextCase {
  Text text;                 // spaces stand for tabs, `_` for spaces
  std::uint64_t number;      // 0: read
  std::uint64_t place;       // the line, or 0
  std::uint64_t column = 0;  // for 2, 4 and 5, which carry line and column
};

// Nothing where the text is read.
inline second::Refusal refusal_of(const TextCase& entry) {
  if (entry.number == 0) return {};
  const bool spot = entry.number == 2 || entry.number == 4 || entry.number == 5;
  return spot ? second::refuse(entry.number, {entry.place, entry.column}) : second::refuse(entry.number, {entry.place});
}

// A component with two states, two actions and three clocks, before rows: 6 lines.
inline const Text two =
    "comp 2 0\n"
    "act 0 in\n"
    "act 1 out\n"
    "clk 0 1\n"
    "clk 1 0\n"
    "clk 2 1\n";

// The same with one clock: 3 lines.
inline const Text small = "comp 2 0\nact 0 in\nclk 0 0\n";

inline const TextCase text_cases[] = {
    // 2: the form of numbers; six digits or a needless zero are no number, nor are signs (DECISIONS, Numbers and fields).
    {"comp 99999 0\n", 4, 1, 6},
    {"comp 100000 0\n", 2, 1, 11},
    {"comp 00 0\n", 2, 1, 7},
    {"comp 007 0\n", 2, 1, 7},
    {"comp 064 0\n", 2, 1, 7},
    {"comp 1 00\n", 2, 1, 9},
    {"comp 1 000000\n", 2, 1, 9},
    {"comp +1 0\n", 2, 1, 6},
    {"comp -1 0\n", 2, 1, 6},
    {"comp 1 -0\n", 2, 1, 8},
    {"comp 1.0 0\n", 2, 1, 7},
    {"comp 0x1 0\n", 2, 1, 7},
    {"comp _1 0\n", 2, 1, 6},
    {"comp 1_ 0\n", 2, 1, 7},
    {"comp \xd9\xa1 0\n", 2, 1, 6},
    {Text("comp 1\0 0\n", 10), 2, 1, 7},
    {Text("comp 1 0\0\n", 10), 2, 1, 9},
    // 2: fields and lines (DECISIONS, Numbers and fields).
    {"comp  1 0\n", 2, 1, 6},
    {" comp 1 0\n", 2, 1, 1},
    {"comp 1 0 \n", 2, 1, 9},
    {"comp 1\n", 2, 1, 7},
    {"comp\n", 2, 1, 5},
    {"comp 1 0 0\n", 2, 1, 9},
    {"comp 1 \n", 2, 1, 8},
    {"comp_1_0\n", 2, 1, 5},
    {"comp 1_0\n", 2, 1, 7},
    {"comp 1 0\r\n", 2, 1, 9},
    {"\n", 2, 1, 1},
    {"comp 1 0\n\n", 2, 2, 1},
    {"comp 1 0\n\nact 0 in\n", 2, 2, 1},
    {"\ncomp 1 0\n", 2, 1, 1},
    {"Comp 1 0\n", 2, 1, 1},
    {"COMP 1 0\n", 2, 1, 1},
    {"comps 1 0\n", 2, 1, 5},
    {"name 0\n", 2, 1, 1},
    {"comp 1 0\nform 0\n", 2, 2, 1},
    {"comp 1 0\nname 0\n", 2, 2, 1},
    {"from 0 0\ncomp 1 0\n", 2, 1, 1},
    {"comp 1 0", 2, 1, 9},
    {"act 0 in", 2, 1, 9},
    {"comp 129 0", 2, 1, 11},
    {"comp 129 0\ncomp 1 0", 4, 1, 6},
    {"act 0 in\ncomp 1 0", 3, 1},
    {"comp 1 0\ncomp 1 0", 2, 2, 9},
    {"comp 1 0\nrow 0 - 0 - 0", 2, 2, 14},
    {"x", 2, 1, 1},
    {" ", 2, 1, 1},
    // `act` and `clk` (DECISIONS: "a kind of `act`", "`clk` with 2").
    {"comp 1 0\nact 0 silent\n", 2, 2, 7},
    {"comp 1 0\nact 0 IN\n", 2, 2, 7},
    {"comp 1 0\nact 0 in_\n", 2, 2, 9},
    {"comp 1 0\nact 0\n", 2, 2, 6},
    {"comp 1 0\nact - in\n", 2, 2, 5},
    {"comp 1 0\nact 64 silent\n", 2, 2, 8},
    {"comp 1 0\nact 64 in\n", 4, 2, 5},
    {"comp 1 0\nact 63 in\n", 0, 0},
    {"comp 1 0\nclk 0 2\n", 4, 2, 7},
    {"comp 1 0\nclk 0 99999\n", 4, 2, 7},
    {"comp 1 0\nclk 64 0\n", 4, 2, 5},
    {"comp 1 0\nclk 63 1\n", 0, 0},
    {"comp 1 0\nclk 0 -\n", 2, 2, 7},
    {"comp 1 0\nclk 0 \n", 2, 2, 7},
    {"comp 1 0\nclk 0 01\n", 2, 2, 8},
    {"comp 1 0\nclk 0\n", 2, 2, 6},
    // Shapes of a row (DECISIONS: "a guard is", "resets have the shape").
    {two + "row 0 0,1 1 - 0\n", 2, 7, 8},
    {two + "row 0 -- 1 - 0\n", 2, 7, 8},
    {two + "row 0  1 - 0\n", 2, 7, 7},
    {two + "row 0 - 0 - \n", 2, 7, 13},
    {two + "row 0 - 0 -\n", 2, 7, 12},
    {two + "row - - 0 - 0\n", 2, 7, 5},
    {two + "row 0 - - - 0\n", 2, 7, 9},
    {two + "row 0 - 0 - -\n", 2, 7, 13},
    {two + "row 0 - 0 -,0 0\n", 2, 7, 12},
    {two + "row 0 - 0 0,- 0\n", 2, 7, 13},
    {two + "row 0 - 0 0, 0\n", 2, 7, 13},
    {two + "row 0 - 0 ,0 0\n", 2, 7, 11},
    {two + "row 0 - 0 0,,1 0\n", 2, 7, 13},
    {two + "row 0 - 0 0,01 0\n", 2, 7, 14},
    {two + "row 0 - 0 0,_1 0\n", 2, 7, 13},
    {two + "row 0 - 0 1,0 0\n", 6, 7},
    {two + "row 0 - 0 1,1 0\n", 6, 7},
    {two + "row 0 - 0 0,1,2 0\n", 0, 0},
    {two + "row 0 - 0 0,2,1 0\n", 6, 7},
    // 3: turns (DECISIONS: "out of turn").
    {"act 0 in\n", 3, 1},
    {"act 64 in\n", 3, 1},
    {"clk 0 0\n", 3, 1},
    {"clk 0 2\n", 3, 1},
    {"row 0 - 0 - 0\n", 3, 1},
    {"row 64 - 64 64 64\ncomp 1 0\n", 3, 1},
    {"comp 1 0\nclk 0 0\nact 0 in\n", 3, 3},
    {"comp 1 0\nclk 0 0\nact 64 in\n", 3, 3},
    {two + "row 0 - 0 - 0\nact 2 in\n", 3, 8},
    {two + "row 0 - 0 - 0\nclk 3 0\n", 3, 8},
    {two + "row 0 - 0 - 0\nclk 64 9\n", 3, 8},
    {two + "row 0 - 0 - 0\ncomp 1 0\nact 0 in\nclk 0 0\nrow 0 - 0 - 0\n", 0, 0},
    {"comp 1 0\nclk 0 0\ncomp 1 0\nact 0 in\n", 0, 0},
    {"comp 1 0\ncomp 1 0\n", 0, 0},
    {"comp 1 0\nact 0 in\nrow 0 - 0 - 0\n", 0, 0},
    // 4: ranges (DECISIONS: "start, from and target", "an action or clock of 64").
    {"comp 0 0\n", 4, 1, 6},
    {"comp 129 0\n", 4, 1, 6},
    {"comp 129 130\n", 4, 1, 6},
    {"comp 2 2\n", 4, 1, 8},
    {"comp 2 1\n", 0, 0},
    {"comp 64 63\n", 0, 0},
    {"comp 65 64\n", 0, 0},
    {"comp 128 127\n", 0, 0},
    {"comp 128 128\n", 4, 1, 10},
    {"comp 128 0\nact 0 in\nrow 127 - 0 - 127\n", 0, 0},
    {"comp 128 0\nact 0 in\nrow 128 - 0 - 127\n", 4, 3, 5},
    {"comp 128 0\nact 0 in\nrow 127 - 0 - 128\n", 4, 3, 15},
    {"comp 128 0\nact 64 in\n", 4, 2, 5},
    {"comp 128 0\nclk 64 0\n", 4, 2, 5},
    {two + "row 2 - 0 - 0\n", 4, 7, 5},
    {two + "row 0 - 0 - 2\n", 4, 7, 13},
    {two + "row 0 - 64 - 0\n", 4, 7, 9},
    {two + "row 0 64 1 - 0\n", 4, 7, 7},
    {two + "row 0 - 0 64 0\n", 4, 7, 11},
    {two + "row 0 - 0 63,64 0\n", 4, 7, 14},
    {two + "row 0 - 9 9,64 0\n", 4, 7, 13},
    {two + "row 0 - 0 64,1 0\n", 4, 7, 11},
    // 5: what the last component lacks (DECISIONS: "its component", "within a row line").
    {two + "row 0 - 2 - 0\n", 5, 7, 9},
    {two + "row 0 3 1 - 0\n", 5, 7, 7},
    {two + "row 0 - 0 3 0\n", 5, 7, 11},
    {two + "row 0 - 0 0,63 0\n", 5, 7, 13},
    {two + "comp 1 0\nrow 0 - 0 - 0\n", 5, 8, 9},
    {two + "comp 1 0\nact 0 in\nrow 0 - 0 0 0\n", 5, 9, 11},
    {two + "comp 1 0\nact 1 out\nrow 0 0 1 - 0\n", 5, 9, 7},
    {two + "row 1 - 1 - 0\nrow 0 - 2 - 0\n", 5, 8, 9},
    {two + "row 0 - 0 3,0 0\n", 5, 7, 11},
    {two + "row 0 - 0 2,2,3 0\n", 5, 7, 15},
    // 6: ascent (DECISIONS: "begin anew", "rows ascend by").
    {"comp 1 0\nact 1 in\nact 0 in\n", 6, 3},
    {"comp 1 0\nact 0 in\nact 0 out\n", 6, 3},
    {"comp 1 0\nact 0 in\nact 63 in\nact 62 in\n", 6, 4},
    {"comp 1 0\nclk 1 0\nclk 0 0\n", 6, 3},
    {"comp 1 0\nclk 0 0\nclk 0 1\n", 6, 3},
    {"comp 1 0\nact 1 in\nclk 0 0\n", 0, 0},
    {"comp 1 0\nact 1 in\ncomp 1 0\nact 0 in\n", 0, 0},
    {"comp 1 0\nact 1 in\ncomp 1 0\nact 1 in\n", 0, 0},
    {two + "row 0 - 0 - 0\nrow 0 - 0 - 0\n", 6, 8},
    {two + "row 0 - 0 - 1\nrow 0 - 0 - 0\n", 6, 8},
    {two + "row 0 - 0 - 0\nrow 0 - 0 - 1\n", 0, 0},
    {two + "row 1 - 0 - 0\nrow 0 - 0 - 0\n", 6, 8},
    {two + "row 0 1 0 - 0\nrow 0 0 1 - 0\n", 0, 0},
    {two + "row 0 0 1 - 0\nrow 0 1 0 - 0\n", 6, 8},
    {two + "row 0 - 1 - 0\nrow 0 0 1 - 0\n", 0, 0},
    {two + "row 0 0 1 - 0\nrow 0 - 1 - 0\n", 6, 8},
    {two + "row 0 0 1 - 0\nrow 0 2 1 - 0\n", 0, 0},
    {two + "row 0 - 0 0,1 0\nrow 0 - 0 2 0\n", 0, 0},
    {two + "row 0 - 0 2 0\nrow 0 - 0 0,1 0\n", 6, 8},
    {two + "row 0 - 0 - 0\nrow 0 - 0 0 0\n", 0, 0},
    {two + "row 0 - 0 0 0\nrow 0 - 0 - 1\n", 6, 8},
    {two + "row 0 - 0 0 1\nrow 0 - 0 1 0\n", 0, 0},
    {"comp 1 0\nact 0 in\nclk 62 0\nclk 63 0\nrow 0 - 0 62 0\nrow 0 - 0 63 0\n", 0, 0},
    {"comp 1 0\nact 0 in\nclk 62 0\nclk 63 0\nrow 0 - 0 63 0\nrow 0 - 0 62 0\n", 6, 6},
    {two + "row 0 - 0 - 0\ncomp 1 0\nact 0 in\nrow 0 - 0 - 0\n", 0, 0},
    // Columns: the first byte that no well-shaped line could have there, or the first value at fault.
    {"com", 2, 1, 4},
    {"cx 1 0\n", 2, 1, 2},
    {"cl", 2, 1, 3},
    {"clm 0 0\n", 2, 1, 3},
    {"rox\n", 2, 1, 3},
    {"comp 12345", 2, 1, 11},
    {"comp 1 0\nact 0 unn\n", 2, 2, 8},
    {"comp 1 0\nact 0 ui\n", 2, 2, 9},
    {"comp 1 0\nact 0 in\r\n", 2, 2, 9},
    {"comp 1 0\nact 0 inn\n", 2, 2, 9},
    {"comp 1 0\nact 0 uoutt\n", 2, 2, 11},
    {"comp 1 0\nact 0 u", 2, 2, 8},
    {"comp 1 0\nrow 0 -- 0 - 0\n", 2, 2, 8},
    {"comp 1 0\nrow 0 - 0 -,0 0\n", 2, 2, 12},
    {"comp 1 0\nrow 0 - 0 0, 0\n", 2, 2, 13},
    {"comp 1 0\nrow 0 - 0 0,,1 0\n", 2, 2, 13},
    {"comp 3 5\n", 4, 1, 8},
    {"comp 1 0\nclk 64 9\n", 4, 2, 5},
    {"comp 1 0\nclk 63 2\n", 4, 2, 8},
    {small + "row 2 64 64 0,64,1 9\n", 4, 4, 5},
    {small + "row 0 64 64 0,64,1 9\n", 4, 4, 7},
    {small + "row 0 0 64 0,64,1 9\n", 4, 4, 9},
    {small + "row 0 0 0 0,64,99 9\n", 4, 4, 13},
    {small + "row 0 0 0 0 9\n", 4, 4, 13},
    {small + "row 0 1 1 2 0\n", 5, 4, 7},
    {small + "row 0 0 1 2 0\n", 5, 4, 9},
    {small + "row 0 - 0 0,5,3 0\n", 5, 4, 13},
    {small + "row 0 - 63 62,64 1\n", 4, 4, 15},
    // 8 is the empty text alone (DECISIONS: "only the empty text").
    {"", 8, 0},
};

inline Text repeated(const Text& piece, unsigned times) {
  Text text;
  for (unsigned t = 0; t < times; ++t) text += piece;
  return text;
}

// 7 is last within its line, and before any later line (DECISIONS: "7 counts rows").
inline void add_counts(std::vector<TextCase>& to) {
  const Text one = tabbed("comp 1 0\n");
  to.push_back({repeated(one, 32), 0, 0});
  to.push_back({repeated(one, 33), 7, 33});
  to.push_back({repeated(one, 33) + "x\n", 7, 33});
  to.push_back({repeated(one, 32) + tabbed("comp 129 0\n"), 4, 33, 6});
  to.push_back({repeated(one, 32) + tabbed("comp 1\n"), 2, 33, 7});
  to.push_back({repeated(one, 32) + tabbed("comp 1 0"), 2, 33, 9});

  Text rows = tabbed("comp 64 0\n");
  for (unsigned action = 0; action < 16; ++action) rows += tabbed("act " + std::to_string(action) + " in\n");
  for (unsigned state = 0; state < 64; ++state)
    for (unsigned action = 0; action < 16; ++action)
      rows += tabbed("row " + std::to_string(state) + " - " + std::to_string(action) + " - 0\n");
  to.push_back({rows, 0, 0});
  to.push_back({rows + tabbed("row 63 - 15 - 1\n"), 7, 1042});
  to.push_back({rows + tabbed("row 63 - 15 - 1\n") + "x", 7, 1042});
  to.push_back({rows + tabbed("row 63 - 15 - 0\n"), 6, 1042});
  to.push_back({rows + tabbed("row 63 - 16 - 0\n"), 5, 1042, 10});
  to.push_back({rows + tabbed("row 63 - 15 - 64\n"), 4, 1042, 15});
  to.push_back({rows + tabbed("row 63 - 15 - 1"), 2, 1042, 16});
  to.push_back({rows + tabbed("comp 1 0\nact 0 in\n"), 0, 0});
  to.push_back({rows + tabbed("comp 1 0\nact 0 in\nrow 0 - 0 - 0\n"), 7, 1044});
}

// The length of a list of resets is no matter of shape (DECISIONS: "resets have the shape").
inline void add_long_resets(std::vector<TextCase>& to) {
  Text clocks, all;
  for (unsigned clock = 0; clock < 64; ++clock) {
    clocks += "clk " + std::to_string(clock) + " 0\n";
    all += std::to_string(clock) + ",";
  }
  const Text head = tabbed("comp 1 0\nact 0 in\n"), declared = tabbed(clocks);
  to.push_back({head + declared + tabbed("row 0 - 0 " + all + "64 0\n"), 4, 67, 193});
  to.push_back({head + declared + tabbed("row 0 - 0 " + all + "63 0\n"), 6, 67});
  to.push_back({head + tabbed("row 0 - 0 " + all + "63 0\n"), 5, 3, 11});
  to.push_back({head + declared + tabbed("row 0 - 0 " + all.substr(0, all.size() - 1) + " 0\n"), 0, 0});
  to.push_back({head + declared + tabbed("row 0 - 0 " + all + " 0\n"), 2, 67, 193});
}

// A good model whose text has just so many bytes.
inline second::Model padded_to(std::uint64_t bytes) {
  second::Random random(1);
  return second::padded_to_text(second::generate(random, second::Family::confluent, second::Size::small), bytes);
}

// 1 counts every byte and comes before all else (DECISIONS: "1 counts every byte").
inline void add_lengths(std::vector<TextCase>& to) {
  to.push_back({Text(32769, '\n'), 1, 0});
  to.push_back({Text(32768, '\n'), 2, 1, 1});
  to.push_back({Text(32768, 'x'), 2, 1, 1});
  to.push_back({Text(100000, 'x'), 1, 0});
  for (std::uint64_t bytes : {32766, 32767, 32768}) to.push_back({second::text_of_model(padded_to(bytes)), 0, 0});
  to.push_back({second::text_of_model(padded_to(32769)), 1, 0});
}

// Cases too long to write down, in tabs.
inline std::vector<TextCase> built_text_cases() {
  std::vector<TextCase> built;
  add_counts(built);
  add_long_resets(built);
  add_lengths(built);
  return built;
}

}  // namespace cases
