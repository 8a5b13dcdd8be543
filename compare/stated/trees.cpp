// Repairable fault trees (request 9): the answers of its page, each line's shape, the order of the refusals, the trees at the edge of the limits, the
// worked trees to the byte, and what their models do.
#include "sha256.hpp"
#include "stated.hpp"

namespace {

// `;` stands for LF, spaces for tabs; spaces behind `;` are left out.
Text tree_text(const Text& tree) {
  Text text;
  for (std::size_t b = 0; b < tree.size(); ++b) {
    if (tree[b] == ' ' && b > 0 && tree[b - 1] == ';') continue;
    text += tree[b] == ';' ? '\n' : tree[b] == ' ' ? '\t' : tree[b];
  }
  return text;
}

Loan drawn(const Text& text, std::size_t words) {
  Loan loan;
  loan.bytes = bytes_of(text);
  loan.into = Table(words, 0x77);
  return loan;
}

// Whatever room there is, for 24 comes last.
void expect_tree_refused(const std::string& why, const Text& text, const Said& refusal) {
  for (std::size_t words : {std::size_t{0}, std::size_t{table_words - 1}, std::size_t{table_words}, std::size_t{table_words + 3}})
    expect(why, calls::read_tree, drawn(text, words), refusal);
}

// The table's front becomes this, and no word behind it changes; a word less is 24.
void expect_tree(const std::string& why, const Text& text, const Table& table) {
  for (std::size_t more : {0, 3}) {
    const Loan loan = drawn(text, table_words + more);
    Loan left = loan;
    std::copy(table.begin(), table.end(), left.into.begin());
    expect(why, calls::read_tree, loan, done(), left);
  }
  for (std::size_t words : {std::size_t{0}, std::size_t{1}, std::size_t{table_words - 1}})
    expect(why + ", 24", calls::read_tree, drawn(text, words), refused(24, {table_bytes}));
}

// What the second program reads a tree as; no word at all where it refuses.
Table tree_image(const Text& text) {
  Table table(table_words);
  const Bytes bytes = bytes_of(text);
  if (second::read_tree(lent(bytes), {table.data(), table.size()}).refusal) table.clear();
  return table;
}

Text written(const Table& table) {
  Bytes text(second::max_text);
  const second::WriteAnswer answer = second::write(lent(table), {text.data(), text.size()});
  return Text(text.begin(), text.begin() + static_cast<long>(answer.length));
}

// ---- section 1

void answers() {
  const struct {
    const char* tree;
    Said refusal;
  } stated[] = {
      {"", refused(47, {2})},
      {";", refused(2, {1, 1})},
      {"be 0", refused(2, {1, 5})},
      {"be 0 1;", refused(2, {1, 5})},
      {"and 2 0;", refused(2, {1, 8})},
      {"and 2 0 1 3;", refused(2, {1, 10})},
      {"rbox 1;", refused(2, {1, 7})},
      {"be 0; rbox 1 0 0 0 0 0 0;", refused(2, {2, 17})},
      {"BE 0;", refused(2, {1, 1})},
      {"sbe 0;", refused(2, {1, 1})},
      {"rbx 0 1;", refused(2, {1, 3})},
      {"be 0\r;", refused(2, {1, 5})},
      {"pand 0 1,2;", refused(2, {1, 9})},
      {"be 064;", refused(2, {1, 5})},
      {"be 100000;", refused(2, {1, 9})},
      {"be 64;", refused(4, {1, 4})},
      {"be 0; and 64 70 0;", refused(4, {2, 5})},
      {"be 0; and 3 0 64;", refused(4, {2, 9})},
      {"be 1; be 1;", refused(6, {2})},
      {"be 1; and 0 1 1;", refused(6, {2})},
      {"be 0; and 3 0 7;", refused(5, {2, 9})},
      {"and 0 7 9; be 64;", refused(4, {2, 4})},
      {"rbox 0 1; be 2;", refused(5, {1, 8})},
      {"and 0 0 0;", refused(47, {1})},
      {"and 5 5 6; be 6;", refused(47, {1})},
      {"and 0 1 2; and 1 0 2; be 2;", refused(47, {1})},
      {"be 0; be 1;", refused(47, {2})},
      {"be 0; rbox 1 0;", refused(47, {2})},
      {"be 0; be 1; and 2 0 0;", refused(47, {2})},
      {"be 0; be 1; and 2 0 1; be 3;", refused(47, {2})},
      {"be 0; be 1; and 2 0 1; rbox 3 0 0;", refused(47, {3})},
      {"be 0; be 1; rbox 2 0; and 3 1 2;", refused(47, {4})},
      {"be 0; be 1; rbox 2 0; rbox 4 2;", refused(47, {4})},
      {"be 0; be 1; and 2 0 1; rbox 3 2;", refused(47, {2})},
      {"be 0; be 1; and 2 0 1; be 3; or 4 3 2; rbox 5 2;", refused(47, {5})},
      {"be 0; be 1; and 2 0 1; rbox 3 0; rbox 4 1 0;", refused(47, {6})},
      // Of several the lowest.
      {"be 0; and 2 0 0;", refused(47, {3})},
      {"rbox 0 0;", refused(47, {1})},
      {"rbox 0 1; rbox 1 0;", refused(47, {1})},
      {"be 0; rbox 1 2; rbox 2 1;", refused(47, {1})},
      {"be 0; rbox 1 1;", refused(47, {1})},
      {"be 0; be 1; and 2 0 1; rbox 3 0; rbox 4 3 3;", refused(47, {3})},
      {"be 0; be 1; and 2 0 1; rbox 3 0; rbox 4 3;", refused(47, {4})},
      {"be 0; be 1; and 2 0 1; rbox 3 0; rbox 4 0 1;", refused(47, {6})},
      {"be 0; be 1; and 2 0 1; or 3 2 0; rbox 4 2; rbox 5 2;", refused(47, {5})},
      {"be 0; be 1; and 2 0 1; rbox 3 0; rbox 4 0 0;", refused(47, {3})},
      {"be 0; be 1; and 2 0 1; be 3; rbox 4 3 0; rbox 5 1 3;", refused(47, {6})},
      // No top: each element goes into something, a gate only into a box.
      {"rbox 0 1; be 1;", refused(47, {2})},
      {"be 0; be 1; rbox 2 0 1;", refused(47, {2})},
  };
  for (const auto& entry : stated) expect_tree_refused(std::string("the tree ") + entry.tree, tree_text(entry.tree), entry.refusal);
  for (const char* tree : {"be 0;", "be 0; be 1; and 2 0 1; be 3; rbox 4 3;", "and 0 1 2; be 1; be 2;", "be 61; or 62 61 63; be 63;"})
    expect_tree(tree, tree_text(tree), tree_image(tree_text(tree)));
}

// ---- 2, 4, 6 and 5

// Every byte but LF behind `be 0`, and before it; every cut of a good text.
void shapes() {
  for (unsigned byte = 0; byte < 256; ++byte) {
    const Text odd(1, static_cast<char>(byte));
    const std::string at = ", byte " + std::to_string(byte);
    if (byte != '\n') expect_tree_refused("behind a number" + at, "be\t0" + odd + "\n", refused(2, {1, 5}));
    if (byte != '\t') expect_tree_refused("behind a word" + at, "be" + odd + "0\n", refused(2, {1, 3}));
    const bool digit = byte >= '0' && byte <= '9';
    if (!digit) expect_tree_refused("for a number" + at, "be\t" + odd + "\n", refused(2, {1, 4}));
    if (!digit) expect_tree_refused("for an input" + at, "rbox\t1\t" + odd + "\n", refused(2, {1, 8}));
    if (byte != 'a' && byte != 'b' && byte != 'o' && byte != 'p' && byte != 'r')
      expect_tree_refused("for a word" + at, odd + "e\t0\n", refused(2, {1, 1}));
    if (byte != '\t' && byte != '\n') expect_tree_refused("behind an input" + at, "rbox\t1\t0" + odd + "\n", refused(2, {1, 9}));
    if (byte != 'b') expect_tree_refused("in a word" + at, "r" + odd + "ox\t1\t0\n", refused(2, {1, 2}));
  }
  const Text whole = tree_text("be 0; be 1; pand 12 1 0; rbox 33 1 0;");
  const std::size_t ends[] = {5, 10, 22};
  for (std::size_t cut = 1; cut < whole.size(); ++cut) {
    std::size_t line = 1, begin = 0;
    for (std::size_t end : ends)
      if (cut >= end) line = line + 1, begin = end;
    if (cut == begin) continue;  // a text of whole lines
    expect_tree_refused("cut after " + std::to_string(cut), whole.substr(0, cut), refused(2, {line, cut - begin + 1}));
  }
  const struct {
    const char* tree;
    std::uint64_t column;
  } words[] = {{"fdep 0 1;", 1}, {"vot 0 1 2;", 1}, {"sg 0 1;", 1}, {"comp 1 0;", 1}, {"act 0 out;", 2}, {"row 0 0 0 - 1;", 2}, {"orr 0 1 2;", 3},
               {"o 0 1 2;", 2},  {"an 0 1 2;", 3},  {"ann 0 1 2;", 3}, {"pan 0 1 2;", 4}, {"pandd 0 1 2;", 5}, {"rboxx 0 1;", 5}, {"bee 0;", 3}, {" be 0;", 1},
               {"be  0;", 4},    {"be 0 ;", 5},    {"be -1;", 4},      {"be +1;", 4},      {"be 00;", 5},   {"and 0 1  2;", 9}, {"and 0 1 2 ;", 10}, {"and 0 01 2;", 8}};
  for (const auto& entry : words) expect_tree_refused(std::string("the line ") + entry.tree, tree_text(entry.tree), refused(2, {1, entry.column}));
  expect_tree_refused("a blank line", "be\t0\n\nbe\t1\n", refused(2, {2, 1}));
  expect_tree_refused("a space for a tab", "be 0\n", refused(2, {1, 3}));
  expect_tree_refused("a tab at the end of a box's line", "rbox\t1\t0\t\n", refused(2, {1, 10}));
}

// The leftmost number at fault, and 2 before 4 before 6 in a line, whatever comes later.
void ranges() {
  for (const char* number : {"64", "65", "99", "100", "999", "1000", "99999"}) {
    const std::string n = number;
    expect_tree_refused("4: " + n, tree_text("be " + n + ";"), refused(4, {1, 4}));
    expect_tree_refused("4: a gate " + n, tree_text("pand " + n + " 70 80;"), refused(4, {1, 6}));
    expect_tree_refused("4: a first input " + n, tree_text("or 0 " + n + " 80;"), refused(4, {1, 6}));
    expect_tree_refused("4: a second input " + n, tree_text("or 0 1 " + n + ";"), refused(4, {1, 8}));
    expect_tree_refused("4: a fifth input " + n, tree_text("rbox 0 1 2 3 4 " + n + ";"), refused(4, {1, 16}));
    expect_tree_refused("4 before 6", tree_text("be 5; be " + n + ";"), refused(4, {2, 4}));
    expect_tree_refused("4 before 6, of an input", tree_text("be 5; rbox 4 " + n + ";"), refused(4, {2, 8}));
    expect_tree_refused("2 before 4", tree_text("be " + n + " 1;"), refused(2, {1, 4 + n.size()}));
  }
  expect_tree_refused("2 of a later line waits", tree_text("be 64; x;"), refused(4, {1, 4}));
  expect_tree_refused("6, and 2 of a later line waits", tree_text("be 1; be 0; x;"), refused(6, {2}));
  expect_tree_refused("6 over all kinds", tree_text("be 1; be 2; and 1 1 2;"), refused(6, {3}));
  expect_tree_refused("6 before 5", tree_text("and 5 6 7; be 5;"), refused(6, {2}));
  expect_tree_refused("2 before 5", tree_text("and 5 6 7; be 6"), refused(2, {2, 5}));
  expect_tree_refused("5: the leftmost", tree_text("be 0; and 5 6 7; rbox 8 9;"), refused(5, {2, 7}));
  expect_tree_refused("5: the least line", tree_text("be 0; and 5 0 0; rbox 8 0 9; or 10 11 12;"), refused(5, {3, 10}));
  expect_tree_refused("5 before 47", tree_text("and 5 5 7;"), refused(5, {1, 9}));
  expect_tree_refused("5: a fifth input", tree_text("be 0; be 1; be 2; be 3; rbox 63 0 1 2 3 4;"), refused(5, {5, 17}));
  // 64 lines are the most that ascend: each text that is longer is refused in its 65th line at the latest.
  Text all;
  for (unsigned n = 0; n < 64; ++n) all += "be\t" + std::to_string(n) + "\n";
  expect_tree_refused("64 elements", all, refused(47, {2}));
  for (unsigned n : {0, 63}) expect_tree_refused("65 lines", all + "be\t" + std::to_string(n) + "\n", refused(6, {65}));
  expect_tree_refused("65 lines, the last over 63", all + "be\t64\n", refused(4, {65, 4}));
  expect_tree_refused("a long text", repeated(all, 200), refused(6, {65}));
  Text widest;
  for (unsigned n = 10; n < 64; ++n) widest += "rbox\t" + std::to_string(n) + "\t63\t62\t61\t60\t59\n";
  expect_tree_refused("boxes in a circle", widest, refused(47, {1}));
}

// ---- 47 by way of long chains

// Gates in a row, each over the next, the last over a basic element; closed to a circle or not.
void circles() {
  for (unsigned gates : {2, 3, 31, 32, 62}) {
    Text chain, ring;
    for (unsigned g = 0; g < gates; ++g) {
      const std::string of = std::to_string(g), next = std::to_string(g + 1);
      chain += "and " + of + " " + next + " 63;";
      ring += "and " + of + " " + (g + 1 < gates ? next : "0") + " 63;";
    }
    chain += "be " + std::to_string(gates) + "; be 63;";
    ring += "be 63;";
    expect_tree_refused("a circle of " + std::to_string(gates), tree_text(ring), refused(47, {1}));
    const Text text = tree_text(chain);
    // Two basic elements have 24 rows and eight actions, each gate 54 and two.
    if (54 * gates + 24 > FLOODNEEDLE_ROWS || gates + 2 > FLOODNEEDLE_COMPONENTS) expect_tree_refused("a chain too long", text, refused(48, {0}));
    else expect_tree("a chain of " + std::to_string(gates), text, tree_image(text));
  }
}

// ---- 48

// So many basic elements, the first of them in one box; gates in a chain over them, of which the last are PAND.
Text chained(unsigned basic, unsigned boxed, unsigned gates, unsigned pands, const Text& gate) {
  Text text;
  unsigned number = 0, top = 0;
  for (; number < basic; ++number) text += "be " + std::to_string(number) + ";";
  for (unsigned g = 0; g < gates + pands; ++g, ++number) {
    const unsigned other = g + 1 < basic ? g + 1 : g % basic;
    text += (g < gates ? gate : "pand") + (" " + std::to_string(number) + " " + std::to_string(top) + " " + std::to_string(other)) + ";";
    top = number;
  }
  if (boxed > 0) {
    text += "rbox " + std::to_string(number);
    for (unsigned b = 0; b < boxed; ++b) text += " " + std::to_string(b);
    text += ";";
  }
  return tree_text(text);
}

void edges() {
  const struct {
    Text tree;
    unsigned components, rows, actions;  // 0 components where the model would be too large
  } trees[] = {
      {chained(7, 3, 15, 0, "or"), 23, 1024, 61}, {chained(2, 2, 2, 5, "or"), 0, 1025, 24},  {chained(11, 0, 10, 0, "or"), 21, 672, 64},
      {chained(11, 0, 11, 0, "or"), 0, 726, 66},  {chained(8, 0, 8, 0, "or"), 16, 528, 48},  {chained(8, 0, 9, 0, "or"), 17, 582, 50},
      {chained(5, 5, 4, 0, "and"), 10, 992, 33},  {chained(5, 5, 5, 0, "and"), 0, 1046, 35}, {chained(2, 0, 0, 5, "or"), 7, 864, 18},
      {chained(2, 0, 0, 6, "or"), 0, 1032, 20},   {chained(5, 0, 1, 3, "or"), 9, 978, 28},   {chained(16, 0, 15, 0, "or"), 0, 1002, 94},
  };
  for (const auto& entry : trees) {
    if (entry.components == 0) {
      expect_tree_refused("48: " + entry.tree, entry.tree, refused(48, {0}));
      continue;
    }
    const Table table = tree_image(entry.tree);
    expect_tree("at the edge: " + entry.tree, entry.tree, table);
    const Text text = written(table);
    second::Set actions = 0;
    unsigned rows = 0, components = 0;
    for (std::size_t at = 0; at < text.size(); at = text.find('\n', at) + 1) {
      if (text.compare(at, 4, "row\t") == 0) ++rows;
      if (text.compare(at, 5, "comp\t") == 0) ++components;
      if (text.compare(at, 4, "act\t") == 0) actions |= second::only(static_cast<unsigned>(std::stoul(text.substr(at + 4))));
    }
    unsigned count = 0;
    for (unsigned a = 0; a < 64; ++a) count += second::has(actions, a) ? 1 : 0;
    hold("trees at the edge of the limits are as large as stated", components == entry.components && rows == entry.rows && count == entry.actions,
         entry.tree);
  }
}

// ---- section 6

void worked() {
  const struct {
    const char* tree;
    const char* hash;
  } trees[] = {
      {"be 0; be 1; rbox 2 1;", "63e91bea3068aaef8ba00b1388a558162e46a9f811a8a7dad56bc2c5a2a88aa1"},
      {"pand 0 7 3; be 3; be 7;", "5cccc4f91e847c673026ffd7c81e297898fbda6fe5231aa512e5340480d9b502"},
      {"or 0 2 5; be 2; and 4 5 2; be 5; or 8 0 4; rbox 9 5 2;", "861825e9231abc436e303939c6be696354fd59e5afb516f2697846c849b2fb85"},
      {"be 1; be 2; be 3; be 4; be 5; and 6 1 2; rbox 7 3 1 5 4 2;", "e3402f0e8530d04a5b1b3d5c404c6f66e7580b4242beb8555c65d7d925c29a35"},
      {"be 0; be 1; be 2; or 3 0 1; rbox 4 2 0 1;", "103f3c00d540d8a1a7fd8e1e80710c7113b3e6756c45ea487a5045207b29352b"},
      {"be 0; be 1; be 2; be 3; and 4 0 1; rbox 5 3 0 2 1;", "bb30b7cae7646607af6c68d5ac55985db04041be5d49093f50d4df064f01ffd2"},
      {"be 63;", "e0de9aac6874cba25f4d2bac4145ae84f4ee1ae21b97fd4c52c45ba6168b229f"},
      {"be 0; be 1; be 2; be 3; pand 4 2 0; pand 5 3 1; or 6 4 0; or 7 5 1; and 8 6 7; rbox 9 0 1 2 3;",
       "f6aca52fed9dfd2ecc52265aa41cf606d92e69d70163090eea3b8237b9637d5b"},
      {"be 0; be 1; pand 2 0 1; be 3; rbox 4 3;", "f48a4f86c7740397c630c4e369cc36a11c3142b61b398664617e4b40313eaa27"},
  };
  for (const auto& entry : trees) {
    const Text tree = tree_text(entry.tree);
    const Table table = tree_image(tree);
    const Text text = written(table);
    hold("the texts of the worked trees are those of their SHA-256", sha256(text) == entry.hash, entry.tree);
    // The engine's table is that text's image, and the engine writes that text.
    expect_tree(entry.tree, tree, image(text));
    Loan loan = lent_table(table);
    loan.out = Bytes(text.size(), 0x77);
    Loan left = loan;
    left.out = bytes_of(text);
    expect(entry.tree, calls::write, loan, done(text.size()), left);
    for (const Call* call : {&calls::accept, &calls::orderly}) expect(entry.tree, *call, lent_table(table), done());
  }
}

// ---- what a tree's model does: a step of a clock, and the urgent actions behind it, by the lowest number

struct Instant {
  std::uint8_t action, clock;
  Bytes told;
  std::uint64_t resets;
  Bytes rest;
};

void run(const char* tree, const std::vector<Instant>& instants) {
  Loan loan = lent_table(tree_image(tree_text(tree)));
  loan.number = 9;
  loan.out = Bytes(9, 0x77);
  for (const Instant& instant : instants) {
    loan.path.insert(loan.path.end(), {instant.action, static_cast<std::uint8_t>(instant.clock + 1)});
    Loan left = loan;
    std::copy(instant.told.begin(), instant.told.end(), left.out.begin());
    expect(tree, calls::settle_after, loan, settled(FLOODNEEDLE_STABLE, instant.told.size(), instant.resets, instant.rest), left);
    for (std::uint8_t told : instant.told) loan.path.insert(loan.path.end(), {told, 0});
  }
}

void runs() {
  run("pand 0 7 3; be 3; be 7;", {{6, 2, {8}, 0, {10, 0, 1}}, {2, 0, {4, 0}, 0, {17, 1, 1}}});
  run("pand 0 7 3; be 3; be 7;", {{2, 0, {4}, 0, {5, 1, 0}}, {6, 2, {8}, 0, {19, 1, 1}}});
  run("be 1; be 2; or 3 1 2; rbox 4 2 1;", {{0, 0, {2, 4, 10}, 2, {2, 0, 1, 3}},
                                            {5, 2, {7}, 0, {2, 1, 2, 7}},
                                            {1, 1, {3, 9}, 8, {0, 2, 1, 5}},
                                            {6, 3, {8, 11}, 0, {0, 0, 0, 0}}});
  run("be 0; be 1; or 2 0 1; pand 3 2 0;", {{0, 0, {2, 8, 10}, 0, {1, 0, 1, 17}}});
}

}  // namespace

void stated_trees() {
  answers();
  shapes();
  ranges();
  circles();
  edges();
  worked();
  runs();
}
