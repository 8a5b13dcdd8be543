#include "damage.hpp"

#include <algorithm>

#include "number.hpp"

namespace second {
namespace {

using Lines = std::vector<std::string>;

const Lines odd_fields = {"",    "-",  "--",    "0",      "1",   "2",    "3",   "5",    "15",   "16",
                          "31", "32", "33", "63",  "64", "65", "127", "128", "129",    "99999",  "100000", "00", "01",  "007",  "+1",   "-1",
                          "-0",  "1.0", "0x1",  " 1",     "1 ",  "0,1",  "1,0", "1,1",  "0,",   ",0",
                          "0,,1", "-,0", "0,-", "63,64",  "in",  "out",  "uin", "uout", "Uout", "silent",
                          "comp", "act", "clk", "row",    "Comp", "name", "\r",  "1\r",  "from"};

const Lines odd_lines = {"",
                         "comp\t1\t0",
                         "comp\t64\t63",
                         "comp\t65\t0",
                         "comp\t128\t127",
                         "comp\t129\t0",
                         "comp\t0\t0",
                         "comp\t2\t2",
                         "comp\t100000\t0",
                         "comp\t1",
                         "act\t0\tin",
                         "act\t63\tuin",
                         "act\t64\tin",
                         "act\t1\tsilent",
                         "clk\t0\t1",
                         "clk\t63\t0",
                         "clk\t0\t2",
                         "clk\t64\t0",
                         "row\t0\t-\t0\t-\t0",
                         "row\t0\t0\t0\t0\t0",
                         "row\t0\t-\t64\t-\t0",
                         "row\t64\t-\t0\t-\t0",
                         "row\t0\t-\t0\t1,0\t0",
                         "row\t0\t-\t0\t-\t0\t",
                         "row 0 - 0 - 0",
                         "form\t0",
                         "\t"};

Lines lines_of(const std::string& text) {
  Lines lines;
  for (std::string_view line : parted(text, '\n')) lines.emplace_back(line);
  lines.pop_back();
  return lines;
}

std::string text_of(const Lines& lines) {
  std::string text;
  for (const std::string& line : lines) text += line + '\n';
  return text;
}

void change_field(Random& random, std::string& line) {
  Lines fields;
  for (std::string_view field : parted(line, '\t')) fields.emplace_back(field);
  std::string& field = fields[random.below(fields.size())];
  const auto number = number_in(field);
  if (number && random.chance(50)) field = std::to_string(*number + 2 - random.below(4));
  else field = random.pick(odd_fields);
  line = fields[0];
  for (std::size_t f = 1; f < fields.size(); ++f) line += '\t' + fields[f];
}

void damage_lines(Random& random, std::string& text) {
  Lines lines = lines_of(text);
  if (lines.empty()) return;
  const unsigned at = random.below(lines.size());
  const unsigned other = random.below(lines.size());
  switch (random.below(7)) {
    case 0:
    case 1: change_field(random, lines[at]); break;
    case 2: lines.erase(lines.begin() + at); break;
    case 3: {
      const std::string again = lines[at];
      lines.insert(lines.begin() + other, again);
      break;
    }
    case 4: std::swap(lines[at], lines[other]); break;
    case 5:
      if (at > 0) std::swap(lines[at], lines[at - 1]);
      break;
    default: lines.insert(lines.begin() + at, random.pick(odd_lines));
  }
  text = text_of(lines);
}

void damage_bytes(Random& random, std::string& text) {
  static const std::string odd_bytes("\0\n\t\r -,0123456789aAcr\x80\xff+", 25);
  if (text.empty()) return;
  const unsigned at = random.below(text.size());
  const char byte = odd_bytes[random.below(odd_bytes.size())];
  switch (random.below(5)) {
    case 0: text.erase(at, 1); break;
    case 1: text.insert(at, 1, byte); break;
    case 2: text[at] = byte; break;
    case 3: text.pop_back(); break;
    default: text.resize(at);
  }
}

void grow(Random& random, std::string& text) {
  const std::string whole = text;
  const unsigned times = random.between(1, 20);
  for (unsigned t = 0; t < times && text.size() < 70000; ++t) text += whole;
}

}  // namespace

std::string damaged_text(Random& random, std::string text) {
  for (unsigned count = random.between(1, 4); count > 0; --count) {
    const unsigned what = random.below(100);
    if (what < 75) damage_lines(random, text);
    else if (what < 96) damage_bytes(random, text);
    else grow(random, text);
  }
  return text;
}

std::string damaged_laws(Random& random, std::string text) {
  static const Lines fields_of_laws = {"0000000000000000", "8000000000000000", "3ff0000000000000", "3fefffffffffffff", "3ff0000000000001",
                                       "4270000000000000", "4270000000000001", "7ff0000000000000", "fff0000000000000", "7ff8000000000000",
                                       "7ff0000000000001", "ffffffffffffffff", "bff0000000000000", "0000000000000001", "3FF0000000000000",
                                       "3ff000000000000", "3ff00000000000000", "uni", "mix", "exp", "0", "63", ""};
  for (unsigned count = random.between(1, 2); count > 0; --count) {
    Lines lines = lines_of(text);
    const unsigned what = random.below(10);
    if (what < 2 || lines.empty()) damage_bytes(random, text);
    else if (what < 4) damage_lines(random, text);
    else {
      std::string& line = lines[random.below(lines.size())];
      Lines fields;
      for (std::string_view field : parted(line, '\t')) fields.emplace_back(field);
      const std::size_t at = random.below(fields.size());
      if (random.chance(10)) fields.push_back(fields[at]);
      else fields[at] = random.pick(fields_of_laws);
      line = fields[0];
      for (std::size_t f = 1; f < fields.size(); ++f) line += '\t' + fields[f];
      text = text_of(lines);
    }
  }
  return text;
}

std::string damaged_named(Random& random, std::string text) {
  static const Lines names = {"", "a", "a0", "a1", "a63", "a64", "A0", "0a", "-", "x y", "a\r", "abcdefghijklmnop", "abcdefghijklmnopq", "z9"};
  static const Lines lines_of_form = {"form\t2", "form\t1", "form\t02", "form\t2\t", "form", "name\t0\tx", "name\t63\tzz", "name\t64\tx",
                                      "name\t1", "name\t1\t", "name\tx\t1", "act\ta0\tin", "act\tnone\tin", "act\t\tin", "row\t0\t-\tnone\t-\t0",
                                      "comp\t1\t0"};
  for (unsigned count = random.between(1, 3); count > 0; --count) {
    Lines lines = lines_of(text);
    const unsigned what = random.below(100);
    if (what < 20 || lines.empty()) damage_bytes(random, text);
    else if (what < 45) damage_lines(random, text);
    else if (what < 65) {
      const unsigned at = random.below(lines.size() + 1);
      lines.insert(lines.begin() + at, random.pick(lines_of_form));
      text = text_of(lines);
    } else {
      std::string& line = lines[random.below(lines.size())];
      Lines fields;
      for (std::string_view field : parted(line, '\t')) fields.emplace_back(field);
      const std::size_t at = fields[0] == "row" ? 3 : fields[0] == "name" ? 2 : 1;
      if (at < fields.size()) fields[at] = random.pick(names);
      line = fields[0];
      for (std::size_t f = 1; f < fields.size(); ++f) line += '\t' + fields[f];
      text = text_of(lines);
    }
  }
  return text;
}

std::string damaged_tree(Random& random, std::string text) {
  static const Lines tree_lines = {"be\t0", "be\t63", "be\t64", "and\t5\t5\t6", "or\t62\t0\t1", "pand\t63\t0\t0", "rbox\t63\t0",
                                   "rbox\t60\t1\t2\t3\t4\t5\t6", "rbox\t61", "be\t1\t2", "sbe\t1", "and\t1\t2", ""};
  static const Lines words = {"be", "and", "or", "pand", "rbox", "fdep", "comp"};
  for (unsigned count = random.between(1, 3); count > 0; --count) {
    Lines lines = lines_of(text);
    const unsigned what = random.below(100);
    if (what < 15 || lines.empty()) damage_bytes(random, text);
    else if (what < 30) damage_lines(random, text);
    else if (what < 45) {
      const unsigned at = random.below(lines.size() + 1);
      lines.insert(lines.begin() + at, random.pick(tree_lines));
      text = text_of(lines);
    } else {
      // An input exchanged for another number that stands somewhere, or the word for another.
      std::string& line = lines[random.below(lines.size())];
      const Lines other_fields = [&] {
        Lines fields;
        for (std::string_view field : parted(lines[random.below(lines.size())], '\t')) fields.emplace_back(field);
        return fields;
      }();
      Lines fields;
      for (std::string_view field : parted(line, '\t')) fields.emplace_back(field);
      if (random.chance(25)) fields[0] = random.pick(words);
      else if (random.chance(30)) fields.push_back(other_fields.back());
      else fields.back() = other_fields.size() > 1 ? other_fields[1] : fields.back();
      line = fields[0];
      for (std::size_t f = 1; f < fields.size(); ++f) line += '\t' + fields[f];
      text = text_of(lines);
    }
  }
  return text;
}

std::string damaged_samples(Random& random, std::string text) {
  static const Lines odd_samples = {"0", "1", "01", "5", "63", "64", "007", "1099511627776", "1099511627777", "9999999999999",
                                    "10000000000000", "-5", "+5", "", "5 ", "5.0", "1,2", "\r", "0\t5", "5\t", "\t5"};
  for (unsigned count = random.between(1, 3); count > 0; --count) {
    Lines lines = lines_of(text);
    const unsigned what = random.below(10);
    if (what < 3) damage_bytes(random, text);
    else if (what < 5) damage_lines(random, text);
    else if (what < 8 && !lines.empty()) {
      std::string& line = lines[random.below(lines.size())];
      Lines fields;
      for (std::string_view field : parted(line, '\t')) fields.emplace_back(field);
      std::string& field = fields[random.below(fields.size())];
      field = random.pick(odd_samples);
      line = fields[0];
      for (std::size_t f = 1; f < fields.size(); ++f) line += '\t' + fields[f];
      text = text_of(lines);
    } else {
      text += random.pick(odd_samples);
      if (random.chance(80)) text += '\n';
    }
  }
  return text;
}

std::string request_line(const std::vector<std::uint8_t>& state, std::uint64_t budget) {
  std::string request = "from\t";
  for (std::size_t part = 0; part < state.size(); ++part) {
    if (part > 0) request += ',';
    request += std::to_string(state[part]);
  }
  return request + '\t' + std::to_string(budget) + '\n';
}

std::string damaged_request(Random& random, std::string request) {
  for (unsigned count = random.between(1, 3); count > 0; --count) {
    switch (random.below(6)) {
      case 0: damage_bytes(random, request); break;
      case 1: {
        std::string line = request.substr(0, request.find('\n'));
        change_field(random, line);
        request = line + '\n';
        break;
      }
      case 2: {
        const std::size_t at = request.find('\t');
        if (at != std::string::npos) request.insert(at + 1, random.chance(50) ? "128," : "0,");
        break;
      }
      case 3: {
        const std::size_t at = request.find('\t');
        const unsigned parts = random.between(100, 130);
        for (unsigned p = 0; at != std::string::npos && p < parts; ++p) request.insert(at + 1, "0,");
        break;
      }
      case 4: {
        static const Lines budgets = {"\t4097\n", "\t99999\n", "\t100000\n", "\t05\n", "\t+5\n", "\t-\n"};
        request = request.substr(0, request.rfind('\t')) + random.pick(budgets);
        break;
      }
      default: damage_lines(random, request);
    }
  }
  return request;
}

std::vector<std::uint64_t> lengthened_table(Random& random, std::vector<std::uint64_t> table) {
  for (unsigned count = random.pick(std::vector<unsigned>{1, 1, 2, 3, 5, 7, 63, 1001}); count > 0; --count)
    table.push_back(random.chance(20) ? 0 : random.next());
  return table;
}

std::vector<std::uint64_t> damaged_table(Random& random, std::vector<std::uint64_t> table) {
  if (random.chance(10)) {
    table.resize(random.chance(60) ? table.size() - 1 : random.below(table.size() + 9));
    return table;
  }
  std::vector<std::uint64_t> used;
  for (std::size_t w = 0; w < table.size(); ++w)
    if (table[w] != 0) used.push_back(w);
  for (unsigned count = random.between(1, 3); count > 0; --count) {
    // Most words of most tables are unused, so half the changes go to used ones.
    const std::uint64_t at = random.chance(50) && !used.empty() ? random.pick(used) : random.below(table.size());
    const std::uint64_t other = random.below(table.size());
    switch (random.below(7)) {
      case 0: table[at] += 1; break;
      case 1: table[at] -= 1; break;
      case 2: table[at] ^= only(random.below(64)); break;
      case 3: table[at] = random.below(70); break;
      case 4: table[at] = random.next(); break;
      case 5: table[at] = 0; break;
      default: std::swap(table[at], table[other]);
    }
  }
  return table;
}

}  // namespace second
