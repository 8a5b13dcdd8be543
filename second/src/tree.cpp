#include "tree.hpp"

#include <algorithm>
#include <optional>

#include "limits.hpp"
#include "line_shape.hpp"
#include "sets.hpp"

namespace second {
namespace {

struct TreeLine {
  Sort sort = Sort::be;
  Number number;
  std::vector<Number> inputs;
};

// One line with its LF; the scan stands at the first wrong byte where it is of wrong shape.
std::optional<TreeLine> tree_line(Scan& scan) {
  constexpr Sort sorts[] = {Sort::be, Sort::both, Sort::either, Sort::pand, Sort::rbox};
  TreeLine line;
  const auto word = scan.word({"be", "and", "or", "pand", "rbox"});
  if (!word) return std::nullopt;
  line.sort = sorts[*word];
  if (!scan_number(scan, line.number)) return std::nullopt;
  const unsigned least = line.sort == Sort::be ? 0 : line.sort == Sort::rbox ? 1 : 2;
  const unsigned most = line.sort == Sort::rbox ? 5 : least;
  while (line.inputs.size() < most && (line.inputs.size() < least || scan.next_is('\t'))) {
    Number input;
    if (!scan_number(scan, input)) return std::nullopt;
    line.inputs.push_back(input);
  }
  if (!scan.byte('\n')) return std::nullopt;
  return line;
}

// The column of the first value from the left that is out of range, or 0.
std::uint64_t out_of_range(const TreeLine& line) {
  if (line.number.value >= members) return line.number.column;
  for (const Number& input : line.inputs)
    if (input.value >= members) return input.column;
  return 0;
}

const Element* find(const Tree& tree, unsigned number) {
  for (const Element& element : tree.elements)
    if (element.number == number) return &element;
  return nullptr;
}

// (i) A way along edges from an element to itself.
bool has_cycle(const Tree& tree) {
  Set below[members] = {};
  for (const Element& element : tree.elements)
    for (unsigned input : element.inputs) below[element.number] |= only(input);
  for (unsigned k = 0; k < members; ++k)
    for (unsigned number = 0; number < members; ++number)
      if (has(below[number], k)) below[number] |= below[k];
  for (unsigned number = 0; number < members; ++number)
    if (has(below[number], number)) return true;
  return false;
}

// (ii) The elements that are no box and no input of anything.
unsigned tops(const Tree& tree) {
  Set used = 0;
  for (const Element& element : tree.elements)
    for (unsigned input : element.inputs) used |= only(input);
  unsigned count = 0;
  for (const Element& element : tree.elements)
    if (element.sort != Sort::rbox && !has(used, element.number)) ++count;
  return count;
}

// (iii)
bool input_twice(const Element& element) {
  Set seen = 0;
  for (unsigned input : element.inputs) {
    if (has(seen, input)) return true;
    seen |= only(input);
  }
  return false;
}

// (vi)
bool in_two_boxes(const Tree& tree) {
  Set seen = 0;
  for (const Element& element : tree.elements) {
    if (element.sort != Sort::rbox) continue;
    Set own = 0;
    for (unsigned input : element.inputs) own |= only(input);
    if ((seen & own) != 0) return true;
    seen |= own;
  }
  return false;
}

}  // namespace

TreeReading tree_of_text(std::string_view text) {
  std::vector<TreeLine> lines;
  for (std::uint64_t number = 1; !text.empty(); ++number) {
    Scan scan(text);
    const auto line = tree_line(scan);
    if (!line) return {refuse(2, {number, scan.column()}), {}};
    if (const auto column = out_of_range(*line)) return {refuse(4, {number, column}), {}};
    if (!lines.empty() && line->number.value <= lines.back().number.value) return {refuse(6, {number}), {}};
    lines.push_back(*line);
    text.remove_prefix(scan.column() - 1);
  }
  Tree tree;
  for (const TreeLine& line : lines) {
    Element element{line.sort, line.number.value, {}};
    for (const Number& input : line.inputs) element.inputs.push_back(input.value);
    tree.elements.push_back(element);
  }
  for (std::size_t l = 0; l < lines.size(); ++l)
    for (const Number& input : lines[l].inputs)
      if (find(tree, input.value) == nullptr) return {refuse(5, {l + 1, input.column}), {}};
  return {Refusal{}, tree};
}

Refusal tree_conditions(const Tree& tree) {
  const auto any_edge = [&](auto broken) {
    for (const Element& element : tree.elements)
      for (unsigned input : element.inputs)
        if (broken(*find(tree, input), element)) return true;
    return false;
  };
  if (has_cycle(tree)) return refuse(47, {1});
  if (tops(tree) != 1) return refuse(47, {2});
  if (std::any_of(tree.elements.begin(), tree.elements.end(), input_twice)) return refuse(47, {3});
  if (any_edge([](const Element& from, const Element&) { return from.sort == Sort::rbox; })) return refuse(47, {4});
  if (any_edge([](const Element& from, const Element& to) { return to.sort == Sort::rbox && from.sort != Sort::be; }))
    return refuse(47, {5});
  if (in_two_boxes(tree)) return refuse(47, {6});
  return {};
}

}  // namespace second
