// Texts of trees, good and odd.
#include <algorithm>

#include "damage.hpp"
#include "generate.hpp"

namespace second {
namespace {

struct Drawn {
  std::string word;
  std::vector<unsigned> inputs;  // places among the drawn elements
};

// Gates over what has no gate yet, and at times over what has one, until a single one is left.
void add_gates(Random& random, std::vector<Drawn>& elements) {
  std::vector<unsigned> roots;
  for (unsigned e = 0; e < elements.size(); ++e) roots.push_back(e);
  const unsigned priority = random.pick(std::vector<unsigned>{0, 20, 60});
  for (unsigned extra = random.below(3); roots.size() > 1 || extra > 0;) {
    if (elements.size() < 2) return;
    random.shuffle(roots);
    const unsigned first = roots.back();
    unsigned other = roots[0];
    if (roots.size() == 1 || (extra > 0 && random.chance(30))) {
      --extra;
      other = random.below(elements.size());
      if (other == first) continue;
    }
    for (unsigned used : {first, other}) roots.erase(std::remove(roots.begin(), roots.end(), used), roots.end());
    const bool swapped = random.chance(50);
    const std::string word = random.chance(priority) ? "pand" : random.chance(50) ? "and" : "or";
    roots.push_back(static_cast<unsigned>(elements.size()));
    elements.push_back({word, swapped ? std::vector<unsigned>{other, first} : std::vector<unsigned>{first, other}});
  }
}

void add_boxes(Random& random, std::vector<Drawn>& elements, unsigned basic) {
  std::vector<unsigned> loose;
  for (unsigned e = 0; e < basic; ++e)
    if (random.chance(70)) loose.push_back(e);
  random.shuffle(loose);
  while (!loose.empty()) {
    Drawn box{"rbox", {}};
    for (unsigned count = random.between(1, 5); count > 0 && !loose.empty(); --count) {
      box.inputs.push_back(loose.back());
      loose.pop_back();
    }
    elements.push_back(box);
    if (random.chance(30)) return;
  }
}

}  // namespace

std::string generate_tree(Random& random, Size size) {
  const unsigned most = size == Size::small ? 4 : size == Size::medium ? 7 : 13;
  const unsigned basic = random.between(1, most);
  std::vector<Drawn> elements(basic, Drawn{"be", {}});
  add_gates(random, elements);
  if (basic > 1) add_boxes(random, elements, basic);
  // Any numbers, so that lines name later ones too.
  std::vector<unsigned> numbers;
  for (unsigned number = 0; number < members; ++number) numbers.push_back(number);
  random.shuffle(numbers);
  numbers.resize(elements.size());
  std::vector<unsigned> order;
  for (unsigned e = 0; e < elements.size(); ++e) order.push_back(e);
  std::sort(order.begin(), order.end(), [&](unsigned a, unsigned b) { return numbers[a] < numbers[b]; });
  std::string text;
  for (unsigned e : order) {
    text += elements[e].word + '\t' + std::to_string(numbers[e]);
    for (unsigned input : elements[e].inputs) text += '\t' + std::to_string(numbers[input]);
    text += '\n';
  }
  return text;
}

std::string generate_odd_tree(Random& random, Size size) {
  return damaged_tree(random, generate_tree(random, size));
}

}  // namespace second
