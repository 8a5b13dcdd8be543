#include "drawing.hpp"

#include "acceptance.hpp"
#include "composition.hpp"
#include "damage.hpp"
#include "path.hpp"
#include "reach.hpp"
#include "text_writing.hpp"
#include "tree.hpp"

namespace drawing {
namespace {

constexpr std::int64_t bound = second::tick_bound;

bool fits(const Drawn& drawn, const Bytes& state) { return drawn.accepted && second::fits(drawn.model, state.data(), state.size()); }

second::Set waiting(const Drawn& drawn, const Bytes& state) {
  second::State at;
  for (std::uint8_t part : state) at.parts[at.count++] = part;
  return second::enabling(drawn.model, at);
}

std::int64_t below(Random& random, std::int64_t most) { return static_cast<std::int64_t>(random.next() % static_cast<std::uint64_t>(most)); }

// Some member of the set, or 64 where it has none.
unsigned member(Random& random, second::Set of) {
  const unsigned from = random.below(second::members);
  for (unsigned n = 0; n < second::members; ++n)
    if (second::has(of, (from + n) % second::members)) return (from + n) % second::members;
  return second::members;
}

// The least value of those that wait: small, of any size, or the largest there is.
std::int64_t least_value(Random& random) {
  const unsigned style = random.below(10);
  if (style == 0) return bound;
  if (style < 4) return random.below(4);
  return below(random, std::int64_t{1} << random.between(3, 40));
}

}  // namespace

Drawn::Drawn(second::Model drawn)
    : model(std::move(drawn)), text(second::text_of_model(model)), table(second::image_of_model(model)), accepted(!second::acceptance(model)) {}

Bytes bytes_of(const std::string& text) { return Bytes(text.begin(), text.end()); }

Table noise(Random& random, std::size_t words) {
  Table table(words);
  for (std::uint64_t& word : table) word = random.next();
  return table;
}

Bytes noise_bytes(Random& random, std::size_t bytes) {
  Bytes buffer(bytes);
  for (std::uint8_t& byte : buffer) byte = static_cast<std::uint8_t>(random.next());
  return buffer;
}

second::Size size(Random& random) {
  if (random.chance(5)) return second::Size::large;
  return random.chance(30) ? second::Size::medium : second::Size::small;
}

second::Model model(Random& random) {
  const auto of_size = size(random);
  const unsigned kind = random.below(20);
  if (kind < 3) return second::generate_faulty(random, of_size);
  if (kind < 7) return second::generate_failing(random, 10 + random.below(9), of_size);
  if (kind < 8 && random.chance(20)) return second::generate_overlong(random);
  // The families at the limits are large and slow.
  return second::generate(random, second::families[random.chance(90) ? random.below(5) : random.below(10)], of_size);
}

second::Model turned(Random& random, second::Model model) {
  for (unsigned turns = random.between(1, 2); turns > 0; --turns) {
    second::Component& component = model.components[random.below(model.components.size())];
    if (component.rows.empty()) continue;
    component.rows[random.below(component.rows.size())].target = random.below(component.states);
  }
  return model;
}

second::Model opened(Random& random, second::Model model) {
  unsigned action = random.below(second::members);
  const auto has = [&](unsigned a) {
    return std::any_of(model.components.begin(), model.components.end(), [a](const second::Component& c) { return c.kind[a] != second::Kind::absent; });
  };
  for (unsigned n = 0; n < second::members && has(action); ++n) action = (action + 1) % second::members;
  if (has(action)) return model;
  second::Component& component = model.components[random.below(model.components.size())];
  component.kind[action] = random.chance(50) ? second::Kind::in : second::Kind::uin;
  return second::repaired(model, second::lacking_rows(model));
}

second::Model not_alone(Random& random) {
  const auto of_size = size(random);
  const second::Model closed = second::generate(random, second::Family::orderly, of_size);
  const unsigned style = random.below(10);
  return style < 6 ? closed : style < 9 ? turned(random, closed) : opened(random, closed);
}

namespace {

std::string text_of(second::Tree tree) {
  static const char* const words[] = {"be", "and", "or", "pand", "rbox"};
  std::sort(tree.elements.begin(), tree.elements.end(), [](const second::Element& a, const second::Element& b) { return a.number < b.number; });
  std::string text;
  for (const second::Element& element : tree.elements) {
    text += words[static_cast<unsigned>(element.sort)] + ('\t' + std::to_string(element.number));
    for (unsigned input : element.inputs) text += '\t' + std::to_string(input);
    text += '\n';
  }
  return text;
}

bool is_gate(const second::Element& element) { return element.sort != second::Sort::be && element.sort != second::Sort::rbox; }
bool is_box(const second::Element& element) { return element.sort == second::Sort::rbox; }

// The numbers that some element has as an input.
second::Set inputs_of(const second::Tree& tree) {
  second::Set used = 0;
  for (const second::Element& element : tree.elements)
    for (unsigned input : element.inputs) used |= second::only(input);
  return used;
}

}  // namespace

std::string misdrawn_tree(Random& random, unsigned condition) {
  const auto of_size = size(random);
  second::Tree tree = second::tree_of_text(second::generate_tree(random, of_size)).tree;
  std::vector<second::Element>& elements = tree.elements;
  second::Set taken = 0;
  for (const second::Element& element : elements) taken |= second::only(element.number);
  const unsigned fresh = member(random, ~taken);
  // Some element that is such, or none.
  const auto some = [&](auto is) -> second::Element* {
    const unsigned from = random.below(elements.size());
    for (std::size_t n = 0; n < elements.size(); ++n)
      if (second::Element& element = elements[(from + n) % elements.size()]; is(element)) return &element;
    return nullptr;
  };
  const second::Set used = inputs_of(tree);
  second::Element* gate = some(is_gate);
  second::Element* below = some([&](const second::Element& e) { return is_gate(e) && second::has(used, e.number); });
  second::Element* top = some([&](const second::Element& e) { return !is_box(e) && !second::has(used, e.number); });
  second::Element* box = some(is_box);
  switch (condition) {
    case 1:
      if (below != nullptr && random.chance(60)) below->inputs[random.below(2)] = top->number;
      else if (gate != nullptr) gate->inputs[random.below(2)] = gate->number;
      break;
    case 2: elements.push_back({second::Sort::be, fresh, {}}); break;
    case 3:
      if (box != nullptr && box->inputs.size() < 5) box->inputs.push_back(box->inputs[random.below(box->inputs.size())]);
      break;
    case 4:
      if (box != nullptr) elements.push_back({second::Sort::rbox, fresh, {box->number}});
      break;
    case 5:
      if (below != nullptr) elements.push_back({second::Sort::rbox, fresh, {below->number}});
      break;
    default:
      if (box != nullptr) elements.push_back({second::Sort::rbox, fresh, {box->inputs[random.below(box->inputs.size())]}});
  }
  return text_of(tree);
}

std::string crowded_names(Random& random) {
  std::string text = "form\t2\nname\t5\tx\n";
  if (random.chance(50)) {
    for (unsigned c = 0; c <= second::max_components; ++c) text += "comp\t1\t0\n";
    return text;
  }
  text += "comp\t128\t0\nact\tx\tin\nclk\t3\t0\nclk\t4\t0\nclk\t5\t0\n";
  for (unsigned row = 0; row <= 1024; ++row)
    text += "row\t" + std::to_string(row / 9) + "\t-\tx\t" + std::vector<std::string>{"-", "-", "3", "4", "3,4", "5", "3,5", "4,5", "3,4,5"}[row % 9] + "\t" +
            (row % 9 == 1 ? "1\n" : "0\n");
  return text;
}

std::string lengthy_names(Random& random) {
  std::string text = "form\t2\n";
  for (unsigned a = 0; a < 8; ++a) text += "name\t" + std::to_string(56 + a) + "\t" + static_cast<char>('a' + a) + "\n";
  text += "comp\t128\t0\n";
  for (unsigned a = 0; a < 8; ++a) text += std::string("act\t") + static_cast<char>('a' + a) + "\tin\n";
  for (unsigned x = 10; x < 20; ++x) text += "clk\t" + std::to_string(x) + "\t0\n";
  const unsigned target = 10 + random.below(90);
  for (unsigned row = 0; row < 1024; ++row)
    text += "row\t" + std::to_string(row / 8) + "\t-\t" + static_cast<char>('a' + row % 8) + "\t" + (row % 4 == 0 ? "10,11,12,13,14" : "10,11,12,13,14,15") + "\t" +
            std::to_string(target) + "\n";
  return text;
}

std::string lengthy_old(Random& random) {
  std::string text = "comp\t128\t0\n";
  for (unsigned a = 0; a < 8; ++a) text += "act\t" + std::to_string(a) + "\tin\n";
  for (unsigned x = 10; x < 16; ++x) text += "clk\t" + std::to_string(x) + "\t0\n";
  const unsigned target = 10 + random.below(90);
  for (unsigned row = 0; row < 1024; ++row)
    text += "row\t" + std::to_string(row / 8) + "\t-\t" + std::to_string(row % 8) + "\t" + (row % 4 == 0 ? "10,11,12,13,14" : "10,11,12,13,14,15") + "\t" +
            std::to_string(target) + "\n";
  return text;
}

std::string misfit_text(Random& random, std::string text) {
  static const std::vector<std::string> numbers = {"0", "1", "2", "3", "5", "12", "31", "62", "63", "64", "65", "127", "128", "129", "99999"};
  static const std::vector<std::string> misshapen = {"", "-", "00", "007", "100000", "1x", "+1", "--", "0-"};
  if (text.empty()) return text;
  const std::size_t some = random.below(text.size());
  const std::size_t comma = random.chance(70) ? text.find(',', some) : std::string::npos;
  const std::size_t at = comma == std::string::npos ? some : comma;
  const std::size_t before = at == 0 ? std::string::npos : text.rfind('\n', at - 1);
  std::size_t from = before == std::string::npos ? 0 : before + 1;
  std::size_t end = text.find('\n', from);
  if (end == std::string::npos) end = text.size();
  const unsigned percent = random.pick(std::vector<unsigned>{5, 20, 60});
  std::string line;
  // The first word stays; behind it each value between tabs and commas may go.
  for (bool first = true; from <= end; first = false) {
    const std::size_t to = std::min(end, text.find_first_of("\t,", from));
    const bool exchanged = random.chance(percent);
    const std::string& number = random.pick(numbers);
    const std::string& odd = random.pick(misshapen);
    const bool in_shape = random.chance(90);
    line += first || !exchanged ? text.substr(from, to - from) : in_shape ? number : odd;
    if (to < end) line += text[to];
    from = to + 1;
  }
  const std::size_t begin = before == std::string::npos ? 0 : before + 1;
  return text.replace(begin, end - begin, line);
}

Table lengthened(Random& random, Table table) {
  if (random.chance(60)) return table;
  const unsigned more = random.between(1, 9);
  for (unsigned word = 0; word < more; ++word) table.push_back(random.next());
  return table;
}

Table room(Random& random) {
  const std::size_t more = random.chance(60) ? 0 : random.below(9);
  return noise(random, second::image_words + more);
}

Table odd_room(Random& random) {
  const unsigned style = random.below(10);
  if (style < 8) return room(random);
  const std::size_t words = style < 9 ? second::image_words - 1 : random.below(3);
  return noise(random, words);
}

second::Model deaf(Random& random, second::Model model) {
  static const std::vector<unsigned> percents = {0, 2, 20, 60, 100};
  const unsigned percent = random.pick(percents);
  for (second::Component& component : model.components) {
    std::vector<second::Row> kept;
    for (const second::Row& row : component.rows)
      if (!second::is_input(component.kind[row.action]) || !random.chance(percent)) kept.push_back(row);
    component.rows = kept;
  }
  const unsigned more = random.chance(40) ? random.between(1, 6) : 0;
  for (unsigned n = 0; n < more; ++n) {
    second::Component& component = model.components[random.below(model.components.size())];
    second::Kind& kind = component.kind[random.below(second::members)];
    const bool urgent = random.chance(50);
    if (kind == second::Kind::absent) kind = urgent ? second::Kind::uin : second::Kind::in;
  }
  return model;
}

second::Model deaf_at_a_limit(Random& random) {
  for (;;) {
    const auto of_size = size(random);
    const second::Family family = second::families[random.below(5)];
    const second::Model some = deaf(random, second::generate(random, family, of_size));
    const std::vector<second::Cell> cells = second::lacking_rows(some);
    const second::Model whole = second::repaired(some, cells);
    const std::uint64_t text = second::text_of_model(some).size(), whole_text = second::text_of_model(whole).size();
    const bool by_rows = random.chance(50);
    const unsigned over = random.below(7);
    // Room for what is put in behind, and more that lacks than may be too much.
    if (cells.size() < 4 || some.components.size() + 3 > second::max_components) continue;
    if (second::count_rows(whole) > second::max_rows / 2 || whole_text > second::max_text / 3) continue;
    if (by_rows) return second::padded_to_rows(some, second::max_rows - cells.size() + over - 3);
    return second::padded_to_text(some, second::max_text - (whole_text - text) + over - 3);
  }
}

Bytes list_room(Random& random, const Drawn& drawn) {
  const std::size_t need = 3 * second::lacking_rows(drawn.model).size();
  const unsigned style = random.below(10);
  const std::size_t bytes = style < 5 ? need : style < 8 ? need + random.below(40) : style < 9 && need > 0 ? need - 1 : random.below(need + 1);
  return noise_bytes(random, bytes);
}

Bytes state(Random& random, const Drawn& drawn) {
  return random.chance(50) ? second::generate_state(random, drawn.model) : second::generate_calm_state(random, drawn.model);
}

Bytes unreached_state(Random& random, const Drawn& drawn) {
  Bytes parts = second::generate_reached_state(random, drawn.model);
  // Every such component in some draws, so that the lowest of several has to be told; else one of them.
  const bool all = random.chance(30);
  const unsigned from = random.below(parts.size());
  for (unsigned n = 0; n < parts.size(); ++n) {
    const unsigned c = (from + n) % parts.size();
    const std::vector<bool> reached = second::reached(drawn.model.components[c]);
    const unsigned first = random.below(reached.size());
    for (unsigned s = 0; s < reached.size(); ++s)
      if (!reached[(first + s) % reached.size()]) parts[c] = static_cast<std::uint8_t>((first + s) % reached.size());
    if (!all && !reached[parts[c]]) break;
  }
  return parts;
}

Bytes odd_state(Random& random, const Drawn& drawn) {
  if (random.chance(10)) return unreached_state(random, drawn);
  return random.chance(85) ? state(random, drawn) : second::generate_odd_state(random, drawn.model);
}

Bytes path(Random& random, const Drawn& drawn) {
  if (!drawn.accepted) return noise_bytes(random, 4);
  const unsigned most = random.chance(95) ? random.below(14) : random.chance(80) ? random.below(200) : static_cast<unsigned>(second::max_path);
  return second::generate_path(random, drawn.model, most);
}

Bytes odd_path(Random& random, const Drawn& drawn) {
  return drawn.accepted ? second::generate_odd_path(random, drawn.model) : noise_bytes(random, 5);
}

Bytes long_path(Random& random, const Drawn& drawn) {
  Bytes bytes = path(random, drawn);
  const std::size_t most = 2 * second::max_path;
  const auto byte = static_cast<std::uint8_t>(random.next());
  bytes.resize(most + 1 + (random.chance(70) ? random.below(3) : random.below(5000)), byte);
  return bytes;
}

Bytes after_path(const Drawn& drawn, const Bytes& path) {
  if (!drawn.accepted) return {};
  const second::Walk walk = second::walked(drawn.model, lent(path));
  return walk.refusal ? Bytes() : Bytes(walk.state.parts, walk.state.parts + walk.state.count);
}

Bytes list(Random& random, const Drawn& drawn, const Bytes& state) {
  if (!fits(drawn, state)) return noise_bytes(random, 3);
  const unsigned most = 1 + random.below(40);
  return second::generate_list(random, drawn.model, state, most);
}

Bytes odd_list(Random& random, const Drawn& drawn, const Bytes& state) {
  if (!fits(drawn, state) || random.chance(60)) return list(random, drawn, state);
  return second::generate_odd_list(random, drawn.model, state);
}

std::uint64_t action(Random& random, const Bytes& list) {
  if (!list.empty() && !random.chance(10)) return list[0];
  return random.chance(50) ? random.below(second::members) : random.next();
}

std::uint64_t budget(Random& random) { return random.chance(60) ? second::generate_budget(random) : second::generate_odd_budget(random); }

Bytes trace(Random& random, std::uint64_t budget) {
  const std::size_t exact = budget <= second::max_budget ? budget : 0;
  const std::size_t bytes = random.chance(80) ? exact + random.below(3) : random.below(exact + 1);
  return noise_bytes(random, bytes);
}

Clocks clocks(Random& random, const Drawn& drawn, const Bytes& state) {
  if (!fits(drawn, state)) return second::generate_ticks(random);
  const second::Set declared = second::clocks_of(drawn.model), waits = waiting(drawn, state);
  const std::int64_t least = least_value(random);
  const std::int64_t spread = random.chance(50) ? 1 + std::min<std::int64_t>(3, bound - least) : 1 + bound - least;
  const unsigned percent = random.pick(std::vector<unsigned>{10, 50, 90});
  Clocks values;
  for (unsigned x = 0; x < second::clock_values; ++x) {
    const bool low = random.chance(percent);
    if (!second::has(declared, x)) values.push_back(static_cast<std::int64_t>(random.next()));
    else if (second::has(waits, x)) values.push_back(least + below(random, spread));
    else if (low) values.push_back(-bound + below(random, std::min(2 * least + 2, 2 * bound + 1)));
    else values.push_back(-bound + below(random, 2 * bound + 1));
  }
  // One of those that wait is below the others, if it can be.
  const unsigned first = member(random, waits);
  if (first < second::members) values[first] = std::max<std::int64_t>(0, least - 1);
  return values;
}

Clocks odd_clocks(Random& random, const Drawn& drawn, const Bytes& state) {
  static const std::vector<std::size_t> lengths = {0, 1, second::clock_values - 1, second::clock_values + 1, 2 * second::clock_values};
  static const std::vector<std::int64_t> outside = {bound + 1, -bound - 1, INT64_MAX, INT64_MIN};
  const unsigned style = random.below(5);
  if (style == 0 || !fits(drawn, state)) return second::generate_odd_ticks(random);
  Clocks values = clocks(random, drawn, state);
  const second::Set waits = waiting(drawn, state);
  const unsigned some = member(random, second::clocks_of(drawn.model));
  const unsigned one = member(random, waits);
  const unsigned other = member(random, waits);
  const std::int64_t far = random.pick(outside);
  const std::int64_t low = -1 - below(random, bound);
  if (style == 1) values.resize(random.pick(lengths));
  else if (style == 2 && some < second::members) values[some] = far;
  else if (style == 3 && one < second::members) values[one] = low;
  else if (one < second::members) {
    std::int64_t least = values[one];
    for (unsigned x = 0; x < second::clock_values; ++x)
      if (second::has(waits, x)) least = std::min(least, values[x]);
    values[one] = values[other] = least;
  }
  return values;
}

std::uint64_t rounds(Random& random) {
  const unsigned style = random.below(100);
  if (style < 80) return random.below(12);
  return style < 97 ? random.below(120) : second::max_rounds - random.below(3);
}

std::uint64_t odd_rounds(Random& random) {
  static const std::vector<std::uint64_t> over = {second::max_rounds + 1, second::max_rounds + 2, 65536, std::uint64_t{1} << 32,
                                                  (std::uint64_t{1} << 32) + 1, std::uint64_t{1} << 63, ~std::uint64_t{0}};
  return random.pick(over);
}

Bytes samples(Random& random, const Drawn& drawn, std::uint64_t rounds) {
  const unsigned style = random.below(10);
  const std::uint64_t taken = std::min<std::uint64_t>(rounds, second::max_rounds);
  if (!drawn.accepted || style < 3) return bytes_of(second::generate_samples(random, drawn.model, random.below(std::min<std::uint64_t>(taken, 60) + 3)));
  if (style < 6) return bytes_of(second::generate_scant_samples(random, drawn.model, taken));
  return bytes_of(second::generate_exact_samples(random, drawn.model, taken));
}

Bytes odd_samples(Random& random, const Drawn& drawn, std::uint64_t rounds) {
  const unsigned most = random.below(std::min<std::uint64_t>(rounds, 9) + 2);
  if (!drawn.accepted || random.chance(50)) return bytes_of(second::generate_odd_samples(random, drawn.model, most));
  return bytes_of(second::damaged_samples(random, second::generate_exact_samples(random, drawn.model, most)));
}

Bytes laws(Random& random, const Drawn& drawn) { return bytes_of(second::generate_laws(random, drawn.model)); }
Bytes odd_laws(Random& random, const Drawn& drawn) { return bytes_of(second::generate_odd_laws(random, drawn.model)); }

// A clock draws at most once in a round, by at most two numbers.
Table numbers(Random& random, std::uint64_t rounds) {
  Table all = second::generate_numbers(random);
  const std::uint64_t rows = std::min<std::uint64_t>(rounds, 130) + 1;
  if (random.chance(40)) return all;
  const std::size_t count = second::members * 2 * rows - (random.chance(50) ? random.below(second::members * 2) : 0);
  while (all.size() < count) all.push_back(random.next());
  return all;
}

Clocks values(Random& random) {
  if (random.chance(30)) return second::generate_ticks(random);
  Clocks any;
  for (unsigned x = 0; x < second::clock_values; ++x) any.push_back(static_cast<std::int64_t>(random.next()));
  return any;
}

Clocks odd_values(Random& random) {
  static const std::vector<std::size_t> lengths = {0, 1, second::clock_values - 1, second::clock_values + 1, 2 * second::clock_values};
  Clocks any = values(random);
  any.resize(random.pick(lengths), 7);
  return any;
}

}  // namespace drawing
