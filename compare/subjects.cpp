#include "subjects.hpp"

#include "generate.hpp"
#include "random.hpp"
#include "samples.hpp"
#include "table.hpp"
#include "names.hpp"
#include "text_writing.hpp"
#include "texts.hpp"

namespace {

using second::Component;
using second::Kind;
using second::Model;
using second::Row;

Subject subject(const std::string& name, Model model, Bytes state = {}) {
  for (Component& component : model.components) std::sort(component.rows.begin(), component.rows.end());
  const std::string text = second::text_of_model(model);
  if (state.empty())
    for (const Component& component : model.components) state.push_back(static_cast<std::uint8_t>(component.start));
  return {name, model, Bytes(text.begin(), text.end()), second::image_of_model(model), state};
}

void add_row(Component& component, unsigned from, unsigned action, second::Set resets, unsigned target, int guard = second::no_clock) {
  Row row;
  row.from = from;
  row.guard = guard;
  row.action = action;
  row.resets = resets;
  row.target = target;
  component.rows.push_back(row);
}

// A row for the action in every state, each on by the same number: such rows meet again in any order.
void add_turns(Component& component, unsigned action, Kind kind, second::Set resets, unsigned by) {
  component.kind[action] = kind;
  for (unsigned s = 0; s < component.states; ++s) add_row(component, s, action, resets, (s + by) % component.states);
}

// How many outputs each of so many components has: four, or what the actions are enough for.
unsigned outputs_of_each(unsigned components) { return std::min(4u, second::members / components); }

// A component of four states and a clock that hears all outputs of each of the next three.
Component hearing_next(unsigned c, unsigned components, Kind kind, unsigned clock) {
  const unsigned own = outputs_of_each(components);
  Component component;
  component.states = 4;
  component.clocks = second::only(clock);
  for (unsigned other = c + 1; other <= c + 3 && other < c + components; ++other)
    for (unsigned k = 0; k < own; ++k) add_turns(component, own * (other % components) + k, kind, 0, k);
  return component;
}

std::string counted(unsigned count, const char* what) { return std::to_string(count) + " " + what; }

}  // namespace

Subject paper_model() {
  Table table(second::image_words);
  const Bytes text(m.begin(), m.end());
  second::read(lent(text), {table.data(), table.size()});
  return subject("M", *second::model_of_image(lent(table)), {1, 0});
}

Subject long_rows(unsigned states) {
  Component component;
  component.states = states;
  component.clocks = 0xff;
  for (unsigned action = 48; action < 64; ++action) {
    component.kind[action] = Kind::in;
    for (unsigned s = 0; s < states; ++s) add_row(component, s, action, component.clocks, states - 1 - s);
  }
  return subject(counted(16 * states, "long rows"), {{component}});
}

Subject one_component(unsigned states, unsigned actions) {
  Component component;
  component.states = states;
  component.clocks = 0xf;
  for (unsigned action = 0; action < actions; ++action)
    add_turns(component, action, action % 2 == 0 ? Kind::uin : Kind::uout, action % 3 == 0 ? 1u << action % 4 : 0, action);
  return subject(counted(states, "states by ") + counted(actions, "actions"), {{component}});
}

Subject many_components(unsigned components) {
  Model model;
  for (unsigned c = 0; c < components; ++c) model.components.push_back(hearing_next(c, components, Kind::uin, c));
  const unsigned own = outputs_of_each(components);
  for (unsigned c = 0; c < components; ++c)
    for (unsigned k = 0; k < own; ++k) add_turns(model.components[c], own * c + k, Kind::uout, second::only(c), k);
  return subject(counted(components, "components"), model);
}

Subject few_move(unsigned components) {
  Subject many = many_components(components);
  // The first has one output in each state, so that the actions taken change from step to step; what it hears does not move it.
  Component& first = many.model.components[0];
  first.rows.clear();
  for (unsigned s = 0; s < 4; ++s) {
    for (unsigned action = 0; action < second::members; ++action)
      if (first.kind[action] == Kind::uin) add_row(first, s, action, 0, s);
    add_row(first, s, s % outputs_of_each(components), first.clocks, (s + 1) % 4);
  }
  return subject(counted(components, "components, few move"), many.model);
}

Subject all_move(unsigned components) {
  Model model;
  Component first;
  first.states = 16;
  first.clocks = 1;
  for (unsigned action = 0; action < 16; ++action) {
    first.kind[action] = Kind::uout;
    add_row(first, action, action, action % 2, (action + 1) % 16);
  }
  model.components.push_back(first);
  for (unsigned c = 1; c < components; ++c) {
    Component component;
    component.states = components > 16 ? 2 : 3;
    component.clocks = second::only(c);
    for (unsigned action = 0; action < 16; ++action) add_turns(component, action, Kind::uin, action % 5 == 0 ? component.clocks : 0, action % component.states);
    model.components.push_back(component);
  }
  return subject(counted(components, "components, all move"), model);
}

Subject slow_sets(unsigned states) {
  Component component;
  component.states = states;
  component.start = states - 1;
  component.clocks = 1;
  for (unsigned action = 0; action < second::max_rows / states; ++action) {
    component.kind[action] = Kind::uout;
    for (unsigned s = 0; s < states; ++s) add_row(component, s, action, 0, s == 0 ? 0 : s - 1);
  }
  return subject(counted(states, "passes"), {{component}});
}

Subject waiting(unsigned components) {
  Model model;
  const unsigned own = outputs_of_each(components);
  for (unsigned c = 0; c < components; ++c) {
    Component component = hearing_next(c, components, Kind::in, own * c);
    for (unsigned clock = own * c; clock < own * c + own; ++clock) {
      component.clocks |= second::only(clock);
      component.kind[clock] = Kind::out;
      for (unsigned s = 0; s < 4; ++s) add_row(component, s, clock, second::only(clock), (s + clock) % 4, static_cast<int>(clock));
    }
    component.started = component.clocks;
    model.components.push_back(component);
  }
  return subject(counted(components, components == 1 ? "component waiting" : "components waiting"), model);
}

Subject plant(unsigned components, unsigned counts) {
  Model model;
  for (unsigned c = 0; c < components; ++c) {
    Component component;
    // States below `counts` run, the others tell.
    component.states = 2 * counts;
    component.clocks = component.started = second::only(c);
    const unsigned ends = 2 * c, tells = 2 * c + 1;
    component.kind[ends] = Kind::out;
    component.kind[tells] = Kind::uout;
    for (unsigned k = 0; k < counts; ++k) {
      add_row(component, k, ends, 0, counts + k, static_cast<int>(c));
      add_row(component, counts + k, tells, component.clocks, k);
    }
    for (unsigned other = c + 1; other <= c + 3 && other < c + components; ++other)
      for (unsigned heard : {2 * (other % components), 2 * (other % components) + 1}) {
        component.kind[heard] = heard % 2 == 0 ? Kind::in : Kind::uin;
        for (unsigned s = 0; s < component.states; ++s)
          add_row(component, s, heard, 0, s < counts ? (s + 1) % counts : counts + (s + 1) % counts);
      }
    model.components.push_back(component);
  }
  return subject(counted(components, "components running"), model);
}

Subject in_turn(unsigned sources) {
  Model model;
  for (unsigned c = 0; c < sources; ++c) {
    Component component;
    component.states = 4;
    component.clocks = component.started = second::only(c);
    component.kind[3 * c] = Kind::out;
    for (unsigned turn = 0; turn < 2; ++turn) {
      component.kind[3 * c + 1 + turn] = Kind::uout;
      add_row(component, 2 * turn, 3 * c, 0, 2 * turn + 1, static_cast<int>(c));
      add_row(component, 2 * turn + 1, 3 * c + 1 + turn, component.clocks, (2 * turn + 2) % 4);
    }
    model.components.push_back(component);
  }
  for (unsigned c = 0; c < sources; ++c) {
    Component component;
    component.states = 3;
    for (unsigned other = c; other < c + 4 && other < c + sources; ++other)
      for (unsigned turn = 0; turn < 2; ++turn) {
        const unsigned heard = 3 * (other % sources) + 1 + turn;
        component.kind[heard] = Kind::uin;
        for (unsigned s = 0; s < 3; ++s) add_row(component, s, heard, 0, s == 0 ? 1 + turn : s);
      }
    model.components.push_back(component);
  }
  return subject(counted(2 * sources, "components, in turn"), model);
}

Subject triggering(unsigned states) {
  Component component;
  component.states = states;
  for (unsigned s = 0; s < states; ++s) {
    component.kind[s] = Kind::uout;
    add_row(component, s, s, 0, (s + 1) % states);
  }
  return subject(counted(states, "that trigger one another"), {{component}});
}

Subject far_clash(unsigned states) {
  Component component;
  component.states = states;
  component.kind[1] = component.kind[2] = Kind::uout;
  for (unsigned s = 0; s < states; ++s) add_row(component, s, 1, 0, (s + 1) % states);
  add_row(component, states - 1, 2, 0, 1);
  return subject(counted(states, "in a row, two actions part in the last"), {{component}});
}

Subject named(Subject of) {
  second::Sheet sheet = second::default_sheet(of.model);
  unsigned next = 0;
  for (auto& name : sheet)
    if (name) {
      *name = std::string(1, static_cast<char>('a' + next % 24)) + (next < 24 ? "" : std::to_string(next / 24));
      ++next;
    }
  const std::string text = second::named_text_of_model(of.model, sheet);
  of.text = Bytes(text.begin(), text.end());
  return of;
}

Subject chained_tree(unsigned basic, unsigned boxed, unsigned gates, unsigned pands) {
  std::string text, box;
  unsigned top = 0;
  for (unsigned b = 0; b < basic; ++b) text += "be\t" + std::to_string(b) + "\n";
  for (unsigned g = 0; g < gates + pands; ++g) {
    const unsigned other = g + 1 < basic ? g + 1 : g % basic;
    text += std::string(g < gates ? "or\t" : "pand\t") + std::to_string(basic + g) + "\t" + std::to_string(top) + "\t" + std::to_string(other) + "\n";
    top = basic + g;
  }
  for (unsigned b = 0; b < boxed; ++b) box += "\t" + std::to_string(b);
  if (boxed > 0) text += "rbox\t" + std::to_string(basic + gates + pands) + box + "\n";
  Table table(second::image_words);
  const Bytes tree(text.begin(), text.end());
  second::read_tree(lent(tree), {table.data(), table.size()});
  Subject of = subject(counted(basic + gates + pands + (boxed > 0 ? 1 : 0), "elements of a tree"), *second::model_of_image(lent(table)));
  of.text = tree;
  return of;
}

Bytes path_of(const Subject& of, unsigned steps) {
  second::Random random(1);
  return second::generate_path(random, of.model, steps);
}

Bytes recorded(const Subject& of, unsigned samples) {
  second::Random random(1);
  second::SampleLists lists;
  const second::Set declared = second::clocks_of(of.model);
  // Clock x ends at x past a multiple of 64, so that no two end at once.
  for (unsigned x = 0; x < second::members; ++x)
    for (unsigned n = 0; second::has(declared, x) && n < samples; ++n)
      lists[x].push_back(64 * static_cast<std::int64_t>(random.between(1, 100000)) + (n == 0 ? x : 0));
  const std::string text = second::text_of_samples(lists, declared);
  return Bytes(text.begin(), text.end());
}

Bytes distributed(const Subject& of, bool mixture) {
  const std::string range = "\t3ff0000000000000\t426ffffffffffff0";
  std::string text;
  for (unsigned x = 0; x < second::members; ++x) {
    if (!second::has(second::clocks_of(of.model), x)) continue;
    text += std::to_string(x);
    text += mixture ? "\tmix\t3fe0000000000000" + range + range : "\tuni" + range;
    text += '\n';
  }
  return Bytes(text.begin(), text.end());
}

Table random_numbers(std::size_t count) {
  second::Random random(2);
  Table numbers(count);
  for (std::uint64_t& number : numbers) number = random.next();
  return numbers;
}

Subject to_merge(unsigned left, unsigned right, unsigned actions) {
  Model model;
  for (unsigned c = 0; c < 2; ++c) {
    Component component;
    component.states = c == 0 ? left : right;
    component.clocks = second::only(c);
    for (unsigned k = 0; k < actions; ++k) add_turns(component, 2 * k + c, Kind::in, k % 2 == 0 ? component.clocks : 0, k);
    model.components.push_back(component);
  }
  return subject(counted(left * right, "pairs into ") + counted(2 * left * right * actions, "rows"), model);
}

Subject deaf_paper_model() {
  Model model = paper_model().model;
  model.components.back().rows.pop_back();
  return subject("M without its last row", model);
}

Subject deaf(unsigned states, unsigned inputs, unsigned every) {
  Component component;
  component.states = states;
  for (unsigned action = 0; action < inputs; ++action) component.kind[action] = Kind::in;
  for (unsigned cell = 0; cell < states * inputs; ++cell)
    if (cell % every != 0) add_row(component, cell / inputs, cell % inputs, 0, 0);
  return subject(counted(states, states == 1 ? "state by " : "states by ") + counted(inputs, "inputs, of which lack ") + std::to_string((states * inputs + every - 1) / every), {{component}});
}

Subject many_deaf(unsigned components) {
  Model model;
  for (unsigned c = 0; c < components; ++c) model.components.push_back(deaf(2, 16, 1).model.components[0]);
  return subject(counted(components, "components that lack ") + counted(32, "each"), model);
}

Subject damaged(Subject whole, const std::string& name, std::size_t word) {
  whole.name = name;
  whole.table[word] ^= second::only(63);
  return whole;
}
