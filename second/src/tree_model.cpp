#include "tree_model.hpp"

#include <algorithm>
#include <functional>
#include <map>
#include <optional>

#include "text_writing.hpp"

namespace second {
namespace {

// The values of a module's variables, the first declared in front.
using Vars = std::vector<unsigned>;
// The values after a step, or nothing where the step's condition fails.
using Change = std::function<std::optional<Vars>(Vars)>;

// A module in the manner of 000: variables, and steps by action.
class Module {
 public:
  explicit Module(Vars sizes_of_variables) : sizes(std::move(sizes_of_variables)) {
    component.states = 1;
    for (unsigned size : sizes) component.states *= size;
  }

  void clock(unsigned number, bool set) {
    component.clocks |= only(number);
    if (set) component.started |= only(number);
  }

  // A row for each state in which the change goes; an input's row is a self-loop elsewhere.
  void step(unsigned action, Kind kind, const Change& change, int guard = no_clock, Set resets = 0) {
    component.kind[action] = kind;
    for (unsigned state = 0; state < component.states; ++state) {
      const auto after = change(values(state));
      if (!after && !is_input(kind)) continue;
      Row row;
      row.from = state;
      row.guard = guard;
      row.action = action;
      row.resets = after ? resets : 0;
      row.target = after ? state_of(*after) : state;
      component.rows.push_back(row);
    }
  }

  Component done() {
    std::sort(component.rows.begin(), component.rows.end());
    return component;
  }

 private:
  Vars sizes;
  Component component;

  Vars values(unsigned state) const {
    Vars vars(sizes.size());
    for (std::size_t v = sizes.size(); v-- > 0; state /= sizes[v]) vars[v] = state % sizes[v];
    return vars;
  }
  unsigned state_of(const Vars& vars) const {
    unsigned state = 0;
    for (std::size_t v = 0; v < sizes.size(); ++v) state = state * sizes[v] + vars[v];
    return state;
  }
};

Component basic_element(const Signals& own) {
  enum { signal, broken };
  Module be({3, 3});
  be.clock(own.fc, true);
  be.clock(own.rc, false);
  be.step(own.fl, Kind::out, [](Vars v) -> std::optional<Vars> {
    if (v[broken] != 0) return std::nullopt;
    return Vars{1, 1};
  }, static_cast<int>(own.fc));
  if (own.boxed)
    be.step(own.r, Kind::uin, [](Vars v) -> std::optional<Vars> {
      if (v[broken] != 1) return std::nullopt;
      return Vars{v[signal], 2};
    }, no_clock, only(own.rc));
  be.step(own.up, Kind::out, [](Vars v) -> std::optional<Vars> {
    if (v[broken] != 2) return std::nullopt;
    return Vars{2, 0};
  }, static_cast<int>(own.rc), only(own.fc));
  const auto informs = [](unsigned value) {
    return [value](Vars v) -> std::optional<Vars> {
      if (v[signal] != value) return std::nullopt;
      return Vars{0, v[broken]};
    };
  };
  be.step(own.f, Kind::uout, informs(1));
  be.step(own.u, Kind::uout, informs(2));
  return be.done();
}

// AND is down while 2 of its inputs are, OR while 1 is.
Component counting_gate(const Signals& own, const Signals& first, const Signals& second, unsigned needed) {
  enum { signalf, signalu, count };
  Module gate({2, 2, 3});
  for (const Signals* input : {&first, &second}) {
    gate.step(input->f, Kind::uin, [needed](Vars v) -> std::optional<Vars> {
      if (v[count] == 2) return std::nullopt;
      ++v[count];
      if (v[count] == needed) v[signalf] = 1;
      return v;
    });
    gate.step(input->u, Kind::uin, [needed](Vars v) -> std::optional<Vars> {
      if (v[count] == 0) return std::nullopt;
      if (v[count] == needed) v[signalu] = 1;
      --v[count];
      return v;
    });
  }
  gate.step(own.f, Kind::uout, [needed](Vars v) -> std::optional<Vars> {
    if (v[signalf] == 0 || v[count] < needed) return std::nullopt;
    v[signalf] = 0;
    return v;
  });
  gate.step(own.u, Kind::uout, [needed](Vars v) -> std::optional<Vars> {
    if (v[signalu] == 0 || v[count] >= needed) return std::nullopt;
    v[signalu] = 0;
    return v;
  });
  return gate.done();
}

// `timed` are the failures and repairs of all basic elements: each tells that time has passed.
Component priority_gate(const Signals& own, const Signals& first, const Signals& second, const std::vector<unsigned>& timed) {
  enum { f0, f1, st };
  enum { up, inform_fail, failed, inform_up, unbreakable };
  Module gate({2, 2, 5});
  for (unsigned action : timed)
    gate.step(action, Kind::in, [](Vars v) -> std::optional<Vars> {
      if (v[st] != up || v[f1] == 0 || v[f0] == 1) return std::nullopt;
      v[st] = unbreakable;
      return v;
    });
  gate.step(first.f, Kind::uin, [](Vars v) -> std::optional<Vars> {
    if (v[f0] == 1) return std::nullopt;
    if (v[st] == up && v[f1] == 1) v[st] = inform_fail;
    v[f0] = 1;
    return v;
  });
  gate.step(second.f, Kind::uin, [](Vars v) -> std::optional<Vars> {
    if (v[f1] == 1) return std::nullopt;
    if (v[st] == up && v[f0] == 1) v[st] = inform_fail;
    else if (v[st] == inform_up) v[st] = failed;
    v[f1] = 1;
    return v;
  });
  gate.step(first.u, Kind::uin, [](Vars v) -> std::optional<Vars> {
    if (v[f0] == 0) return std::nullopt;
    if (v[st] == inform_fail) v[st] = up;
    v[f0] = 0;
    return v;
  });
  gate.step(second.u, Kind::uin, [](Vars v) -> std::optional<Vars> {
    if (v[f1] == 0) return std::nullopt;
    if (v[st] == inform_fail || v[st] == unbreakable) v[st] = up;
    else if (v[st] == failed) v[st] = inform_up;
    v[f1] = 0;
    return v;
  });
  gate.step(own.f, Kind::uout, [](Vars v) -> std::optional<Vars> {
    if (v[st] != inform_fail) return std::nullopt;
    v[st] = failed;
    return v;
  });
  gate.step(own.u, Kind::uout, [](Vars v) -> std::optional<Vars> {
    if (v[st] != inform_up) return std::nullopt;
    v[st] = up;
    return v;
  });
  return gate.done();
}

Component repair_box(const std::vector<const Signals*>& inputs) {
  const std::size_t busy = inputs.size();  // behind broken[0], broken[1], ..
  Module box(Vars(inputs.size() + 1, 2));
  for (std::size_t i = 0; i < inputs.size(); ++i) {
    box.step(inputs[i]->fl, Kind::in, [i](Vars v) -> std::optional<Vars> {
      v[i] = 1;
      return v;
    });
    box.step(inputs[i]->up, Kind::in, [i, busy](Vars v) -> std::optional<Vars> {
      v[i] = v[busy] = 0;
      return v;
    });
    box.step(inputs[i]->r, Kind::uout, [i, busy](Vars v) -> std::optional<Vars> {
      const bool first = std::find(v.begin(), v.begin() + static_cast<long>(busy), 1u) == v.begin() + static_cast<long>(i);
      if (v[busy] == 1 || !first) return std::nullopt;
      v[busy] = 1;
      return v;
    });
  }
  return box.done();
}

}  // namespace

std::vector<Signals> signals_of(const Tree& tree) {
  Set boxed = 0;
  for (const Element& element : tree.elements)
    if (element.sort == Sort::rbox)
      for (unsigned input : element.inputs) boxed |= only(input);
  std::vector<Signals> signals;
  unsigned action = 0, clock = 0;
  for (const Element& element : tree.elements) {
    Signals own;
    if (element.sort == Sort::be) {
      own.fl = action++;
      own.up = action++;
      own.fc = clock++;
      own.rc = clock++;
      own.boxed = has(boxed, element.number);
    }
    if (element.sort != Sort::rbox) {
      own.f = action++;
      own.u = action++;
    }
    if (own.boxed) own.r = action++;
    signals.push_back(own);
  }
  return signals;
}

TreeModel model_of_tree(const Tree& tree) {
  const std::vector<Signals> signals = signals_of(tree);
  std::map<unsigned, const Signals*> of;
  std::vector<unsigned> timed;
  for (std::size_t e = 0; e < signals.size(); ++e) {
    of[tree.elements[e].number] = &signals[e];
    if (tree.elements[e].sort != Sort::be) continue;
    timed.push_back(signals[e].fl);
    timed.push_back(signals[e].up);
  }
  const auto over = [](const Signals& own) {
    return std::max({own.fl, own.up, own.f, own.u, own.r, own.fc, own.rc}) >= members;
  };
  if (signals.size() > max_components || std::any_of(signals.begin(), signals.end(), over)) return {refuse(48, {0}), {}};
  Model model;
  for (std::size_t e = 0; e < signals.size(); ++e) {
    std::vector<const Signals*> in;
    for (unsigned input : tree.elements[e].inputs) in.push_back(of[input]);
    switch (tree.elements[e].sort) {
      case Sort::be: model.components.push_back(basic_element(signals[e])); break;
      case Sort::both: model.components.push_back(counting_gate(signals[e], *in[0], *in[1], 2)); break;
      case Sort::either: model.components.push_back(counting_gate(signals[e], *in[0], *in[1], 1)); break;
      case Sort::pand: model.components.push_back(priority_gate(signals[e], *in[0], *in[1], timed)); break;
      case Sort::rbox: model.components.push_back(repair_box(in)); break;
    }
  }
  if (count_rows(model) > max_rows || text_of_model(model).size() > max_text) return {refuse(48, {0}), {}};
  return {Refusal{}, std::move(model)};
}

}  // namespace second
