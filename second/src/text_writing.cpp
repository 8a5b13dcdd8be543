#include "text_writing.hpp"

namespace second {
namespace {

const char* word_of(Kind kind) {
  switch (kind) {
    case Kind::in: return "in";
    case Kind::out: return "out";
    case Kind::uin: return "uin";
    case Kind::uout: return "uout";
    case Kind::absent: break;
  }
  return "";
}

void put_number(std::string& text, std::uint64_t number) {
  text += '\t';
  text += std::to_string(number);
}

// `put_action` puts the field of an action, behind its tab.
template <class PutAction>
void put_component(std::string& text, const Component& component, PutAction put_action) {
  text += "comp";
  put_number(text, component.states);
  put_number(text, component.start);
  text += '\n';
  for (unsigned action = 0; action < members; ++action) {
    if (component.kind[action] == Kind::absent) continue;
    text += "act";
    put_action(text, action);
    text += '\t';
    text += word_of(component.kind[action]);
    text += '\n';
  }
  for (unsigned clock = 0; clock < members; ++clock) {
    if (!has(component.clocks, clock)) continue;
    text += "clk";
    put_number(text, clock);
    put_number(text, has(component.started, clock) ? 1 : 0);
    text += '\n';
  }
  for (const Row& row : component.rows) {
    text += "row";
    put_number(text, row.from);
    text += '\t';
    text += text_of_set(guard_set(row));
    put_action(text, row.action);
    text += '\t';
    text += text_of_set(row.resets);
    put_number(text, row.target);
    text += '\n';
  }
}

}  // namespace

std::string text_of_model(const Model& model) {
  std::string text;
  for (const Component& component : model.components) put_component(text, component, put_number);
  return text;
}

std::string named_text_of_model(const Model& model, const Sheet& sheet) {
  std::string text = "form\t2\n";
  for (unsigned action = 0; action < members; ++action) {
    if (!sheet[action]) continue;
    text += "name";
    put_number(text, action);
    text += '\t' + *sheet[action] + '\n';
  }
  for (const Component& component : model.components)
    put_component(text, component, [&](std::string& to, unsigned action) {
      to += '\t';
      to += *sheet[action];
    });
  return text;
}

std::string text_of_set(Set set) {
  if (set == 0) return "-";
  std::string text;
  for (unsigned member = 0; member < members; ++member) {
    if (!has(set, member)) continue;
    if (!text.empty()) text += ',';
    text += std::to_string(member);
  }
  return text;
}

std::string text_of_state(const State& state) {
  std::string text;
  for (std::uint64_t part = 0; part < state.count; ++part) {
    if (part > 0) text += ',';
    text += std::to_string(state.parts[part]);
  }
  return text;
}

}  // namespace second
