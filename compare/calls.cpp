#include "calls.hpp"

namespace {

// An answer as the engine wrote it, with the state beside it where the call has one.
Said answered(const Lent& lent) {
  Said said;
  said.answer = *lent.answer;
  return said;
}
Said answered_with_state(const Lent& lent) {
  Said said = answered(lent);
  said.after = *lent.after;
  return said;
}

std::set<std::string> numbers(std::initializer_list<std::pair<unsigned, unsigned>> ranges, std::set<std::string> more) {
  for (const auto& [low, high] : ranges)
    for (unsigned n = low; n <= high; ++n) more.insert(std::to_string(n));
  return more;
}

std::string answered_kind(const Said& said, const Lent&) {
  static const char* const names[] = {"", "done", "moved", "stable", "unsettled", "fired", "quiet"};
  const floodneedle_answer& a = said.answer;
  if (a.kind == FLOODNEEDLE_REFUSED) return std::to_string(a.number);
  return a.kind <= FLOODNEEDLE_QUIET ? names[a.kind] : "no kind";
}

// Of a repair that lacked nothing: then neither buffer changes.
std::string repaired_kind(const Said& said, const Lent& lent) {
  return said.answer.kind == FLOODNEEDLE_DONE && said.answer.count == 0 ? "nothing" : answered_kind(said, lent);
}

// Of a simulation: whether it was over before the rounds asked for, and whether it was round 0 that did not settle.
std::string simulated_kind(const Said& said, const Lent& lent) {
  const floodneedle_answer& a = said.answer;
  if (a.number == 42 && a.place[0] > 0) return "42 later";
  return a.kind == FLOODNEEDLE_DONE && a.count < lent.number ? "quiet" : answered_kind(said, lent);
}

// Of settling after a path: which 22 it is, the path's or the call's own.
std::string walked_kind(const Said& said, const Lent& lent) {
  return said.answer.number == 22 && lent.path.length > 2 * second::max_path ? "22 of the path" : answered_kind(said, lent);
}

// Of a tree: which condition it breaks.
std::string drawn_kind(const Said& said, const Lent& lent) {
  return said.answer.number == 47 ? "47 at " + std::to_string(said.answer.place[0]) : answered_kind(said, lent);
}

// Of a report: the number or the verdict that its last line begins with.
std::string printed_kind(const Said& said, const Lent& lent) {
  if (said.answer.kind == FLOODNEEDLE_REFUSED) return answered_kind(said, lent);
  const std::string report(lent.out.front, lent.out.front + said.answer.count);
  const std::string last = report.substr(report.rfind('\n', report.size() - 2) + 1);
  const std::size_t from = last.compare(0, 8, "refused\t") == 0 ? 8 : 0;
  return last.substr(from, last.find('\t', from) - from);
}

// Of an explanation: the number that is printed, or what its first lines are.
std::string explained_kind(const Said& said, const Lent& lent) {
  if (said.answer.kind == FLOODNEEDLE_REFUSED) return answered_kind(said, lent);
  const std::string lines(lent.out.front, lent.out.front + said.answer.count);
  if (lines.compare(0, 8, "refused\t") == 0) return lines.substr(8, lines.find('\t', 8) - 8);
  if (lines.compare(0, 6, "clash\t") != 0) return lines.substr(0, lines.find('\n'));
  return lines.find("\npath\t") == std::string::npos ? "clash at the start" : "clash";
}

Said engine_recognise(const Lent& l) {
  const bool is_image = floodneedle_recognise(l.table.front, l.table.length);
  return said(second::Answer{is_image ? second::Refusal{} : second::refuse(20, {0})});
}
Said second_recognise(const Lent& l) { return said(second::recognise(l.table)); }

Said engine_check_text(const Lent& l) {
  floodneedle_check_text(l.bytes.front, l.bytes.length, l.answer);
  return answered(l);
}
Said second_check_text(const Lent& l) {
  Table room(second::image_words);
  return said(second::read(l.bytes, {room.data(), room.size()}));
}

Said engine_read(const Lent& l) {
  floodneedle_read(l.bytes.front, l.bytes.length, l.into.front, l.into.length, l.answer);
  return answered(l);
}
Said second_read(const Lent& l) { return said(second::read(l.bytes, l.into)); }

Said engine_read_tree(const Lent& l) {
  floodneedle_read_tree(l.bytes.front, l.bytes.length, l.into.front, l.into.length, l.answer);
  return answered(l);
}
Said second_read_tree(const Lent& l) { return said(second::read_tree(l.bytes, l.into)); }

Said engine_write(const Lent& l) {
  floodneedle_write(l.table.front, l.table.length, l.out.front, l.out.length, l.answer);
  return answered(l);
}
Said second_write(const Lent& l) { return said(second::write(l.table, l.out)); }

Said engine_start(const Lent& l) {
  floodneedle_start(l.table.front, l.table.length, l.after->data(), l.answer);
  return answered_with_state(l);
}
Said second_start(const Lent& l) { return said(second::start(l.table)); }

Said engine_component(const Lent& l) {
  floodneedle_component(l.table.front, l.table.length, l.number, l.answer);
  return answered(l);
}
Said second_component(const Lent& l) { return said(second::component(l.table, l.number)); }

Said engine_compatible(const Lent& l) {
  floodneedle_compatible(l.table.front, l.table.length, l.answer);
  return answered(l);
}
Said second_compatible(const Lent& l) { return said(second::compatible(l.table)); }

Said engine_accept(const Lent& l) {
  floodneedle_accept(l.table.front, l.table.length, l.answer);
  return answered(l);
}
Said second_accept(const Lent& l) { return said(second::accept(l.table)); }

Said engine_confluent(const Lent& l) {
  floodneedle_confluent(l.table.front, l.table.length, l.answer);
  return answered(l);
}
Said second_confluent(const Lent& l) { return said(second::confluent(l.table)); }

Said engine_step(const Lent& l) {
  floodneedle_step(l.table.front, l.table.length, l.state.front, l.state.length, l.after->data(), l.answer);
  return answered_with_state(l);
}
Said second_step(const Lent& l) { return said(second::step(l.table, l.state)); }

Said engine_step_by(const Lent& l) {
  floodneedle_step_by(l.table.front, l.table.length, l.state.front, l.state.length, l.number, l.after->data(), l.answer);
  return answered_with_state(l);
}
Said second_step_by(const Lent& l) { return said(second::step_by(l.table, l.state, l.number)); }

Said engine_settle(const Lent& l) {
  floodneedle_settle(l.table.front, l.table.length, l.state.front, l.state.length, l.number, l.out.front, l.out.length,
                     l.after->data(), l.answer);
  return answered_with_state(l);
}
Said second_settle(const Lent& l) { return said(second::settle(l.table, l.state, l.number, l.out)); }

Said engine_settle_list(const Lent& l) {
  floodneedle_settle_list(l.table.front, l.table.length, l.state.front, l.state.length, l.bytes.front, l.bytes.length,
                          l.after->data(), l.answer);
  return answered_with_state(l);
}
Said second_settle_list(const Lent& l) { return said(second::settle_list(l.table, l.state, l.bytes)); }

Said engine_orderly(const Lent& l) {
  floodneedle_orderly(l.table.front, l.table.length, l.answer);
  return answered(l);
}
Said second_orderly(const Lent& l) { return said(second::orderly(l.table)); }

Said engine_settle_after(const Lent& l) {
  floodneedle_settle_after(l.table.front, l.table.length, l.path.front, l.path.length, l.number, l.out.front, l.out.length, l.after->data(),
                           l.answer);
  return answered_with_state(l);
}
Said second_settle_after(const Lent& l) { return said(second::settle_after(l.table, l.path, l.number, l.out)); }

Said engine_settle_list_after(const Lent& l) {
  floodneedle_settle_list_after(l.table.front, l.table.length, l.path.front, l.path.length, l.bytes.front, l.bytes.length, l.after->data(),
                                l.answer);
  return answered_with_state(l);
}
Said second_settle_list_after(const Lent& l) { return said(second::settle_list_after(l.table, l.path, l.bytes)); }

Said engine_timed_step(const Lent& l) {
  floodneedle_timed_step(l.table.front, l.table.length, l.state.front, l.state.length, l.clocks.front, l.clocks.length,
                         l.after->data(), l.answer);
  return answered_with_state(l);
}
Said second_timed_step(const Lent& l) { return said(second::timed_step(l.table, l.state, l.clocks)); }

Said engine_simulate(const Lent& l) {
  floodneedle_simulate(l.table.front, l.table.length, l.bytes.front, l.bytes.length, l.number, l.clocks.front, l.clocks.length,
                       l.after->data(), l.answer);
  return answered_with_state(l);
}
Said second_simulate(const Lent& l) { return said(second::simulate(l.table, l.bytes, l.number, l.clocks)); }

Said engine_simulate_drawn(const Lent& l) {
  floodneedle_simulate_drawn(l.table.front, l.table.length, l.bytes.front, l.bytes.length, l.numbers.front, l.numbers.length, l.number,
                             l.clocks.front, l.clocks.length, l.after->data(), l.answer);
  return answered_with_state(l);
}
Said second_simulate_drawn(const Lent& l) { return said(second::simulate_drawn(l.table, l.bytes, l.numbers, l.number, l.clocks)); }

Said engine_merge(const Lent& l) {
  floodneedle_merge(l.table.front, l.table.length, l.number, l.into.front, l.into.length, l.answer);
  return answered(l);
}
Said second_merge(const Lent& l) { return said(second::merge(l.table, l.number, l.into)); }

Said engine_repair(const Lent& l) {
  floodneedle_repair(l.repaired.front, l.repaired.length, l.out.front, l.out.length, l.answer);
  return answered(l);
}
Said second_repair(const Lent& l) { return said(second::repair(l.repaired, l.out)); }

Said engine_report(const Lent& l) {
  floodneedle_report(l.bytes.front, l.bytes.length, l.out.front, l.out.length, l.answer);
  return answered(l);
}
// The second program answers with a string, so its part in the loan is played here.
Said put(const Lent& l, const std::string& text) {
  std::copy(text.begin(), text.end(), l.out.front);
  return said(second::WriteAnswer{{}, text.size()});
}
Said too_short(std::uint64_t needed) { return said(second::WriteAnswer{second::refuse(24, {needed}), 0}); }

Said second_report(const Lent& l) { return l.out.length < FLOODNEEDLE_REPORT ? too_short(FLOODNEEDLE_REPORT) : put(l, second::report(l.bytes)); }

Said engine_explain(const Lent& l) {
  floodneedle_explain(l.bytes.front, l.bytes.length, l.out.front, l.out.length, l.answer);
  return answered(l);
}
Said second_explain(const Lent& l) {
  return l.out.length < FLOODNEEDLE_EXPLANATION ? too_short(FLOODNEEDLE_EXPLANATION) : put(l, second::explain(l.bytes));
}

Said engine_explain_table(const Lent& l) {
  floodneedle_explain_table(l.table.front, l.table.length, l.out.front, l.out.length, l.answer);
  return answered(l);
}
// As `accept`, then 24, then the text of the table's model.
Said second_explain_table(const Lent& l) {
  const second::Answer accepted = second::accept(l.table);
  if (accepted.refusal) return said(second::WriteAnswer{accepted.refusal, 0});
  if (l.out.length < FLOODNEEDLE_EXPLANATION) return too_short(FLOODNEEDLE_EXPLANATION);
  Bytes text(second::max_text);
  text.resize(second::write(l.table, {text.data(), text.size()}).length);
  return put(l, second::explain(lent(text)));
}

Said engine_to_names(const Lent& l) {
  floodneedle_to_names(l.bytes.front, l.bytes.length, l.out.front, l.out.length, l.answer);
  return answered(l);
}
Said second_to_names(const Lent& l) { return said(second::to_names(l.bytes, l.out)); }

Said engine_to_numbers(const Lent& l) {
  floodneedle_to_numbers(l.bytes.front, l.bytes.length, l.out.front, l.out.length, l.answer);
  return answered(l);
}
Said second_to_numbers(const Lent& l) { return said(second::to_numbers(l.bytes, l.out)); }

Said engine_advance(const Lent& l) {
  floodneedle_advance(l.table.front, l.table.length, l.advanced.front, l.advanced.length, l.answer);
  return answered(l);
}
// A step whose state goes where it came from.
Said second_advance(const Lent& l) {
  Said stepped = second_step(l);
  if (stepped.answer.kind != FLOODNEEDLE_REFUSED) std::copy_n(stepped.after.begin(), l.advanced.length, l.advanced.front);
  stepped.after = After{};
  return stepped;
}

}  // namespace

namespace calls {

const Call recognise = {"recognise", engine_recognise, second_recognise, numbers({{20, 20}}, {"done"}), answered_kind};
const Call check_text = {"check_text", engine_check_text, second_check_text, numbers({{1, 8}}, {"done"}), answered_kind};
const Call read = {"read", engine_read, second_read, numbers({{1, 8}, {24, 24}}, {"done"}), answered_kind};
const Call read_tree = {"read_tree", engine_read_tree, second_read_tree,
                        numbers({{2, 2}, {4, 6}, {24, 24}, {48, 48}}, {"47 at 1", "47 at 2", "47 at 3", "47 at 4", "47 at 5", "47 at 6", "done"}), drawn_kind};
const Call write = {"write", engine_write, second_write, numbers({{20, 20}, {24, 24}}, {"done"}), answered_kind};
const Call start = {"start", engine_start, second_start, numbers({{20, 20}}, {"done"}), answered_kind};
const Call component = {"component", engine_component, second_component, numbers({{10, 14}, {20, 20}, {25, 25}}, {"done"}), answered_kind};
const Call compatible = {"compatible", engine_compatible, second_compatible, numbers({{15, 17}, {20, 20}}, {"done"}), answered_kind};
const Call accept = {"accept", engine_accept, second_accept, numbers({{10, 17}, {20, 20}}, {"done"}), answered_kind};
const Call confluent = {"confluent", engine_confluent, second_confluent, numbers({{10, 18}, {20, 20}}, {"done"}), answered_kind};
const Call step = {"step", engine_step, second_step, numbers({{10, 17}, {20, 21}}, {"moved", "stable"}), answered_kind};
const Call step_by = {"step_by", engine_step_by, second_step_by, numbers({{10, 17}, {20, 21}, {23, 23}}, {"moved"}), answered_kind};
const Call settle = {"settle", engine_settle, second_settle, numbers({{10, 22}, {24, 24}}, {"stable", "unsettled"}), answered_kind};
const Call settle_list = {"settle_list", engine_settle_list, second_settle_list, numbers({{10, 23}}, {"stable", "unsettled"}),
                          answered_kind};
const Call orderly = {"orderly", engine_orderly, second_orderly, numbers({{10, 18}, {20, 20}, {45, 45}}, {"done"}), answered_kind};
const Call settle_after = {"settle_after", engine_settle_after, second_settle_after,
                           numbers({{10, 18}, {20, 20}, {22, 22}, {24, 24}, {45, 46}}, {"22 of the path", "stable", "unsettled"}), walked_kind};
const Call settle_list_after = {"settle_list_after", engine_settle_list_after, second_settle_list_after,
                                numbers({{10, 18}, {20, 20}, {22, 23}, {45, 46}}, {"22 of the path", "stable", "unsettled"}), walked_kind};
const Call timed_step = {"timed_step", engine_timed_step, second_timed_step, numbers({{10, 17}, {20, 21}, {27, 30}}, {"fired", "quiet"}),
                         answered_kind};
const Call simulate = {"simulate", engine_simulate, second_simulate,
                       numbers({{10, 18}, {20, 20}, {22, 22}, {28, 28}, {30, 30}, {40, 42}, {45, 45}}, {"42 later", "done", "quiet"}),
                       simulated_kind};
const Call simulate_drawn = {"simulate_drawn", engine_simulate_drawn, second_simulate_drawn,
                             numbers({{10, 18}, {20, 20}, {22, 22}, {28, 28}, {30, 30}, {42, 42}, {45, 45}, {49, 50}}, {"42 later", "done", "quiet"}),
                             simulated_kind};
const Call repair = {"repair", engine_repair, second_repair, numbers({{20, 20}, {24, 24}, {26, 26}}, {"done", "nothing"}), repaired_kind};
const Call merge = {"merge", engine_merge, second_merge, numbers({{10, 17}, {20, 20}, {24, 26}}, {"done"}), answered_kind};
const Call report = {"report", engine_report, second_report, numbers({{1, 19}, {21, 22}, {24, 24}}, {"stable", "unsettled"}), printed_kind};
const Call advance = {"advance", engine_advance, second_advance, numbers({{10, 17}, {20, 21}}, {"moved", "stable"}), answered_kind};
const Call explain = {"explain", engine_explain, second_explain,
                      numbers({{1, 8}, {10, 17}, {24, 24}}, {"confluent", "clash", "clash at the start"}), explained_kind};
const Call explain_table = {"explain_table", engine_explain_table, second_explain_table,
                            numbers({{10, 17}, {20, 20}, {24, 24}}, {"confluent", "clash", "clash at the start"}), explained_kind};

const Call to_names = {"to_names", engine_to_names, second_to_names, numbers({{1, 8}, {24, 24}, {26, 26}}, {"done"}), answered_kind};

const Call to_numbers = {"to_numbers", engine_to_numbers, second_to_numbers, numbers({{1, 8}, {24, 24}, {26, 26}, {43, 44}}, {"done"}), answered_kind};

const Call* const all[28] = {&recognise, &check_text, &read,   &read_tree, &write,       &start,   &component,    &compatible,
                             &accept,    &confluent,  &step,   &step_by,   &settle,      &settle_list, &orderly,  &settle_after,
                             &settle_list_after, &timed_step, &simulate, &simulate_drawn, &merge, &repair, &report,  &advance, &explain,
                             &explain_table, &to_names, &to_numbers};

}  // namespace calls
