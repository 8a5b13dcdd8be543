#include "lending.hpp"

#include <algorithm>

#include "check.hpp"

namespace {

// Every loan goes into the digest of what was lent; of a long one about a thousand places.
template <class Loan>
void note(const Loan& loan) {
  std::uint64_t sum = loan.size();
  for (std::size_t at = 0; at < loan.size(); at += 1 + loan.size() / 1024)
    sum = (sum ^ static_cast<std::uint64_t>(loan[at])) * 0x100000001b3u + 1;
  count_lent(sum);
}

second::Bytes lent(const Part& bytes) {
  note(bytes);
  return {bytes.data(), bytes.size()};
}
second::Words lent(const Table& words) {
  note(words);
  return {words.data(), words.size()};
}
second::Bytes lent(const Text& text) {
  note(Part(text.begin(), text.end()));
  return {reinterpret_cast<const std::uint8_t*>(text.data()), text.size()};
}
std::uint64_t lent(std::uint64_t number) {
  count_lent(number);
  return number;
}
template <class T>
second::Lent<T> lent_to_write(std::vector<T>& buffer) {
  note(buffer);
  return {buffer.data(), buffer.size()};
}

bool zero(const second::State& state) {
  return state.count == 0 && std::all_of(state.parts, state.parts + second::max_components, [](std::uint8_t p) { return p == 0; });
}

// Whether two buffers are the same from `first` on.
template <class T>
bool same_from(const std::vector<T>& before, const std::vector<T>& after, std::size_t first) {
  return before.size() == after.size() &&
         (first >= before.size() || std::equal(before.begin() + first, before.end(), after.begin() + first));
}

void count(const second::Refusal& refusal, const char* outcome) {
  count_refusal(refusal);
  if (!refusal) count_outcome(outcome);
}

void check_settled(const second::SettleAnswer& answer, const char* stable, const char* unsettled) {
  using second::Verdict;
  count(answer.refusal, answer.verdict == Verdict::stable ? stable : unsettled);
  check((answer.verdict == Verdict::refused) == (answer.refusal.number != 0), "verdict fits refusal");
  if (answer.refusal)
    check(answer.steps == 0 && answer.resets == 0 && zero(answer.state), "refused settling holds zeros");
}

// Refused: nothing lent changes. Else only declared clocks do.
void check_simulated(const Table& table, std::uint64_t rounds, const Clocks& before, const Clocks& after,
                     const second::SimulateAnswer& answer) {
  if (answer.refusal) {
    check(before == after && answer.rounds == 0 && zero(answer.state), "refused simulation: zeros, and no clock changes");
    return;
  }
  const auto model = second::model_of_image({table.data(), table.size()});
  check(answer.rounds <= rounds && answer.state.count == model->components.size(), "simulation: rounds and state");
  for (unsigned x = 0; x < 64; ++x)
    check(second::has(second::clocks_of(*model), x) || before[x] == after[x], "simulation: undeclared places stay");
}

void check_stepped(const second::StepAnswer& answer, const char* moved, const char* stable) {
  using second::StepOutcome;
  count(answer.refusal, answer.outcome == StepOutcome::moved ? moved : stable);
  check((answer.outcome == StepOutcome::refused) == (answer.refusal.number != 0), "outcome fits refusal");
  if (answer.outcome != StepOutcome::moved) check(answer.action == 0 && answer.resets == 0, "no move, no action");
  if (answer.refusal) check(zero(answer.state), "refused step holds zeros");
}

}  // namespace

second::Answer lend_read(const Text& text, Table& into) {
  const Table before = into;
  const auto answer = second::read(lent(text), lent_to_write(into));
  count(answer.refusal, "read");
  check(same_from(before, into, answer.refusal ? 0 : second::image_words), "read changes an image's words at most");
  return answer;
}

second::Answer lend_read_tree(const Text& text, Table& into) {
  const Table before = into;
  const auto answer = second::read_tree(lent(text), lent_to_write(into));
  count(answer.refusal, "tree read");
  check(same_from(before, into, answer.refusal ? 0 : second::image_words), "read_tree changes an image's words at most");
  return answer;
}

second::WriteAnswer lend_to_names(const Text& text, Part& into) {
  const Part before = into;
  const auto answer = second::to_names(lent(text), lent_to_write(into));
  count(answer.refusal, "to names");
  check(!answer.refusal || answer.length == 0, "refused conversion holds zeros");
  check(same_from(before, into, answer.length), "a conversion changes the text's bytes at most");
  return answer;
}

second::WriteAnswer lend_to_numbers(const Text& text, Part& into) {
  const Part before = into;
  const auto answer = second::to_numbers(lent(text), lent_to_write(into));
  count(answer.refusal, "to numbers");
  check(!answer.refusal || answer.length == 0, "refused conversion holds zeros");
  check(same_from(before, into, answer.length), "a conversion changes the text's bytes at most");
  return answer;
}

second::WriteAnswer lend_write(const Table& table, Part& into) {
  const Part before = into;
  const auto answer = second::write(lent(table), lent_to_write(into));
  count(answer.refusal, "written");
  check(!answer.refusal || answer.length == 0, "refused write holds zeros");
  check(same_from(before, into, answer.length), "write changes the text's bytes at most");
  return answer;
}

second::Answer lend_recognise(const Table& table) {
  const auto answer = second::recognise(lent(table));
  count(answer.refusal, "recognised");
  return answer;
}

second::StartAnswer lend_start(const Table& table) {
  const auto answer = second::start(lent(table));
  count(answer.refusal, "started");
  if (answer.refusal)
    check(answer.count == 0 && answer.started == 0 && zero(answer.state), "refused start holds zeros");
  return answer;
}

second::Answer lend_component(const Table& table, std::uint64_t i) {
  const auto answer = second::component(lent(table), lent(i));
  count(answer.refusal, "component");
  return answer;
}

second::Answer lend_compatible(const Table& table) {
  const auto answer = second::compatible(lent(table));
  count(answer.refusal, "compatible");
  return answer;
}

second::Answer lend_accept(const Table& table) {
  const auto answer = second::accept(lent(table));
  count(answer.refusal, "accepted");
  return answer;
}

second::Answer lend_confluent(const Table& table) {
  const auto answer = second::confluent(lent(table));
  count(answer.refusal, "confluent");
  return answer;
}

second::StepAnswer lend_step(const Table& table, const Part& state) {
  const auto answer = second::step(lent(table), lent(state));
  check_stepped(answer, "step moved", "step stable");
  if (answer.outcome == second::StepOutcome::stable) check(parts_of(answer.state) == state, "stable: state as given");
  return answer;
}

second::StepAnswer lend_step_by(const Table& table, const Part& state, std::uint64_t action) {
  const auto answer = second::step_by(lent(table), lent(state), lent(action));
  check_stepped(answer, "step_by moved", "step_by stable");
  check(answer.outcome != second::StepOutcome::stable, "a named action never answers stable");
  return answer;
}

second::SettleAnswer lend_settle(const Table& table, const Part& state, std::uint64_t budget, Part& trace) {
  const Part before = trace;
  const auto answer = second::settle(lent(table), lent(state), lent(budget), lent_to_write(trace));
  check_settled(answer, "settle stable", "settle unsettled");
  check(same_from(before, trace, answer.steps), "later bytes of the trace stay");
  return answer;
}

second::SettleAnswer lend_settle_list(const Table& table, const Part& state, const Part& list) {
  const auto answer = second::settle_list(lent(table), lent(state), lent(list));
  check_settled(answer, "list stable", "list unsettled");
  return answer;
}

second::TimedAnswer lend_timed_step(const Table& table, const Part& state, Clocks& ticks) {
  using second::TimedOutcome;
  const Clocks before = ticks;
  const auto answer = second::timed_step(lent(table), lent(state), lent_to_write(ticks));
  count(answer.refusal, answer.outcome == TimedOutcome::fired ? "timed fired" : "timed quiet");
  check((answer.outcome == TimedOutcome::refused) == (answer.refusal.number != 0), "outcome fits refusal");
  if (answer.outcome != TimedOutcome::fired) {
    check(ticks == before, "not fired, no clock changes");
    check(answer.v == 0 && answer.action == 0 && answer.resets == 0, "not fired, no action");
  }
  if (answer.outcome == TimedOutcome::quiet) check(parts_of(answer.state) == state, "quiet: state as given");
  if (answer.refusal) check(zero(answer.state), "refused timed step holds zeros");
  return answer;
}

second::Answer lend_orderly(const Table& table) {
  const auto answer = second::orderly(lent(table));
  count(answer.refusal, "orderly");
  return answer;
}

second::SettleAnswer lend_settle_after(const Table& table, const Part& path, std::uint64_t budget, Part& trace) {
  const Part before = trace;
  const auto answer = second::settle_after(lent(table), lent(path), lent(budget), lent_to_write(trace));
  check_settled(answer, "settle_after stable", "settle_after unsettled");
  check(same_from(before, trace, answer.steps), "later bytes of the trace stay");
  return answer;
}

second::SettleAnswer lend_settle_list_after(const Table& table, const Part& path, const Part& list) {
  const auto answer = second::settle_list_after(lent(table), lent(path), lent(list));
  check_settled(answer, "list_after stable", "list_after unsettled");
  return answer;
}

second::SimulateAnswer lend_simulate(const Table& table, const Text& samples, std::uint64_t rounds, Clocks& clocks) {
  const Clocks before = clocks;
  const auto answer = second::simulate(lent(table), lent(samples), lent(rounds), lent_to_write(clocks));
  count(answer.refusal, answer.rounds == rounds ? "simulated" : "simulated to quiet");
  check_simulated(table, rounds, before, clocks, answer);
  return answer;
}

second::SimulateAnswer lend_simulate_drawn(const Table& table, const Text& laws, const Table& numbers, std::uint64_t rounds,
                                           Clocks& clocks) {
  const Clocks before = clocks;
  const auto answer = second::simulate_drawn(lent(table), lent(laws), lent(numbers), lent(rounds), lent_to_write(clocks));
  count(answer.refusal, answer.rounds == rounds ? "simulated by draws" : "simulated by draws to quiet");
  check_simulated(table, rounds, before, clocks, answer);
  return answer;
}

second::RepairAnswer lend_repair(Table& table, Part& list) {
  const Table before = table;
  const Part list_before = list;
  const auto answer = second::repair(lent_to_write(table), lent_to_write(list));
  count(answer.refusal, answer.rows == 0 ? "repaired nothing" : "repaired");
  check(!answer.refusal || answer.rows == 0, "refused repair holds zeros");
  check(same_from(before, table, answer.rows == 0 ? 0 : second::image_words), "repair changes an image's words at most");
  check(same_from(list_before, list, 3 * answer.rows), "later bytes of the list stay");
  return answer;
}

second::Answer lend_merge(const Table& table, std::uint64_t i, Table& into) {
  const Table before = into;
  const auto answer = second::merge(lent(table), lent(i), lent_to_write(into));
  count(answer.refusal, "merged");
  check(same_from(before, into, answer.refusal ? 0 : second::image_words), "merge changes an image's words at most");
  return answer;
}

std::string lend_explain(const Text& text) {
  const std::string lines = second::explain(lent(text));
  const second::Refusal refusal = refusal_in(lines);
  count_refusal(refusal);
  count_outcome(refusal ? "explain refused" : lines == "confluent\n" ? "explain confluent" : "explain clash");
  check(lines.size() <= second::longest_explanation, "an explanation's length");
  return lines;
}

std::string lend_report(const std::string& input) {
  const std::string report = second::report(lent(input));
  const second::Refusal refusal = refusal_in(report);
  count_refusal(refusal);
  if (refusal) {
    count_outcome("report refused");
    check(std::count(report.begin(), report.end(), '\n') == 1, "a refusal prints one line only");
  } else {
    const std::size_t last = report.rfind('\n', report.size() - 2);
    const bool stable = report.compare(last == std::string::npos ? 0 : last + 1, 7, "stable\t") == 0;
    count_outcome(stable ? "report stable" : "report unsettled");
  }
  return report;
}

second::Refusal refusal_in(const std::string& report) {
  second::Refusal refusal;
  if (report.compare(0, 8, "refused\t") != 0) return refusal;
  std::size_t at = 8;
  refusal.number = std::stoull(report.substr(at));
  at = report.find('\t', at);
  while (at != std::string::npos && refusal.places < 4) {
    refusal.place[refusal.places++] = std::stoull(report.substr(at + 1));
    at = report.find(',', at + 1);
  }
  return refusal;
}

Part parts_of(const second::State& state) { return Part(state.parts, state.parts + state.count); }

second::State state_of(const Part& parts) {
  second::State state;
  for (std::uint8_t part : parts) state.parts[state.count++] = part;
  return state;
}

Table image(const Text& text) {
  Table table(second::image_words, 0);
  const auto answer = lend_read(text, table);
  check(!answer.refusal, "read as a model: " + shown(answer.refusal) + " in\n" + text);
  return table;
}

Text m_with(const Text& piece, const Text& other) {
  Text text = m;
  const std::size_t at = text.find(tabbed(piece));
  check(at != Text::npos, "M has the piece " + piece);
  if (at != Text::npos) text.replace(at, piece.size(), tabbed(other));
  return text;
}
