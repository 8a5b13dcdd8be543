// Damaged texts, requests, tables and loans: no crash, no changed byte (see lending.cpp), and the
// calls agree with one another.
#include <algorithm>

#include "check.hpp"
#include "acceptance.hpp"
#include "damage.hpp"
#include "generate.hpp"
#include "lending.hpp"
#include "tests.hpp"
#include "text_writing.hpp"

namespace {

using second::Model;
using second::Random;

Model drawn(Random& random, unsigned round) {
  const auto size = static_cast<second::Size>(round % 16 == 0 ? 2 : round % 2);
  if (round % 4 == 0) return second::generate_faulty(random, size);
  return second::generate(random, second::families[random.below(9)], round % 4 == 1 ? second::Size::small : size);
}

// A text that reads as a table; what it reads as must be written as the same text.
void check_text(const Text& text) {
  Table table(second::image_words, 3);
  if (lend_read(text, table).refusal) return;
  Part written(second::max_text, 0);
  const auto answer = lend_write(table, written);
  check(Text(written.begin(), written.begin() + static_cast<long>(answer.length)) == text, "one model has one text");
}

// The report is what reading and settling answer, wherever the request line is good.
void check_report(const Text& request, const Part& state, std::uint64_t budget, const Text& text) {
  const std::string report = lend_report(request + text);
  const second::Refusal refusal = refusal_in(report);
  Table table(second::image_words, 0);
  const auto read = lend_read(text, table);
  if (read.refusal) {
    check(refusal == read.refusal, "the report refuses as reading does");
    return;
  }
  Part trace(budget > 4096 ? 0 : budget, 0);
  const auto run = lend_settle(table, state, budget, trace);
  check(refusal == run.refusal, "the report refuses as settling does");
  if (run.refusal) return;
  std::string steps;
  Part at = state;
  for (std::uint64_t count = 1; count <= std::min<std::uint64_t>(run.steps, 40); ++count) {
    const auto step = lend_step(table, at);
    at = parts_of(step.state);
    steps += "step\t" + std::to_string(count) + '\t' + std::to_string(step.action) + '\t' +
             second::text_of_set(step.resets) + '\t' + second::text_of_state(step.state) + '\n';
  }
  check(report.compare(0, steps.size(), steps) == 0, "the report's step lines are the steps");
  const std::string last = (run.verdict == second::Verdict::stable ? "stable\t" : "unsettled\t") +
                           std::to_string(run.steps) + '\t' + second::text_of_set(run.resets) + '\t' +
                           second::text_of_state(run.state) + '\n';
  check(run.steps > 40 || report == steps + last, "the report is the steps and the verdict");
  check(report.size() >= last.size() && report.compare(report.size() - last.size(), last.size(), last) == 0,
        "the report ends as settling does");
  check(std::count(report.begin(), report.end(), '\n') == static_cast<long>(run.steps) + 1, "one line for each step");
}

// All calls on one table with odd loans; answers that must agree do.
void check_calls(Random& random, const Table& table, const Model& model) {
  const Part state = random.chance(60) ? second::generate_state(random, model) : second::generate_odd_state(random, model);
  const std::uint64_t budget = random.chance(60) ? second::generate_budget(random) : second::generate_odd_budget(random);
  Part trace(random.chance(80) && budget <= 4096 ? budget : random.below(5), 1);
  // A list only makes sense of a model whose steps do.
  const bool sound = !second::acceptance(model) && state.size() == model.components.size() &&
                     std::equal(state.begin(), state.end(), model.components.begin(),
                                [](std::uint8_t part, const second::Component& c) { return part < c.states; });
  const Part list = sound ? second::generate_odd_list(random, model, state) : Part(random.below(5), 1);
  Clocks ticks = random.chance(50) ? second::generate_ticks_for(random, model, state) : second::generate_odd_ticks(random);
  Table into(random.chance(80) ? second::image_words : second::image_words - 1, 5);
  Part text(random.chance(80) ? second::max_text : random.below(500), 1);

  const auto recognised = lend_recognise(table).refusal;
  const auto begun = lend_start(table).refusal;
  const auto accepted = lend_accept(table).refusal;
  const auto confluent = lend_confluent(table).refusal;
  const auto written = lend_write(table, text).refusal;
  const auto stepped = lend_step(table, state).refusal;
  const auto named = lend_step_by(table, state, list.empty() ? random.next() : list[0]).refusal;
  const auto settled = lend_settle(table, state, budget, trace).refusal;
  const auto listed = lend_settle_list(table, state, list).refusal;
  const auto fired = lend_timed_step(table, state, ticks).refusal;
  const auto merged = lend_merge(table, second::generate_index(random, model), into).refusal;

  if (recognised) {
    check(recognised == second::refuse(20, {0}), "recognising refuses with 20 alone");
    for (const auto& refusal : {begun, accepted, confluent, written, stepped, named, settled, listed, fired, merged})
      check(refusal == recognised, "20 first, in every call");
    return;
  }
  check(!begun, "every image has a start");
  check(!written || written.number == 24, "writing needs 20 and 24 only");
  if (accepted) {
    check(accepted.number >= 10 && accepted.number <= 17, "accept gives 10 to 17");
    for (const auto& refusal : {confluent, stepped, named, settled, listed, fired, merged})
      check(refusal == accepted, "10 to 17 before the call's own");
    return;
  }
  check(!confluent || confluent.number == 18, "confluent gives 18 behind them");
  if (confluent) check(settled == confluent && listed == confluent, "18 before the call's own");
  check(stepped.number == 0 || stepped.number == 21, "step: 21");
  if (stepped) check(named == stepped && fired == stepped, "21 in each call with a state");
  if (stepped && !confluent) check(settled == stepped && listed == stepped, "21 in settling");
  if (settled.number == 19) check(listed == settled && !stepped, "19 directly after 21");
  check(named.number == 0 || named.number == 21 || named.number == 23, "step_by: 21, 23");
  check(fired.number == 0 || fired.number == 21 || fired.number >= 27, "timed_step: 21, 27 to 30");
  check(merged.number == 0 || (merged.number >= 24 && merged.number <= 26), "merge: 24 to 26");
  if (into.size() < second::image_words) check(merged == second::refuse(24, {67848}), "24 before 25 and 26");
}

}  // namespace

void test_damaged_inputs() {
  Random random(9);
  for (unsigned round = 0; round < rounds(800); ++round) {
    const Model model = drawn(random, round);
    const Text text = second::text_of_model(model);
    const Table table = second::image_of_model(model);
    for (unsigned tries = 0; tries < 4; ++tries) check_text(second::damaged_text(random, text));
    check_calls(random, table, model);
    check_calls(random, second::lengthened_table(random, table), model);
    check_calls(random, second::damaged_table(random, table), model);
    check_calls(random, second::damaged_table(random, table), model);

    const Part state = random.chance(80) ? second::generate_state(random, model) : second::generate_odd_state(random, model);
    std::uint64_t budget = random.chance(80) ? second::generate_budget(random) : second::generate_odd_budget(random);
    if (budget > 99999) budget = 99999;
    if (!state.empty()) {
      const Text request = second::request_line(state, budget);
      check_report(request, state, budget, text);
      check_report(request, state, budget, second::damaged_text(random, text));
      lend_report(second::damaged_request(random, request) + text);
      const Text other_request = second::damaged_request(random, request);
      lend_report(other_request + second::damaged_text(random, text));
    }
  }
  // Plain noise.
  for (unsigned round = 0; round < rounds(2000); ++round) {
    Text noise(random.below(300), '\0');
    for (char& byte : noise) byte = static_cast<char>(random.chance(30) ? "\t\n,-0"[random.below(5)] : random.below(256));
    check_text(noise);
    lend_report(noise);
    lend_report(tabbed("from 0 1\n") + noise);
  }
  for (unsigned round = 0; round < rounds(200); ++round) {
    Table noise(second::image_words);
    for (std::uint64_t& word : noise) word = round % 2 == 0 ? random.next() : random.below(17);
    check(lend_recognise(noise).refusal == second::refuse(20, {0}), "noise is no image");
  }
}
