// The models of model_cases.hpp, in every call.
#include "check.hpp"
#include "lending.hpp"
#include "model_cases.hpp"
#include "tests.hpp"

using cases::ModelCase;
using cases::none;

void test_model_refusals() {
  for (const ModelCase& entry : cases::model_cases) {
    const Table table = image(tabbed(entry.text));
    const bool by_confluence = entry.refusal.number == 18;
    const second::Refusal accepted = lend_accept(table).refusal;
    const second::Refusal confluent = lend_confluent(table).refusal;
    check(accepted == (by_confluence ? none : entry.refusal), std::string(entry.why) + ": accept says " + shown(accepted));
    check(confluent == entry.refusal, std::string(entry.why) + ": confluent says " + shown(confluent));
    // Such a model is read and written all the same (DECISIONS: "reading never gives 10 to 18"), and 18
    // stops settling alone ("single steps and the timed step give 10 to 17 but never 18").
    Part text(second::max_text, 0);
    check(lend_write(table, text).length == entry.text.size(), std::string(entry.why) + ": written");
    Part state;
    for (std::uint64_t c = 0; c < table[0]; ++c) state.push_back(static_cast<std::uint8_t>(table[1 + c * second::block_words + 1]));
    Part trace(8, 0);
    Clocks ticks(64, 1);
    check(lend_settle(table, state, 8, trace).refusal == entry.refusal, std::string(entry.why) + ": settle");
    check(lend_settle_list(table, state, {}).refusal == entry.refusal, std::string(entry.why) + ": settle_list");
    check(lend_step(table, state).refusal == accepted, std::string(entry.why) + ": step");
    if (!accepted) continue;
    Table into(second::image_words, 0);
    check(lend_step_by(table, state, 0).refusal == accepted, std::string(entry.why) + ": step_by");
    check(lend_timed_step(table, state, ticks).refusal == accepted, std::string(entry.why) + ": timed_step");
    check(lend_merge(table, 0, into).refusal == accepted, std::string(entry.why) + ": merge");
  }
}
