// The texts of text_cases.hpp, read into a table and into one that is short: 1 to 8 and 24.
#include "check.hpp"
#include "lending.hpp"
#include "tests.hpp"
#include "text_cases.hpp"
#include "text_writing.hpp"

namespace {

void check_case(const Text& text, const second::Refusal& expected) {
  Table into(second::image_words, 0x5555);
  const second::Refusal answered = lend_read(text, into).refusal;
  check(answered == expected, shown(answered) + " for the text\n" + text.substr(0, 300));
  // "In reading it comes last" (DECISIONS, Refusals).
  Table shorter(second::image_words - 1, 0x5555);
  const second::Refusal short_of = expected ? expected : second::refuse(24, {67848});
  check(lend_read(text, shorter).refusal == short_of, "a short table, for the text\n" + text.substr(0, 300));
}

// Such a table keeps every count, but is the image of no model (DECISIONS, The table).
void test_overlong() {
  const second::Model over = cases::padded_to(32769);
  check(second::text_of_model(over).size() == 32769, "one byte over");
  check(lend_recognise(second::image_of_model(over)).refusal == second::refuse(20, {0}), "a text too long is no image");
}

}  // namespace

void test_text_refusals() {
  for (const cases::TextCase& entry : cases::text_cases) check_case(tabbed(entry.text), refusal_of(entry));
  for (const cases::TextCase& entry : cases::built_text_cases()) check_case(entry.text, refusal_of(entry));
  test_overlong();
}
