// One model has one text and one image: text to table to text, and table to text to table.
#include "check.hpp"
#include "generate.hpp"
#include "lending.hpp"
#include "tests.hpp"
#include "text_reading.hpp"
#include "text_writing.hpp"

namespace {

void check_round_trip(const second::Model& model, const std::string& what) {
  const Text text = second::text_of_model(model);
  const second::Reading reading = second::model_of_text(text);
  check(!reading.refusal && reading.model == model, what + ": the text reads as the model");
  const Table table = image(text);
  check(table == second::image_of_model(model), what + ": reading gives the model's image");
  const auto decoded = second::model_of_image({table.data(), table.size()});
  check(decoded && *decoded == model, what + ": the image decodes to the model");
  Part written(text.size() + 2, 7);
  const auto answer = lend_write(table, written);
  check(answer.length == text.size() && Text(written.begin(), written.end() - 2) == text, what + ": the same text again");
}

}  // namespace

void test_round_trips() {
  second::Random random(2);
  for (unsigned round = 0; round < rounds(300); ++round) {
    const auto size = static_cast<second::Size>(round % 3);
    const second::Family family = second::families[round % 9];
    check_round_trip(second::generate(random, family, size), "family " + std::to_string(round % 9));
    check_round_trip(second::generate_faulty(random, size), "a faulty model");
  }
}
