// Every single-word change of M's image is the image of another model, or 20.
#include "check.hpp"
#include "generate.hpp"
#include "lending.hpp"
#include "tests.hpp"
#include "text_reading.hpp"
#include "text_writing.hpp"

namespace {

// A buffer is an image exactly when the text it would be written as is read as the same buffer.
// That is checked where it is recognised; the answer is whether it was.
bool check_buffer(const Table& table, const std::string& what) {
  if (lend_recognise(table).refusal) return false;
  Part text(second::max_text, 0);
  const auto written = lend_write(table, text);
  check(!written.refusal, what + ": an image is written");
  Table again(second::image_words, 0);
  const auto read = lend_read(Text(text.begin(), text.begin() + static_cast<long>(written.length)), again);
  check(!read.refusal && again == table, what + ": its text reads as the same image");
  const auto model = second::model_of_image({table.data(), table.size()});
  check(model && second::image_of_model(*model) == table, what + ": it decodes to a model with this image");
  return true;
}

Table changed(const Table& table, std::size_t word, std::uint64_t value) {
  Table other = table;
  other[word] = value;
  return other;
}

}  // namespace

void test_image_words() {
  const Table table = image(m);
  check(check_buffer(table, "M"), "M's image is an image");
  unsigned long images = 0, none = 0;
  for (std::size_t word = 0; word < table.size(); ++word) {
    for (std::uint64_t value : {std::uint64_t{0}, std::uint64_t{1}, std::uint64_t{2}, table[word] + 1, table[word] - 1,
                                table[word] ^ (std::uint64_t{1} << 32), table[word] | (std::uint64_t{1} << 63)}) {
      if (value == table[word]) continue;
      if (check_buffer(changed(table, word, value), "word " + std::to_string(word))) ++images;
      else ++none;
    }
  }
  check(images > 10 && none > 10000, "some changes are images, most are none");

  // By hand: what the changed word means (block 0 at 1, block 1 at 138, rows at 4385).
  const struct {
    std::size_t word;
    std::uint64_t value;
    bool image;
  } by_hand[] = {
      {0, 0, false},      {0, 1, false},      {0, 3, false},     {0, 33, false},
      {1, 3, false},      // a third state of component 0 needs first[3]
      {2, 1, true},       {2, 2, false},      // start
      {3, 4, true},       {3, 1, false},      {3, 2, false},     // an `in` more; two that overlap
      {7, 3, true},       {7, 0, false},      // clocks; those of started and rows must stay within
      {8, 0, true},       {8, 2, false},      {8, 3, false},     // started
      {9, 1, false},      {11, 3, false},     {12, 2, false},    // first: at 0, in turn, zero past the states
      {10, 0, true},      {10, 2, true},      // both rows leave state 1, or state 0
      {138, 2, false},    {139, 2, true},     {139, 3, false},
      {4385, 1, true},    {4385, 2, false},   {4385, 64, false}, {4385, 256, false},  // action
      {4386, 0, true},    {4386, 2, false},   {4386, 65, false},  // guard
      {4387, 1, true},    {4387, 2, false},   // resets
      {4388, 0, true},    {4388, 2, false},   // target
      {4385 + 4 * 3 + 3, 0, true},            // row 3: by action 1 from 1, now to 0
      {4385 + 4 * 3, 2, true},                // row 3 by action 2: still below row 4, by its target
      {4385 + 4 * 4, 1, true},                // row 4 by action 1: still above row 3, by its target
      {4385 + 4 * 4 + 2, 1, false},           // row 4 resets a clock of component 0
      {4385 + 4 * 6, 1, false},               // the first unused row
      {8480, 1, false},
  };
  for (const auto& entry : by_hand) {
    const bool recognised = check_buffer(changed(table, entry.word, entry.value), "by hand");
    check(recognised == entry.image, "word " + std::to_string(entry.word) + " as " + std::to_string(entry.value));
  }
}
