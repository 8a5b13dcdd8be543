// Reading and writing: texts at every fault and limit, 2, 4 and 5 by line and column, every byte of M's text, and buffers that just fit.
#include "stated.hpp"
#include "text_cases.hpp"
#include "text_writing.hpp"

namespace {

Loan lent_text(const Text& text, std::size_t room) {
  Loan loan;
  loan.bytes = bytes_of(text);
  loan.into = Table(room, 0x77);
  return loan;
}

// Into a table that is just long enough, one that is longer and one that is a word short; 24 comes last of all.
void expect_read(const Text& text, const Said& expected) {
  const std::string why = "the text " + text.substr(0, 200);
  const bool good = expected.answer.kind == FLOODNEEDLE_DONE;
  Loan plain;
  plain.bytes = bytes_of(text);
  expect(why, calls::check_text, plain, expected);
  for (std::size_t room : {table_words, table_words + 5}) {
    const Loan loan = lent_text(text, room);
    Loan left = loan;
    const Table table = image(text);
    if (good) std::copy(table.begin(), table.end(), left.into.begin());
    expect(why, calls::read, loan, expected, left);
  }
  for (std::size_t room : {table_words - 1, std::uint64_t{0}})
    expect(why + " into a short table", calls::read, lent_text(text, room), good ? refused(24, {table_bytes}) : expected);
}

// M's image, word by word as docs/TABLE.md lays it out.
void image_of_m() {
  Table words(table_words, 0);
  const auto put = [&](std::size_t at, std::initializer_list<std::uint64_t> values) { std::copy(values.begin(), values.end(), words.begin() + at); };
  put(0, {2});
  put(1, {2, 0, 0, 1, 0, 2, 1, 1, 0, 1, 2});
  put(1 + block_words, {3, 0, 0, 0, 2, 4, 0, 0, 2, 3, 5, 6});
  put(rows_at, {0, 1, 0, 1, 1, 0, 1, 0, 1, 0, 0, 1, 1, 0, 0, 1, 2, 0, 0, 2, 1, 0, 0, 2});
  const Loan loan = lent_text(m, table_words);
  Loan left = loan;
  left.into = words;
  expect("M's image", calls::read, loan, done(), left);
}

// No answer is stated but that the two agree, refused or not, and where.
void agree(const Text& text, const std::string& where) {
  compare(Input::stated, calls::check_text, lent_text(text, 0), where);
  compare(Input::stated, calls::read, lent_text(text, table_words), where);
}

// Every value at every byte of M's text, each byte left out, and the text cut off before each.
void every_byte() {
  for (std::size_t at = 0; at < m.size(); ++at) {
    const std::string byte = "byte " + std::to_string(at);
    for (unsigned value = 0; value < 256; ++value) {
      Text text = m;
      text[at] = static_cast<char>(value);
      agree(text, byte + " as " + std::to_string(value));
    }
    agree(m.substr(0, at) + m.substr(at + 1), byte + " left out");
    agree(m.substr(0, at), "cut off before " + byte);
  }
}

// A line with numbers of every width and a list of resets, alone and behind what it names: every value put in before each byte, in place of it, or
// in place of all from there on.
void every_byte_of_a_row() {
  const Text head = tabbed("comp 111 10\nact 3 uout\nact 10 in\nclk 0 1\nclk 5 0\nclk 12 1\n"), row = tabbed("row 110 5 10 0,5,12 109\n");
  for (const Text& before : {Text(), head})
    for (std::size_t at = 0; at <= row.size(); ++at)
      for (unsigned value = 0; value < 256; ++value) {
        const Text front = before + row.substr(0, at) + static_cast<char>(value);
        const std::string where = "the row's byte " + std::to_string(at) + " as " + std::to_string(value);
        for (const Text& text : {front + row.substr(at), front + row.substr(std::min(at + 1, row.size())), front})
          compare(Input::stated, calls::check_text, lent_text(text, 0), where);
      }
}

void written() {
  const Table table = image(m);
  for (std::size_t more : {0, 1, 40000}) {
    Loan loan = lent_table(table);
    loan.out = Bytes(m.size() + more, 0x77);
    Loan left = loan;
    std::copy(m.begin(), m.end(), left.out.begin());
    expect("M written with " + std::to_string(more) + " bytes to spare", calls::write, loan, done(m.size()), left);
  }
  for (std::size_t room : {m.size() - 1, std::size_t{0}}) {
    Loan loan = lent_table(table);
    loan.out = Bytes(room, 0x77);
    expect("M written to " + std::to_string(room) + " bytes", calls::write, loan, refused(24, {m.size()}));
  }
  for (std::uint64_t bytes : {32767, 32768}) {
    const second::Model model = cases::padded_to(bytes);
    Loan loan = lent_table(second::image_of_model(model));
    loan.out = Bytes(bytes - 1, 0x77);
    expect("a long text to a byte less", calls::write, loan, refused(24, {bytes}));
    loan.out = Bytes(bytes, 0x77);
    Loan left = loan;
    left.out = bytes_of(second::text_of_model(model));
    expect("a long text", calls::write, loan, done(bytes), left);
  }
}

}  // namespace

void stated_texts() {
  const auto expected = [](const cases::TextCase& entry) { return said(second::Answer{refusal_of(entry)}); };
  for (const cases::TextCase& entry : cases::text_cases) expect_read(tabbed(entry.text), expected(entry));
  for (const cases::TextCase& entry : cases::built_text_cases()) expect_read(entry.text, expected(entry));
  image_of_m();
  every_byte();
  every_byte_of_a_row();
  written();
}
