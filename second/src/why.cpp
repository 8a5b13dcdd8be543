// The program `why`: a model text on standard input, and why it isn't confluent on standard output.
#include <cstdio>
#include <vector>

#include "explain.hpp"

int main() {
  std::vector<std::uint8_t> text(second::deciding_text);
  const std::size_t length = std::fread(text.data(), 1, text.size(), stdin);
  const std::string lines = second::explain({text.data(), length});
  std::fwrite(lines.data(), 1, lines.size(), stdout);
  return 0;
}
