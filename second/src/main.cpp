// The program: paper 01's `settle`, on standard input and standard output.
#include <cstdio>
#include <vector>

#include "report.hpp"

int main() {
  // No more is kept than decides the report, however long the input.
  std::vector<std::uint8_t> input(second::deciding_input);
  const std::size_t length = std::fread(input.data(), 1, input.size(), stdin);
  const std::string lines = second::report({input.data(), length});
  std::fwrite(lines.data(), 1, lines.size(), stdout);
  return 0;
}
