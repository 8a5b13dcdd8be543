// Good texts, request lines and tables made bad, often in several places at once, so that the
// order of refusals is tried too.
#pragma once

#include <cstdint>
#include <string>
#include <vector>

#include "random.hpp"

namespace second {

// Some damage leaves the text good, or good again.
std::string damaged_text(Random& random, std::string text);

std::string damaged_laws(Random& random, std::string text);
std::string damaged_named(Random& random, std::string text);
std::string damaged_tree(Random& random, std::string text);
std::string damaged_samples(Random& random, std::string text);

// A request line with its LF.
std::string request_line(const std::vector<std::uint8_t>& state, std::uint64_t budget);
std::string damaged_request(Random& random, std::string request);

// The same table with words of any value behind it; most often an odd number of them.
std::vector<std::uint64_t> lengthened_table(Random& random, std::vector<std::uint64_t> table);

// Words changed here and there, or the length changed, by one for the most part.
std::vector<std::uint64_t> damaged_table(Random& random, std::vector<std::uint64_t> table);

}  // namespace second
