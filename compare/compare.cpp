// The proved engine against the second program: first tests whose answers are stated, then the same generated inputs to both, every answer
// and every lent buffer compared, byte for byte, with the guards round it. What the engine may only read lies in pages that it cannot write.
// usage: compare seconds N [SEED]    for so long, and long enough for generated inputs to meet every outcome of every call
//        compare inputs N [SEED]     until so many inputs were compared
//        compare models FIRST COUNT [SEED]    what was reported of these models, again; no stated tests, no outcome asked for
#include <chrono>
#include <cstdio>
#include <cstdlib>

#include "pages.hpp"
#include "random_inputs.hpp"
#include "stated/stated.hpp"

namespace {

constexpr std::uint64_t least = 500;  // models: the aims go round five times, and every outcome of every call is met

std::uint64_t number(const char* word) { return std::strtoull(word, nullptr, 10); }

// The models from `first` on, until `enough` says so.
template <class Enough>
void try_models(std::uint64_t seed, std::uint64_t first, Enough enough) {
  std::uint64_t index = first;
  for (; !enough(index); ++index) try_input(seed, index);
  std::printf("seed %llu, %llu models from %llu on, %llu inputs\n", (unsigned long long)seed, (unsigned long long)(index - first),
              (unsigned long long)first, (unsigned long long)inputs());
}

}  // namespace

int main(int count, char** words) {
  const std::string what = count > 1 ? words[1] : "";
  const bool by_model = what == "models";
  const int needed = by_model ? 4 : 3;
  if ((what != "seconds" && what != "inputs" && !by_model) || count < needed || count > needed + 1) {
    std::fprintf(stderr, "usage: compare seconds N [SEED], compare inputs N [SEED], or compare models FIRST COUNT [SEED]\n");
    return 2;
  }
  if (!faults_are_caught()) {
    std::printf("a store to a page that may only be read is not caught here\n0 passed, 1 failed\n");
    return 1;
  }
  const std::uint64_t seed = count > needed ? number(words[needed]) : 1;
  if (by_model) {
    const std::uint64_t first = number(words[2]), end = first + number(words[3]);
    try_models(seed, first, [&](std::uint64_t index) { return index >= end; });
    return conclude(false);
  }
  const std::uint64_t enough = number(words[2]);
  const auto start = std::chrono::steady_clock::now();
  try_stated();
  if (what == "inputs") try_models(seed, 0, [&](std::uint64_t) { return inputs() >= enough; });
  else
    try_models(seed, 0, [&](std::uint64_t index) {
      return index >= least && std::chrono::steady_clock::now() - start >= std::chrono::seconds(enough);
    });
  return conclude(true);
}
