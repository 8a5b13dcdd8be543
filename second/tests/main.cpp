#include <chrono>
#include <cstdio>

#include "check.hpp"
#include "tests.hpp"

namespace {

void timed(const char* name, void (*test)()) {
  const auto start = std::chrono::steady_clock::now();
  test();
  const std::chrono::duration<double> took = std::chrono::steady_clock::now() - start;
  std::printf("%-24s %6.2f s\n", name, took.count());
  std::fflush(stdout);
}

}  // namespace

int main(int count, char** arguments) {
  if (count != 5) {
    std::fprintf(stderr, "usage: second-tests PROGRAM WHY EXAMPLES SCRATCH\n");
    return 2;
  }
  timed("paper examples", test_paper_examples);
  test_program(arguments[1], arguments[2], arguments[3], arguments[4]);
  timed("component alone", test_component_alone);
  timed("starts", test_starts);
  timed("text refusals", test_text_refusals);
  timed("columns by force", test_columns_by_force);
  timed("model refusals", test_model_refusals);
  timed("call refusals", test_call_refusals);
  timed("request refusals", test_request_refusals);
  timed("round trips", test_round_trips);
  timed("image words", test_image_words);
  timed("active by force", test_active_by_force);
  timed("places by force", test_places_by_force);
  timed("confluence by force", test_confluence_by_force);
  timed("literal product", test_literal_product);
  timed("all orders", test_all_orders);
  timed("merged runs", test_merged_runs);
  timed("timed runs", test_timed_runs);
  timed("triggering", test_triggering);
  timed("trees", test_trees);
  timed("simulation", test_simulation);
  timed("repairs", test_repairs);
  timed("names", test_names);
  timed("draws", test_draws);
  timed("explaining", test_explaining);
  timed("damaged inputs", test_damaged_inputs);
  timed("generator", test_generator);
  return conclude();
}
