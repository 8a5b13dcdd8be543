// Times of the proved engine beside the second program and a bare loop, all in one program and one run. Prints the tables of docs/BENCHMARK.md.
// Each number is the least of many short rounds, in which all that stand in one table take turns: what else the machine does then disturbs
// all of them alike.
// usage: benchmark ROUNDS [times]    with the engine's own times, which mean something only where the processor runs the program itself
#include <array>
#include <chrono>
#include <cstdio>
#include <cstdlib>
#include <functional>
#include <memory>

#include "bare.h"
#include "damage.hpp"
#include "subjects.hpp"

namespace {

constexpr double round_seconds = 200e-6;
unsigned rounds = 200;
bool with_times = false;
std::uint64_t kept = 0;  // what the bare loops compute, so that they are not left out

double now() { return std::chrono::duration<double>(std::chrono::steady_clock::now().time_since_epoch()).count(); }

using Work = std::function<void()>;

double seconds_for(const Work& work, std::uint64_t times) {
  const double start = now();
  for (std::uint64_t t = 0; t < times; ++t) work();
  return now() - start;
}

// The least seconds for one go of each.
std::vector<double> least(const std::vector<Work>& works) {
  std::vector<std::uint64_t> times;
  for (const Work& work : works) {
    std::uint64_t enough = 1;
    while (seconds_for(work, enough) < round_seconds) enough *= 2;
    times.push_back(enough);
  }
  std::vector<double> best(works.size(), 1e9);
  for (unsigned round = 0; round < rounds; ++round)
    for (std::size_t w = 0; w < works.size(); ++w) best[w] = std::min(best[w], seconds_for(works[w], times[w]) / static_cast<double>(times[w]));
  return best;
}

// ---- the calls: what the engine and the second program do on a subject

struct Pair {
  const char* call;
  Work engine, second;
};

struct Buffers {
  floodneedle_answer answer;
  After after;
  Table into = Table(second::image_words);
  Bytes out = Bytes(second::max_text);
  Clocks clocks = Clocks(second::clock_values);
} lent_out;

const std::uint64_t* words(const Subject& s) { return s.table.data(); }

Pair recognise(const Subject& s) {
  return {"recognise", [&] { kept += floodneedle_recognise(words(s), s.table.size()); }, [&] { second::recognise(lent(s.table)); }};
}
Pair check_text(const Subject& s) {
  return {"check_text", [&] { floodneedle_check_text(s.text.data(), s.text.size(), &lent_out.answer); },
          [&] { second::read(lent(s.text), {lent_out.into.data(), lent_out.into.size()}); }};
}
Pair read(const Subject& s) {
  return {"read", [&] { floodneedle_read(s.text.data(), s.text.size(), lent_out.into.data(), lent_out.into.size(), &lent_out.answer); },
          [&] { second::read(lent(s.text), {lent_out.into.data(), lent_out.into.size()}); }};
}
Pair read_tree(const Subject& s) {
  return {"read_tree", [&] { floodneedle_read_tree(s.text.data(), s.text.size(), lent_out.into.data(), lent_out.into.size(), &lent_out.answer); },
          [&] { second::read_tree(lent(s.text), {lent_out.into.data(), lent_out.into.size()}); }};
}
Pair write(const Subject& s) {
  return {"write", [&] { floodneedle_write(words(s), s.table.size(), lent_out.out.data(), lent_out.out.size(), &lent_out.answer); },
          [&] { second::write(lent(s.table), {lent_out.out.data(), lent_out.out.size()}); }};
}
// The last component, the one with the most rows before it.
Pair component(const Subject& s) {
  const std::uint64_t last = s.model.components.size() - 1;
  return {"component", [&s, last] { floodneedle_component(words(s), s.table.size(), last, &lent_out.answer); },
          [&s, last] { second::component(lent(s.table), last); }};
}
Pair compatible(const Subject& s) {
  return {"compatible", [&] { floodneedle_compatible(words(s), s.table.size(), &lent_out.answer); }, [&] { second::compatible(lent(s.table)); }};
}
Pair accept(const Subject& s) {
  return {"accept", [&] { floodneedle_accept(words(s), s.table.size(), &lent_out.answer); }, [&] { second::accept(lent(s.table)); }};
}
Pair confluent(const Subject& s) {
  return {"confluent", [&] { floodneedle_confluent(words(s), s.table.size(), &lent_out.answer); }, [&] { second::confluent(lent(s.table)); }};
}
Pair step(const Subject& s) {
  return {"step",
          [&] { floodneedle_step(words(s), s.table.size(), s.state.data(), s.state.size(), lent_out.after.data(), &lent_out.answer); },
          [&] { second::step(lent(s.table), lent(s.state)); }};
}
Pair settle(const Subject& s, std::uint64_t budget) {
  return {"settle",
          [&s, budget] {
            floodneedle_settle(words(s), s.table.size(), s.state.data(), s.state.size(), budget, lent_out.out.data(), lent_out.out.size(),
                               lent_out.after.data(), &lent_out.answer);
          },
          [&s, budget] { second::settle(lent(s.table), lent(s.state), budget, {lent_out.out.data(), lent_out.out.size()}); }};
}
Pair orderly(const Subject& s) {
  return {"orderly", [&] { floodneedle_orderly(words(s), s.table.size(), &lent_out.answer); }, [&] { second::orderly(lent(s.table)); }};
}
Pair settle_after(const char* name, const Subject& s, unsigned steps) {
  const auto path = std::make_shared<Bytes>(path_of(s, steps));
  return {name,
          [&s, path] {
            floodneedle_settle_after(words(s), s.table.size(), front(*path), path->size(), 100, lent_out.out.data(), lent_out.out.size(),
                                     lent_out.after.data(), &lent_out.answer);
          },
          [&s, path] { second::settle_after(lent(s.table), lent(*path), 100, {lent_out.out.data(), lent_out.out.size()}); }};
}
// Every clock has another value, so that one is the least.
void set_clocks() {
  for (unsigned x = 0; x < second::clock_values; ++x) lent_out.clocks[x] = 1000 - x;
}
Pair timed_step(const Subject& s) {
  return {"timed_step",
          [&] {
            set_clocks();
            floodneedle_timed_step(words(s), s.table.size(), s.state.data(), s.state.size(), lent_out.clocks.data(), lent_out.clocks.size(),
                                   lent_out.after.data(), &lent_out.answer);
          },
          [&] {
            set_clocks();
            second::timed_step(lent(s.table), lent(s.state), {lent_out.clocks.data(), lent_out.clocks.size()});
          }};
}
Pair simulate(const Subject& s, const Bytes& samples, std::uint64_t rounds) {
  return {"simulate",
          [&s, &samples, rounds] {
            floodneedle_simulate(words(s), s.table.size(), samples.data(), samples.size(), rounds, lent_out.clocks.data(), lent_out.clocks.size(),
                                 lent_out.after.data(), &lent_out.answer);
          },
          [&s, &samples, rounds] { second::simulate(lent(s.table), lent(samples), rounds, {lent_out.clocks.data(), lent_out.clocks.size()}); }};
}
Pair simulate_drawn(const Subject& s, const Bytes& laws, const Table& numbers, std::uint64_t rounds) {
  return {"simulate_drawn",
          [&s, &laws, &numbers, rounds] {
            floodneedle_simulate_drawn(words(s), s.table.size(), laws.data(), laws.size(), numbers.data(), numbers.size(), rounds, lent_out.clocks.data(),
                                       lent_out.clocks.size(), lent_out.after.data(), &lent_out.answer);
          },
          [&s, &laws, &numbers, rounds] {
            second::simulate_drawn(lent(s.table), lent(laws), lent(numbers), rounds, {lent_out.clocks.data(), lent_out.clocks.size()});
          }};
}
Pair merge(const Subject& s) {
  return {"merge", [&] { floodneedle_merge(words(s), s.table.size(), 0, lent_out.into.data(), lent_out.into.size(), &lent_out.answer); },
          [&] { second::merge(lent(s.table), 0, {lent_out.into.data(), lent_out.into.size()}); }};
}
// Into a copy of the table, made anew each time by both.
Pair repair(const Subject& s) {
  return {"repair",
          [&] {
            std::copy(s.table.begin(), s.table.end(), lent_out.into.begin());
            floodneedle_repair(lent_out.into.data(), lent_out.into.size(), lent_out.out.data(), lent_out.out.size(), &lent_out.answer);
          },
          [&] {
            std::copy(s.table.begin(), s.table.end(), lent_out.into.begin());
            second::repair({lent_out.into.data(), lent_out.into.size()}, {lent_out.out.data(), lent_out.out.size()});
          }};
}

Pair report(const Subject& s) {
  static Bytes out(FLOODNEEDLE_REPORT);
  const std::string request = second::request_line(s.state, 100);
  const auto whole = std::make_shared<Bytes>(request.begin(), request.end());
  whole->insert(whole->end(), s.text.begin(), s.text.end());
  return {"report", [whole] { floodneedle_report(whole->data(), whole->size(), out.data(), out.size(), &lent_out.answer); },
          [whole] { second::report(lent(*whole)); }};
}

Pair explain_table(const Subject& s) {
  static Bytes out(FLOODNEEDLE_EXPLANATION);
  return {"explain_table", [&] { floodneedle_explain_table(words(s), s.table.size(), out.data(), out.size(), &lent_out.answer); },
          [&] {
            Bytes text(second::max_text);
            text.resize(second::write(lent(s.table), {text.data(), text.size()}).length);
            second::explain(lent(text));
          }};
}
Pair to_names(const Subject& s) {
  static Bytes out(second::max_text);
  return {"to_names", [&] { floodneedle_to_names(s.text.data(), s.text.size(), out.data(), out.size(), &lent_out.answer); },
          [&] { second::to_names(lent(s.text), {out.data(), out.size()}); }};
}
// The subject's text is of the second form.
Pair to_numbers(const Subject& s) {
  static Bytes out(second::max_text);
  return {"to_numbers", [&] { floodneedle_to_numbers(s.text.data(), s.text.size(), out.data(), out.size(), &lent_out.answer); },
          [&] { second::to_numbers(lent(s.text), {out.data(), out.size()}); }};
}
Pair explain(const Subject& s) {
  static Bytes out(FLOODNEEDLE_EXPLANATION);
  return {"explain", [&] { floodneedle_explain(s.text.data(), s.text.size(), out.data(), out.size(), &lent_out.answer); }, [&] { second::explain(lent(s.text)); }};
}

// ---- the tables

void head(const char* title) {
  std::printf("\n%s\n\n| Call | Model | Rows | Bytes of text | Ratio to the second program | Multiple of the line above |%s\n|---|---|---|---|---|---|%s\n", title,
              with_times ? " Engine, microseconds |" : "", with_times ? "---|" : "");
}

// One line for each subject; the cost is also given as a multiple of that on the line above, to show how it grows. All take turns, so that
// lines can be compared too.
template <class Make>
void lines(const std::vector<Subject>& subjects, Make make) {
  std::vector<Work> works;
  const char* call = "";
  for (const Subject& s : subjects) {
    const Pair pair = make(s);
    call = pair.call;
    works.push_back(pair.engine);
    works.push_back(pair.second);
    lent_out.answer.kind = FLOODNEEDLE_DONE;
    pair.engine();
    if (lent_out.answer.kind == FLOODNEEDLE_REFUSED) std::printf("%s is refused.\n", s.name.c_str());
  }
  const std::vector<double> cost = least(works);
  for (std::size_t i = 0; i < subjects.size(); ++i) {
    const Subject& s = subjects[i];
    const double engine = cost[2 * i];
    std::printf("| %s | %s | %llu | %zu | %.3f | ", call, s.name.c_str(), (unsigned long long)second::count_rows(s.model), s.text.size(),
                engine / cost[2 * i + 1]);
    if (i > 0) std::printf("%.2f |", engine / cost[2 * i - 2]);
    else std::printf("|");
    if (with_times) std::printf(" %.2f |", engine * 1e6);
    std::printf("\n");
  }
  std::fflush(stdout);
}

// What one more settling step costs: a run of 4,096 steps less a run of none, by each program, and the bare loop's run.
void step_lines(const std::vector<Subject>& subjects) {
  std::printf("\nOne settling step\n\n| Model | Rows | Ratio to the second program | Ratio to the bare loop |%s\n|---|---|---|---|%s\n",
              with_times ? " Engine, nanoseconds |" : "", with_times ? "---|" : "");
  std::vector<Work> works;
  for (const Subject& s : subjects) {
    const Pair whole = settle(s, second::max_budget), none = settle(s, 0);
    const Work bare = [&s] {
      Bytes state = s.state;
      kept += bare_settle(words(s), state.data(), second::max_budget, lent_out.out.data(), &kept);
    };
    works.insert(works.end(), {whole.engine, none.engine, whole.second, none.second, bare});
  }
  const std::vector<double> costs = least(works);
  for (std::size_t i = 0; i < subjects.size(); ++i) {
    const double* cost = costs.data() + 5 * i;
    const double engine = cost[0] - cost[1];
    std::printf("| %s | %llu | %.3f | %.2f |", subjects[i].name.c_str(), (unsigned long long)second::count_rows(subjects[i].model),
                engine / (cost[2] - cost[3]), engine / cost[4]);
    if (with_times) std::printf(" %.1f |", engine / second::max_budget * 1e9);
    std::printf("\n");
  }
  std::fflush(stdout);
}

// Where the samples of each clock begin, for the bare loop: behind the clock's number.
std::array<const std::uint8_t*, second::members> fronts(const Subject& s, const Bytes& samples) {
  std::array<const std::uint8_t*, second::members> at{};
  const std::uint8_t* next = samples.data();
  for (unsigned x = 0; x < second::members; ++x) {
    if (!second::has(second::clocks_of(s.model), x)) continue;
    while (*next >= '0') ++next;
    at[x] = next;
    while (*next != '\n') ++next;
    ++next;
  }
  return at;
}

// What one more round of a simulation costs: 4,096 of them less none, by each program, and the bare loop's rounds. The text is the same, so that
// its scan is left out.
void round_lines(const std::vector<Subject>& subjects) {
  std::printf("\nOne round of a simulation\n\n| Model | Rows | Ratio to the second program | Ratio to the bare loop |%s\n|---|---|---|---|%s\n",
              with_times ? " Engine, nanoseconds | Rounds a second |" : "", with_times ? "---|---|" : "");
  std::vector<Bytes> samples;
  for (const Subject& s : subjects) samples.push_back(recorded(s, second::max_rounds + 1));
  std::vector<Work> works;
  for (std::size_t i = 0; i < subjects.size(); ++i) {
    const Subject& s = subjects[i];
    const Bytes& text = samples[i];
    const Pair whole = simulate(s, text, second::max_rounds), none = simulate(s, text, 0);
    const auto start = fronts(s, text);
    const second::State begin = second::start_of(s.model);
    const Bytes from(begin.parts, begin.parts + begin.count);
    const Work bare = [&s, start, from] {
      Bytes state = from;
      auto at = start;
      kept += bare_simulate(words(s), state.data(), second::started_of(s.model), at.data(), second::max_rounds, lent_out.clocks.data());
    };
    whole.engine();
    const Clocks values = lent_out.clocks;
    if (lent_out.answer.count != second::max_rounds) std::printf("%s does not go on.\n", s.name.c_str());
    bare();
    if (lent_out.clocks != values) std::printf("%s: the bare loop ends otherwise.\n", s.name.c_str());
    works.insert(works.end(), {whole.engine, none.engine, whole.second, none.second, bare});
  }
  const std::vector<double> costs = least(works);
  for (std::size_t i = 0; i < subjects.size(); ++i) {
    const double* cost = costs.data() + 5 * i;
    const double engine = cost[0] - cost[1];
    std::printf("| %s | %llu | %.3f | %.2f |", subjects[i].name.c_str(), (unsigned long long)second::count_rows(subjects[i].model),
                engine / (cost[2] - cost[3]), engine / cost[4]);
    if (with_times) std::printf(" %.1f | %.0f |", engine / second::max_rounds * 1e9, second::max_rounds / engine);
    std::printf("\n");
  }
  std::fflush(stdout);
}

// The same over draws, by one number and by two; beside it, what the engine's round takes over lists.
void draw_lines(const std::vector<Subject>& subjects) {
  std::printf("\nOne round of a simulation over draws\n\n| Model | Distributions | Ratio to the second program | Ratio to a round over lists |%s\n|---|---|---|---|%s\n",
              with_times ? " Engine, nanoseconds | Rounds a second |" : "", with_times ? "---|---|" : "");
  for (const Subject& s : subjects) {
    const Bytes samples = recorded(s, second::max_rounds + 1), one = distributed(s, false), two = distributed(s, true);
    const Table numbers = random_numbers(second::members * 2 * (second::max_rounds + 1));
    const Pair lists = simulate(s, samples, second::max_rounds), no_lists = simulate(s, samples, 0);
    std::vector<Work> works = {lists.engine, no_lists.engine};
    for (const Bytes* laws : {&one, &two}) {
      const Pair whole = simulate_drawn(s, *laws, numbers, second::max_rounds), none = simulate_drawn(s, *laws, numbers, 0);
      whole.engine();
      if (lent_out.answer.count != second::max_rounds) std::printf("%s does not go on.\n", s.name.c_str());
      works.insert(works.end(), {whole.engine, none.engine, whole.second, none.second});
    }
    const std::vector<double> costs = least(works);
    for (unsigned i = 0; i < 2; ++i) {
      const double* cost = costs.data() + 2 + 4 * i;
      const double engine = cost[0] - cost[1];
      std::printf("| %s | %s | %.3f | %.2f |", s.name.c_str(), i == 0 ? "`uni`" : "`mix`", engine / (cost[2] - cost[3]), engine / (costs[0] - costs[1]));
      if (with_times) std::printf(" %.1f | %.0f |", engine / second::max_rounds * 1e9, second::max_rounds / engine);
      std::printf("\n");
    }
  }
  std::fflush(stdout);
}

// The text of samples: M with more and more of them and no round, so that the scan is what grows.
void scan_lines(const std::vector<unsigned>& counts) {
  std::printf("\nThe scan of a text of samples: M, 0 rounds\n\n| Samples | Bytes | Ratio to the second program | Multiple of the line above |%s\n|---|---|---|---|%s\n",
              with_times ? " Engine, microseconds |" : "", with_times ? "---|" : "");
  const Subject s = paper_model();
  std::vector<Bytes> texts;
  for (unsigned count : counts) texts.push_back(recorded(s, count));
  std::vector<Work> works;
  for (const Bytes& text : texts) {
    const Pair pair = simulate(s, text, 0);
    works.insert(works.end(), {pair.engine, pair.second});
  }
  const std::vector<double> cost = least(works);
  for (std::size_t i = 0; i < texts.size(); ++i) {
    std::printf("| %u | %zu | %.3f | ", counts[i], texts[i].size(), cost[2 * i] / cost[2 * i + 1]);
    if (i > 0) std::printf("%.2f |", cost[2 * i] / cost[2 * i - 2]);
    else std::printf("|");
    if (with_times) std::printf(" %.2f |", cost[2 * i] * 1e6);
    std::printf("\n");
  }
  std::fflush(stdout);
}

}  // namespace

int main(int count, char** arguments) {
  if (count > 1) rounds = static_cast<unsigned>(std::strtoul(arguments[1], nullptr, 10));
  with_times = count > 2 && std::string(arguments[2]) == "times";

  const std::vector<Subject> texts = {long_rows(2), long_rows(16), long_rows(64)};
  head("Texts of 1 KB, 8 KB and 32 KB");
  lines(texts, check_text);
  lines(texts, read);
  lines(texts, write);
  lines(texts, recognise);

  const std::vector<Subject> old_texts = {long_rows(2), long_rows(16), long_rows(62)}, named_texts = {named(old_texts[0]), named(old_texts[1]), named(old_texts[2])};
  head("Texts of 1 KB, 8 KB and 31 KB made texts of the second form, and texts of the second form made old ones");
  lines(old_texts, to_names);
  lines(named_texts, to_numbers);

  const std::vector<Subject> trees = {chained_tree(1, 0, 0, 0), chained_tree(2, 1, 1, 0),  chained_tree(4, 3, 3, 0), chained_tree(7, 3, 15, 0),
                                      chained_tree(5, 5, 4, 0), chained_tree(11, 0, 10, 0), chained_tree(2, 0, 0, 5)};
  head("Fault trees, whose text this is, read as models: one basic element; small ones; 1,024 rows of 23 elements; a box of five; 64 actions; five PAND");
  lines(trees, read_tree);
  lines(trees, orderly);

  const std::vector<Subject> sizes = {paper_model(),         one_component(8, 16),  one_component(16, 16), one_component(32, 16),
                                      one_component(64, 16), one_component(16, 64), one_component(128, 8), many_components(16),
                                      many_components(32),   slow_sets(64),         slow_sets(128)};
  head("The checks: small; from 128 to 1,024 rows in one component; 1,024 rows with few states, with many, in 16 and in 32 components, and with sets that shrink slowly");
  lines(sizes, recognise);
  lines(sizes, component);
  lines(sizes, compatible);
  lines(sizes, accept);
  lines(sizes, confluent);

  const std::vector<Subject> running = {paper_model(), many_components(2), many_components(8), many_components(16), many_components(32)};
  head("One step; settling with a budget of 100; the program's report of that");
  lines(running, step);
  lines(running, [](const Subject& s) { return settle(s, 100); });
  lines(running, report);

  step_lines({few_move(2), few_move(8), few_move(16), few_move(32), all_move(2), all_move(8), all_move(16), all_move(32)});

  const std::vector<Subject> walking = {paper_model(), in_turn(1), in_turn(4), in_turn(8), in_turn(16)};
  const std::vector<Subject> testing = {paper_model(), in_turn(1), in_turn(4), in_turn(8), in_turn(16), triggering(16), triggering(64), many_components(16), many_components(32)};
  head("Components that are not confluent alone: the test, also where urgent outputs trigger one another and on confluent models of 1,024 rows; settling with a budget of 100 after paths of 0, 64 and 4,096 steps");
  lines(testing, orderly);
  lines(walking, [](const Subject& s) { return settle_after("settle_after, no step", s, 0); });
  lines(walking, [](const Subject& s) { return settle_after("settle_after, 64 steps", s, 64); });
  lines(walking, [](const Subject& s) { return settle_after("settle_after, 4,096 steps", s, second::max_path); });

  const std::vector<Subject> clashing = {paper_model(), in_turn(4), far_clash(8), far_clash(32), far_clash(128), many_components(32)};
  head("Why a system isn't confluent: M, which is; listeners that clash at their start; a clash at the end of a path of 7, 31 and 127 rows; a confluent model of 1,024 rows");
  lines(clashing, explain);
  lines(clashing, explain_table);

  const std::vector<Subject> timing = {waiting(1), waiting(4), waiting(16), waiting(32)};
  head("The timed step");
  lines(timing, timed_step);

  round_lines({paper_model(), plant(4, 4), plant(8, 4), plant(16, 4), plant(32, 2)});
  draw_lines({paper_model(), plant(4, 4), plant(16, 4), plant(32, 2)});
  scan_lines({1, 64, 1024, 16384, 131072});

  const std::vector<Subject> merging = {paper_model(),     to_merge(8, 8, 0), to_merge(8, 8, 1),  to_merge(8, 8, 2),
                                        to_merge(8, 8, 4), to_merge(8, 8, 8), to_merge(16, 8, 4), to_merge(4, 4, 8)};
  head("Merging components 0 and 1: M, then 64 pairs of states with more and more rows, then 128 pairs, then 16");
  lines(merging, merge);

  const std::vector<Subject> repairing = {deaf_paper_model(), deaf(1, 64, 1), deaf(16, 64, 1024), deaf(16, 64, 2), deaf(16, 64, 1), deaf(128, 8, 1),
                                          one_component(64, 16), many_deaf(32)};
  head("Missing self-loops put in: M without its last row; 64 rows; 1,024 rows of which one lacks, every other, and all; the same with 128 states; none of 1,024; all in 32 components");
  lines(repairing, repair);

  const Subject large = one_component(64, 16);
  constexpr std::size_t first_row = FLOODNEEDLE_TABLE - 4 * FLOODNEEDLE_ROWS, last_row = FLOODNEEDLE_TABLE - 4;
  const std::vector<Subject> wrong = {damaged(large, "wrong in its first block", 8), damaged(large, "wrong in its first row", first_row),
                                      damaged(large, "wrong in its last row", last_row)};
  head("Tables that are no image: the 64 states by 16 actions with one word wrong");
  lines(wrong, recognise);
  return kept == 1 ? 1 : 0;
}
