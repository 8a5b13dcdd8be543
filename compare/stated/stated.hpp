// Tests with stated answers: inputs at the edges, and what paper 01 says of each, by number and place. Both programs are held to it.
#pragma once

#include <initializer_list>

#include "../tally.hpp"
#include "texts.hpp"

void try_stated();

// Each is a file of its own.
void stated_paper();
void stated_texts();
void stated_tables();
void stated_models();
void stated_components();
void stated_runs();
void stated_reached();
void stated_orderly();
void stated_trees();
void stated_clocks();
void stated_simulations();
void stated_draws();
void stated_merges();
void stated_repairs();
void stated_requests();
void stated_explanations();
void stated_names();
void stated_sizes();

// ---- what may be stated

Said refused(std::uint64_t number, std::initializer_list<std::uint64_t> place);
Said done(std::uint64_t count = 0);
Said moved(std::uint64_t action, std::uint64_t resets, const Bytes& after);
// Of a step.
Said stable(const Bytes& after);
Said settled(floodneedle_kind verdict, std::uint64_t steps, std::uint64_t resets, const Bytes& after);
Said fired(std::uint64_t ticks, std::uint64_t action, std::uint64_t resets, const Bytes& after);
Said quiet(const Bytes& after);

// ---- the limits, and what docs/TABLE.md and the longest report make of them: stated here, and neither program's own

constexpr unsigned max_components = 32, max_states = 128;
constexpr std::uint64_t block_words = 137, rows_at = 4385, table_words = 8481, table_bytes = 67848, report_bytes = 1322226, explanation_bytes = 26314;
static_assert(FLOODNEEDLE_COMPONENTS == max_components && FLOODNEEDLE_STATES == max_states && FLOODNEEDLE_BLOCK == block_words);
static_assert(FLOODNEEDLE_TABLE == table_words && FLOODNEEDLE_STATE == max_components && FLOODNEEDLE_REPORT == report_bytes);
static_assert(FLOODNEEDLE_EXPLANATION == explanation_bytes);

// ---- what is lent

constexpr std::uint64_t largest = ~std::uint64_t{0};

// The image of a model's text; no word at all where it is not read, so that each test on it fails.
Table image(const Text& text);
Bytes bytes_of(const Text& text);
// A text with one piece of it replaced, both with spaces for tabs.
Text with(Text text, const Text& piece, const Text& other);
Text repeated(const Text& piece, unsigned times);

Loan lent_table(const Table& table);
Loan lent_state(const Table& table, const Bytes& state);

// A refusal as the programs print it.
std::string printed(const second::Refusal& refusal);

// A report with bytes to spare: just this is printed.
void expect_report(const std::string& input, const std::string& report);

// Both checks on a table, and every other call that makes them, whose own refusals all come later. Where only check 18 fails it is stated apart what
// the calls answer that look at the new test then (orderly.cpp): of such a table both programs must agree there.
void expect_checks(const std::string& why, const Table& table, const Said& accepted, const Said& confluent);
