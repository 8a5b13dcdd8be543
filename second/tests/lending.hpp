// The calls with vectors for lent buffers, of just the length lent so that the sanitizer sees a
// byte too far. Each call checks what holds of every call: beside a refusal all other fields are
// zero and no lent byte has changed, and past what it writes nothing changes.
#pragma once

#include <cstdint>
#include <string>
#include <vector>

#include "second.hpp"
#include "texts.hpp"

using Table = std::vector<std::uint64_t>;
using Part = std::vector<std::uint8_t>;
using Clocks = std::vector<std::int64_t>;

second::Answer lend_read(const Text& text, Table& into);
second::Answer lend_read_tree(const Text& text, Table& into);
second::WriteAnswer lend_to_names(const Text& text, Part& into);
second::WriteAnswer lend_to_numbers(const Text& text, Part& into);
second::WriteAnswer lend_write(const Table& table, Part& into);
second::Answer lend_recognise(const Table& table);
second::StartAnswer lend_start(const Table& table);
second::Answer lend_component(const Table& table, std::uint64_t i);
second::Answer lend_compatible(const Table& table);
second::Answer lend_accept(const Table& table);
second::Answer lend_confluent(const Table& table);
second::StepAnswer lend_step(const Table& table, const Part& state);
second::StepAnswer lend_step_by(const Table& table, const Part& state, std::uint64_t action);
second::SettleAnswer lend_settle(const Table& table, const Part& state, std::uint64_t budget, Part& trace);
second::SettleAnswer lend_settle_list(const Table& table, const Part& state, const Part& list);
second::TimedAnswer lend_timed_step(const Table& table, const Part& state, Clocks& ticks);
second::Answer lend_orderly(const Table& table);
second::SettleAnswer lend_settle_after(const Table& table, const Part& path, std::uint64_t budget, Part& trace);
second::SettleAnswer lend_settle_list_after(const Table& table, const Part& path, const Part& list);
second::SimulateAnswer lend_simulate(const Table& table, const Text& samples, std::uint64_t rounds, Clocks& clocks);
second::SimulateAnswer lend_simulate_drawn(const Table& table, const Text& laws, const Table& numbers, std::uint64_t rounds,
                                           Clocks& clocks);
second::RepairAnswer lend_repair(Table& table, Part& list);
second::Answer lend_merge(const Table& table, std::uint64_t i, Table& into);
std::string lend_explain(const Text& text);
std::string lend_report(const std::string& input);

// "refused\t9\t0\n" as 9 at 0; no refusal for other reports.
second::Refusal refusal_in(const std::string& report);

Part parts_of(const second::State& state);
second::State state_of(const Part& parts);

// A model's text as its image; fails the test where it isn't read.
Table image(const Text& text);

// M with one piece of its text replaced by another.
Text m_with(const Text& piece, const Text& other);
