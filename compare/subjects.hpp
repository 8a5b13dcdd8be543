// Models of a given shape and size for the benchmark, all of them accepted and confluent unless it says otherwise.
#pragma once

#include <string>

#include "engine.hpp"

struct Subject {
  std::string name;
  second::Model model;
  Bytes text;
  Table table;
  Bytes state;  // the start
};

// The same subject with its text in the second form, by names of one letter and a digit where there are two dozen or more.
Subject named(Subject of);

// Model M of paper 01, from the state 1,0.
Subject paper_model();

// One component of so many states by 16 inputs, each row as long as it can be for 64 states of them to fit into 32,768 bytes. Not for the checks.
Subject long_rows(unsigned states);

// One component of so many states by urgent actions: with 16 of them every state has 120 pairs that must meet again, with 64 it has 2,016.
Subject one_component(unsigned states, unsigned actions);

// So many components of 4 states by 16 urgent actions, 4 of their own and 12 of the next three; it never settles. Past 16 components there are
// too few actions, and each has 2 of its own and 6 of the next three.
Subject many_components(unsigned components);

// The same, but the first component has its outputs in turn: they are the ones taken, and only the three before it hear them.
Subject few_move(unsigned components);

// One component that never settles, and others that hear all of its actions.
Subject all_move(unsigned components);

// One component of so many states and 1,024 rows whose active sets shrink by one state in each pass over the rows.
Subject slow_sets(unsigned states);

// So many components of 4 states that wait for four clocks each (two past 16 components), and hear others; every state is stable.
Subject waiting(unsigned components);

// So many components that run on a clock each, tell when it has ended, which resets it, and count, to so many, what the next three do and tell.
Subject plant(unsigned components, unsigned counts);

// So many sources that say two things in turn, each time their clock ends, and as many listeners that remember which they heard first of those of
// four sources: none of these is confluent, but the system passes the test for such.
Subject in_turn(unsigned sources);

// One component of so many states and urgent outputs, each of which triggers the next; it never settles.
Subject triggering(unsigned states);

// A fault tree of so many basic elements, the first of them in one box, below a chain of gates, of which the last are PAND. Its text is the tree's.
Subject chained_tree(unsigned basic, unsigned boxed, unsigned gates, unsigned pands);

// One component of so many states, in a row by an urgent output: in the last one two of them part.
Subject far_clash(unsigned states);

// A path of so many steps from the model's start, or as many as there are.
Bytes path_of(const Subject& of, unsigned steps);

// A text with so many samples for each clock of the model; no two clocks ever tie.
Bytes recorded(const Subject& of, unsigned samples);

// A file with a distribution for each clock of the model, ranges that begin at 1 and end near 2^40, so that clocks hardly ever tie: `mix` or `uni`.
// So many numbers for draws.
Bytes distributed(const Subject& of, bool mixture);
Table random_numbers(std::size_t count);

// Two components of so many states, by so many inputs each, which have nothing in common.
Subject to_merge(unsigned left, unsigned right, unsigned actions);

// Self-loops of inputs that lack: M without its last row; one component of so many states by inputs, whose first row of every so many lacks; and
// that of 2 states by 16 inputs so many times, without any row.
Subject deaf_paper_model();
Subject deaf(unsigned states, unsigned inputs, unsigned every);
Subject many_deaf(unsigned components);

// The same with one word of its table wrong: no image.
Subject damaged(Subject whole, const std::string& name, std::size_t word);
