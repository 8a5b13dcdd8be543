// Draws of all that a call can be lent. Draws stand in statements of their own, so that a seed gives the same inputs with every compiler.
#pragma once

#include "engine.hpp"
#include "generate.hpp"
#include "generate_limits.hpp"
#include "repairing.hpp"

namespace drawing {

using second::Random;

// A model that was drawn, and what the draws beside it ask of it.
struct Drawn {
  explicit Drawn(second::Model drawn);
  second::Model model;
  std::string text;
  Table table;
  bool accepted;
};

Bytes bytes_of(const std::string& text);
Table noise(Random& random, std::size_t words);
Bytes noise_bytes(Random& random, std::size_t bytes);

second::Size size(Random& random);
// Of any family, or faulty.
second::Model model(Random& random);

// Components that are not confluent alone, in a closed system that passes the test for such; at times with a row or two that lead elsewhere, so
// that it may fail that test, and at times with an input that nobody outputs.
second::Model not_alone(Random& random);
// The same with one or two rows that lead elsewhere; with an input that nobody outputs, and its rows.
second::Model turned(Random& random, second::Model model);
second::Model opened(Random& random, second::Model model);

// A text with some values of one line exchanged, so that one line has several faults and the first of them has to be told: numbers out of range,
// not declared, not ascending, or of wrong shape. Mostly in a row with a list of resets.
std::string misfit_text(Random& random, std::string text);
// Texts of the second form: with a component or a row too many; and of at most 32,768 bytes where the old text has more. And an old text of at most
// 32,768 bytes where the one with the default names has more.
std::string crowded_names(Random& random);
std::string lengthy_names(Random& random);
std::string lengthy_old(Random& random);

// The text of a well-formed tree with one thing drawn wrong, so that it breaks this condition, 1 to 6, and none below it; where the tree that was
// drawn has no place for that, the tree itself.
std::string misdrawn_tree(Random& random, unsigned condition);

// The same table, at times with words of noise behind it: they are neither read nor changed.
Table lengthened(Random& random, Table table);

// The same model with rows of inputs taken out, or with inputs declared that no state hears: what `repair` puts in.
second::Model deaf(Random& random, second::Model model);
// Such a model that has, repaired, just as many rows or bytes of text as there may be, or a few less or more.
second::Model deaf_at_a_limit(Random& random);
// Room for a list of what the model lacks, as long as needed or longer; at times shorter.
Bytes list_room(Random& random, const Drawn& drawn);

// A buffer for a table, as long as an image or longer; the odd one may be a word short, or empty.
Table room(Random& random);
Table odd_room(Random& random);

// Right for the model, stable or not; the unreached one has a part that its component does not get to, if there is such a state; the odd one may be
// of wrong length or range.
Bytes state(Random& random, const Drawn& drawn);
Bytes unreached_state(Random& random, const Drawn& drawn);
Bytes odd_state(Random& random, const Drawn& drawn);

// Steps that are possible from the start, if the model is accepted, few as a rule and up to 4,096; in the odd path something is wrong, or there is a
// byte too many; the long one is over 8,192 bytes.
Bytes path(Random& random, const Drawn& drawn);
Bytes odd_path(Random& random, const Drawn& drawn);
Bytes long_path(Random& random, const Drawn& drawn);
// The state after it; none where the model is not accepted, or the path not possible.
Bytes after_path(const Drawn& drawn, const Bytes& path);

// Actions to take one after the other; the odd ones need not be enabled, and there may be too many.
Bytes list(Random& random, const Drawn& drawn, const Bytes& state);
Bytes odd_list(Random& random, const Drawn& drawn, const Bytes& state);
// The list's first, as a rule.
std::uint64_t action(Random& random, const Bytes& list);

std::uint64_t budget(Random& random);
// As long as the budget or a little longer; at times shorter.
Bytes trace(Random& random, std::uint64_t budget);

// Values that a timed step takes in a stable state: the clocks that wait are at zero or above and one of them is the least, and many of the others
// lie so near the floor that they reach it. In the odd ones something is wrong: a tie, a value below zero or out of range, or their number.
Clocks clocks(Random& random, const Drawn& drawn, const Bytes& state);
Clocks odd_clocks(Random& random, const Drawn& drawn, const Bytes& state);

// Rounds of a simulation: few as a rule, up to 4,096; the odd ones may be over, up to 2^64 - 1.
std::uint64_t rounds(Random& random);
std::uint64_t odd_rounds(Random& random);
// A text of samples for so many rounds: just as many as are taken, one too few, or some for each clock; the odd one is damaged as a rule.
Bytes samples(Random& random, const Drawn& drawn, std::uint64_t rounds);
Bytes odd_samples(Random& random, const Drawn& drawn, std::uint64_t rounds);
// Distributions of the declared clocks; the odd ones are damaged as a rule. Numbers that draws take, for up to 10 rows of 64, or for so many rounds.
Bytes laws(Random& random, const Drawn& drawn);
Bytes odd_laws(Random& random, const Drawn& drawn);
Table numbers(Random& random, std::uint64_t rounds);
// 64 values of any content, which no simulation reads; the odd ones may be more or fewer.
Clocks values(Random& random);
Clocks odd_values(Random& random);

}  // namespace drawing
