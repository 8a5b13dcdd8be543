// A seeded generator of models and of what is lent beside them. The same seed gives the same
// inputs everywhere.
#pragma once

#include <cstdint>
#include <string>
#include <vector>

#include "model.hpp"
#include "random.hpp"

namespace second {

enum class Size { small, medium, large };

enum class Family {
  accepted,       // 10 to 17 pass; confluent or not
  confluent,      // 18 passes too
  clashing,       // accepted, not confluent
  endless,        // confluent, unsettled at any budget from any state made of reached parts
  sharing,        // confluent, many components that share most actions
  components_32,  // confluent, 32 components
  rows_1024,      // confluent, 1,024 rows
  states_128,     // confluent, a component of 128 states
  text_32768,     // confluent, a text within a few bytes of the limit or at it
  orderly,        // not confluent, but closed, and the test for such systems passes
};

constexpr Family families[] = {
    Family::accepted,      Family::confluent, Family::clashing,  Family::endless,   Family::sharing,
    Family::components_32, Family::rows_1024, Family::states_128, Family::text_32768,
    Family::orderly};

Model generate(Random& random, Family family, Size size);

// Within every count, but with a text a few bytes over the limit: its text is 1 and its table 20,
// by that alone.
Model generate_overlong(Random& random);

// A confluent model in which time passes: parts run on their clocks and tell of it, others hear, count and
// pass it on. Some come to rest after a while, and some don't settle after a while.
Model generate_plant(Random& random, Size size);

// A model whose first refusal is this number, 10 to 18.
Model generate_failing(Random& random, unsigned number, Size size);

// A model that reading allows, with several faults of 10 to 18 at once.
Model generate_faulty(Random& random, Size size);

// A state of the model, made of reached parts in most draws; the reached one always is; the calm one
// is stable if a few tries find one that is; the odd one may be of wrong length or range.
std::vector<std::uint8_t> generate_state(Random& random, const Model& model);
std::vector<std::uint8_t> generate_reached_state(Random& random, const Model& model);
std::vector<std::uint8_t> generate_calm_state(Random& random, const Model& model);
std::vector<std::uint8_t> generate_odd_state(Random& random, const Model& model);

// 0 to 4,096; the odd one may be over, up to 2^64 - 1.
std::uint64_t generate_budget(Random& random);
std::uint64_t generate_odd_budget(Random& random);

// Enabled urgent outputs in turn from this state of an accepted model, at most `most` of them;
// the odd one may hold any byte or be over 4,096 long.
std::vector<std::uint8_t> generate_list(Random& random, const Model& model,
                                        const std::vector<std::uint8_t>& state, unsigned most);
std::vector<std::uint8_t> generate_odd_list(Random& random, const Model& model,
                                            const std::vector<std::uint8_t>& state);

// 64 clock values that a timed step takes in many states, some of them close above the floor. Those
// for a state keep its enabling clocks at 0 or above and put half the others close above the floor,
// so that one of them often stops there; the state may be of wrong length or range. The odd ones
// have ties, negatives, ends of the range and beyond, and may not be 64.
std::vector<std::int64_t> generate_ticks(Random& random);
std::vector<std::int64_t> generate_ticks_for(Random& random, const Model& model,
                                             const std::vector<std::uint8_t>& state);
std::vector<std::int64_t> generate_odd_ticks(Random& random);

// Steps that are possible from the start of an accepted model, two bytes each, at most `most` of them;
// the odd path may hold any byte, have a byte too many or be over 4,096 steps long.
std::vector<std::uint8_t> generate_path(Random& random, const Model& model, unsigned most);
std::vector<std::uint8_t> generate_odd_path(Random& random, const Model& model);

// Recorded samples, so many for each declared clock or a few fewer; small ones tie. The exact ones are
// just those that a simulation of so many rounds of this accepted model takes, until a round is refused;
// the scant ones lack the last of one clock. The odd ones have lines, fields and bytes damaged, or a list
// that is much shorter.
std::string generate_samples(Random& random, const Model& model, unsigned most);
std::string generate_exact_samples(Random& random, const Model& model, std::uint64_t rounds);
std::string generate_scant_samples(Random& random, const Model& model, std::uint64_t rounds);
std::string generate_odd_samples(Random& random, const Model& model, unsigned most);

// A distribution for each declared clock; the odd ones have ends and weights out of order or out of
// range, NaNs and infinities, or lines, fields and bytes damaged. Numbers for up to 10 rows of 64.
std::string generate_laws(Random& random, const Model& model);
std::string generate_odd_laws(Random& random, const Model& model);
std::vector<std::uint64_t> generate_numbers(Random& random);

// The model in the second form, by default names or by others; the odd one has lines, fields, names and
// bytes damaged.
std::string generate_named(Random& random, const Model& model);
std::string generate_odd_named(Random& random, const Model& model);

// The text of a tree of basic elements, gates and boxes; a large one may pass a limit. The odd one has
// lines, fields and bytes damaged, or breaks a condition.
std::string generate_tree(Random& random, Size size);
std::string generate_odd_tree(Random& random, Size size);

// A merge index: a good one, or any up to 2^64 - 1.
std::uint64_t generate_index(Random& random, const Model& model);

}  // namespace second
