// Models and what the checks answer: refusals 10 to 18 with their places. Kept apart so that other programs can be held to them too.
#pragma once

#include "refusal.hpp"
#include "texts.hpp"

namespace cases {

struct ModelCase {
  const char* why;
  Text text;  // spaces stand for tabs
  second::Refusal refusal;
};

using second::refuse;

inline const second::Refusal none{};

// Two rows that pass, so that row places over the system can be told from those in a component.
inline const Text before =
    "comp 1 0\n"
    "act 60 in\n"
    "act 61 in\n"
    "row 0 - 60 - 0\n"
    "row 0 - 61 - 0\n";

// A component that fails (f) and nothing else: 14.
inline const Text fails_f = "comp 1 0\nact 50 out\nclk 50 0\nrow 0 50 50 50 0\n";

// From state 0 an urgent output, 2, and an input, 3; the rows of states 1 and 2, of which 2 clashes.
inline const Text forked = "comp 3 0\nact 0 uout\nact 1 uout\nact 2 uout\nact 3 in\n";
inline const Text fork = "row 1 - 3 - 1\nrow 2 - 0 - 0\nrow 2 - 1 - 1\nrow 2 - 3 - 2\n";

// Loops for both urgent inputs everywhere, but in state 3 they part.
inline const Text loop_rows =
    "row 0 - 0 - 0\nrow 0 - 1 - 0\nrow 1 - 0 - 1\nrow 1 - 1 - 1\nrow 2 - 0 - 2\nrow 2 - 1 - 2\nrow 3 - 0 - 1\nrow 3 - 1 - 2\n";
inline const Text loops = "comp 4 0\nact 0 uin\nact 1 uin\n" + loop_rows;
inline const Text loops_from_3 = "comp 4 3\nact 0 uin\nact 1 uin\n" + loop_rows;

inline const ModelCase model_cases[] = {
    {"10: an input with a clock", "comp 1 0\nact 0 in\nclk 0 1\nrow 0 0 0 0 0\n", refuse(10, {0})},
    {"10: an urgent input with a clock", "comp 1 0\nact 0 uin\nclk 0 1\nrow 0 0 0 0 0\n", refuse(10, {0})},
    {"10: an urgent output with a clock", "comp 1 0\nact 0 uout\nclk 0 1\nrow 0 0 0 0 0\n", refuse(10, {0})},
    {"10: an output without", "comp 1 0\nact 0 out\nrow 0 - 0 - 0\n", refuse(10, {0})},
    {"10: rows count over the system", before + "comp 1 0\nact 0 in\nact 1 out\nrow 0 - 0 - 0\nrow 0 - 1 - 0\n",
     refuse(10, {3})},
    {"10: the lowest of two", "comp 2 0\nact 0 out\nrow 0 - 0 - 0\nrow 1 - 0 - 0\n", refuse(10, {0})},
    {"10 before 11", "comp 2 0\nact 0 out\nact 1 out\nclk 0 1\nrow 0 0 0 0 0\nrow 0 0 1 0 0\nrow 1 - 0 - 0\n",
     refuse(10, {2})},
    {"11: the later row", "comp 1 0\nact 0 out\nact 1 out\nclk 0 1\nrow 0 0 0 0 0\nrow 0 0 1 0 0\n", refuse(11, {1})},
    {"11: one action, two targets", "comp 2 0\nact 0 out\nclk 0 1\nrow 0 0 0 0 0\nrow 0 0 0 0 1\n", refuse(11, {1})},
    {"11: guards 0, 1, 1, 0 give the third",
     "comp 1 0\nact 0 out\nact 1 out\nact 2 out\nact 3 out\nclk 0 1\nclk 1 1\n"
     "row 0 0 0 0,1 0\nrow 0 1 1 0,1 0\nrow 0 1 2 0,1 0\nrow 0 0 3 0,1 0\n",
     refuse(11, {2})},
    {"11: rows count over the system",
     before + "comp 1 0\nact 0 out\nact 1 out\nclk 0 1\nrow 0 0 0 0 0\nrow 0 0 1 0 0\n", refuse(11, {3})},
    {"11: another state may wait for the same clock",
     "comp 2 0\nact 0 out\nclk 0 1\nrow 0 0 0 0 1\nrow 1 0 0 0 0\n", none},
    {"11 before 12", "comp 1 0\nact 0 out\nact 1 out\nact 2 in\nclk 0 1\nrow 0 0 0 0 0\nrow 0 0 1 0 0\n",
     refuse(11, {1})},
    {"12: the lowest state, then action", "comp 3 0\nact 4 in\nact 7 uin\nrow 0 - 4 - 0\nrow 0 - 7 - 0\nrow 2 - 4 - 0\n",
     refuse(12, {0, 1, 4})},
    {"12: the second action lacks", "comp 1 0\nact 4 in\nact 7 uin\nrow 0 - 4 - 0\n", refuse(12, {0, 0, 7})},
    {"12: outputs needn't be there", "comp 1 0\nact 4 out\nact 7 uout\n", none},
    {"12: of the second component", before + "comp 2 1\nact 0 in\nrow 0 - 0 - 0\n", refuse(12, {1, 1, 0})},
    {"12 of a high state before 13 of a low one", "comp 2 0\nact 0 in\nrow 0 - 0 - 0\nrow 0 - 0 - 1\n",
     refuse(12, {0, 1, 0})},
    {"13: an input", "comp 2 0\nact 0 in\nrow 0 - 0 - 0\nrow 1 - 0 - 0\nrow 1 - 0 - 1\n", refuse(13, {0, 1, 0})},
    {"13: an urgent input, by resets", "comp 1 0\nact 3 uin\nclk 0 1\nrow 0 - 3 - 0\nrow 0 - 3 0 0\n", refuse(13, {0, 0, 3})},
    {"13: the house rule", "comp 2 0\nact 5 uout\nrow 1 - 5 - 0\nrow 1 - 5 - 1\n", refuse(13, {0, 1, 5})},
    {"13: one search for (e) and the house rule",
     "comp 2 0\nact 0 in\nact 1 uout\nrow 0 - 0 - 0\nrow 0 - 1 - 0\nrow 0 - 1 - 1\nrow 1 - 0 - 0\nrow 1 - 0 - 1\n",
     refuse(13, {0, 0, 1})},
    {"13: outputs may have several rows", "comp 2 0\nact 0 out\nclk 0 1\nclk 1 1\nrow 0 0 0 0,1 0\nrow 0 1 0 0,1 0\n", none},
    {"13 before 14", "comp 2 0\nact 0 out\nact 1 in\nclk 0 0\nrow 0 0 0 0 0\nrow 0 - 1 - 0\nrow 0 - 1 - 1\nrow 1 - 1 - 1\n",
     refuse(13, {0, 0, 1})},
    {"14: not set at the start", fails_f, refuse(14, {0})},
    {"14: of the second component", before + fails_f, refuse(14, {1})},
    {"14: set at the start", "comp 1 0\nact 50 out\nclk 50 1\nrow 0 50 50 50 0\n", none},
    {"14: the clock that fired isn't reset", "comp 1 0\nact 0 out\nclk 0 1\nrow 0 0 0 - 0\n", refuse(14, {0})},
    {"14: unreachable states bind too", "comp 2 0\nact 0 in\nact 1 out\nclk 0 0\nrow 0 - 0 - 0\nrow 1 - 0 - 1\nrow 1 0 1 - 1\n",
     refuse(14, {0})},
    {"14: an unreachable state that asks for nothing more",
     "comp 2 0\nact 1 out\nclk 0 0\nrow 1 0 1 - 0\n", none},
    {"14: rows of inputs bind",
     "comp 2 0\nact 0 in\nact 1 out\nclk 0 0\nrow 0 - 0 - 1\nrow 1 - 0 - 1\nrow 1 0 1 0 1\n", refuse(14, {0})},
    {"14: rows of inputs may reset",
     "comp 2 0\nact 0 in\nact 1 out\nclk 0 0\nrow 0 - 0 0 1\nrow 1 - 0 - 1\nrow 1 0 1 0 1\n", none},
    {"14: a stable state keeps nothing that it doesn't wait for",
     "comp 2 0\nact 0 in\nact 1 out\nclk 0 1\nrow 0 - 0 - 1\nrow 1 - 0 - 1\nrow 1 0 1 0 1\n", refuse(14, {0})},
    {"14: an unstable state may hold more than enabling",
     "comp 2 0\nact 0 out\nact 1 uout\nclk 0 1\nrow 0 - 1 - 1\nrow 1 0 0 0 1\n", none},
    {"14: but not at the start if it isn't set",
     "comp 2 0\nact 0 out\nact 1 uout\nclk 0 0\nrow 0 - 1 - 1\nrow 1 0 0 0 1\n", refuse(14, {0})},
    {"14: an unstable state passes on what it holds, two steps long",
     "comp 3 0\nact 0 out\nact 1 uout\nclk 0 1\nrow 0 - 1 - 1\nrow 1 - 1 - 2\nrow 2 0 0 0 0\n", none},
    {"14: an unstable state may wait for a clock, and then must hold it",
     "comp 1 0\nact 0 out\nact 1 uout\nclk 0 0\nrow 0 0 0 0 0\nrow 0 - 1 - 0\n", refuse(14, {0})},
    {"14: a loop keeps a clock alive",
     "comp 2 0\nact 0 uout\nact 1 out\nclk 0 1\nrow 0 - 0 - 0\nrow 1 0 1 0 1\n", none},
    {"14 of component 0 before 10 of component 1", fails_f + "comp 1 0\nact 0 in\nclk 0 1\nrow 0 0 0 0 0\n", refuse(14, {0})},
    {"10 of component 1 before 15", "comp 1 0\nact 0 uout\ncomp 1 0\nact 0 uout\nact 1 out\nrow 0 - 1 - 0\n", refuse(10, {0})},
    {"15: two outputs", "comp 1 0\nact 3 out\ncomp 1 0\nact 3 out\n", refuse(15, {3, 0, 1})},
    {"15: `out` against `uout` is 15, not 17", "comp 1 0\nact 3 out\ncomp 1 0\nact 3 uout\n", refuse(15, {3, 0, 1})},
    {"15: the lowest action, then components",
     "comp 1 0\nact 5 out\ncomp 1 0\nact 4 uout\ncomp 1 0\nact 4 uout\nact 5 out\ncomp 1 0\nact 4 uout\n", refuse(15, {4, 1, 2})},
    {"15: an input between", "comp 1 0\nact 3 uout\ncomp 1 0\nact 3 uin\nrow 0 - 3 - 0\ncomp 1 0\nact 3 uout\n", refuse(15, {3, 0, 2})},
    {"15 for all actions before 16", "comp 1 0\nact 63 out\nclk 0 0\ncomp 1 0\nact 63 out\nclk 0 0\n", refuse(15, {63, 0, 1})},
    {"16: a clock of two, though no row names it", "comp 1 0\nclk 9 0\ncomp 1 0\nclk 9 1\n", refuse(16, {9, 0, 1})},
    {"16: the lowest clock, then components", "comp 1 0\nclk 9 0\ncomp 1 0\nclk 8 0\ncomp 1 0\nclk 8 0\nclk 9 0\n",
     refuse(16, {8, 1, 2})},
    {"16: clock 63", "comp 1 0\nclk 63 0\ncomp 1 0\ncomp 1 0\nclk 63 0\n", refuse(16, {63, 0, 2})},
    {"16 before 17", "comp 1 0\nact 0 in\nclk 63 0\nrow 0 - 0 - 0\ncomp 1 0\nact 0 uin\nclk 63 0\nrow 0 - 0 - 0\n",
     refuse(16, {63, 0, 1})},
    {"17: inputs of two kinds", "comp 1 0\nact 0 in\nrow 0 - 0 - 0\ncomp 1 0\nact 0 uin\nrow 0 - 0 - 0\n", refuse(17, {0, 0, 1})},
    {"17: an output and an urgent input", "comp 1 0\nact 63 out\ncomp 1 0\nact 63 uin\nrow 0 - 63 - 0\n", refuse(17, {63, 0, 1})},
    {"17: an urgent output and an input", "comp 1 0\nact 1 uout\ncomp 1 0\nact 1 in\nrow 0 - 1 - 0\n", refuse(17, {1, 0, 1})},
    {"17: the lowest two that clash",
     "comp 1 0\nact 2 uin\nrow 0 - 2 - 0\ncomp 1 0\nact 2 uin\nrow 0 - 2 - 0\ncomp 1 0\nact 2 in\nrow 0 - 2 - 0\n",
     refuse(17, {2, 0, 2})},
    {"17 before 18",
     "comp 2 0\nact 0 uout\nact 1 uout\nrow 0 - 0 - 1\nrow 0 - 1 - 1\ncomp 1 0\nact 0 in\nrow 0 - 0 - 0\n", refuse(17, {0, 0, 1})},
    {"18: two outputs", "comp 2 0\nact 0 uout\nact 1 uout\nrow 0 - 0 - 1\nrow 0 - 1 - 1\n", refuse(18, {0, 0, 0, 1})},
    {"18: two inputs clash too",
     "comp 3 0\nact 0 uin\nact 1 uin\nrow 0 - 0 - 1\nrow 0 - 1 - 2\nrow 1 - 0 - 1\nrow 1 - 1 - 1\nrow 2 - 0 - 2\nrow 2 - 1 - 2\n",
     refuse(18, {0, 0, 0, 1})},
    {"18: same state, but the resets of a step differ",
     "comp 2 0\nact 0 uin\nact 1 uin\nclk 0 0\nrow 0 - 0 - 0\nrow 0 - 1 - 1\nrow 1 - 0 0 1\nrow 1 - 1 - 1\n",
     refuse(18, {0, 0, 0, 1})},
    {"18: the union of resets is the same, each alone isn't",
     "comp 4 0\nact 0 uout\nact 1 uout\nclk 0 0\nclk 1 0\n"
     "row 0 - 0 0 1\nrow 0 - 1 0 2\nrow 1 - 1 1 3\nrow 2 - 0 1 3\n",
     refuse(18, {0, 0, 0, 1})},
    {"18: an action isn't paired with itself",
     "comp 2 0\nact 0 uout\nrow 0 - 0 - 1\nrow 1 - 0 - 0\n", none},
    {"18: plain inputs and outputs don't count",
     "comp 2 0\nact 0 in\nact 1 in\nrow 0 - 0 - 1\nrow 0 - 1 - 0\nrow 1 - 0 - 0\nrow 1 - 1 - 0\n", none},
    {"18: the lowest state, then lower, then higher action",
     "comp 3 2\nact 0 uout\nact 1 uout\nact 2 uout\n"
     "row 1 - 0 - 1\nrow 1 - 1 - 0\nrow 1 - 2 - 1\nrow 2 - 0 - 1\nrow 2 - 1 - 0\n",
     refuse(18, {0, 1, 0, 1})},
    {"18: a state that isn't reached doesn't count", "comp 2 0\nact 0 uout\nact 1 uout\nrow 1 - 0 - 0\nrow 1 - 1 - 0\n", none},
    {"18: the same, reached", "comp 2 1\nact 0 uout\nact 1 uout\nrow 1 - 0 - 0\nrow 1 - 1 - 0\n", refuse(18, {0, 1, 0, 1})},
    {"18: not at a lower state that isn't reached", "comp 3 2\nact 0 uout\nact 1 uout\n"
     "row 0 - 0 - 1\nrow 0 - 1 - 2\nrow 2 - 0 - 1\nrow 2 - 1 - 1\n", refuse(18, {0, 2, 0, 1})},
    {"18: an input that isn't urgent doesn't leave an unstable state", forked + "row 0 - 2 - 1\nrow 0 - 3 - 2\n" + fork, none},
    {"18: it leaves a stable state", forked + "row 0 - 3 - 2\n" + fork, refuse(18, {0, 2, 0, 1})},
    {"18: an urgent input leaves an unstable state",
     "comp 3 0\nact 0 uin\nact 1 uin\nact 2 uout\n"
     "row 0 - 0 - 1\nrow 0 - 1 - 0\nrow 0 - 2 - 0\nrow 1 - 0 - 1\nrow 1 - 1 - 1\nrow 1 - 2 - 2\nrow 2 - 0 - 2\nrow 2 - 1 - 2\n",
     refuse(18, {0, 0, 0, 2})},
    {"18: a timed row leaves a stable state",
     "comp 3 0\nact 0 out\nact 1 uout\nact 2 uout\nclk 0 1\nrow 0 0 0 - 1\nrow 1 - 1 0 0\nrow 1 - 2 0 2\n", refuse(18, {0, 1, 1, 2})},
    {"18: no timed row leaves an unstable state",
     "comp 3 0\nact 0 out\nact 1 uout\nact 2 uout\nact 3 uout\nclk 0 1\n"
     "row 0 0 0 - 1\nrow 0 - 3 - 2\nrow 1 - 1 - 2\nrow 1 - 2 - 1\n", none},
    {"18: two loops but in one state, which isn't reached", loops, none},
    {"18: of the third component",
     before + "comp 1 0\ncomp 2 0\nact 0 uout\nact 1 uout\nrow 0 - 0 - 1\nrow 0 - 1 - 1\n", refuse(18, {2, 0, 0, 1})},
    {"18: two loops but in one state, which is the start", loops_from_3, refuse(18, {0, 3, 0, 1})},
    {"no lines but `comp`", "comp 128 127\n", none},
    {"18: at the highest state", "comp 128 127\nact 0 uout\nact 1 uout\nrow 127 - 0 - 0\nrow 127 - 1 - 0\n",
     refuse(18, {0, 127, 0, 1})},
};

}  // namespace cases
