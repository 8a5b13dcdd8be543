/* Floodneedle for C: an engine for input/output stochastic automata with urgency, its code proved.
 *
 * The library is compiled for x86-64 alone, with the calling convention that Linux has there. Of a C library it needs memcpy and memset.
 *
 * Every call takes any input whatever and returns. It keeps nothing between calls, allocates nothing and prints nothing. Every buffer is
 * lent by the caller, with its length behind its pointer. A pointer may not be NULL, also where the length is 0; a length may not be more
 * than the buffer has; and no two buffers of one call may overlap. A call cannot see whether that is so, and what it does where it is not
 * is not defined here.
 *
 * `answer` and, where a call has it, `after` are the answer: both are always written, all of their bytes. Where the kind is
 * FLOODNEEDLE_REFUSED, `number` and the first `places` of `place` tell why and where (docs/REFUSALS.md), every other
 * field is 0, `after` is zeros, and nothing is stored to any other lent buffer. Where nothing is refused, `number`, `places` and `place` are
 * 0, and so is every field that the answer does not use.
 *
 * In a model that `confluent` accepts, from a state each part of which its component can reach (19), urgent steps that come to an end come
 * to the same one in whatever order they are taken. settle and settle_list ask for both each time. In a model that `orderly` accepts the
 * same holds of every state that the whole system reaches: from the start by steps of which each non-urgent one leaves a stable state.
 * settle_after, settle_list_after, simulate and simulate_drawn take models that either of the two accepts, and begin at the start. step, step_by, advance
 * and timed_step ask for neither: in a model that `confluent` refuses with 18, what a loop over them arrives at can depend on which of
 * several enabled actions is taken first. Whoever loops over them asks `confluent` once, and begins at the start or where settling led to;
 * or asks `orderly` once, and begins at the start or where such a loop or settle_after led to.
 *
 * Stack, in bytes, the deepest seen of each call (`make -C compare stack` measures it, and holds these numbers to it):
 *   recognise 184, check_text 992, read 1552, write 328, start 232, component 1360, compatible 264, accept 1424, confluent 1888, merge 1600,
 *   repair 328, step 1808, advance 1904, step_by 1504, settle 2432, settle_list 2544, timed_step 1584, simulate 14720, simulate_drawn 14800,
 *   orderly 13648, settle_after 14608, settle_list_after 14576, read_tree 13792,
 *   explain_table 1456, to_names 1168, to_numbers 2184, report 70432 and explain 69696 (which keep a table of their own).
 *
 * A model is a text (docs/MODEL.md), without the request line that the program `settle` reads in front of it. A table is what
 * floodneedle_read makes of it, 64-bit words at the front of a buffer; what lies behind the image is neither read nor changed. No caller
 * need know what stands where in it, though docs/TABLE.md says it.
 * A set of clocks or actions is one 64-bit number, bit x for member x.
 * A composed state is one byte for each component, in order; a wrong length or range is refused with 21.
 */
#ifndef FLOODNEEDLE_H
#define FLOODNEEDLE_H

#include <stdbool.h>
#include <stddef.h>
#include <stdint.h>

#ifdef __cplusplus
extern "C" {
#endif

/* Limits of a model: components, states of a component, rows in all, bytes of its text. */
#define FLOODNEEDLE_COMPONENTS 32
#define FLOODNEEDLE_STATES 128
#define FLOODNEEDLE_ROWS 1024
#define FLOODNEEDLE_TEXT 32768

/* Sizes: words of a component's block (137) and of a table (8,481), bytes of a state, the largest budget, which is also the longest list or
 * trace, the most rounds of a simulation and the most steps of a path, the number of clock values, bytes of the longest report there can be, and
 * bytes that no explanation exceeds. */
#define FLOODNEEDLE_BLOCK (8 + FLOODNEEDLE_STATES + 1)
#define FLOODNEEDLE_TABLE (1 + FLOODNEEDLE_BLOCK * FLOODNEEDLE_COMPONENTS + 4 * FLOODNEEDLE_ROWS)
#define FLOODNEEDLE_STATE FLOODNEEDLE_COMPONENTS
#define FLOODNEEDLE_BUDGET 4096
#define FLOODNEEDLE_CLOCKS 64
#define FLOODNEEDLE_REPORT 1322226
#define FLOODNEEDLE_EXPLANATION 26314

enum floodneedle_kind {
  FLOODNEEDLE_REFUSED = 0,
  FLOODNEEDLE_DONE = 1,
  FLOODNEEDLE_MOVED = 2,
  FLOODNEEDLE_STABLE = 3,
  FLOODNEEDLE_UNSETTLED = 4,
  FLOODNEEDLE_FIRED = 5,
  FLOODNEEDLE_QUIET = 6
};

/* Refusal numbers. docs/REFUSALS.md has for each its place, what to do about it, and an input that earns it. */
enum floodneedle_refusal {
  FLOODNEEDLE_TEXT_TOO_LONG = 1,         /* over FLOODNEEDLE_TEXT bytes */
  FLOODNEEDLE_LINE_MISSHAPEN = 2,        /* a line is not of the shape of its kind, or the last has no LF; line, column */
  FLOODNEEDLE_LINE_OUT_OF_TURN = 3,      /* a line before the first comp, or act, clk, row not in this order */
  FLOODNEEDLE_NUMBER_OUT_OF_RANGE = 4,   /* a number in a line is outside its range; line, column */
  FLOODNEEDLE_NOT_DECLARED = 5,          /* a row names an action or a clock that its component did not declare, or an element of a
                                          * tree an input that no line defines; line, column */
  FLOODNEEDLE_NOT_ASCENDING = 6,         /* lines of one kind, clocks of a resets field, or elements of a tree do not ascend */
  FLOODNEEDLE_TOO_MANY = 7,              /* a component or a row too many */
  FLOODNEEDLE_NO_COMPONENT = 8,          /* the text is empty */
  FLOODNEEDLE_REQUEST_MISSHAPEN = 9,     /* the program's request line, which no call here answers */
  FLOODNEEDLE_GUARD_MISFITS = 10,        /* an out row without a clock, or another row with one */
  FLOODNEEDLE_GUARD_TWICE = 11,          /* a clock guards two rows that leave one state */
  FLOODNEEDLE_INPUT_MISSING = 12,        /* a state has no row for an input */
  FLOODNEEDLE_INPUT_TWICE = 13,          /* a state has two rows for one input or urgent output */
  FLOODNEEDLE_CLOCK_NOT_SET = 14,        /* a clock may be waited for without having been set */
  FLOODNEEDLE_OUTPUT_SHARED = 15,        /* two components output one action */
  FLOODNEEDLE_CLOCK_SHARED = 16,         /* two components have one clock */
  FLOODNEEDLE_URGENCY_DIFFERS = 17,      /* an action is urgent in one component and not in another */
  FLOODNEEDLE_NOT_CONFLUENT = 18,        /* the order of two urgent actions of a component matters */
  FLOODNEEDLE_NOT_REACHED = 19,          /* a part of the state is one that its component cannot reach */
  FLOODNEEDLE_NO_IMAGE = 20,             /* the table is not the image of a model */
  FLOODNEEDLE_STATE_MISFITS = 21,        /* a state of wrong length or range */
  FLOODNEEDLE_TOO_MANY_STEPS = 22,       /* a budget, a list, rounds or a path over FLOODNEEDLE_BUDGET */
  FLOODNEEDLE_NOT_ENABLED = 23,          /* an action that was named or listed is no enabled urgent output */
  FLOODNEEDLE_BUFFER_TOO_SHORT = 24,     /* the place is the number of bytes needed */
  FLOODNEEDLE_COMPONENT_ABSENT = 25,     /* no component has this index, or none the next one in merging */
  FLOODNEEDLE_MERGED_TOO_LARGE = 26,     /* the merged or repaired model would exceed a limit */
  FLOODNEEDLE_NOT_STABLE = 27,           /* timed: an urgent output is enabled */
  FLOODNEEDLE_VALUES_MISFIT = 28,        /* not FLOODNEEDLE_CLOCKS values; timed: or one outside -2^40 to 2^40 */
  FLOODNEEDLE_CLOCK_BELOW_ZERO = 29,     /* timed: an enabling clock is below zero */
  FLOODNEEDLE_CLOCKS_TIE = 30,           /* two enabling clocks share the least value */
  FLOODNEEDLE_SAMPLES_MISSHAPEN = 40,    /* simulation: a line of the sample text is bad, or one lacks; line */
  FLOODNEEDLE_SAMPLES_RAN_OUT = 41,      /* simulation: a clock that is due a sample has none left */
  FLOODNEEDLE_ROUND_UNSETTLED = 42,      /* simulation: a round does not settle; the round, from 0 */
  FLOODNEEDLE_INPUT_OPEN = 45,           /* an action that is heard and nobody's output; the lowest such action */
  FLOODNEEDLE_PATH_NOT_POSSIBLE = 46,    /* a step of the path is not possible where it is taken; its index, from 0 */
  FLOODNEEDLE_TREE_ILL_FORMED = 47,      /* a condition of well-formed trees is broken; its number, 1 to 6 */
  FLOODNEEDLE_TREE_TOO_LARGE = 48,       /* the model of the tree would exceed a limit */
  FLOODNEEDLE_LAWS_MISSHAPEN = 49,       /* simulation over draws: a line of the distributions is bad, or one lacks; line */
  FLOODNEEDLE_NUMBERS_RAN_OUT = 50       /* simulation over draws: a clock that is due a draw has too few numbers left */
};

struct floodneedle_answer {
  uint64_t kind;     /* an enum floodneedle_kind */
  uint64_t number;   /* of the refusal, else 0 */
  uint64_t places;   /* how many values the refusal's place has, 1 to 4; 0 where nothing is refused */
  uint64_t place[4];
  uint64_t count;    /* bytes written (write, report, explain, explain_table, to_names, to_numbers), rows added (repair), steps taken (all that settle), components (start),
                      * later rounds done (simulate, simulate_drawn); else 0 */
  uint64_t action;   /* where moved or fired, else 0 */
  uint64_t resets;   /* a set of clocks: where moved or fired, of a settling, and those set at the start (start); else 0 */
  uint64_t ticks;    /* where fired, else 0 */
};

/* The calls write eleven words there. */
#if defined(__cplusplus) && __cplusplus >= 201103L
static_assert(sizeof(struct floodneedle_answer) == 88, "an answer is eleven 64-bit words");
#elif !defined(__cplusplus) && defined(__STDC_VERSION__) && __STDC_VERSION__ >= 201112L
_Static_assert(sizeof(struct floodneedle_answer) == 88, "an answer is eleven 64-bit words");
#endif

/* The version, as the file VERSION has it. MAJOR changes where a call's promise or a size does in a way that a caller must know, MINOR where
 * calls are added, PATCH else (docs/CHANGELOG.md); before 1.0.0 a new MINOR may do what a new MAJOR does. */
#define FLOODNEEDLE_VERSION_MAJOR 0
#define FLOODNEEDLE_VERSION_MINOR 2
#define FLOODNEEDLE_VERSION_PATCH 0

/* The version that was linked: major * 1,000,000 + minor * 1,000 + patch. */
uint64_t floodneedle_version(void);

/* Whether the table's front is the image of a model. It is not exactly where any other call on it refuses with 20. */
bool floodneedle_recognise(const uint64_t *table, size_t table_words);

/* Done exactly where the bytes are the text of a model; else 1, or 2 to 7 at the first faulty line, or 8.
 * 2, 4 and 5 have two values, line and column, both from 1 and columns in bytes: for 2 the first byte that no well-shaped
 * line could have there, one past the end where the text ends within a line; for 4 and 5 the first byte of the first value
 * at fault. 3, 6 and 7 have the line alone. */
void floodneedle_check_text(const uint8_t *text, size_t text_bytes, struct floodneedle_answer *answer);

/* Reads the text into the table: done exactly where the bytes are the text of a model, and then the table's front is the image of that
 * model. Nothing is written before the last line is checked.
 * Refuses: as check_text, then 24 (bytes needed: 8 for each of FLOODNEEDLE_TABLE words). */
void floodneedle_read(const uint8_t *text, size_t text_bytes, uint64_t *table, size_t table_words, struct floodneedle_answer *answer);

/* Reads the text of a repairable fault tree into the table (docs/TREES.md): done exactly where the bytes are the text of a well-formed tree
 * whose model keeps to the limits, and then the table's front is the image of that model, one component for each line. The model is accepted.
 * Nothing is written before all of it is checked.
 * Refuses: line by line 2, 4, 6, by the shapes of a tree's lines and with places as check_text has them; then 5 (line and column of the
 * first input that no line defines); 47 (the number of the lowest condition that is broken: 1 an element reaches itself, 2 there is not
 * exactly one top, 3 an input twice in one element, 4 a box is an input, 5 a box repairs what is no basic element, 6 an element is in two
 * boxes); 48; 24 (bytes needed: 8 for each of FLOODNEEDLE_TABLE words). */
void floodneedle_read_tree(const uint8_t *text, size_t text_bytes, uint64_t *table, size_t table_words, struct floodneedle_answer *answer);

/* Writes the one text of the table's model to the buffer's front; `count` is its length. Reading it again gives the same image.
 * Refuses: 20, 24 (bytes needed). */
void floodneedle_write(const uint64_t *table, size_t table_words, uint8_t *text, size_t text_bytes, struct floodneedle_answer *answer);

/* Where the system begins: done, `count` the number of components, `resets` the clocks set at the start, `after` the start state, whose
 * places past the components are 0. So for every model, accepted or not.
 * Refuses: 20. */
void floodneedle_start(const uint64_t *table, size_t table_words, uint8_t after[FLOODNEEDLE_STATE], struct floodneedle_answer *answer);

/* Done exactly where component i, counted from 0, meets (a) to (f) and the house rule by itself, whatever the other components are. Places
 * are those that accept tells: rows count over the whole model.
 * Refuses: 20, 25 (i is no component), 10 to 14 of component i. */
void floodneedle_component(const uint64_t *table, size_t table_words, uint64_t i, struct floodneedle_answer *answer);

/* Done exactly where every two components are compatible, whatever conditions each of them meets; so also where there is only one.
 * Refuses: 20, 15, 16, 17. */
void floodneedle_compatible(const uint64_t *table, size_t table_words, struct floodneedle_answer *answer);

/* Done exactly where every component meets (a) to (f) and the house rule, and the components are compatible: the first refusal of
 * component for 0, 1, .. in turn, and then what compatible answers.
 * Refuses: 20; 10 to 14 for each component in turn; 15, 16, 17. */
void floodneedle_accept(const uint64_t *table, size_t table_words, struct floodneedle_answer *answer);

/* Done exactly where the model is accepted and every component is confluent in the states that it can reach: from its start by rows of
 * which every non-urgent one leaves a stable state.
 * Refuses: as accept, then 18. */
void floodneedle_confluent(const uint64_t *table, size_t table_words, struct floodneedle_answer *answer);

/* Writes the image of the model in which components i and i + 1 are replaced by their product, unreachable pairs included, to the front
 * of a second table; the first table stays as it is. The two tables may not overlap: a model that is merged into its own table can be
 * answered done, and what is left there is no image.
 * Refuses: as accept, then 24 (bytes needed: 8 for each of FLOODNEEDLE_TABLE words), 25 (i + 1 is no component), 26 (over
 * FLOODNEEDLE_STATES states, or over FLOODNEEDLE_ROWS rows or FLOODNEEDLE_TEXT bytes of text in the whole model). */
void floodneedle_merge(const uint64_t *table, size_t table_words, uint64_t i, uint64_t *into, size_t into_words,
                       struct floodneedle_answer *answer);

/* Puts a self-loop (no guard, no resets) into the table's model wherever a state lacks a row of one of its component's inputs, `in` or
 * `uin`; all other rows and everything else stay. Works in the lent table; words behind the image stay. Each added row is listed at the
 * front of `list` as three bytes, component, state, action, ascending; later bytes stay. Done, with `count` the number of added rows: 0
 * where none lacked, and then neither buffer changes. The model need not be accepted. The result never earns 12 of accept or component,
 * and a second repair adds nothing.
 * Refuses: 20, 24 (of the list; bytes needed: 3 for each row to be added), 26 (over FLOODNEEDLE_ROWS rows or FLOODNEEDLE_TEXT bytes of
 * text in the repaired model). */
void floodneedle_repair(uint64_t *table, size_t table_words, uint8_t *list, size_t list_bytes, struct floodneedle_answer *answer);

/* One urgent step, by the lowest-numbered enabled urgent output: moved, with action and resets, or stable. `after` is always written:
 * the state after the step, the state as given where stable, zeros where refused; places past the state's own are 0.
 * It does not ask whether the model is confluent, on which it depends whether the order of steps matters: ask `confluent` once.
 * Refuses: as accept, then 21. */
void floodneedle_step(const uint64_t *table, size_t table_words, const uint8_t *state, size_t parts,
                      uint8_t after[FLOODNEEDLE_STATE], struct floodneedle_answer *answer);

/* The same step on a state that is lent, and advanced there: where it moved, the bytes are the state after it; where it is stable or
 * refused nothing is stored, so that they may lie in memory that can only be read.
 * It does not ask whether the model is confluent: before a loop over it ask `confluent` once, or where the loop ends depends on the order.
 * Refuses: as step. */
void floodneedle_advance(const uint64_t *table, size_t table_words, uint8_t *state, size_t parts, struct floodneedle_answer *answer);

/* One urgent step by a named action, moved or refused; never stable.
 * It does not ask whether the model is confluent: if it is not, where a run ends can depend on the actions that the caller names.
 * Refuses: as accept, then 21, 23 at 0 where the action is not an enabled urgent output. */
void floodneedle_step_by(const uint64_t *table, size_t table_words, const uint8_t *state, size_t parts, uint64_t action,
                         uint8_t after[FLOODNEEDLE_STATE], struct floodneedle_answer *answer);

/* Takes the lowest-numbered enabled urgent output at most `budget` times: stable exactly where none is enabled at the end, else unsettled;
 * `count` steps, `resets` the clocks reset at least once, `after` the state reached. The actions taken are the first `count` bytes of the
 * trace; its later bytes stay.
 * Refuses: as confluent, then 21, 19 (the lowest component that cannot reach its part), 22 (budget over 4,096), 24 (trace shorter than the
 * budget). */
void floodneedle_settle(const uint64_t *table, size_t table_words, const uint8_t *state, size_t parts, uint64_t budget,
                        uint8_t *trace, size_t trace_bytes, uint8_t after[FLOODNEEDLE_STATE], struct floodneedle_answer *answer);

/* Takes the listed actions in order and answers as settling does.
 * Refuses: as confluent, then 21, 19 (the lowest component that cannot reach its part), 22 (list over 4,096), 23 at the index of the first
 * listed action that is not an enabled urgent output. */
void floodneedle_settle_list(const uint64_t *table, size_t table_words, const uint8_t *state, size_t parts,
                             const uint8_t *list, size_t list_bytes, uint8_t after[FLOODNEEDLE_STATE], struct floodneedle_answer *answer);

/* Done exactly where the model is accepted, closed (every action that some component hears is an output of one) and passes the test for
 * systems of components that are not confluent alone: no two urgent actions whose order matters in a component, in a state that it can
 * reach, are led to by urgent outputs that become enabled together, at the start or by one non-urgent action. Where confluent is done and
 * the model is closed, this is done too. 18 tells the place that confluent tells: it may name a pair that does no harm while another does.
 * Refuses: as accept, then 45 (the lowest action that is heard and nobody's output), 18. */
void floodneedle_orderly(const uint64_t *table, size_t table_words, struct floodneedle_answer *answer);

/* Settles as settle does, from the state to which a path leads from the start. `path` has two bytes for each step, its action and its
 * guard: 0 for none, x + 1 for clock x. A step is possible if its action is an enabled urgent output and the guard 0; or if the state is
 * stable, and the component that outputs the action has a row by it with that clock as its guard from where it is. Clock values play no
 * part. The empty path is the start; the path may end where urgent outputs are enabled. `count`, `resets` and the trace are those of the
 * settling alone; places of `after` past the components are 0. The model need pass confluent or orderly, not both: in either the answer
 * does not depend on the order of the urgent steps.
 * Refuses: as accept; then, where confluent refuses with 18, as orderly: 45, 18; 22 (a path over 8,192 bytes, that is over 4,096 steps);
 * 46 (the index of the first step that is not possible; a last byte alone begins such a step); 22 (budget over 4,096), 24 (trace shorter
 * than the budget). */
void floodneedle_settle_after(const uint64_t *table, size_t table_words, const uint8_t *path, size_t path_bytes, uint64_t budget,
                              uint8_t *trace, size_t trace_bytes, uint8_t after[FLOODNEEDLE_STATE], struct floodneedle_answer *answer);

/* Takes the listed actions in order from the state to which a path leads, and answers as settle_after does.
 * Refuses: as settle_after as far as 46; then 22 (list over 4,096), 23 at the index of the first listed action that is not an enabled
 * urgent output. */
void floodneedle_settle_list_after(const uint64_t *table, size_t table_words, const uint8_t *path, size_t path_bytes,
                                   const uint8_t *list, size_t list_bytes, uint8_t after[FLOODNEEDLE_STATE],
                                   struct floodneedle_answer *answer);

/* In a stable state the enabling clock with the least value fires: fired, with that value as `ticks`, action and resets, and `after` the
 * state after its row; every declared clock falls by it, down to -2^40 at the lowest, and undeclared places stay. With no enabling clock
 * it is quiet and nothing changes. Storing new samples for the clocks in `resets` is the caller's work.
 * It does not ask whether the model is confluent: whoever settles between timed steps by a loop of his own asks `confluent` once.
 * Refuses: as accept, then 21, 27, 28, 29, 30. */
void floodneedle_timed_step(const uint64_t *table, size_t table_words, const uint8_t *state, size_t parts,
                            int64_t *clocks, size_t clock_values, uint8_t after[FLOODNEEDLE_STATE], struct floodneedle_answer *answer);

/* A simulation over recorded samples. `samples` is a text with a line for each declared clock, ascending: the clock's number, its samples,
 * if any, each behind a tab, and LF. Numbers are decimal, without a needless zero in front; a sample is 1 to 2^40. Any length will do.
 * All clocks begin at 0. Round 0 sets the clocks that are set at the start, and settles there; each later round, `rounds` of them (0 to 4,096),
 * is a timed step from where the last one ended, as timed_step takes it, and settles again. Settling takes the lowest-numbered enabled urgent
 * output, at most 4,096 times in a round. As a round ends, each clock set or reset in it takes one sample, the next of its own line, however
 * often it was reset; the others keep what they have. Where no clock is waited for the simulation is over, and this round does not count.
 * Done, with `count` the later rounds done and `after` the state, whose places past the components are 0. The declared clocks' values are
 * written to their places in `clocks`; the others stay. What the values were before does not matter.
 * In whatever order the urgent steps are taken, every round ends with the same state and values. The model need pass confluent or orderly.
 * Refuses: as accept; then, where confluent refuses with 18, as orderly: 45, 18; 22 (over 4,096 rounds), 28 (not FLOODNEEDLE_CLOCKS
 * values), 40 (the first bad line, from 1; one past the last where all are good and too few); then round by round 30 (two enabling clocks
 * share the least value: the lowest such clock; not in round 0), 42 (the round, which does not settle), 41 (the lowest clock that is due a
 * sample and has none left). */
void floodneedle_simulate(const uint64_t *table, size_t table_words, const uint8_t *samples, size_t sample_bytes, uint64_t rounds,
                          int64_t *clocks, size_t clock_values, uint8_t after[FLOODNEEDLE_STATE], struct floodneedle_answer *answer);

/* A simulation over draws from distributions: as simulate, but each clock that is due a sample draws one. `laws` is a text with a line for each
 * declared clock, ascending: the clock's number, `uni` and the lower and upper end of a range, or `mix`, a weight and the ends of two ranges,
 * all behind tabs, and LF. A weight or an end is the 16 lower-case hexadecimal digits of the bits of a binary64, the highest first: 1.0 is
 * 3ff0000000000000. Ends are 1 to 2^40, the lower one not above the upper one, weights 0 to 1; -0.0 is 0, and a NaN is nowhere within.
 * Number k of clock x, from 0, is numbers[64 * k + x], where there is one: each clock has numbers of its own, and those of others do not matter.
 * A draw takes the clock's next number n, or for `mix` two, always: by the first the first range is picked where u < weight, else the second,
 * and the other one is for the range. u is the top 53 bits of n over 2^53. The value is lower + u * (upper - lower), as three operations of
 * binary64, each rounded to nearest, ties to even, none fused, and held between the ends; the ticks are the largest whole number not above it.
 * The floating-point mode is meant to be the usual one: rounding to nearest, and subnormals neither flushed to zero nor taken for zero. The
 * promise is for that mode; a caller who has set another one sets it back before the call.
 * Done, and what is written, as simulate.
 * Refuses: as simulate, but 49 (the first bad line, from 1; one past the last where all are good and too few) for 40, and 50 (the lowest clock
 * that is due a draw and has fewer numbers left than it takes) for 41. */
void floodneedle_simulate_drawn(const uint64_t *table, size_t table_words, const uint8_t *laws, size_t law_bytes,
                                const uint64_t *numbers, size_t number_count, uint64_t rounds, int64_t *clocks, size_t clock_values,
                                uint8_t after[FLOODNEEDLE_STATE], struct floodneedle_answer *answer);

/* Writes what the program `settle` prints for these bytes of standard input to the buffer's front; `count` is its length. What the program
 * refuses is a line that it prints, and no refusal here.
 * Refuses: 24 (bytes needed: FLOODNEEDLE_REPORT, whatever the input). */
void floodneedle_report(const uint8_t *input, size_t input_bytes, uint8_t *out, size_t out_bytes, struct floodneedle_answer *answer);

/* Writes what the program `why` prints for this model text to the buffer's front; `count` is its length. Lines end with LF, and fields are
 * parted by tabs. Where every component is confluent in the states that it can reach it is `confluent`. Else, at the place that 18 names:
 *   clash, component, state, lower and higher action;
 *   path, and the rest of a row's line in the model text, for each row of a shortest path from the component's start to that state by rows of
 *   which every non-urgent one leaves a stable state: of all shortest ones the one whose first row comes first in the text, and so on;
 *   order, first action, its resets, the state after it, second action, and its resets and the state after it, or `missing`: twice, the lower
 *   action first and then the higher.
 * A text or model that is refused with 1 to 8 or 10 to 17 is a `refused` line, as the program `settle` prints it, and no refusal here.
 * Refuses: 24 (bytes needed: FLOODNEEDLE_EXPLANATION, whatever the text). */
void floodneedle_explain(const uint8_t *text, size_t text_bytes, uint8_t *out, size_t out_bytes, struct floodneedle_answer *answer);

/* The same of the table's model, which must be accepted: `confluent`, or the clash that 18 names, the path to it and both orders.
 * Refuses: as accept, then 24 (bytes needed: FLOODNEEDLE_EXPLANATION, whatever the model). */
void floodneedle_explain_table(const uint64_t *table, size_t table_words, uint8_t *out, size_t out_bytes, struct floodneedle_answer *answer);

/* Old to new: of a model's text, writes its text in the second form (docs/MODEL.md) to the buffer's front: a `name` line for each action that some
 * component declares, named `a` and its number, then the lines with these names; `count` is its length. Nothing is written before all is checked.
 * Refuses: as check_text; 24 (bytes needed, also where they are over 32,768); 26 (the new text is over 32,768 bytes). */
void floodneedle_to_names(const uint8_t *text, size_t text_bytes, uint8_t *new_text, size_t new_bytes, struct floodneedle_answer *answer);

/* New to old: of a text in the second form (docs/MODEL.md), in which actions have names, writes the text of its model to the buffer's front, the
 * names exchanged for their numbers; `count` is its length. Nothing is written before all of the text is checked.
 * Refuses: 1; in line order and within a line 2 to 6, 43 (a `name` line with a bad name, or one that an earlier line has), 44 (an `act` line with a
 * name that no `name` line gives; a row with one is 5), 7; 8; 44 (the first `name` line whose action no `act` line declares); 24 (bytes needed,
 * also where they are over 32,768); 26 (the old text is over 32,768 bytes). 43 and 44 give the line. */
void floodneedle_to_numbers(const uint8_t *text, size_t text_bytes, uint8_t *old, size_t old_bytes, struct floodneedle_answer *answer);

#ifdef __cplusplus
}
#endif

#endif
