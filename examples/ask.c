/* One call of the C library from the command line: it reads a model text from standard input, makes the call and prints its answer on one line.
 * usage: ask VERB WORDS.. < MODEL
 *        ask tree VERB WORDS.. < TREE         the same call on the model of a repairable fault tree; ask tree alone tells whether it is read
 *   accept | confluent | orderly | start       no words; of the start its state and the clocks set there are told
 *   component I | merge I                      a component's number
 *   compatible                                 no words
 *   explain                                    why the model is not confluent, as the program `why` prints it
 *   step STATE | by STATE ACTION               a state is numbers joined by commas
 *   settle STATE BUDGET | list STATE ACTIONS   actions are numbers joined by commas, or - for none
 *   after PATH BUDGET | list-after PATH ACTIONS
 *                                              settling after a path from the start: steps joined by commas, each ACTION/CLOCK, or ACTION/- where
 *                                              it is urgent; - for no step
 *   timed STATE VALUES                         the values of clocks 0, 1, .. joined by commas; the others are 0
 *   simulate ROUNDS SAMPLES                    the samples as their text, with a comma for each tab and a semicolon for each LF, or - for none;
 *                                              told are the rounds done, the state, and the values of the clocks
 *   draw ROUNDS LAWS NUMBERS                   the same over draws: the distributions as their text, likewise, and the lent numbers joined by
 *                                              commas, 0 to 2^64 - 1, or - for none
 *   draw ROUNDS LAWS @SEED                     the same by numbers that are counted: number k of clock x is the (64 k + x)th, from 0, of
 *                                              SplitMix64 from this seed on
 *   write BYTES | text                         the text into a buffer of so many bytes; the text itself
 *   nothing                                    accept, on a table of zeros
 *   numbers                                    of a text in the second form: the old text
 *   names                                      the text in the second form, with the default names
 *   version                                    the version that was linked; no model is read
 * A refusal is printed as the program `settle` prints it. */
#include <stdio.h>
#include <stdlib.h>
#include <string.h>
#include <unistd.h>

#include "floodneedle.h"

enum { most = 8192 };

static uint8_t text[FLOODNEEDLE_TEXT + 1];
static uint64_t table[FLOODNEEDLE_TABLE], merged[FLOODNEEDLE_TABLE];
static int64_t clocks[FLOODNEEDLE_CLOCKS], numbers[most];
static uint8_t state[most], list[most], path[2 * FLOODNEEDLE_BUDGET + 2], after[FLOODNEEDLE_STATE], trace[FLOODNEEDLE_BUDGET];
static uint64_t lent[FLOODNEEDLE_CLOCKS * 2 * (FLOODNEEDLE_BUDGET + 1)]; /* a clock draws once in a round, by two numbers at most */
static struct floodneedle_answer answer;

static int usage(void) {
  fprintf(stderr, "ask: see the first lines of examples/ask.c\n");
  return 2;
}

/* Reads numbers joined by commas, and answers how many; `-` is none. */
static size_t numbers_of(const char *word) {
  size_t n = 0;
  if (strcmp(word, "-") == 0) return 0;
  for (char *end; n < most; word = end + 1) {
    numbers[n++] = strtoll(word, &end, 10);
    if (*end != ',') break;
  }
  return n;
}

/* A number that is no byte becomes 255, which no state, no action and no guard is. */
static uint8_t byte_of(int64_t number) { return number < 0 || number > 255 ? 255 : (uint8_t)number; }

/* The same as bytes. */
static size_t bytes_of(const char *word, uint8_t *to) {
  size_t n = numbers_of(word);
  for (size_t i = 0; i < n; ++i) to[i] = byte_of(numbers[i]);
  return n;
}

/* Reads a path, two bytes for each step: its action, and its guard, 0 for - and x + 1 for clock x. A step without its guard is one byte. */
static size_t path_of(const char *word) {
  size_t n = 0;
  if (strcmp(word, "-") == 0) return 0;
  for (char *end; n + 2 <= sizeof path; word = end + 1) {
    path[n++] = byte_of(strtoll(word, &end, 10));
    if (*end == '/') {
      int64_t clock = end[1] == '-' ? (end += 2, -1) : strtoll(end + 1, &end, 10);
      path[n++] = byte_of(clock + 1);
    }
    if (*end != ',') break;
  }
  return n;
}

static size_t read_text(void) {
  size_t length = 0;
  ssize_t got;
  while (length < sizeof text && (got = read(0, text + length, sizeof text - length)) > 0) length += (size_t)got;
  return length;
}

static void print_state(const uint8_t *parts, size_t n) {
  for (size_t i = 0; i < n; ++i) printf("%s%u", i == 0 ? "\t" : ",", parts[i]);
}

static void print_set(uint64_t set) {
  const char *before = "\t";
  if (set == 0) printf("\t-");
  for (unsigned x = 0; x < 64; ++x)
    if (set >> x & 1) {
      printf("%s%u", before, x);
      before = ",";
    }
}

/* The answer's line. n: how many parts the state has; where done, how many the start has, and else 0. */
static void print_answer(size_t n) {
  switch (answer.kind) {
    case FLOODNEEDLE_REFUSED:
      printf("refused\t%llu", (unsigned long long)answer.number);
      for (uint64_t i = 0; i < answer.places; ++i) printf("%s%llu", i == 0 ? "\t" : ",", (unsigned long long)answer.place[i]);
      break;
    case FLOODNEEDLE_DONE:
      printf("done");
      if (n > 0) {
        print_set(answer.resets);
        print_state(after, n);
      }
      break;
    case FLOODNEEDLE_MOVED:
      printf("moved\t%llu", (unsigned long long)answer.action);
      print_set(answer.resets);
      print_state(after, n);
      break;
    case FLOODNEEDLE_FIRED:
      printf("fired\t%llu\t%llu", (unsigned long long)answer.ticks, (unsigned long long)answer.action);
      print_set(answer.resets);
      print_state(after, n);
      break;
    case FLOODNEEDLE_QUIET: printf("quiet"); break;
    default:
      printf(answer.kind == FLOODNEEDLE_STABLE ? "stable" : "unsettled");
      printf("\t%llu", (unsigned long long)answer.count);
      print_set(answer.resets);
      print_state(after, n);
  }
  printf("\n");
}

/* Its text is the answer, of several lines. */
static int explain(void) {
  static uint8_t out[FLOODNEEDLE_EXPLANATION];
  floodneedle_explain_table(table, FLOODNEEDLE_TABLE, out, sizeof out, &answer);
  fwrite(out, 1, (size_t)answer.count, stdout);
  return answer.kind == FLOODNEEDLE_DONE;
}

/* The text that was read becomes one of the other form; no table is made of it. */
static int convert(void (*by)(const uint8_t *, size_t, uint8_t *, size_t, struct floodneedle_answer *), size_t bytes) {
  static uint8_t converted[2 * FLOODNEEDLE_TEXT];
  by(text, bytes, converted, sizeof converted, &answer);
  fwrite(converted, 1, (size_t)answer.count, stdout);
  return answer.kind == FLOODNEEDLE_DONE;
}

static int print_text(const uint64_t *of) {
  floodneedle_write(of, FLOODNEEDLE_TABLE, text, sizeof text, &answer);
  fwrite(text, 1, (size_t)answer.count, stdout);
  return 1;
}

static int merge(uint64_t i) {
  floodneedle_merge(table, FLOODNEEDLE_TABLE, i, merged, FLOODNEEDLE_TABLE, &answer);
  return answer.kind == FLOODNEEDLE_DONE ? print_text(merged) : 0;
}

/* Settling after a path, by rule with a budget or by list. */
static void settle_after(const char *steps, const char *budget, const char *actions, size_t *n) {
  size_t length = path_of(steps);
  floodneedle_start(table, FLOODNEEDLE_TABLE, after, &answer);
  *n = (size_t)answer.count;
  if (budget != 0) {
    floodneedle_settle_after(table, FLOODNEEDLE_TABLE, path, length, strtoull(budget, 0, 10), trace, sizeof trace, after, &answer);
  } else {
    size_t listed = bytes_of(actions, list);
    floodneedle_settle_list_after(table, FLOODNEEDLE_TABLE, path, length, list, listed, after, &answer);
  }
}

static int timed(size_t n, const char *values) {
  size_t count = numbers_of(values);
  for (size_t x = 0; x < count && x < FLOODNEEDLE_CLOCKS; ++x) clocks[x] = numbers[x];
  floodneedle_timed_step(table, FLOODNEEDLE_TABLE, state, n, clocks, FLOODNEEDLE_CLOCKS, after, &answer);
  return 0;
}

/* The text of samples or distributions, in place of the model's, which has been read. Answers its length. */
static size_t samples_of(const char *word) {
  size_t n = 0;
  if (strcmp(word, "-") == 0) return 0;
  for (; n < sizeof text && word[n] != 0; ++n) text[n] = (uint8_t)(word[n] == ',' ? '\t' : word[n] == ';' ? '\n' : word[n]);
  return n;
}

/* The numbers that draws take, joined by commas, or as many as may be lent, from a seed on. Answers how many. */
static size_t lent_of(const char *word) {
  size_t n = 0;
  if (strcmp(word, "-") == 0) return 0;
  if (word[0] == '@') {
    uint64_t seed = strtoull(word + 1, 0, 10);
    for (; n < sizeof lent / sizeof lent[0]; ++n) {
      uint64_t z = seed += 0x9e3779b97f4a7c15u;
      z = (z ^ (z >> 30)) * 0xbf58476d1ce4e5b9u;
      z = (z ^ (z >> 27)) * 0x94d049bb133111ebu;
      lent[n] = z ^ (z >> 31);
    }
    return n;
  }
  for (;;) {
    char *end = 0;
    lent[n++] = strtoull(word, &end, 10);
    if (*end != ',' || n == sizeof lent / sizeof lent[0]) return n;
    word = end + 1;
  }
}

/* Over samples, or over draws by lent numbers. Where it is done each line of the text begins with a declared clock. */
static int simulate(uint64_t rounds, const char *word, const char *drawn) {
  size_t length, parts;
  floodneedle_start(table, FLOODNEEDLE_TABLE, after, &answer);
  parts = (size_t)answer.count;
  length = samples_of(word);
  if (drawn == 0)
    floodneedle_simulate(table, FLOODNEEDLE_TABLE, text, length, rounds, clocks, FLOODNEEDLE_CLOCKS, after, &answer);
  else
    floodneedle_simulate_drawn(table, FLOODNEEDLE_TABLE, text, length, lent, lent_of(drawn), rounds, clocks, FLOODNEEDLE_CLOCKS, after, &answer);
  if (answer.kind == FLOODNEEDLE_REFUSED) return 0;
  printf("done\t%llu", (unsigned long long)answer.count);
  print_state(after, parts);
  printf(length == 0 ? "\t-" : "");
  for (size_t i = 0; i < length; ++i)
    if (i == 0 || text[i - 1] == '\n') printf("%s%lld", i == 0 ? "\t" : ",", (long long)clocks[atoi((const char *)text + i)]);
  printf("\n");
  return 1;
}

/* Makes the call; answers whether its answer is printed already, or -1 where the words are no call. */
static int call(int words, char **word, size_t *n) {
  const char *verb = word[1];
  if (words == 2 && strcmp(verb, "accept") == 0) return floodneedle_accept(table, FLOODNEEDLE_TABLE, &answer), 0;
  if (words == 2 && strcmp(verb, "start") == 0) {
    floodneedle_start(table, FLOODNEEDLE_TABLE, after, &answer);
    *n = (size_t)answer.count;
    return 0;
  }
  if (words == 2 && strcmp(verb, "confluent") == 0) return floodneedle_confluent(table, FLOODNEEDLE_TABLE, &answer), 0;
  if (words == 2 && strcmp(verb, "orderly") == 0) return floodneedle_orderly(table, FLOODNEEDLE_TABLE, &answer), 0;
  if (words == 4 && strcmp(verb, "after") == 0) return settle_after(word[2], word[3], 0, n), 0;
  if (words == 4 && strcmp(verb, "list-after") == 0) return settle_after(word[2], 0, word[3], n), 0;
  if (words == 2 && strcmp(verb, "text") == 0) return print_text(table);
  if (words == 2 && strcmp(verb, "compatible") == 0) return floodneedle_compatible(table, FLOODNEEDLE_TABLE, &answer), 0;
  if (words == 2 && strcmp(verb, "explain") == 0) return explain();
  if (words == 3 && strcmp(verb, "component") == 0)
    return floodneedle_component(table, FLOODNEEDLE_TABLE, strtoull(word[2], 0, 10), &answer), 0;
  if (words == 3 && strcmp(verb, "merge") == 0) return merge(strtoull(word[2], 0, 10));
  if (words == 3 && strcmp(verb, "write") == 0) {
    size_t room = strtoull(word[2], 0, 10);
    return floodneedle_write(table, FLOODNEEDLE_TABLE, text, room < sizeof text ? room : sizeof text, &answer), 0;
  }
  if (words == 4 && strcmp(verb, "simulate") == 0) return simulate(strtoull(word[2], 0, 10), word[3], 0);
  if (words == 5 && strcmp(verb, "draw") == 0) return simulate(strtoull(word[2], 0, 10), word[3], word[4]);
  if (words < 3) return -1;
  *n = bytes_of(word[2], state);
  if (words == 3 && strcmp(verb, "step") == 0) return floodneedle_step(table, FLOODNEEDLE_TABLE, state, *n, after, &answer), 0;
  if (words == 4 && strcmp(verb, "by") == 0)
    return floodneedle_step_by(table, FLOODNEEDLE_TABLE, state, *n, strtoull(word[3], 0, 10), after, &answer), 0;
  if (words == 4 && strcmp(verb, "settle") == 0)
    return floodneedle_settle(table, FLOODNEEDLE_TABLE, state, *n, strtoull(word[3], 0, 10), trace, sizeof trace, after, &answer), 0;
  if (words == 4 && strcmp(verb, "list") == 0) {
    size_t length = bytes_of(word[3], list);
    return floodneedle_settle_list(table, FLOODNEEDLE_TABLE, state, *n, list, length, after, &answer), 0;
  }
  if (words == 4 && strcmp(verb, "timed") == 0) return timed(*n, word[3]);
  return -1;
}

int main(int words, char **word) {
  size_t n = 0;
  int printed, tree;
  if (words < 2) return usage();
  if (strcmp(word[1], "version") == 0) {
    printf("%llu\n", (unsigned long long)floodneedle_version());
    return 0;
  }
  if (strcmp(word[1], "nothing") == 0) {
    floodneedle_accept(table, FLOODNEEDLE_TABLE, &answer);
  } else if (strcmp(word[1], "numbers") == 0) {
    if (convert(floodneedle_to_numbers, read_text())) return 0;
  } else if (strcmp(word[1], "names") == 0) {
    if (convert(floodneedle_to_names, read_text())) return 0;
  } else {
    tree = strcmp(word[1], "tree") == 0;
    (tree ? floodneedle_read_tree : floodneedle_read)(text, read_text(), table, FLOODNEEDLE_TABLE, &answer);
    printed = 0;
    if (answer.kind == FLOODNEEDLE_DONE && words > 1 + tree) printed = call(words - tree, word + tree, &n);
    if (printed < 0) return usage();
    if (printed > 0) return 0;
  }
  print_answer(n);
  return 0;
}
