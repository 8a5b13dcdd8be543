/* Calls of the C library from several threads at once, on tables that all of them share: every answer is the one that a call by itself gives.
 * usage: threads MODEL SAMPLES [MODEL SAMPLES..]    files; ends in 'N passed, M failed' */
#include <pthread.h>
#include <stdio.h>
#include <stdlib.h>
#include <string.h>

#include "floodneedle.h"

enum { THREADS = 4, TURNS = 50, MODELS = 4, ROUNDS = 12 };

/* A model as all threads see it, and nobody writes to it once it is read. */
struct model {
  uint64_t table[FLOODNEEDLE_TABLE];
  uint8_t text[FLOODNEEDLE_TEXT], samples[FLOODNEEDLE_TEXT];
  size_t text_bytes, sample_bytes;
};

/* What the calls answer and leave for one model, in buffers of one thread's own. */
struct outcome {
  struct floodneedle_answer answers[9];
  uint8_t states[4][FLOODNEEDLE_STATE];
  int64_t clocks[FLOODNEEDLE_CLOCKS];
  uint8_t trace[FLOODNEEDLE_BUDGET], text[FLOODNEEDLE_TEXT], explanation[FLOODNEEDLE_EXPLANATION];
  uint64_t read[FLOODNEEDLE_TABLE], merged[FLOODNEEDLE_TABLE];
};

static struct model models[MODELS];
static struct outcome alone[MODELS];
static size_t count;

static void calls(const struct model *m, struct outcome *o) {
  const uint64_t *t = m->table;
  memset(o, 0, sizeof *o);
  floodneedle_read(m->text, m->text_bytes, o->read, FLOODNEEDLE_TABLE, &o->answers[0]);
  floodneedle_write(t, FLOODNEEDLE_TABLE, o->text, sizeof o->text, &o->answers[1]);
  floodneedle_start(t, FLOODNEEDLE_TABLE, o->states[0], &o->answers[2]);
  floodneedle_confluent(t, FLOODNEEDLE_TABLE, &o->answers[3]);
  floodneedle_orderly(t, FLOODNEEDLE_TABLE, &o->answers[4]);
  floodneedle_settle_after(t, FLOODNEEDLE_TABLE, o->trace, 0, 100, o->trace, sizeof o->trace, o->states[1], &o->answers[5]);
  floodneedle_simulate(t, FLOODNEEDLE_TABLE, m->samples, m->sample_bytes, ROUNDS, o->clocks, FLOODNEEDLE_CLOCKS, o->states[2], &o->answers[6]);
  floodneedle_merge(t, FLOODNEEDLE_TABLE, 0, o->merged, FLOODNEEDLE_TABLE, &o->answers[7]);
  floodneedle_explain(m->text, m->text_bytes, o->explanation, sizeof o->explanation, &o->answers[8]);
}

/* How many outcomes were not those of the calls alone. */
static void *turns(void *thread) {
  const size_t first = *(const size_t *)thread;
  struct outcome *o = malloc(sizeof *o);
  size_t *wrong = malloc(sizeof *wrong);
  if (!o || !wrong) abort();
  *wrong = 0;
  for (size_t k = 0; k < TURNS; ++k) {
    const size_t i = (first + k) % count;
    calls(&models[i], o);
    *wrong += memcmp(o, &alone[i], sizeof *o) != 0;
  }
  free(o);
  return wrong;
}

static size_t contents(const char *name, uint8_t *into, size_t most) {
  FILE *f = fopen(name, "rb");
  if (!f) {
    perror(name);
    exit(2);
  }
  const size_t n = fread(into, 1, most, f);
  fclose(f);
  return n;
}

int main(int argc, char **argv) {
  size_t wrong = 0, firsts[THREADS];
  pthread_t threads[THREADS];
  if (argc < 3 || argc % 2 == 0 || argc > 2 * MODELS + 1) return fprintf(stderr, "usage: threads MODEL SAMPLES [MODEL SAMPLES..]\n"), 2;
  for (count = 0; 2 * count + 2 < (size_t)argc; ++count) {
    struct model *m = &models[count];
    struct floodneedle_answer read;
    m->text_bytes = contents(argv[2 * count + 1], m->text, sizeof m->text);
    m->sample_bytes = contents(argv[2 * count + 2], m->samples, sizeof m->samples);
    floodneedle_read(m->text, m->text_bytes, m->table, FLOODNEEDLE_TABLE, &read);
    calls(m, &alone[count]);
    if (read.kind != FLOODNEEDLE_DONE || alone[count].answers[6].kind != FLOODNEEDLE_DONE) return fprintf(stderr, "%s: refused\n", argv[2 * count + 1]), 2;
  }
  for (size_t k = 0; k < THREADS; ++k) {
    firsts[k] = k;
    if (pthread_create(&threads[k], NULL, turns, &firsts[k])) return perror("a thread"), 2;
  }
  for (size_t k = 0; k < THREADS; ++k) {
    void *n;
    pthread_join(threads[k], &n);
    wrong += *(size_t *)n;
    free(n);
  }
  printf("%zu passed, %zu failed\n", THREADS * TURNS - wrong, wrong);
  return wrong != 0;
}
