/* Runs requests through the library and watches what it does to what it is lent; tests/library builds and runs this:
 *
 *     harness end|start|heap FILE           each request once, and its answer on standard output
 *     harness threads THREADS ROUNDS FILE   each request once, then by so many threads at once, which must get the same answers
 *
 * end, start: each list ends, or starts, at a page that faults, and on its other side stand bytes that must stay as they are; so must the inputs.
 * heap: each list is a block of its own and outputs are not initialised, for valgrind and AddressSanitizer. The threads do so too, with stacks of
 * MEZHUKAN_STACK bytes.
 * A request: its kind, each input's count and elements, each output's count; 32-bit numbers in this machine's order. The depth of an image is an
 * input too, of one 64-bit number.
 * An answer: its numbers, and of each output the part in use in hexadecimal, a line each. What lies behind it is seen to be 0.
 * A fault is one line on standard error and exit status 1; 2 where it could not run. */
#define _DEFAULT_SOURCE
#include <pthread.h>
#include <stdbool.h>
#include <stdio.h>
#include <stdlib.h>
#include <string.h>
#include <sys/mman.h>

#include "mezhukan.h"

enum { COMPILE, ALONE, CHECK, SLOWEST, KINDS };
enum where { END, START, HEAP };
enum { MOST_INPUTS = 5, MOST_OUTPUTS = 3, PAGE = 4096, FILL = 0xA5, MOST_THREADS = 64 };

/* What the lists of a call are: bytes of an element of each, how many numbers it answers, and which of them count its outputs. */
static const struct kind {
    size_t inputs, input_size[MOST_INPUTS], outputs, output_size[MOST_OUTPUTS], numbers, counts[MOST_OUTPUTS];
} kinds[KINDS] = {
    {3, {1, 1, 1}, 3, {1, 4, 2}, MEZHUKAN_COMPILED, {MEZHUKAN_CODE_LENGTH, MEZHUKAN_CONSTANT_COUNT, MEZHUKAN_ENTRY_COUNT}},
    {5, {1, 1, 1, 2, 2}, 3, {1, 2, 2}, MEZHUKAN_REWRITTEN, {MEZHUKAN_CODE_LENGTH, MEZHUKAN_ALONE_PROTECTED_COUNT, MEZHUKAN_ALONE_ENTRY_COUNT}},
    {3, {1, 1, sizeof(uint64_t)}, 0, {0}, MEZHUKAN_CHECKED, {0}},
    {3, {1, 1, sizeof(uint64_t)}, 1, {1}, MEZHUKAN_MEASURED, {MEZHUKAN_OUTCOME_COUNT}},
};

struct request {
    size_t at;
    const struct kind *kind;
    const uint8_t *input[MOST_INPUTS];
    size_t count[MOST_INPUTS], room[MOST_OUTPUTS];
};

struct result {
    uint64_t numbers[MEZHUKAN_COMPILED];
    uint8_t *output[MOST_OUTPUTS];
    size_t used[MOST_OUTPUTS]; /* bytes */
};

/* A list, and the pages or the block in which it stands. */
struct lent {
    uint8_t *base, *at;
    size_t size, bytes;
};

static struct request *requests;
static struct result *answers;
static size_t request_count;

static void stop(int status, const char *what, size_t at) {
    fprintf(stderr, "harness: request %zu: %s\n", at, what);
    exit(status);
}

static struct lent lend(enum where where, size_t bytes) {
    struct lent l = {NULL, NULL, (bytes / PAGE + 1) * PAGE, bytes};
    if (where == HEAP) {
        l.at = malloc(bytes);
        if (!l.at) stop(2, "no memory", 0);
        return l;
    }
    uint8_t *all = mmap(NULL, l.size + 2 * PAGE, PROT_READ | PROT_WRITE, MAP_PRIVATE | MAP_ANONYMOUS, -1, 0);
    if (all == MAP_FAILED) stop(2, "no memory", 0);
    l.base = all + PAGE;
    l.at = where == END ? l.base + l.size - bytes : l.base;
    memset(l.base, FILL, l.size);
    if (mprotect(all, PAGE, PROT_NONE) || mprotect(l.base + l.size, PAGE, PROT_NONE)) stop(2, "mprotect failed", 0);
    return l;
}

/* Gives a list's room back; whether what stood beside it is as it was. */
static bool release(struct lent l) {
    bool kept = true;
    if (!l.base) {
        free(l.at);
        return true;
    }
    for (uint8_t *p = l.base; p < l.base + l.size; p++) {
        if ((p < l.at || p >= l.at + l.bytes) && *p != FILL) kept = false;
    }
    munmap(l.base - PAGE, l.size + 2 * PAGE);
    return kept;
}

static uint8_t call(const struct request *r, struct lent *in, struct lent *out, uint64_t *n) {
    const size_t *c = r->count, *room = r->room;
    if (r->kind == &kinds[COMPILE]) {
        return mezhukan_compile(in[0].at, c[0], in[1].at, c[1], in[2].at, c[2], out[0].at, room[0], (uint32_t *)(void *)out[1].at, room[1],
                                (uint16_t *)(void *)out[2].at, room[2], n);
    }
    if (r->kind == &kinds[CHECK]) {
        return mezhukan_check_image(in[0].at, c[0], in[1].at, c[1], *(uint64_t *)(void *)in[2].at, n);
    }
    if (r->kind == &kinds[SLOWEST]) {
        return mezhukan_slowest(in[0].at, c[0], in[1].at, c[1], *(uint64_t *)(void *)in[2].at, out[0].at, room[0], n);
    }
    return mezhukan_rewrite_alone(in[0].at, c[0], in[1].at, c[1], in[2].at, c[2], (uint16_t *)(void *)in[3].at, c[3],
                                  (uint16_t *)(void *)in[4].at, c[4], out[0].at, room[0], (uint16_t *)(void *)out[1].at, room[1],
                                  (uint16_t *)(void *)out[2].at, room[2], n);
}

/* Takes the part in use of an output; what lies behind it must be 0. */
static void take(const struct request *r, size_t i, struct lent out, struct result *a) {
    size_t elements = a->numbers[r->kind->counts[i]] * (i == 2 ? MEZHUKAN_ENTRY_SIZE : 1);
    if (elements > r->room[i]) stop(1, "more in use than was lent", r->at);
    a->used[i] = elements * r->kind->output_size[i];
    for (size_t b = a->used[i]; b < out.bytes; b++) {
        if (out.at[b]) stop(1, "not 0 behind the part in use", r->at);
    }
    a->output[i] = malloc(a->used[i] + 1);
    if (!a->output[i]) stop(2, "no memory", r->at);
    memcpy(a->output[i], out.at, a->used[i]);
}

static struct result run(const struct request *r, enum where where) {
    const struct kind *k = r->kind;
    struct lent in[MOST_INPUTS], out[MOST_OUTPUTS], numbers = lend(where, k->numbers * sizeof(uint64_t));
    struct result a = {{0}, {NULL}, {0}};
    for (size_t i = 0; i < k->inputs; i++) {
        in[i] = lend(where, r->count[i] * k->input_size[i]);
        memcpy(in[i].at, r->input[i], in[i].bytes);
    }
    for (size_t i = 0; i < k->outputs; i++) out[i] = lend(where, r->room[i] * k->output_size[i]);
    uint8_t number = call(r, in, out, (uint64_t *)(void *)numbers.at);
    memcpy(a.numbers, numbers.at, numbers.bytes);
    if (number != a.numbers[MEZHUKAN_NUMBER]) stop(1, "result and first number differ", r->at);
    for (size_t i = MEZHUKAN_CODE_LENGTH; i < k->numbers; i++) {
        if (number && a.numbers[i]) stop(1, "a number of a refusal is not 0", r->at);
    }
    if (!number && a.numbers[MEZHUKAN_PLACE]) stop(1, "a place without a refusal", r->at);
    for (size_t i = 0; i < k->outputs; i++) take(r, i, out[i], &a);
    for (size_t i = 0; i < k->inputs; i++) {
        if (memcmp(in[i].at, r->input[i], in[i].bytes)) stop(1, "an input was written to", r->at);
        if (!release(in[i])) stop(1, "written beside an input", r->at);
    }
    for (size_t i = 0; i < k->outputs; i++) {
        if (!release(out[i])) stop(1, "written beside an output", r->at);
    }
    if (!release(numbers)) stop(1, "written beside the answer", r->at);
    return a;
}

static void forget(struct result *a) {
    for (size_t i = 0; i < MOST_OUTPUTS; i++) free(a->output[i]);
}

static void print(const struct request *r, const struct result *a) {
    for (size_t i = 0; i < r->kind->numbers; i++) printf(i ? ",%lu" : "%lu", (unsigned long)a->numbers[i]);
    for (size_t i = 0; i < r->kind->outputs; i++) {
        printf("\n");
        for (size_t b = 0; b < a->used[i]; b++) printf("%02x", a->output[i][b]);
    }
    printf("\n");
}

static bool same(const struct request *r, const struct result *a, const struct result *b) {
    bool equal = !memcmp(a->numbers, b->numbers, sizeof a->numbers);
    for (size_t i = 0; i < r->kind->outputs; i++) equal = equal && a->used[i] == b->used[i] && !memcmp(a->output[i], b->output[i], a->used[i]);
    return equal;
}

struct work {
    size_t first, rounds;
    pthread_barrier_t *start;
};

/* A thread: all requests, from its own first one on, so often. */
static void *work(void *given) {
    const struct work *w = given;
    pthread_barrier_wait(w->start);
    for (size_t n = 0; n < w->rounds * request_count; n++) {
        size_t at = (w->first + n) % request_count;
        struct result a = run(&requests[at], HEAP);
        if (!same(&requests[at], &a, &answers[at])) stop(1, "another answer beside other threads", at);
        forget(&a);
    }
    return NULL;
}

static void run_threads(size_t threads, size_t rounds) {
    pthread_t thread[MOST_THREADS];
    struct work given[MOST_THREADS];
    pthread_barrier_t start;
    pthread_attr_t stack;
    if (threads > MOST_THREADS || pthread_barrier_init(&start, NULL, (unsigned)threads)) stop(2, "not so many threads", 0);
    if (pthread_attr_init(&stack) || pthread_attr_setstacksize(&stack, MEZHUKAN_STACK)) stop(2, "no such stack", 0);
    for (size_t i = 0; i < threads; i++) {
        given[i] = (struct work){i * request_count / threads, rounds, &start};
        if (pthread_create(&thread[i], &stack, work, &given[i])) stop(2, "no thread", 0);
    }
    for (size_t i = 0; i < threads; i++) pthread_join(thread[i], NULL);
    pthread_attr_destroy(&stack);
    pthread_barrier_destroy(&start);
    printf("%zu calls\n", threads * rounds * request_count);
}

static uint8_t *read_file(const char *name, size_t *length) {
    FILE *file = fopen(name, "rb");
    long size = -1;
    if (file && !fseek(file, 0, SEEK_END)) size = ftell(file);
    uint8_t *text = size < 0 ? NULL : malloc((size_t)size + 1);
    if (!text || fseek(file, 0, SEEK_SET) || fread(text, 1, (size_t)size, file) != (size_t)size) stop(2, "cannot read the file", 0);
    fclose(file);
    *length = (size_t)size;
    return text;
}

static size_t number(const uint8_t **at, const uint8_t *end) {
    uint32_t n;
    if (end - *at < (long)sizeof n) stop(2, "the file is cut", request_count);
    memcpy(&n, *at, sizeof n);
    *at += sizeof n;
    return n;
}

static struct request next(const uint8_t **at, const uint8_t *end) {
    size_t kind = number(at, end);
    if (kind >= KINDS) stop(2, "no such kind", request_count);
    struct request r = {request_count, &kinds[kind], {NULL}, {0}, {0}};
    for (size_t i = 0; i < r.kind->inputs; i++) {
        r.count[i] = number(at, end);
        r.input[i] = *at;
        if ((size_t)(end - *at) < r.count[i] * r.kind->input_size[i]) stop(2, "the file is cut", request_count);
        *at += r.count[i] * r.kind->input_size[i];
    }
    for (size_t i = 0; i < r.kind->outputs; i++) r.room[i] = number(at, end);
    return r;
}

static void run_all(enum where where, bool printing) {
    answers = calloc(request_count, sizeof *answers);
    if (!answers) stop(2, "no memory", 0);
    for (size_t i = 0; i < request_count; i++) {
        answers[i] = run(&requests[i], where);
        if (printing) print(&requests[i], &answers[i]);
    }
}

int main(int words, char **word) {
    bool threads = words == 5 && !strcmp(word[1], "threads");
    if (!threads && words != 3) stop(2, "use: harness end|start|heap FILE, or harness threads THREADS ROUNDS FILE", 0);
    size_t length;
    uint8_t *file = read_file(word[words - 1], &length);
    for (const uint8_t *at = file; at < file + length; request_count++) {
        if (!(request_count & (request_count - 1))) requests = realloc(requests, (request_count ? 2 * request_count : 1) * sizeof *requests);
        if (!requests) stop(2, "no memory", 0);
        requests[request_count] = next(&at, file + length);
    }
    run_all(!strcmp(word[1], "end") ? END : !strcmp(word[1], "start") ? START : HEAP, !threads);
    if (threads) run_threads(strtoul(word[2], NULL, 10), strtoul(word[3], NULL, 10));
    for (size_t i = 0; i < request_count; i++) forget(&answers[i]);
    free(answers);
    free(requests);
    free(file);
    return fflush(stdout) ? 2 : 0;
}
