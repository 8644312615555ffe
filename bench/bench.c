/*
 * Benchmark: the library beside plain.c and tuned.c, in one run on the same
 * inputs. Every call reads all tables (check 3); "read all" is for scale: the
 * time of a loop that adds up all words of record and tables.
 *
 * plain.c and tuned.c are compiled by gcc and, with -DWITH_CLANG, by clang
 * too, both with -O3 for baseline x86-64; the better one counts and is named.
 * With -DWITH_BEFORE another build of the library takes part, whose functions
 * begin with before_cbqri_: that of an earlier commit with the same interface.
 * Each number is the least of several repetitions, in which the versions take
 * turns; a ratio is that of the two numbers printed beside it. All versions
 * must give the same answers and leave the same bytes.
 *
 *     bench [repetitions] [milliseconds for each]
 */
#define _POSIX_C_SOURCE 200809L
#include "fastest.h"
#include "inputs.h"

#include <time.h>

#define PREFIX plain_gcc_
#include "plain.h"
#undef PREFIX
#define PREFIX tuned_gcc_
#include "plain.h"
#undef PREFIX
#ifdef WITH_CLANG
#define PREFIX plain_clang_
#include "plain.h"
#undef PREFIX
#define PREFIX tuned_clang_
#include "plain.h"
#undef PREFIX
#endif

#ifdef WITH_BEFORE
#define PREFIX before_cbqri_
#include "plain.h"
#undef PREFIX
#endif

enum group { LIBRARY, PLAIN, TUNED, BEFORE, GROUPS };

static const struct {
    enum group group;
    struct interface f; /* its name is the compiler's */
} versions[] = {
    {LIBRARY, INTERFACE("", cbqri_)},
    {PLAIN, INTERFACE("gcc", plain_gcc_)},
    {TUNED, INTERFACE("gcc", tuned_gcc_)},
#ifdef WITH_CLANG
    {PLAIN, INTERFACE("clang", plain_clang_)},
    {TUNED, INTERFACE("clang", tuned_clang_)},
#endif
#ifdef WITH_BEFORE
    {BEFORE, INTERFACE("", before_cbqri_)},
#endif
};
enum { VERSIONS = sizeof versions / sizeof versions[0] };
#ifdef WITH_CLANG
#define COMPILERS "gcc and clang"
#else
#define COMPILERS "gcc alone"
#endif

static struct state first_end;
static const struct setup *size; /* of the tables */

/* The measured calls: n of each, with everything they answer added up, refusals
 * from bit 40, and pool bytes twice, so that one amount told as the other shows. */

static uint64_t run_request(const struct interface *f, uint64_t n)
{
    uint64_t sum = 0, reserved, pool;
    for (uint64_t i = 0; i < n; i++) {
        const struct arguments *a = &list[i % CALLS];
        sum += f->bandwidth_request(BANDWIDTH_OF(&now.bandwidth), a->rcid, a->mcid, a->at,
                                    a->which, a->bytes, &reserved, &pool) << 40;
        sum += reserved + 2 * pool;
    }
    return sum;
}

static uint64_t run_device_request(const struct interface *f, uint64_t n)
{
    uint64_t sum = 0, reserved, pool;
    for (uint64_t i = 0; i < n; i++) {
        const struct arguments *a = &list[i % CALLS];
        sum += f->bandwidth_device_request(BANDWIDTH_OF(&now.bandwidth), CBQRI_IOMMU_DIRECTORY,
                                           a->ta, a->at, a->which, a->bytes, &reserved,
                                           &pool) << 40;
        sum += reserved + 2 * pool;
    }
    return sum;
}

static uint64_t run_config_limit(const struct interface *f, uint64_t n)
{
    uint64_t sum = 0;
    must(f->bandwidth_write(BANDWIDTH_OF(&now.bandwidth), 8, CBQRI_BW_ALLOC, cbqri_holder(3, 1)),
         "operand");
    for (uint64_t i = 0; i < n; i++)
        sum += f->bandwidth_write(BANDWIDTH_OF(&now.bandwidth), 8, CBQRI_ALLOC_CTL,
                                  list[i % CALLS].ctl);
    return sum << 40;
}

static uint64_t run_read(const struct interface *f, uint64_t n)
{
    uint64_t sum = 0, value;
    for (uint64_t i = 0; i < n; i++) {
        sum += f->bandwidth_read(BANDWIDTH_OF(&now.bandwidth), 8, CBQRI_BW_ALLOC, &value) << 40;
        sum += (value & 0xffff) + (value >> 16);
    }
    return sum;
}

/* None waits before a call: its caller takes the request out again. */
static uint64_t run_wait(const struct interface *f, uint64_t n)
{
    uint64_t sum = 0;
    for (uint64_t i = 0; i < n; i++) {
        const struct arguments *a = &list[i % CALLS];
        sum += f->bandwidth_wait(BANDWIDTH_OF(&now.bandwidth), a->rcid, a->mcid, a->at, a->which,
                                 a->bytes) << 40;
        sum += now.bandwidth.waiters[a->rcid] >> 32;
        now.bandwidth.waiters[a->rcid] = 0;
    }
    return sum;
}

static uint64_t run_need(const struct interface *f, uint64_t n)
{
    uint64_t sum = 0, need;
    all_wait(&now.bandwidth, size);
    for (uint64_t i = 0; i < n; i++) {
        sum += f->bandwidth_need(BANDWIDTH_OF(&now.bandwidth), list[i % CALLS].rcid, &need) << 40;
        sum += need & 0xff;
    }
    return sum;
}

static uint64_t run_end_window(const struct interface *f, uint64_t n)
{
    uint64_t sum = 0;
    for (uint64_t i = 0; i < n; i++)
        sum += f->bandwidth_end_window(BANDWIDTH_OF(&now.bandwidth));
    return sum << 40;
}

/* Before each call all wait again. */
static uint64_t run_end_window_waiting(const struct interface *f, uint64_t n)
{
    static uint64_t waiters[MAX_RCIDS];
    uint64_t sum = 0;
    all_wait(&now.bandwidth, size);
    memcpy(waiters, now.bandwidth.waiters, now.bandwidth.waiters_len);
    for (uint64_t i = 0; i < n; i++) {
        memcpy(now.bandwidth.waiters, waiters, now.bandwidth.waiters_len);
        sum += f->bandwidth_end_window(BANDWIDTH_OF(&now.bandwidth));
    }
    return sum << 40;
}

static uint64_t run_fill(const struct interface *f, uint64_t n)
{
    uint64_t sum = 0, allowed;
    for (uint64_t i = 0; i < n; i++) {
        const struct arguments *a = &list[i % CALLS];
        sum += f->capacity_fill(CAPACITY_OF(&now.capacity), a->rcid, a->mcid, a->at, a->unit,
                                &allowed) << 40;
        sum += allowed;
    }
    return sum;
}

/* The unit has an owner before a call, and then again what it had at the start. */
static uint64_t run_evict(const struct interface *f, uint64_t n)
{
    uint64_t sum = 0;
    for (uint64_t i = 0; i < n; i++) {
        const struct arguments *a = &list[i % CALLS];
        now.capacity.owners[a->unit] = cbqri_owner(a->rcid, a->mcid, a->at);
        sum += f->capacity_evict(CAPACITY_OF(&now.capacity), a->unit);
        sum += now.capacity.owners[a->unit];
        now.capacity.owners[a->unit] = start.capacity.owners[a->unit];
    }
    return sum << 40;
}

/* Before each call all owners are there again. */
static uint64_t run_flush(const struct interface *f, uint64_t n)
{
    uint64_t sum = 0;
    for (uint64_t i = 0; i < n; i++) {
        memcpy(now.capacity.owners, start.capacity.owners, start.capacity.owners_len);
        sum += f->capacity_write(CAPACITY_OF(&now.capacity), 8, CBQRI_ALLOC_CTL,
                                 list[i % CALLS].flush);
    }
    return sum << 40;
}

static const struct measured {
    const char *name;
    uint64_t (*run)(const struct interface *f, uint64_t n);
    int bandwidth;
} measured[] = {
    {"request", run_request, 1},
    {"device's request", run_device_request, 1},
    {"CONFIG_LIMIT write", run_config_limit, 1},
    {"read bw_alloc", run_read, 1},
    {"wait", run_wait, 1},
    {"need, all wait", run_need, 1},
    {"window end", run_end_window, 1},
    {"window end, all wait", run_end_window_waiting, 1},
    {"fill", run_fill, 0},
    {"evict", run_evict, 0},
    {"FLUSH_RCID write", run_flush, 0},
};
enum { MEASURED = sizeof measured / sizeof measured[0] };

/* For scale */

/* Four sums side by side, so that adding does not hold up reading. */
static uint64_t sum_words(const void *table, size_t length)
{
    const uint8_t *bytes = table;
    uint64_t sum[4] = {0, 0, 0, 0}, word[4];
    size_t i = 0;
    for (; i + 32 <= length; i += 32) {
        memcpy(word, bytes + i, 32);
        for (int k = 0; k < 4; k++)
            sum[k] += word[k];
    }
    for (; i + 8 <= length; i += 8) {
        memcpy(word, bytes + i, 8);
        sum[0] += word[0];
    }
    return sum[0] + sum[1] + sum[2] + sum[3];
}

static uint64_t read_all(int bandwidth)
{
    const struct bandwidth_buffers *b = &now.bandwidth;
    const struct capacity_buffers *c = &now.capacity;
    if (bandwidth)
        return sum_words(b->record, b->record_len) + sum_words(b->active, b->active_len) +
               sum_words(b->configured, b->configured_len) + sum_words(b->used, b->used_len) +
               sum_words(b->counters, b->counters_len) + sum_words(b->events, b->events_len) +
               sum_words(b->waiters, b->waiters_len);
    return sum_words(c->record, c->record_len) + sum_words(c->masks, c->masks_len) +
           sum_words(c->counters, c->counters_len) + sum_words(c->events, c->events_len) +
           sum_words(c->owners, c->owners_len);
}

/* Timing */

/* Processor time, so that other programs on the machine disturb less. */
static double seconds(void)
{
    struct timespec t;
    clock_gettime(CLOCK_THREAD_CPUTIME_ID, &t);
    return (double)t.tv_sec + 1e-9 * (double)t.tv_nsec;
}

/* ns per call of n calls from the start state; keeps what they answer. */
static double time_calls(const struct measured *m, const struct interface *f, uint64_t n,
                         uint64_t *sum)
{
    now = start;
    m->run(f, 1 + n / 20); /* warming up */
    now = start;
    double from = seconds();
    *sum = m->run(f, n);
    return (seconds() - from) * 1e9 / (double)n;
}

static volatile uint64_t keep;

static double time_reading(int bandwidth, uint64_t n)
{
    now = start;
    double from = seconds();
    for (uint64_t i = 0; i < n; i++) {
        keep = read_all(bandwidth);
        __asm__ volatile("" ::: "memory");
    }
    return (seconds() - from) * 1e9 / (double)n;
}

static uint64_t calibrate(const struct measured *m, double milliseconds)
{
    uint64_t sum;
    double ns = time_calls(m, &versions[PLAIN].f, 1000, &sum);
    ns = time_calls(m, &versions[PLAIN].f, 2000, &sum);
    return 1 + (uint64_t)(milliseconds * 1e6 / ns);
}

struct row {
    double ns[VERSIONS], reading;
    int best[GROUPS];
};

static void check_same(uint64_t sum, uint64_t *first_sum, int first, const char *name)
{
    if (first) {
        *first_sum = sum;
        first_end = now;
    }
    if (sum >> 40 || sum != *first_sum || memcmp(&now, &first_end, sizeof now)) {
        printf("%s: answers differ or are refusals\n", name);
        exit(1);
    }
}

static double times[VERSIONS + 1][MAX_REPETITIONS]; /* the last is reading */

static void take_times(const struct measured *m, int repetitions, double milliseconds)
{
    uint64_t n = calibrate(m, milliseconds), sum, first_sum = 0;
    for (int r = 0; r < repetitions; r++) {
        for (int turn = 0; turn < VERSIONS; turn++) {
            int v = (r + turn) % VERSIONS;
            times[v][r] = time_calls(m, &versions[v].f, n, &sum);
            check_same(sum, &first_sum, r == 0 && turn == 0, m->name);
        }
        times[VERSIONS][r] = time_reading(m->bandwidth, n);
    }
}

static struct row measure(const struct measured *m, int repetitions, double milliseconds)
{
    struct row row = {.best = {LIBRARY, PLAIN, TUNED, VERSIONS - 1}};
    take_times(m, repetitions, milliseconds);
    for (int v = 0; v < VERSIONS; v++) {
        int *best = &row.best[versions[v].group];
        row.ns[v] = fastest(times[v], repetitions);
        if (row.ns[v] < row.ns[*best])
            *best = v;
    }
    row.reading = fastest(times[VERSIONS], repetitions);
    return row;
}

/* The table */

static void print_head(int repetitions, double milliseconds)
{
    printf("ns of processor time for a call, LOWER IS BETTER; least of %d repetitions of about"
           " %.0f ms\n"
           "  library        the proved functions\n"
           "  plain, tuned   the same calls in C, straightforward and tuned by hand, -O3 for\n"
           "                 baseline x86-64, the better one of %s\n"
           "  read all       for scale: a loop that adds up the words of record and tables, all of\n"
           "                 which a call must look at\n"
           "  ratios         the library's time to that of the C: below 1 it is the faster one\n"
           "  state          mixed: most pairs set, each RCID with a weight; reset: after a reset\n"
           "  window end     each one finds what the one before left: after the first both tables\n"
           "                 of settings are equal, so that the next take less time\n"
           "  all wait       under every RCID a request waits, before each window end anew; in the\n"
           "                 other rows none does\n"
           "  units          blocks of the cache and units of each; mixed: most have an owner,\n"
           "                 before each eviction and each flush too\n\n",
           repetitions, milliseconds, COMPILERS);
    printf("%-20s %-7s %4s %-7s %-6s %8s %8s %-5s %8s %-5s %8s %13s %13s\n", "call", "pairs",
           "NM", "units", "state", "library", "plain", "", "tuned", "", "read all", "library/plain",
           "library/tuned");
#ifdef WITH_BEFORE
    printf("at the end of a row: before, library/before\n");
#endif
}

static void print_row(const struct measured *m, const struct setup *s, const char *state,
                      const struct row *row)
{
    int plain = row->best[PLAIN], tuned = row->best[TUNED];
    const double *ns = row->ns;
    char pairs[16], units[16] = "";
    snprintf(pairs, sizeof pairs, "%" PRIu64 " x %" PRIu64, s->nr, s->na);
    if (!m->bandwidth)
        snprintf(units, sizeof units, "%" PRIu64 " x %" PRIu64, s->ncblks, s->u);
    printf("%-20s %-7s %4" PRIu64 " %-7s %-6s %8.1f %8.1f %-5s %8.1f %-5s %8.1f %13.2f %13.2f",
           m->name, pairs, s->nm, units, state, ns[LIBRARY], ns[plain], versions[plain].f.name,
           ns[tuned], versions[tuned].f.name, row->reading, ns[LIBRARY] / ns[plain],
           ns[LIBRARY] / ns[tuned]);
#ifdef WITH_BEFORE
    printf(" %8.1f %6.2f", ns[row->best[BEFORE]], ns[LIBRARY] / ns[row->best[BEFORE]]);
#endif
    printf("\n");
    fflush(stdout);
}

static double bench_state(const struct setup *s, int mixed, int repetitions, double milliseconds)
{
    double worst = 0;
    size = s;
    make_inputs(s, mixed);
    for (int i = 0; i < MEASURED; i++) {
        struct row row = measure(&measured[i], repetitions, milliseconds);
        print_row(&measured[i], s, mixed ? "mixed" : "reset", &row);
        double here = row.ns[LIBRARY] / row.ns[row.best[PLAIN]];
        worst = here > worst ? here : worst;
    }
    return worst;
}

int main(int argc, char **argv)
{
    int repetitions = argc > 1 ? atoi(argv[1]) : 7;
    double milliseconds = argc > 2 ? atof(argv[2]) : 20, worst = 0;
    if (repetitions < 1 || repetitions > MAX_REPETITIONS || milliseconds <= 0)
        return 2;
    print_head(repetitions, milliseconds);
    for (int i = 0; i < SETUPS; i++) {
        for (int mixed = 1; mixed >= 0; mixed--) {
            double here = bench_state(&setups[i], mixed, repetitions, milliseconds);
            worst = here > worst ? here : worst;
        }
    }
    printf("the worst library/plain is %.2f\n", worst);
    return 0;
}
