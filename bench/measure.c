// Compares the versions of the job, of both codebooks, counts the x86 instructions of their calls, and times them. A report
// is
//
//     Ng N1 N2 mode v i11 i12 i13 i14 i14 i14 i2 i2 i2
//
// where Ng is 1 for the single panel, which takes of i14 and i2 the first number of i2 alone.
//
// measure compare [N]   compares records and buffers, and prints how many reports in range of the single panel and of
//                       several, and how many calls were compared; a difference ends it with status 1. With N it takes
//                       every N-th report and an N-th of the drawn calls
// measure count K N     counts by single steps for setting K of the list below, 0 to 21, at most N reports of each mode and
//                       rank, N up to 5. A line for each measured call: the report, the function, the version and the
//                       instructions. Version `empty` returns at once
// measure marks K N     makes the same calls for an emulator's plugin, which counts from mark to mark: see mark below
// measure time ROUNDS   times the measured calls of each setting, mode and rank in so many rounds, each version once in a
//                       round, and prints a line for each and each function: Ng N1 N2 mode v, where mode is 0 for both
//                       modes of a single panel, the function, and the medians of the rounds' ratios of our time to that
//                       of C, as the kit's clang compiles it and as gcc does
// measure places VERSION FUNCTION REPORT
//                       prints how often each instruction of one call is executed: its address, less that of the
//                       program's start, and the count
#define _GNU_SOURCE
#include "../reference/baseline.h"
#include <signal.h>
#include <stdio.h>
#include <stdlib.h>
#include <string.h>
#include <sys/syscall.h>
#include <time.h>
#include <ucontext.h>
#include <unistd.h>

#define FUNCTION(name, report, number)                                                                             \
    aspenflick_record name(report r, const uint8_t *mask, size_t mask_len, uint8_t ranks, const uint16_t *offsets, \
                           size_t offsets_len, number *out, size_t out_len)
#define PHASES(name) FUNCTION(name, aspenflick_report, uint16_t)
#define WEIGHTS(name) FUNCTION(name, aspenflick_report, int16_t)
#define PANEL_PHASES(name) FUNCTION(name, aspenflick_panel_report, uint16_t)
#define PANEL_WEIGHTS(name) FUNCTION(name, aspenflick_panel_report, int16_t)
typedef PHASES(phases_function);
typedef WEIGHTS(weights_function);
typedef PANEL_PHASES(panel_phases_function);
typedef PANEL_WEIGHTS(panel_weights_function);

// The same C by the other compiler; and Eigen, which has the single panel alone and is not always linked.
phases_function gcc_phases;
weights_function gcc_weights;
panel_phases_function gcc_panel_phases;
panel_weights_function gcc_panel_weights;
__attribute__((weak)) phases_function eigen_phases;
__attribute__((weak)) weights_function eigen_weights;

// Calls that return at once: what they cost is what measuring costs.
static __attribute__((naked)) PHASES(empty_phases) { __asm__("ret"); }
static __attribute__((naked)) WEIGHTS(empty_weights) { __asm__("ret"); }
static __attribute__((naked)) PANEL_PHASES(empty_panel_phases) { __asm__("ret"); }
static __attribute__((naked)) PANEL_WEIGHTS(empty_panel_weights) { __asm__("ret"); }

// Before Eigen those that are timed.
enum { OURS, CLANG, GCC, EIGEN, VERSIONS, EMPTY = VERSIONS };
static const char *const version_names[] = {"ours", "clang", "gcc", "eigen", "empty"};
static phases_function *volatile phases_of[] = {
    aspenflick_phases, baseline_phases, gcc_phases, eigen_phases, empty_phases,
};
static weights_function *volatile weights_of[] = {
    aspenflick_weights, baseline_weights, gcc_weights, eigen_weights, empty_weights,
};
static panel_phases_function *volatile panel_phases_of[] = {
    aspenflick_panel_phases, baseline_panel_phases, gcc_panel_phases, NULL, empty_panel_phases,
};
static panel_weights_function *volatile panel_weights_of[] = {
    aspenflick_panel_weights, baseline_panel_weights, gcc_panel_weights, NULL, empty_panel_weights,
};

enum { ON_PHASES, ON_WEIGHTS, FUNCTIONS };
static const char *const function_names[FUNCTIONS] = {"phases", "weights"};

// By codebook: the single panel, and several. The settings of the first come first.
enum { SINGLE, PANELS, CODEBOOKS };
static const struct { int first, settings; uint32_t most_v; unsigned long reports; } codebooks[CODEBOOKS] = {
    [SINGLE] = {0, 14, 8, 78892},
    [PANELS] = {14, 8, 4, 570752},
};
enum { SETTINGS = 22, MOST_REFUSALS = 13, MOST_MASK = 32, MOST_PORTS = 32, MOST_NUMBERS = 512, TURN = 384 };
static const struct { uint32_t ng, n1, n2; size_t mask_bytes; } settings[SETTINGS] = {
    {1, 1, 1, 1},  {1, 2, 1, 1},  {1, 2, 2, 8},  {1, 4, 1, 2},  {1, 3, 2, 12}, {1, 6, 1, 3},  {1, 4, 2, 16},
    {1, 8, 1, 4},  {1, 4, 3, 24}, {1, 6, 2, 24}, {1, 12, 1, 6}, {1, 4, 4, 32}, {1, 8, 2, 32}, {1, 16, 1, 8},
    {2, 2, 1, 1},  {2, 4, 1, 2},  {4, 2, 1, 1},  {2, 2, 2, 8},  {2, 8, 1, 4},  {4, 4, 1, 2},  {2, 4, 2, 16},
    {4, 2, 2, 8},
};

// One call's input but for its buffer, which is `room` entries long.
typedef struct {
    int codebook;
    aspenflick_panel_report report;
    uint8_t mask[MOST_MASK + 1];
    uint16_t offsets[MOST_PORTS + 1];
    size_t mask_len, offsets_len, room;
    uint8_t ranks;
} request;

static uint16_t buffers[VERSIONS][MOST_NUMBERS];

static aspenflick_report single_report(const aspenflick_panel_report *r) {
    return (aspenflick_report){r->n1, r->n2, r->mode, r->v, r->i11, r->i12, r->i13, r->i2[0]};
}

// Whether a version has the codebook.
static int has(int version, int codebook) {
    return version != EIGEN || (codebook == SINGLE && phases_of[EIGEN] && weights_of[EIGEN]);
}

// A call of a function of either codebook, with the report as that takes it.
#define CALLED(function, report, out) \
    function(report, q->mask, q->mask_len, q->ranks, q->offsets, q->offsets_len, (void *)(out), q->room)

static aspenflick_record call(int version, int function, const request *q, uint16_t *out) {
    if (q->codebook == PANELS) {
        return function == ON_PHASES ? CALLED(panel_phases_of[version], q->report, out)
                                     : CALLED(panel_weights_of[version], q->report, out);
    }
    return function == ON_PHASES ? CALLED(phases_of[version], single_report(&q->report), out)
                                 : CALLED(weights_of[version], single_report(&q->report), out);
}

static void print_call(FILE *to, int version, int function, const request *q) {
    const aspenflick_panel_report *r = &q->report;
    fprintf(to, "%u %u %u %u %u %u %u %u %u %u %u %u %u %u %s %s", r->ng, r->n1, r->n2, r->mode, r->v, r->i11, r->i12,
            r->i13, r->i14[0], r->i14[1], r->i14[2], r->i2[0], r->i2[1], r->i2[2], function_names[function],
            version_names[version]);
}

static void say(const char *what, int version, int function, const request *q) {
    fprintf(stderr, "measure: %s: ", what);
    print_call(stderr, version, function, q);
    fprintf(stderr, ", mask of %zu bytes, room %zu, %zu offsets:", q->mask_len, q->room, q->offsets_len);
    for (size_t i = 0; i < q->offsets_len; i++) fprintf(stderr, " %u", q->offsets[i]);
    fprintf(stderr, "\n");
}

// Makes one call of each version, with bytes in the buffers that nothing else would write, and gives the refusal.
static uint32_t compare(int function, const request *q) {
    aspenflick_record records[VERSIONS];
    for (int version = 0; version < VERSIONS; version++) {
        if (!has(version, q->codebook)) continue;
        memset(buffers[version], 0xc5, sizeof buffers[version]);
        records[version] = call(version, function, q, buffers[version]);
        if (memcmp(&records[version], &records[0], sizeof records[0]) != 0 ||
            memcmp(buffers[version], buffers[0], sizeof buffers[0]) != 0) {
            say("differs", version, function, q);
            exit(1);
        }
    }
    return records[0].refusal;
}

static uint32_t ports_of(const aspenflick_panel_report *r) { return 2 * r->ng * r->n1 * r->n2; }

// The first request of a setting, mode and rank: indices of 0, masks of ones, an offset for each port that no other has, a
// buffer that is long enough.
static request first_request(int setting, uint32_t mode, uint32_t v) {
    request q = {.codebook = setting >= codebooks[PANELS].first ? PANELS : SINGLE, .room = MOST_NUMBERS, .ranks = 0xff};
    memset(q.mask, 0xff, sizeof q.mask);
    q.mask_len = settings[setting].mask_bytes;
    q.report = (aspenflick_panel_report){.ng = settings[setting].ng, .n1 = settings[setting].n1,
                                         .n2 = settings[setting].n2, .mode = mode, .v = v};
    for (uint32_t i = 0; i <= MOST_PORTS; i++) q.offsets[i] = (uint16_t)((TURN - 1 + 37 * i) % TURN);
    q.offsets_len = ports_of(&q.report);
    return q;
}

// The numbers of i14 that are used.
static uint32_t i14_used(const aspenflick_panel_report *r) { return r->ng == 4 ? 3 : r->mode; }

// The next request of a box that contains all reports in range; 0 after the last. For the single panel it has room above
// every range, for several panels above those of i11, i12 and i13.
static int next_request(request *q) {
    aspenflick_panel_report *r = &q->report;
    int several = q->codebook == PANELS;
    uint32_t i2 = !several ? 16 : r->v == 1 ? 3 : 1, i2_others = several && r->mode == 2;
    uint32_t i14 = several ? i14_used(r) : 0;
    const struct { uint32_t *index, last; } box[] = {
        {&r->i2[0], i2}, {&r->i2[1], i2_others}, {&r->i2[2], i2_others},
        {&r->i14[0], i14 > 0 ? 3 : 0}, {&r->i14[1], i14 > 1 ? 3 : 0}, {&r->i14[2], i14 > 2 ? 3 : 0},
        {&r->i13, 4}, {&r->i12, 4 * r->n2}, {&r->i11, 4 * r->n1},
    };
    for (size_t k = 0; k < sizeof box / sizeof *box; k++) {
        if ((*box[k].index)++ < box[k].last) return 1;
        *box[k].index = 0;
    }
    return 0;
}

// A generator of numbers for the refused calls: the same on every run.
static uint32_t drawn(uint32_t below) {
    static uint64_t state = 1;
    state = state * 6364136223846793005u + 1442695040888963407u;
    return (uint32_t)((state >> 33) % below);
}

// A number that is mostly small, and sometimes so large that arithmetic before a test would go wrong.
static uint32_t drawn_index(uint32_t below) {
    static const uint32_t large[] = {255, 256, 257, 258, 65536, 65537, 0x40000001, 0x7fffffff, 0x80000001, 0xffffffff};
    return drawn(32) ? drawn(below) : large[drawn(sizeof large / sizeof *large)];
}

// Offsets drawn for so many ports: any, and the bounds often.
static void draw_offsets(request *q, uint32_t ports) {
    uint32_t below = drawn(4) ? TURN : 2;
    for (uint32_t i = 0; i <= MOST_PORTS; i++) q->offsets[i] = (uint16_t)(drawn(8) ? drawn(below) : TURN - 1);
    q->offsets_len = ports;
}

// Spoils such a list: one too few, one too many, none, or one that is not below a turn, at either end or anywhere.
static void spoil_offsets(request *q, uint32_t ports) {
    static const uint16_t above[] = {TURN, TURN + 1, 2 * TURN, 255 + TURN, 32768, 65535};
    const uint32_t places[] = {0, ports - 1, drawn(ports)};
    switch (drawn(5)) {
    case 0: q->offsets_len = ports - 1; break;
    case 1: q->offsets_len = ports + 1; break;
    case 2: q->offsets_len = drawn(2) ? 0 : drawn(MOST_PORTS + 2); break;
    default: q->offsets[places[drawn(3)]] = above[drawn(sizeof above / sizeof *above)];
    }
}

static request drawn_request(int codebook) {
    int setting = codebooks[codebook].first + (int)drawn((uint32_t)codebooks[codebook].settings);
    uint32_t n1 = settings[setting].n1, n2 = settings[setting].n2, most_v = codebooks[codebook].most_v;
    request q = first_request(setting, 1 + drawn(2), 1 + drawn(most_v));
    aspenflick_panel_report *r = &q.report;
    if (!drawn(8)) r->n1 = drawn_index(18);
    if (!drawn(8)) r->n2 = drawn_index(6);
    if (!drawn(8)) r->mode = drawn_index(4);
    if (!drawn(8)) r->v = drawn_index(most_v + 2);
    r->i11 = drawn_index(drawn(4) ? 4 * n1 : 66);
    r->i12 = n2 == 1 && drawn(8) ? 0 : drawn_index(drawn(4) ? 4 * n2 : 18);
    r->i13 = drawn(2) ? 0 : drawn_index(6);
    r->i2[0] = drawn_index(drawn(2) ? 2 : codebook == PANELS ? 5 : 18);
    if (codebook == PANELS) {
        for (uint32_t k = 0; k < 3; k++) r->i14[k] = drawn(16) ? drawn(k < i14_used(r) ? 4 : 1) : drawn_index(6);
        for (uint32_t k = 1; k < 3; k++) r->i2[k] = drawn(16) ? drawn(r->mode == 2 ? 2 : 1) : drawn_index(4);
        if (!drawn(8)) r->ng = drawn_index(6);
    }
    if (!drawn(8)) q.mask_len = drawn(MOST_MASK + 2);
    for (size_t i = 0; i < sizeof q.mask; i++) q.mask[i] = drawn(2) ? 0xff : (uint8_t)(0xff & ~(1u << drawn(8)));
    if (!drawn(4)) q.ranks = (uint8_t)drawn(256);
    draw_offsets(&q, 2 * settings[setting].ng * n1 * n2);
    if (!drawn(4)) spoil_offsets(&q, (uint32_t)q.offsets_len);
    if (!drawn(2)) q.room = drawn(drawn(2) ? 16 : MOST_NUMBERS + 1);
    return q;
}

// The lists of offsets with which a report in range is compared: one in which no two are alike, zeros, and one drawn.
enum { ALL_OTHER, ZEROS, DRAWN, LISTS };

// Compares every `distance`-th report of a codebook and drawn ones, prints how many were in range, and gives how many calls
// there were.
static unsigned long compare_all(int codebook, unsigned long distance) {
    unsigned long number = 0, accepted = 0, calls = 0, of_refusal[MOST_REFUSALS + 1] = {0};
    int first = codebooks[codebook].first, last = first + codebooks[codebook].settings - 1;
    for (int setting = first; setting <= last; setting++) {
        // Four panels have mode 1 alone.
        for (uint32_t mode = 1; mode <= (settings[setting].ng == 4 ? 1 : 2); mode++) {
            for (uint32_t v = 1; v <= codebooks[codebook].most_v; v++) {
                request q = first_request(setting, mode, v);
                do {
                    if (number++ % distance) continue;
                    request other = q;
                    uint32_t refusal = 0;
                    for (int list = ALL_OTHER; list < LISTS && refusal == 0; list++) {
                        if (list == ZEROS) memset(other.offsets, 0, sizeof other.offsets);
                        if (list == DRAWN) draw_offsets(&other, ports_of(&q.report));
                        refusal = compare(ON_PHASES, &other);
                        compare(ON_WEIGHTS, &other);
                        calls += 2;
                    }
                    accepted += refusal == 0;
                } while (next_request(&q));
            }
        }
    }
    for (unsigned long i = 0; i < 1000000 / distance; i++, calls++) {
        request q = drawn_request(codebook);
        of_refusal[compare(i % FUNCTIONS, &q)]++;
    }
    for (uint32_t k = 0; k <= MOST_REFUSALS; k++) {
        // 12 is for several panels alone.
        if (of_refusal[k] < 1000 / distance && (k != 12 || codebook == PANELS)) {
            fprintf(stderr, "measure: only %lu calls have refusal %u\n", of_refusal[k], k);
            exit(1);
        }
    }
    if (distance == 1 && accepted != codebooks[codebook].reports) {
        fprintf(stderr, "measure: %lu reports are in range, not %lu\n", accepted, codebooks[codebook].reports);
        exit(1);
    }
    printf("%lu ", accepted);
    return calls;
}

// The instructions of the measured call so far, and if `places` is set how many there were at each address.
static volatile uint64_t steps;
static uint64_t *places;
extern const char __executable_start[], etext[];

static void on_step(int number, siginfo_t *info, void *context) {
    (void)number, (void)info;
    steps++;
    if (places) {
        uint64_t at = (uint64_t)((ucontext_t *)context)->uc_mcontext.gregs[REG_RIP] - (uint64_t)__executable_start;
        if (at < (uint64_t)(etext - __executable_start)) places[at]++;
    }
}

// From the first of these to the second the processor raises a signal after each instruction, or else the emulator's
// plugin counts: it knows a mark by the descriptor.
enum { MARK = 1023 };
static int marking;
#define STEPS_BEGIN() __asm__ volatile("pushfq; orq $0x100, (%%rsp); popfq" ::: "memory", "cc")
#define STEPS_END() __asm__ volatile("pushfq; andq $~0x100, (%%rsp); popfq" ::: "memory", "cc")

static void mark(void) {
    long result;
    __asm__ volatile("syscall" : "=a"(result) : "0"(SYS_write), "D"(MARK), "S"(0), "d"(0) : "rcx", "r11", "memory");
}

#define STEPPED(function, report)                      \
    do {                                               \
        STEPS_BEGIN();                                 \
        record = CALLED(function, report, buffers[0]); \
        STEPS_END();                                   \
    } while (0)

static uint64_t measured(int version, int function, const request *q) {
    phases_function *phases = phases_of[version];
    weights_function *weights = weights_of[version];
    panel_phases_function *panel_phases = panel_phases_of[version];
    panel_weights_function *panel_weights = panel_weights_of[version];
    const aspenflick_report report = single_report(&q->report);
    aspenflick_record record;
    steps = 0;
    if (marking) {
        mark();
        record = call(version, function, q, buffers[0]);
        mark();
    } else if (q->codebook == PANELS) {
        if (function == ON_PHASES) STEPPED(panel_phases, q->report);
        else STEPPED(panel_weights, q->report);
    } else {
        if (function == ON_PHASES) STEPPED(phases, report);
        else STEPPED(weights, report);
    }
    if (version != EMPTY && record.refusal != 0) {
        say("refused", version, function, q);
        exit(1);
    }
    return steps;
}

static void print_measured(int version, int function, const request *q) {
    uint64_t count = measured(version, function, q);
    print_call(stdout, version, function, q);
    printf(" %lu\n", count);
}

enum { AT_MOST = 5 };

// Takes some of the reports in range of a setting, mode and rank, at most so many, spread over all of them, and gives how
// many they are.
static unsigned take_some(int setting, uint32_t mode, uint32_t v, unsigned most, aspenflick_panel_report *taken) {
    enum { MOST_REPORTS = 65536 };
    static aspenflick_panel_report reports[MOST_REPORTS];
    unsigned count = 0, some = 0;
    request q = first_request(setting, mode, v);
    do {
        if (call(CLANG, ON_PHASES, &q, buffers[0]).refusal == 0) reports[count++] = q.report;
    } while (next_request(&q));
    // An odd distance, so that indices with few values take them all.
    unsigned distance = ((count + most - 1) / most) | 1;
    for (unsigned i = distance / 2; i < count; i += distance) taken[some++] = reports[i];
    return some;
}

static size_t needed_room(int function, const aspenflick_panel_report *r) {
    return (function == ON_WEIGHTS ? 2 : 1) * r->v * ports_of(r);
}

// Eigen's calls are long: the larger the matrix, the fewer of the reports it is given.
static void measure_some(int setting, uint32_t mode, uint32_t v, unsigned most) {
    enum { ENTRIES_OF_EIGEN = 16 };
    aspenflick_panel_report reports[AT_MOST];
    request q = first_request(setting, mode, v);
    unsigned taken = take_some(setting, mode, v, most, reports);
    unsigned of_eigen = ENTRIES_OF_EIGEN / (v * ports_of(&q.report)) + 1, every = (taken + of_eigen - 1) / of_eigen;
    for (unsigned i = 0; i < taken; i++) {
        q.report = reports[i];
        for (int function = 0; function < FUNCTIONS; function++) {
            q.room = needed_room(function, &q.report);
            for (int version = OURS; version < EIGEN; version++) print_measured(version, function, &q);
            if (has(EIGEN, q.codebook) && i % every == every / 2) print_measured(EIGEN, function, &q);
        }
    }
}

// Mode 2 acts on one and two layers of the single panel, but not on two ports, and on two panels.
static int has_mode_two(int codebook, const aspenflick_panel_report *r) {
    return codebook == PANELS ? r->ng == 2 : r->v <= 2 && ports_of(r) > 2;
}

static void measure_setting(int setting, unsigned most) {
    request q = first_request(setting, 1, 1);
    for (int function = 0; function < FUNCTIONS; function++) print_measured(EMPTY, function, &q);
    for (q.report.v = 1; q.report.v <= codebooks[q.codebook].most_v && q.report.v <= q.offsets_len; q.report.v++) {
        measure_some(setting, 1, q.report.v, most);
        if (has_mode_two(q.codebook, &q.report)) measure_some(setting, 2, q.report.v, most);
    }
}

static double now(void) {
    struct timespec at;
    clock_gettime(CLOCK_MONOTONIC, &at);
    return 1e9 * (double)at.tv_sec + (double)at.tv_nsec;
}

#define TIMED(function, report)                                                                            \
    for (unsigned i = 0; i < repeats; i++) {                                                               \
        for (const request *q = requests; q < requests + count; q++) CALLED(function, report, buffers[0]); \
    }

// Makes all the calls as often as said, and gives the nanoseconds.
static double timed(int version, int function, const request *requests, unsigned count, unsigned repeats) {
    phases_function *phases = phases_of[version];
    weights_function *weights = weights_of[version];
    panel_phases_function *panel_phases = panel_phases_of[version];
    panel_weights_function *panel_weights = panel_weights_of[version];
    aspenflick_report reports[2 * AT_MOST];
    for (unsigned i = 0; i < count; i++) reports[i] = single_report(&requests[i].report);
    double start = now();
    if (requests->codebook == PANELS) {
        if (function == ON_PHASES) TIMED(panel_phases, q->report)
        else TIMED(panel_weights, q->report)
    } else {
        if (function == ON_PHASES) TIMED(phases, reports[q - requests])
        else TIMED(weights, reports[q - requests])
    }
    return now() - start;
}

static int in_order(const void *a, const void *b) {
    double x = *(const double *)a, y = *(const double *)b;
    return (x > y) - (x < y);
}

// Times a row of the tables. In each round every version makes the same calls, another one first; a ratio is of one round.
static void time_row(int function, request *requests, unsigned count, unsigned rounds) {
    enum { MOST_ROUNDS = 1001 };
    static double ratios[EIGEN][MOST_ROUNDS];
    const double nanoseconds = 50000;
    if (rounds > MOST_ROUNDS) rounds = MOST_ROUNDS;
    for (unsigned i = 0; i < count; i++) requests[i].room = needed_room(function, &requests[i].report);
    double once = timed(CLANG, function, requests, count, 16) / 16;
    unsigned repeats = once < nanoseconds ? (unsigned)(nanoseconds / once) : 1;
    for (unsigned round = 0; round < rounds; round++) {
        double of[EIGEN];
        for (unsigned k = 0; k < EIGEN; k++) {
            int version = (int)((round + k) % EIGEN);
            of[version] = timed(version, function, requests, count, repeats);
        }
        for (int version = CLANG; version < EIGEN; version++) ratios[version][round] = of[OURS] / of[version];
    }
    const aspenflick_panel_report *r = &requests->report;
    printf("%u %u %u %u %u %s", r->ng, r->n1, r->n2, requests->codebook == PANELS ? r->mode : 0, r->v,
           function_names[function]);
    for (int version = CLANG; version < EIGEN; version++) {
        qsort(ratios[version], rounds, sizeof ratios[version][0], in_order);
        printf(" %.4f", ratios[version][rounds / 2]);
    }
    printf("\n");
}

static void time_setting(int setting, unsigned rounds) {
    request q = first_request(setting, 1, 1);
    int several = q.codebook == PANELS;
    for (uint32_t v = 1; v <= codebooks[q.codebook].most_v && v <= q.offsets_len; v++) {
        request requests[2 * AT_MOST];
        unsigned count = 0;
        q.report.v = v;
        for (uint32_t mode = 1; mode <= (has_mode_two(q.codebook, &q.report) ? 2 : 1); mode++) {
            aspenflick_panel_report reports[AT_MOST];
            unsigned taken = take_some(setting, mode, v, AT_MOST, reports);
            if (several) count = 0;
            for (unsigned i = 0; i < taken; i++) {
                requests[count] = q;
                requests[count++].report = reports[i];
            }
            // Of the single panel both modes are one row.
            if (!several && mode == 1 && has_mode_two(q.codebook, &q.report)) continue;
            for (int function = 0; function < FUNCTIONS; function++) time_row(function, requests, count, rounds);
        }
    }
}

static int place_of(const char *const *names, int count, const char *name) {
    for (int i = 0; i < count; i++) {
        if (strcmp(names[i], name) == 0) return i;
    }
    fprintf(stderr, "measure: no %s\n", name);
    exit(2);
}

static void print_places(char **words) {
    int version = place_of(version_names, VERSIONS, words[0]), function = place_of(function_names, FUNCTIONS, words[1]);
    uint32_t n[14];
    for (int i = 0; i < 14; i++) n[i] = (uint32_t)strtoul(words[2 + i], NULL, 10);
    int setting = 0;
    while (setting < SETTINGS &&
           (settings[setting].ng != n[0] || settings[setting].n1 != n[1] || settings[setting].n2 != n[2])) setting++;
    if (setting == SETTINGS || !has(version, n[0] > 1 ? PANELS : SINGLE)) {
        fprintf(stderr, "measure: no such setting\n");
        exit(2);
    }
    request q = first_request(setting, n[3], n[4]);
    q.report = (aspenflick_panel_report){n[0], n[1], n[2], n[3], n[4], n[5], n[6], n[7], {n[8], n[9], n[10]},
                                         {n[11], n[12], n[13]}};
    size_t size = (size_t)(etext - __executable_start);
    places = calloc(size, sizeof *places);
    measured(version, function, &q);
    for (size_t i = 0; i < size; i++) {
        if (places[i]) printf("%zx %lu\n", i, places[i]);
    }
}

int main(int count, char **words) {
    struct sigaction action = {.sa_sigaction = on_step, .sa_flags = SA_SIGINFO};
    sigaction(SIGTRAP, &action, NULL);
    unsigned long first = count > 2 ? strtoul(words[2], NULL, 10) : 1, second = count > 3 ? strtoul(words[3], NULL, 10) : 0;
    if ((count == 2 || count == 3) && strcmp(words[1], "compare") == 0 && first > 0) {
        unsigned long calls = compare_all(SINGLE, first);
        calls += compare_all(PANELS, first);
        printf("%lu\n", calls);
    } else if (count == 4 && (strcmp(words[1], "count") == 0 || strcmp(words[1], "marks") == 0) && first < SETTINGS &&
               second > 0 && second <= AT_MOST) {
        marking = strcmp(words[1], "marks") == 0;
        measure_setting((int)first, (unsigned)second);
    } else if (count == 3 && strcmp(words[1], "time") == 0 && first > 0) {
        for (int setting = 0; setting < SETTINGS; setting++) time_setting(setting, (unsigned)first);
    } else if (count == 18 && strcmp(words[1], "places") == 0) {
        print_places(words + 2);
    } else {
        fprintf(stderr, "measure: see the top of measure.c\n");
        return 2;
    }
    return 0;
}
