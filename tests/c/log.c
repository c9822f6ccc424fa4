// Reads logs by aspenflick_log_next and compares every step with a second reader; then reads such logs by readers that have
// one fault each and checks that each is seen.
//
//     log COUNT SEED
//
// COUNT is the number of random logs, and SEED where the generator starts. What is read:
//
//   short      the empty log, and all logs of one and of two bytes
//   prefixes   every prefix of a log of twelve reports, from every place
//   changes    that log with one byte changed, every byte to each other value, also from the places just before it
//   long       logs of some 70,000 bytes, whole and with a fault in the last report
//   random     random logs, whole, cut or damaged
//
// Each is read from its start to the end or a fault, then three times more from the place given, and from places past its
// end; each call is made twice, between guards that differ in every byte. For each check the first step that fails it is
// printed. The last line is `N passed, M failed`; the exit status is 0 only if M is 0.
// Freestanding: of the C library only printf, memcpy and memcmp.
#include <stdio.h>
#include "aspenflick.h"
#include "stack.h"

void *memcpy(void *, const void *, size_t);
int memcmp(const void *, const void *, size_t);

typedef aspenflick_log_step step;
enum { NUMBERS = 8, MOST_BYTES = 40 };
static const size_t FARTHEST = (size_t)-1;

static int same_report(aspenflick_report a, aspenflick_report b) { return !memcmp(&a, &b, sizeof a); }

static int same_step(step a, step b) {
    return a.kind == b.kind && a.fault == b.fault && a.place == b.place && a.next == b.next &&
           same_report(a.report, b.report);
}

static aspenflick_report report_of(const uint32_t n[NUMBERS]) {
    return (aspenflick_report){n[0], n[1], n[2], n[3], n[4], n[5], n[6], n[7]};
}

// ---- The log that is read ---------------------------------------------------------------------------------------------

enum { MOST = 1 << 17, GUARD = 48, PLACES = 16, ROOMS = 2 };
static uint8_t log[MOST];
static size_t len;

static void put(uint8_t byte) { log[len++] = byte; }

static void put_number(uint32_t x) {
    for (; x >= 128; x /= 128) put((uint8_t)(128 + x % 128));
    put((uint8_t)x);
}

static void insert(size_t at, uint8_t byte) {
    for (size_t i = len++; i > at; i--) log[i] = log[i - 1];
    log[at] = byte;
}

// Two copies of it, each between guards, and what each is to hold after the calls.
typedef struct { _Alignas(PLACES) uint8_t bytes[PLACES + GUARD + MOST + GUARD]; } room;
static room rooms[ROOMS], lent[ROOMS];
static size_t start[ROOMS];

static uint8_t *inner(int r) { return rooms[r].bytes + start[r] + GUARD; }

// ---- The second reader ------------------------------------------------------------------------------------------------
// The log is first split by the top bit alone, from its end: for each byte, where the number that holds it has its last
// byte; the log's length, if it has none. Then each number is judged as a whole, by its value and by how many bytes it has.

static size_t last[MOST];

static void split(void) {
    size_t stops = len;
    for (size_t at = len; at-- > 0;) {
        if (log[at] < 128) stops = at;
        last[at] = stops;
    }
}

static size_t shortest(uint64_t value) {
    size_t bytes = 1;
    while (value >> 7 * bytes) bytes++;
    return bytes;
}

// Judges the number whose first byte is at a place: the fault and its place, or 0 and the value.
static uint32_t judge(size_t at, uint64_t *found) {
    *found = len;
    if (at >= len) return ASPENFLICK_FAULT_ENDS;
    size_t bytes = last[at] == len ? len - at : last[at] - at + 1;
    uint64_t value = 0;
    // a fifth byte counts with its top bit, and no byte behind it: so 32 bits hold the value unless that byte is above 15
    for (size_t i = bytes < 5 ? bytes : 5; i-- > 0;) value = (value << 7) + (i == 4 ? log[at + i] : log[at + i] & 127);
    if (value >> 32) {
        *found = at + 4;
        return ASPENFLICK_FAULT_LARGE;
    }
    if (last[at] == len) return ASPENFLICK_FAULT_ENDS;
    *found = last[at];
    if (bytes > shortest(value)) return ASPENFLICK_FAULT_PADDED;
    *found = value;
    return 0;
}

static step due_step(size_t from) {
    step due = {.kind = ASPENFLICK_LOG_END, .next = from};
    if (from >= len) return due;
    uint32_t numbers[NUMBERS];
    size_t at = from;
    for (int k = 0; k < NUMBERS; k++) {
        uint64_t found;
        due.fault = judge(at, &found);
        if (due.fault) {
            due.kind = ASPENFLICK_LOG_FAULT;
            due.place = found;
            return due;
        }
        numbers[k] = (uint32_t)found;
        at = last[at] + 1;
    }
    return (step){.kind = ASPENFLICK_LOG_REPORT, .next = at, .report = report_of(numbers)};
}

// ---- Checks and faults ------------------------------------------------------------------------------------------------

// The checks, each counted for itself.
enum { KIND, FAULT, PLACE, NEXT, REPORT, REPEATED, OTHER_GUARDS, GUARDS, LOG, CHECKS };
static const char *const check_names[CHECKS] = {
    [KIND] = "the kind is that of the second reader",
    [FAULT] = "the fault is that of the second reader",
    [PLACE] = "the place is that of the second reader",
    [NEXT] = "the next place is that of the second reader",
    [REPORT] = "the report is that of the second reader",
    [REPEATED] = "a fault or the end is given again at three further calls",
    [OTHER_GUARDS] = "other guards change nothing in the step",
    [GUARDS] = "the guards stand",
    [LOG] = "the log is as lent",
};

// Readers with a fault, each with the check that has to see it. The first has none, and no check may fail.
enum {
    NONE, NO_FAULT, FIFTH_TO_31, FIFTH_TOP_BIT, PADDING_READ, ZERO_PADDED, FAULT_PASSED, PLACE_OF_ENDS, PLACE_OF_OTHERS,
    END_INSIDE, END_IS_FAULT, TOP_BIT, N2_AND_MODE, NOT_REPEATED, NEXT_OF_FAULT, NUMBERS_OF_FAULT, OTHER_FAULT, FROM_CUT,
    PLACE_CUT, BYTE_BEHIND, BEFORE_LOG, BEHIND_LOG, LOG_BYTE, FAULTS
};
static const struct { const char *name; int seen_by; } faults[FAULTS] = {
    [NO_FAULT] = {"no fault", CHECKS},
    [FIFTH_TO_31] = {"a fifth byte up to 31", KIND},
    [FIFTH_TOP_BIT] = {"the top bit of a fifth byte ignored", KIND},
    [PADDING_READ] = {"a padded number read", KIND},
    [ZERO_PADDED] = {"a single zero byte taken for padding", KIND},
    [FAULT_PASSED] = {"a fault passed over", KIND},
    [PLACE_OF_ENDS] = {"the place of 1 at the number's first byte", PLACE},
    [PLACE_OF_OTHERS] = {"the place of 2 and 3 at the number's first byte", PLACE},
    [END_INSIDE] = {"the end between two numbers of a report", KIND},
    [END_IS_FAULT] = {"past the end a fault", KIND},
    [TOP_BIT] = {"the top bit ignored", REPORT},
    [N2_AND_MODE] = {"N2 and mode exchanged", REPORT},
    [NOT_REPEATED] = {"the end after a fault", REPEATED},
    [NEXT_OF_FAULT] = {"the next place of a fault moved behind it", NEXT},
    [NUMBERS_OF_FAULT] = {"a fault with the numbers before it", REPORT},
    [OTHER_FAULT] = {"3 for 2", FAULT},
    [FROM_CUT] = {"32 bits of the place asked for", KIND},
    [PLACE_CUT] = {"16 bits of the place of a fault", PLACE},
    [BYTE_BEHIND] = {"the byte behind the log read", OTHER_GUARDS},
    [BEFORE_LOG] = {"the byte before the log changed", GUARDS},
    [BEHIND_LOG] = {"the byte behind the log changed", GUARDS},
    [LOG_BYTE] = {"a byte of the log changed", LOG},
};

// A reader that goes from byte to byte, but for that fault. `further` is true after a fault or the end.
static step faulty_step(int fault, uint8_t *bytes, size_t n, size_t from, int further) {
    step s = {.kind = ASPENFLICK_LOG_END, .next = from};
    size_t at = fault == FROM_CUT ? (uint32_t)from : from, end = fault == BYTE_BEHIND ? n + 1 : n;
    uint32_t numbers[NUMBERS] = {0};
    if (fault == BEFORE_LOG) bytes[-1]++;
    if (fault == BEHIND_LOG) bytes[n]++;
    if (fault == LOG_BYTE && at < n) bytes[at]++;
    if (at >= end && !(fault == END_IS_FAULT && at > n)) return s;
    for (int k = 0; k < NUMBERS; k++) {
        size_t first = at;
        for (int i = 0, more = 1; more; i++, at++) {
            uint8_t byte = at < end ? bytes[at] : 0, fifth = fault == FIFTH_TOP_BIT ? byte & 127 : byte;
            if (at >= end && i == 0 && fault == END_INSIDE) return s;
            if (at >= end) s.fault = ASPENFLICK_FAULT_ENDS;
            else if (i == 4 && fifth > (fault == FIFTH_TO_31 ? 31 : 15)) s.fault = ASPENFLICK_FAULT_LARGE;
            else if (i > 0 && byte == 0 && fault != PADDING_READ) s.fault = ASPENFLICK_FAULT_PADDED;
            else if (fault == ZERO_PADDED && byte == 0) s.fault = ASPENFLICK_FAULT_PADDED;
            if (s.fault && at < end && fault == FAULT_PASSED) return faulty_step(fault, bytes, n, at + 1, further);
            if (s.fault) {
                if (fault == NOT_REPEATED && further) return (step){.kind = ASPENFLICK_LOG_END, .next = from};
                if (fault == OTHER_FAULT && s.fault == ASPENFLICK_FAULT_PADDED) s.fault = ASPENFLICK_FAULT_LARGE;
                s.kind = ASPENFLICK_LOG_FAULT;
                s.place = fault == PLACE_CUT ? (uint16_t)at : at;
                if (fault == (at < end ? PLACE_OF_OTHERS : PLACE_OF_ENDS)) s.place = first;
                if (fault == NEXT_OF_FAULT) s.next = at + 1;
                if (fault == NUMBERS_OF_FAULT) s.report = report_of(numbers);
                return s;
            }
            numbers[k] |= (uint32_t)(byte & 127) << 7 * i;
            more = byte > 127 && i < 4 && fault != TOP_BIT;
        }
    }
    s = (step){.kind = ASPENFLICK_LOG_REPORT, .next = at, .report = report_of(numbers)};
    if (fault == N2_AND_MODE) {
        s.report.n2 = numbers[2];
        s.report.mode = numbers[1];
    }
    return s;
}

// ---- One log ----------------------------------------------------------------------------------------------------------

enum { SHORT, PREFIXES, CHANGES, LONG, RANDOM, PARTS };
static const char *const part_names[PARTS] = {"short", "prefixes", "changes", "long", "random"};

// What a step can be, and which of these each part meets: two bytes hold no report and no fifth byte, and a log that is cut
// has no fault but 1.
enum { OUTCOMES = 5 };
static const char *const outcome_names[OUTCOMES] = {"reports", "ends", "fault 1", "fault 2", "fault 3"};
static const uint8_t meets[PARTS][OUTCOMES] = {
    [SHORT] = {0, 1, 1, 1, 0},
    [PREFIXES] = {1, 1, 1, 0, 0},
    [CHANGES] = {1, 1, 1, 1, 1},
    [LONG] = {1, 1, 1, 1, 1},
    [RANDOM] = {1, 1, 1, 1, 1},
};

typedef unsigned long long count;
static count logs[PARTS], steps[PARTS], outcomes[PARTS][OUTCOMES], failures[CHECKS];
static int part, fault;
static uint32_t deepest;

static void print_step(const char *which, step s) {
    const aspenflick_report r = s.report;
    printf("    %s kind %u, fault %u, place %llu, next %llu, report %u %u %u %u %u %u %u %u\n", which, s.kind, s.fault,
           (count)s.place, (count)s.next, r.n1, r.n2, r.mode, r.v, r.i11, r.i12, r.i13, r.i2);
}

// Counts a check that fails. With a seeded fault nothing is printed.
static void fail(int check, size_t from, step came, step due) {
    if (failures[check]++ || fault) return;
    size_t shown = len > MOST_BYTES && from < len ? from : 0;
    printf("%s: log %llu of %zu bytes, from %zu, fails `%s`\n    its bytes from %zu on:", part_names[part], logs[part], len,
           from, check_names[check], shown);
    for (size_t i = shown; i < len && i < shown + 2 * MOST_BYTES; i++) printf(" %02x", log[i]);
    printf("%s\n", shown + 2 * MOST_BYTES < len ? " .." : "");
    print_step("came", came);
    print_step("due ", due);
}

// A call of the library, of which some are measured, or of the reader with the fault.
static __attribute__((noinline)) step call(uint8_t *bytes, size_t from, int further) {
    if (fault) return faulty_step(fault, bytes, len, from, further);
    if (steps[part] % 64 > 1) return aspenflick_log_next(bytes, len, from);
    paint();
    step came = aspenflick_log_next(bytes, len, from);
    uint32_t used = stack_used();
    if (used > deepest) deepest = used;
    return came;
}

// One step, in either room, which may have to be as one before it. Gives the one in the first room.
static step take_as(size_t from, const step *before) {
    step due = due_step(from), came[ROOMS];
    for (int r = 0; r < ROOMS; r++, steps[part]++) {
        step s = came[r] = call(inner(r), from, before != 0);
        if (s.kind != due.kind) fail(KIND, from, s, due);
        if (s.fault != due.fault) fail(FAULT, from, s, due);
        if (s.place != due.place) fail(PLACE, from, s, due);
        if (s.next != due.next) fail(NEXT, from, s, due);
        if (!same_report(s.report, due.report)) fail(REPORT, from, s, due);
        if (before && !same_step(s, *before)) fail(REPEATED, from, s, *before);
        uint32_t outcome = s.kind == ASPENFLICK_LOG_FAULT ? 1 + s.fault : s.kind;
        if (outcome < OUTCOMES) outcomes[part][outcome]++;
    }
    if (!same_step(came[0], came[1])) fail(OTHER_GUARDS, from, came[1], came[0]);
    return came[0];
}

static step take(size_t from) { return take_as(from, 0); }

// The generator is splitmix64.
static uint64_t state;

static uint64_t draw(void) {
    uint64_t z = state += 0x9e3779b97f4a7c15;
    z = (z ^ z >> 30) * 0xbf58476d1ce4e5b9;
    z = (z ^ z >> 27) * 0x94d049bb133111eb;
    return z ^ z >> 31;
}

static uint32_t below(uint32_t bound) { return (uint32_t)((draw() >> 32) * bound >> 32); }

// The guards of the two rooms differ in every byte: one ends a number, the other goes on. For random logs there are others.
static const uint8_t pairs[][ROOMS] = {{0x01, 0x80}, {0x00, 0xff}, {0x7f, 0x0f}};
enum { PAIRS = sizeof pairs / sizeof pairs[0] };

static void lend(void) {
    uint32_t pair = part == RANDOM ? below(PAIRS + 1) : 0;
    start[0] = logs[part] % PLACES;
    start[1] = PLACES - 1 - start[0];
    for (size_t i = 0; i < GUARD; i++) {
        uint8_t drawn = pair < PAIRS ? 0 : (uint8_t)draw();
        for (int r = 0; r < ROOMS; r++) {
            uint8_t *before = lent[r].bytes + start[r] + i, *behind = before + GUARD + len;
            *before = *behind = pair < PAIRS ? pairs[pair][r] : r == 0 ? drawn : (uint8_t)~drawn;
        }
    }
    for (int r = 0; r < ROOMS; r++) {
        memcpy(lent[r].bytes + start[r] + GUARD, log, len);
        memcpy(rooms[r].bytes + start[r], lent[r].bytes + start[r], GUARD + len + GUARD);
    }
}

// Reads the log from its start until the end or a fault, then three times more; from all places from `first` on up to
// `behind`, and from places past its end.
static void read_log(size_t first, size_t behind) {
    lend();
    split();
    size_t at = 0;
    for (step due = due_step(at); due.kind == ASPENFLICK_LOG_REPORT; due = due_step(at)) {
        take(at);
        at = due.next;
    }
    step before = take(at);
    for (int k = 0; k < 3; k++) before = take_as(before.next, &before);
    for (size_t from = first; from < behind; from++) take(from);
    take(len);
    take(len + 1);
    take(FARTHEST);
    if (part == RANDOM) {
        take((1ull << 32) + below((uint32_t)len + 1));
        take((1ull << 63) + below((uint32_t)len + 1));
        take(FARTHEST - below(2 * MOST_BYTES));
    }
    step none = {0};
    for (int r = 0; r < ROOMS; r++) {
        const uint8_t *is = rooms[r].bytes + start[r], *was = lent[r].bytes + start[r];
        size_t behind_log = GUARD + len;
        if (memcmp(is, was, GUARD) || memcmp(is + behind_log, was + behind_log, GUARD)) fail(GUARDS, 0, none, none);
        if (memcmp(is + GUARD, was + GUARD, len)) fail(LOG, 0, none, none);
    }
    logs[part]++;
}

// ---- The logs ---------------------------------------------------------------------------------------------------------

static void read_short(void) {
    part = SHORT;
    len = 0;
    read_log(0, 0);
    for (len = 1; len <= 2; len++) {
        for (uint32_t x = 0; x < 1u << 8 * len; x++) {
            log[0] = (uint8_t)x;
            log[1] = (uint8_t)(x >> 8);
            read_log(0, len);
        }
    }
}

// The first and the last number of each count of bytes, neighbours of theirs, and reports that are accepted.
static const uint32_t twelve[12][NUMBERS] = {
    {2, 1, 1, 1, 1, 0, 0, 1},
    {4, 2, 1, 2, 200, 127, 128, 0},
    {0, 127, 128, 16383, 16384, 2097151, 2097152, 268435455},
    {268435456, 4294967295, 0, 127, 128, 16383, 16384, 2097151},
    {16, 1, 2, 2, 31, 0, 3, 7},
    {4294967295, 4294967295, 4294967295, 4294967295, 4294967295, 4294967295, 4294967295, 4294967295},
    {2097152, 268435455, 268435456, 4294967295, 4294967294, 2147483648, 2147483647, 65535},
    {0, 0, 0, 0, 0, 0, 0, 0},
    {127, 126, 64, 63, 127, 1, 0, 127},
    {65536, 255, 256, 257, 129, 16385, 2097153, 268435457},
    {1, 1, 1, 1, 0, 0, 0, 3},
    {4, 4, 1, 8, 15, 15, 0, 1},
};
enum { TWELVE_BYTES = 199 };

static void put_twelve(void) {
    for (size_t k = 0; k < 12 * NUMBERS; k++) put_number(twelve[k / NUMBERS][k % NUMBERS]);
}

static void read_prefixes(void) {
    part = PREFIXES;
    len = 0;
    put_twelve();
    for (size_t whole = len, cut = 0; cut <= whole; cut++) {
        len = cut;
        read_log(0, len);
    }
}

// From the start, and from the places just before the byte.
static void read_changes(void) {
    part = CHANGES;
    len = 0;
    put_twelve();
    for (size_t at = 0; at < len; at++) {
        uint8_t was = log[at];
        for (uint32_t byte = 0; byte < 256; byte++) {
            log[at] = (uint8_t)byte;
            if (byte != was) read_log(at < NUMBERS ? 0 : at - NUMBERS, at + 1);
        }
        log[at] = was;
    }
}

// The last report is 4 4 1 8 15 15 0 1, a byte for each number.
static void read_long(void) {
    part = LONG;
    len = 0;
    while (len < 70000) put_twelve();
    read_log(0, 0);
    len--;
    read_log(0, 0);
    log[len - 1] |= 128;
    put(0);
    read_log(0, 0);
    for (int k = 0; k < 3; k++) log[len - 1 - k] |= 128;
    put(128);
    put(16);
    read_log(0, 0);
}

// A number: mostly of any count of bits; or near the bounds between counts of bytes.
static uint32_t any_number(void) {
    static const uint32_t bounds[] = {0, 1u << 7, 1u << 14, 1u << 21, 1u << 28};
    switch (below(4)) {
    case 0: return below(64);
    case 1: return bounds[below(5)] + below(3) - 1;
    default: return (uint32_t)((draw() >> 32) >> below(32));
    }
}

static void damage(void) {
    static const uint8_t fifths[] = {0, 1, 14, 15, 16, 17, 31, 32, 127, 128, 143, 144, 255};
    size_t at = below((uint32_t)len + 1), in = below((uint32_t)len);
    switch (below(7)) {
    case 0: len = at; break;
    case 1: if (len) log[in] = (uint8_t)draw(); break;
    case 2: if (len) log[in] ^= 128; break;
    case 3: if (len) log[in] ^= (uint8_t)(1 << below(8)); break;
    case 4: insert(at, (uint8_t)draw()); break;
    case 5:  // a number gets a byte more, which is zero
        while (in < len && log[in] > 127) in++;
        if (in == len) break;
        log[in] |= 128;
        insert(in + 1, 0);
        break;
    case 6:  // four bytes that go on, and a fifth
        insert(at, fifths[below(sizeof fifths)]);
        for (int k = 0; k < 4; k++) insert(at, (uint8_t)(128 | draw()));
        break;
    }
}

// A log of at most four reports, without damage or with some; one in sixteen is any bytes.
static void read_random(void) {
    part = RANDOM;
    len = 0;
    if (below(16)) {
        for (uint32_t numbers = NUMBERS * below(5); numbers > 0; numbers--) put_number(any_number());
        if (below(3)) for (uint32_t times = 1 + below(2); times > 0; times--) damage();
    } else {
        uint8_t top = (uint8_t)(below(2) << 7), low = below(2) ? 127 : 15;
        for (uint32_t bytes = below(64); bytes > 0; bytes--) put((uint8_t)(draw() & (low | (below(4) ? 128 : top))));
    }
    size_t from = below((uint32_t)len + 1);
    read_log(from, from + 1);
}

// ---- The tests --------------------------------------------------------------------------------------------------------

static void forget(void) {
    for (int p = 0; p < PARTS; p++) {
        logs[p] = steps[p] = 0;
        for (int k = 0; k < OUTCOMES; k++) outcomes[p][k] = 0;
    }
    for (int k = 0; k < CHECKS; k++) failures[k] = 0;
}

// No outcome of random logs is to be rarer than one step in RAREST. So many logs are read by each reader with a fault.
enum { RAREST = 50, FAULTY = 1000 };
static uint32_t passed, failed;

// Counts a test, and gives what is printed of it.
static const char *test(int holds) {
    if (holds) passed++;
    else failed++;
    return holds ? "" : " FAILED";
}

static uint64_t decimal(const char *text) {
    uint64_t x = 0;
    for (; *text >= '0' && *text <= '9'; text++) x = 10 * x + (uint64_t)(*text - '0');
    return x;
}

int main(int arguments, char **argument) {
    if (arguments != 3) {
        printf("usage: log COUNT SEED\n");
        return 2;
    }
    count random_logs = decimal(argument[1]), total = 0;
    state = decimal(argument[2]);
    printf("the generator starts at %llu\n", (count)state);
    read_short();
    read_prefixes();
    read_changes();
    read_long();
    for (count k = 0; k < random_logs; k++) read_random();
    const count expected[PARTS] = {1 + 256 + 65536, TWELVE_BYTES + 1, 255 * TWELVE_BYTES, 4, random_logs};
    for (int p = 0; p < PARTS; p++) {
        printf("%s: %llu logs%s, %llu steps:", part_names[p], logs[p], test(logs[p] == expected[p]), steps[p]);
        for (int k = 0; k < OUTCOMES; k++) {
            int met = outcomes[p][k] > (p == RANDOM ? steps[p] / RAREST : 0);
            printf("%s %s %llu%s", k ? "," : "", outcome_names[k], outcomes[p][k], test(met == meets[p][k]));
        }
        printf("\n");
        total += steps[p];
    }
    printf("%llu steps in all\n", total);
    for (int k = 0; k < CHECKS; k++) {
        printf("%s: all but %llu%s\n", check_names[k], failures[k], test(total && !failures[k]));
    }
    printf("the deepest call has used %u bytes of stack%s\n", deepest, test(deepest < 2048));
    for (fault = NONE + 1; fault < FAULTS; fault++) {
        const int check = faults[fault].seen_by;
        const char *name = check < CHECKS ? check_names[check] : "any check";
        count times = 0;
        forget();
        read_long();
        for (int k = 0; k < FAULTY; k++) read_random();
        for (int k = 0; k < CHECKS; k++) if (k == check || check == CHECKS) times += failures[k];
        printf("seeded: %s: `%s` fails %llu times%s\n", faults[fault].name, name, times,
               test(check < CHECKS ? times > 0 : times == 0));
    }
    printf("%u passed, %u failed\n", passed, failed);
    return failed != 0;
}
