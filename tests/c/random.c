// Makes random calls of the functions that write phases or weights, of both codebooks, and checks what comes of each, also
// against the version by hand; then seeds faults into such calls and checks that each is seen.
//
//     random COUNT SEED
//
// COUNT is the number of requests for each function of the single panel, half of it that for each of several panels, and
// SEED where the generator starts. For each check the first request that fails it is printed. The last line is
// `N passed, M failed`; the exit status is 0 only if M is 0.
// Freestanding: of the C library only printf, memcpy and memcmp.
#include <stdio.h>
#include "../../reference/baseline.h"

void *memcpy(void *, const void *, size_t);
int memcmp(const void *, const void *, size_t);

enum { PHASES, WEIGHTS, PANEL_PHASES, PANEL_WEIGHTS, FUNCTIONS };
static const struct { const char *name; int panels, weights; } functions[FUNCTIONS] = {
    [PHASES] = {"phases", 0, 0},
    [WEIGHTS] = {"weights", 0, 1},
    [PANEL_PHASES] = {"panel_phases", 1, 0},
    [PANEL_WEIGHTS] = {"panel_weights", 1, 1},
};

// No outcome is to be rarer than one request in RAREST.
enum { REFUSALS = 13, RAREST = 200, TURN = 384 };
static const uint32_t SQUARED = 16384 * 16384, POWER_LIMIT = 32768;
// A buffer and a list of offsets have at most MOST numbers, and a mask at most so many bytes.
enum { WIDTH = sizeof(uint16_t), MOST = 600, GUARD = 32, PLACES = 64, ROOM = PLACES + GUARD + WIDTH * MOST + GUARD + 8 };

// Whether a refusal is one of the codebook's.
static int known(int function, uint32_t refusal) {
    return refusal <= REFUSALS && (refusal != ASPENFLICK_I14_RANGE || functions[function].panels);
}

// The generator is splitmix64.
static uint64_t state;

static uint64_t draw(void) {
    uint64_t z = state += 0x9e3779b97f4a7c15;
    z = (z ^ z >> 30) * 0xbf58476d1ce4e5b9;
    z = (z ^ z >> 27) * 0x94d049bb133111eb;
    return z ^ z >> 31;
}

static uint32_t below(uint32_t bound) { return (uint32_t)((draw() >> 32) * bound >> 32); }

// What is asked in one call, but for the bits of the beam mask and the offsets. The lengths of the offsets and of the buffer
// count 16-bit numbers. For the single panel Ng is 1 and the first number of i2 alone is given.
typedef struct {
    aspenflick_panel_report report;
    uint8_t ranks;
    size_t mask_len, offsets_len, out_len;
} request;

// Those of the single panel, and then those of several.
static const struct { uint8_t ng, n1, n2; } settings[] = {
    {1, 1, 1}, {1, 2, 1}, {1, 2, 2}, {1, 4, 1}, {1, 3, 2}, {1, 6, 1}, {1, 4, 2}, {1, 8, 1}, {1, 4, 3}, {1, 6, 2},
    {1, 12, 1}, {1, 4, 4}, {1, 8, 2}, {1, 16, 1},
    {2, 2, 1}, {2, 4, 1}, {4, 2, 1}, {2, 2, 2}, {2, 8, 1}, {4, 4, 1}, {2, 4, 2}, {4, 2, 2},
};
enum { SETTINGS = sizeof settings / sizeof settings[0], SINGLE_SETTINGS = 14 };

// The usual number but for nine chances: one at the bound, one that 8 or 16 bits would cut down to the usual one, or any.
static uint32_t vary(uint32_t usual, uint32_t bound, uint32_t chances) {
    switch (below(chances)) {
    case 0: return bound - 1;
    case 1: return bound;
    case 2: return bound + 1;
    case 3: return usual + 1;
    case 4: return usual - 1;
    case 5: return below(2 * bound + 2);
    case 6: return usual + ((1 + below(255)) << 8);
    case 7: return usual + ((1 + below(65535)) << 16);
    case 8: return (uint32_t)draw();
    default: return usual;
    }
}

// The length needed but for eight chances: one that is nearly so, one that 8 bits would cut down to it, none, or any.
static size_t vary_length(uint32_t needed, uint32_t chances) {
    switch (below(chances)) {
    case 0: return needed - 1;
    case 1: return needed + 1;
    case 2: return needed > 1 ? needed - 2 : 0;
    case 3: return needed + 2;
    case 4: return needed + 256 <= MOST ? needed + 256 : needed;
    case 5: return 0;
    case 6:
    case 7: return below(MOST + 1);
    default: return needed;
    }
}

// A request. The ranges from which its indices are drawn are not exact: whether it has to be refused is not known here.
// Most have no fault or one, so that many are accepted; some have many, so that the order of the refusals is seen.
static request any_request(int function) {
    int panels = functions[function].panels;
    uint32_t setting = panels ? SINGLE_SETTINGS + below(SETTINGS - SINGLE_SETTINGS) : below(SINGLE_SETTINGS);
    uint32_t ng = settings[setting].ng, n1 = settings[setting].n1, n2 = settings[setting].n2, ports = 2 * ng * n1 * n2;
    uint32_t mode = ng == 4 ? 1 : 1 + below(2), most_v = panels ? 4 : ports < 8 ? ports : 8, v = 1 + below(most_v);
    uint32_t i11_bound = ports > 2 ? 4 * n1 >> below(2) : 1, i12_bound = n2 > 1 ? 4 * n2 >> below(2) : 1;
    uint32_t i13_bound = ports > 2 && v >= 2 && v <= 4 ? 1 + below(4) : 1;
    uint32_t i2_bound = (v == 1 ? 4 : 2) * (!panels && ports > 2 && mode == 2 && v <= 2 ? 4 : 1);
    uint32_t chances = below(16) ? 192 : 32;
    request q = {.report = {.ng = 1}, .ranks = 255};
    q.report.n1 = vary(n1, panels ? 9 : 17, chances);
    q.report.n2 = vary(n2, panels ? 3 : n1 + 1, chances);
    q.report.mode = vary(mode, 3, chances);
    q.report.v = vary(v, most_v + 1, chances);
    q.report.i11 = vary(below(i11_bound), i11_bound, chances);
    q.report.i12 = vary(below(i12_bound), i12_bound, chances);
    q.report.i13 = vary(below(i13_bound), i13_bound, chances);
    q.report.i2[0] = vary(below(i2_bound), i2_bound, chances);
    if (panels) {
        uint32_t i14_used = ng == 4 ? 3 : mode, others = mode == 2 ? 2 : 1;
        q.report.ng = vary(ng, 5, chances);
        for (uint32_t k = 0; k < 3; k++) {
            uint32_t i14_bound = k < i14_used ? 4 : 1;
            q.report.i14[k] = vary(below(i14_bound), i14_bound, chances);
            if (k > 0) q.report.i2[k] = vary(below(others), others, chances);
        }
    }
    switch (below(16)) {
    case 0: q.ranks = (uint8_t)draw(); break;
    case 1: q.ranks = (uint8_t)(draw() | draw() | draw()); break;
    case 2: q.ranks = (uint8_t)(1 << (v - 1)); break;
    case 3: q.ranks = below(8) ? 255 : (uint8_t)~(1 << (v - 1)); break;
    }
    uint32_t mask_bits = ports > 2 ? 4 * n1 * (n2 > 1 ? 4 * n2 : 1) : 8;
    q.mask_len = vary_length(mask_bits / 8, chances);
    q.offsets_len = vary_length(ports, 128);
    q.out_len = vary_length(v * ports * (functions[function].weights ? 2 : 1), 32);
    return q;
}

// Bytes that are lent, between two guards, at any address that their numbers may have.
typedef struct { _Alignas(PLACES) uint8_t room[ROOM]; } loan;

// Where loans of one call start in their rooms, and how many bytes they have between the guards.
typedef struct { size_t start, len; } extent;

static uint8_t *inner(loan *l, extent e) { return l->room + e.start + GUARD; }
static size_t whole(extent e) { return GUARD + e.len + GUARD; }
static void copy(loan *to, const loan *from, extent e) { memcpy(to->room + e.start, from->room + e.start, whole(e)); }

static int same_guards(const loan *a, const loan *b, extent e) {
    const uint8_t *x = a->room + e.start, *y = b->room + e.start;
    return !memcmp(x, y, GUARD) && !memcmp(x + GUARD + e.len, y + GUARD + e.len, GUARD);
}

// Fills a loan with random bytes. Guards hold nothing that a function answers, so that no number written there goes unseen:
// the upper byte of a phase is at most 1, and that of a weight at most 64 or at least 192.
static void fill(loan *l, extent e) {
    uint8_t *at = l->room + e.start;
    for (size_t i = 0; i < whole(e); i += sizeof(uint64_t)) {
        uint64_t word = draw();
        memcpy(at + i, &word, sizeof word);
    }
    for (size_t i = 0; i < GUARD; i++) {
        uint8_t *before = at + i, *behind = at + GUARD + e.len + i;
        *before = (uint8_t)(*before % 64 + 96);
        *behind = (uint8_t)(*behind % 64 + 96);
    }
}

// Mostly all bits are ones, or nearly all; the rest is as drawn.
static void make_mask(uint8_t *bits, size_t len) {
    uint32_t kind = below(8), zeros = 1 + below(3);
    for (size_t i = 0; i < len; i++) {
        if (kind > 1) bits[i] = 255;
        if (kind == 1) bits[i] = (uint8_t)(bits[i] | draw() | draw() >> 8);
    }
    if (len && (kind == 2 || kind == 3)) {
        for (uint32_t k = 0; k < zeros; k++) bits[below((uint32_t)len)] &= (uint8_t)~(1 << below(8));
    }
}

// Mostly any phases, or all the least or all the greatest; in some lists one is a turn or more, at either end or anywhere.
static void make_offsets(uint16_t *offsets, size_t len) {
    static const uint16_t above[] = {TURN, TURN, TURN, TURN + 1, TURN + 256, 2 * TURN, 32768, 65535 - TURN, 65535, 65535};
    uint32_t kind = below(8);
    for (size_t i = 0; i < len; i++) offsets[i] = (uint16_t)(kind == 0 ? 0 : kind == 1 ? TURN - 1 : (int)below(TURN));
    if (len && below(8) == 0) {
        const size_t places[] = {0, len - 1, below((uint32_t)len)};
        uint16_t any = (uint16_t)(TURN + below(65536 - TURN));
        offsets[places[below(3)]] = below(4) ? above[below(sizeof above / sizeof *above)] : any;
    }
}

// The checks, each counted for itself.
enum {
    KNOWN, ZEROS, NO_BEAM, AS_LENT, RECORD, BEAMS_BEHIND, IN_RANGE, NOT_BARRED, LEGAL, BEHIND, REPEATED, OUT_GUARDS,
    MASK_GUARDS, MASK_AS_LENT, OFFSETS_GUARDS, OFFSETS_AS_LENT, BASELINE_RECORD, BASELINE_OUT, CHECKS
};
static const char *const check_names[CHECKS] = {
    [KNOWN] = "the refusal is 0 or one of the codebook's",
    [ZEROS] = "refused: ports, layers and scale are 0",
    [NO_BEAM] = "refused: every beam is (0,0)",
    [AS_LENT] = "refused: the buffer is as lent",
    [RECORD] = "accepted: the record is 0, P, v, v*P",
    [BEAMS_BEHIND] = "accepted: behind the layers' beams all are (0,0)",
    [IN_RANGE] = "accepted: the beam of every layer is one of the setting",
    [NOT_BARRED] = "accepted: the bit of every layer's beam is one",
    [LEGAL] = "accepted: every entry is a phase, or a weight of due power",
    [BEHIND] = "accepted: what is behind the answer is as lent",
    [REPEATED] = "another fill changes nothing in record and answer",
    [OUT_GUARDS] = "the buffer's guards stand",
    [MASK_GUARDS] = "the mask's guards stand",
    [MASK_AS_LENT] = "the mask is as lent",
    [OFFSETS_GUARDS] = "the offsets' guards stand",
    [OFFSETS_AS_LENT] = "the offsets are as lent",
    [BASELINE_RECORD] = "the record is that of the version by hand",
    [BASELINE_OUT] = "the buffer is that of the version by hand",
};

// Faults, seeded into some calls, each with the check that has to see it and the functions it is for.
enum { OF_PHASES = 1 << PHASES, OF_WEIGHTS = 1 << WEIGHTS, SINGLE = OF_PHASES | OF_WEIGHTS };
enum { OF_PANEL_PHASES = 1 << PANEL_PHASES, OF_PANEL_WEIGHTS = 1 << PANEL_WEIGHTS };
enum { SEVERAL = OF_PANEL_PHASES | OF_PANEL_WEIGHTS, BOTH_PHASES = OF_PHASES | OF_PANEL_PHASES, ALL = SINGLE | SEVERAL };
enum {
    NONE, UNKNOWN_REFUSAL, PORTS_ON_REFUSAL, BEAM_ON_REFUSAL, BYTE_ON_REFUSAL, WRONG_SCALE, BEAM_TOO_MANY, NOT_REDUCED,
    NEXT_BEAM, NO_ENTRY, PAST_ANSWER, NOT_WRITTEN, BEFORE_OUT, BEHIND_OUT, BEFORE_MASK, BEHIND_MASK, MASK_BYTE,
    BEFORE_OFFSETS, BEHIND_OFFSETS, OFFSETS_BYTE, OTHER_ORDER, LEFT_OUT, FIRST_BEAM, OTHER_ENTRY, MIDDLE_ALONE, NOT_DOUBLED,
    OTHER_PANEL_ORDER, OTHER_PANEL, OFFSETS_FIRST, OFFSETS_LAST, LONGER_LIST, TURN_TAKEN, WRAPPED, NO_OFFSET, BY_LAYER,
    BY_PANEL, SUM_NOT_REDUCED, FAULTS
};
static const struct { const char *name; int seen_by, of; } faults[FAULTS] = {
    [UNKNOWN_REFUSAL] = {"a refusal that the codebook has not for 11", KNOWN, ALL},
    [PORTS_ON_REFUSAL] = {"ports given on a refusal", ZEROS, ALL},
    [BEAM_ON_REFUSAL] = {"the first layer's beam left on a refusal", NO_BEAM, ALL},
    [BYTE_ON_REFUSAL] = {"a byte of the buffer changed on a refusal", AS_LENT, ALL},
    [WRONG_SCALE] = {"the scale less by P", RECORD, ALL},
    [BEAM_TOO_MANY] = {"the first layer's beam again behind the last", BEAMS_BEHIND, ALL},
    [NOT_REDUCED] = {"a beam's l not reduced", IN_RANGE, ALL},
    [NEXT_BEAM] = {"a beam's l more by one", NOT_BARRED, ALL},
    [NO_ENTRY] = {"an entry with all bits ones", LEGAL, ALL},
    [PAST_ANSWER] = {"the byte behind the answer changed", BEHIND, ALL},
    [NOT_WRITTEN] = {"an entry not written", REPEATED, ALL},
    [BEFORE_OUT] = {"the byte before the buffer changed", OUT_GUARDS, ALL},
    [BEHIND_OUT] = {"the byte behind the buffer changed", OUT_GUARDS, ALL},
    [BEFORE_MASK] = {"the byte before the mask changed", MASK_GUARDS, ALL},
    [BEHIND_MASK] = {"the byte behind the mask changed", MASK_GUARDS, ALL},
    [MASK_BYTE] = {"a byte of the mask changed", MASK_AS_LENT, ALL},
    [BEFORE_OFFSETS] = {"the byte before the offsets changed", OFFSETS_GUARDS, ALL},
    [BEHIND_OFFSETS] = {"the byte behind the offsets changed", OFFSETS_GUARDS, ALL},
    [OFFSETS_BYTE] = {"a byte of the offsets changed", OFFSETS_AS_LENT, ALL},
    [OTHER_ORDER] = {"11 before 10", BASELINE_RECORD, ALL},
    [LEFT_OUT] = {"the second layer's beam left out", BASELINE_RECORD, ALL},
    [FIRST_BEAM] = {"the first layer's beam for the second", BASELINE_RECORD, ALL},
    [OTHER_ENTRY] = {"the first entry in place of another", BASELINE_OUT, ALL},
    [MIDDLE_ALONE] = {"of a half-length beam the middle bit alone", BASELINE_RECORD, SINGLE},
    [NOT_DOUBLED] = {"i11 for 2*i11 of a half-length beam", BASELINE_RECORD, SINGLE},
    [OTHER_PANEL_ORDER] = {"9 before 12", BASELINE_RECORD, SEVERAL},
    [OTHER_PANEL] = {"the first panel in place of the last", BASELINE_OUT, SEVERAL},
    [OFFSETS_FIRST] = {"13 before 10", BASELINE_RECORD, ALL},
    [OFFSETS_LAST] = {"11 before 13", BASELINE_RECORD, ALL},
    [LONGER_LIST] = {"a longer list of offsets accepted", BASELINE_RECORD, ALL},
    [TURN_TAKEN] = {"a whole turn accepted as an offset", BASELINE_RECORD, ALL},
    [WRAPPED] = {"an offset that wraps at 65536 accepted", BASELINE_RECORD, ALL},
    [NO_OFFSET] = {"the offset of a port left out", BASELINE_OUT, ALL},
    [BY_LAYER] = {"the offset by layer instead of by port", BASELINE_OUT, ALL},
    [BY_PANEL] = {"the first panel's offsets for every panel", BASELINE_OUT, SEVERAL},
    [SUM_NOT_REDUCED] = {"a sum with an offset not reduced", LEGAL, BOTH_PHASES},
};
enum { FAULTY = 20000 };

static int is_for(int fault, int function) { return fault == NONE || faults[fault].of >> function & 1; }

static loan mask, mask_lent, offsets, offsets_lent, out, out_lent, out_again, out_again_lent, out_baseline;
static unsigned long long outcomes[FUNCTIONS][REFUSALS + 1], failures[FUNCTIONS][CHECKS];

static uint32_t ports_of(const request *q) { return 2 * q->report.ng * q->report.n1 * q->report.n2; }

// How many l and how many m the beams of a setting have; two ports have (0,0) alone.
static uint32_t across(const request *q) { return q->report.n1 > 1 ? 4 * q->report.n1 : 1; }
static uint32_t down(const request *q) { return q->report.n2 > 1 ? 4 * q->report.n2 : 1; }

// A call of the library, or of the version by hand.
#define CALLED(function, report, number) \
    function(report, bits, q->mask_len, q->ranks, turns, q->offsets_len, (number *)(void *)bytes, q->out_len)
#define CALL(name, prefix)                                                                                           \
    static aspenflick_record name(int function, const request *q, const uint8_t *bits, const uint16_t *turns,        \
                                  uint8_t *bytes) {                                                                  \
        const aspenflick_panel_report r = q->report;                                                                 \
        const aspenflick_report single = {r.n1, r.n2, r.mode, r.v, r.i11, r.i12, r.i13, r.i2[0]};                    \
        switch (function) {                                                                                          \
        case PHASES: return CALLED(prefix##_phases, single, uint16_t);                                               \
        case WEIGHTS: return CALLED(prefix##_weights, single, int16_t);                                              \
        case PANEL_PHASES: return CALLED(prefix##_panel_phases, r, uint16_t);                                        \
        default: return CALLED(prefix##_panel_weights, r, int16_t);                                                  \
        }                                                                                                            \
    }
CALL(call, aspenflick)
CALL(call_baseline, baseline)

// Whether a beam is not barred. Two ports have bits for i2 and none for beams.
static int is_one(const request *q, const uint8_t *bits, aspenflick_beam b) {
    uint32_t k = b.l * down(q) + b.m;
    return ports_of(q) == 2 || (k / 8 < q->mask_len && bits[k / 8] >> k % 8 & 1);
}

// Of a single-panel report.
static int half_length(const request *q) { return ports_of(q) >= 16 && (q->report.v == 3 || q->report.v == 4); }
static aspenflick_beam half_length_beam(const request *q) { return (aspenflick_beam){2 * q->report.i11, q->report.i12}; }

static int offsets_fit(const request *q, const uint16_t *turns) {
    int fit = q->offsets_len == ports_of(q);
    for (size_t i = 0; i < q->offsets_len; i++) fit &= turns[i] < TURN;
    return fit;
}

// Answers again, with the offsets as a library with that fault would take them.
static aspenflick_record answer_again(int fault, uint32_t choice, int function, const request *q, const uint8_t *bits,
                                      const uint16_t *turns, uint8_t *bytes) {
    static uint16_t other[MOST];
    uint32_t ports = ports_of(q);
    request taken = *q;
    memcpy(other, turns, q->offsets_len * sizeof *other);
    if (fault == LONGER_LIST && q->offsets_len > ports) taken.offsets_len = ports;
    if (fault == NO_OFFSET) other[choice % ports] = 0;
    for (size_t i = 0; i < q->offsets_len; i++) {
        if (fault == TURN_TAKEN && other[i] == TURN) other[i] = 0;
        if (fault == WRAPPED && other[i] >= 65536 - TURN) other[i] = (uint16_t)(other[i] + TURN);
        if (fault == BY_PANEL) other[i] = turns[i % (ports / q->report.ng)];
    }
    return call_baseline(function, &taken, bits, other, bytes);
}

// Of an accepted report: gives every port of a layer the offset of the port with that layer's number.
static void answer_by_layer(int function, const request *q, const uint8_t *bits, const uint16_t *turns, uint8_t *bytes) {
    static uint16_t same[MOST], whole_answer[MOST];
    uint32_t ports = ports_of(q);
    size_t layer = (functions[function].weights ? 2 : 1) * ports;
    for (size_t j = 0; j < q->report.v; j++) {
        for (size_t i = 0; i < ports; i++) same[i] = turns[j];
        call_baseline(function, q, bits, same, (uint8_t *)whole_answer);
        memcpy(bytes + WIDTH * layer * j, whole_answer + layer * j, WIDTH * layer);
    }
}

// Of accepted phases: adds the turn again that was taken off with the offset.
static void undo_reduction(const request *q, const uint16_t *turns, uint8_t *bytes, size_t entries) {
    uint16_t *phases = (uint16_t *)(void *)bytes;
    for (size_t i = 0; i < entries; i++) {
        if (phases[i] < turns[i % ports_of(q)]) phases[i] = (uint16_t)(phases[i] + TURN);
    }
}

// Spoils what a call has given, as a library with that fault would: twice alike. `choice` picks the byte, the entry, the
// layer or the port.
static aspenflick_record spoil(int fault, uint32_t choice, int function, const request *q, uint8_t *bits, uint8_t *turns,
                               uint8_t *bytes, const uint8_t *bytes_lent, aspenflick_record record) {
    size_t entry = WIDTH * (functions[function].weights ? 2 : 1), scale = record.scale;
    size_t len = WIDTH * q->out_len, turns_len = WIDTH * q->offsets_len, mask_len = q->mask_len;
    const uint8_t *bits_lent = mask_lent.room + (bits - mask.room);
    const uint8_t *turns_lent = offsets_lent.room + (turns - offsets.room);
    const uint16_t *numbers = (const uint16_t *)(const void *)turns_lent;
    if (record.refusal) {
        size_t needed = entry * ports_of(q) * q->report.v;
        int bad_i2 = q->report.i2[0] > 3 || q->report.i2[1] > 1 || q->report.i2[2] > 1;
        uint32_t unknown = functions[function].panels ? REFUSALS + 1 : 12;
        if (fault == UNKNOWN_REFUSAL && record.refusal == 11) record.refusal = unknown;
        if (fault == PORTS_ON_REFUSAL) record.ports = 4;
        if (fault == BEAM_ON_REFUSAL) record.beams[0] = (aspenflick_beam){q->report.i11, q->report.i12};
        if (fault == BYTE_ON_REFUSAL && len) bytes[choice % len] ^= 1;
        if (fault == OTHER_ORDER && record.refusal == 10 && len < needed) record.refusal = 11;
        if (fault == OTHER_PANEL_ORDER && record.refusal == 12 && bad_i2) record.refusal = 9;
        if (fault == OFFSETS_FIRST && record.refusal == 10 && !offsets_fit(q, numbers)) record.refusal = 13;
        if (fault == OFFSETS_LAST && record.refusal == 13 && len < needed) record.refusal = 11;
        if ((fault == LONGER_LIST || fault == TURN_TAKEN || fault == WRAPPED) && record.refusal == 13) {
            record = answer_again(fault, choice, function, q, bits_lent, numbers, bytes);
        }
        if (fault == MIDDLE_ALONE && record.refusal == 10 && half_length(q) && is_one(q, bits, half_length_beam(q))) {
            static const uint8_t ones[] = {
                255, 255, 255, 255, 255, 255, 255, 255, 255, 255, 255, 255, 255, 255, 255, 255,
                255, 255, 255, 255, 255, 255, 255, 255, 255, 255, 255, 255, 255, 255, 255, 255,
            };
            record = call_baseline(function, q, ones, numbers, bytes);
        }
    } else {
        uint8_t *some = bytes + choice % scale * entry;
        aspenflick_beam *beams = record.beams, *one = beams + choice % record.layers;
        if (fault == WRONG_SCALE) record.scale -= record.ports;
        if (fault == BEAM_TOO_MANY && record.layers < ASPENFLICK_MOST_LAYERS) beams[record.layers] = beams[0];
        if (fault == NOT_REDUCED && one->l < q->report.i11) one->l += across(q);
        if (fault == NEXT_BEAM) one->l = (one->l + 1) % across(q);
        if (fault == LEFT_OUT) beams[1] = (aspenflick_beam){0, 0};
        if (fault == FIRST_BEAM && record.layers > 1) beams[1] = beams[0];
        if (fault == NOT_DOUBLED && half_length(q)) one->l = q->report.i11;
        if (fault == NO_ENTRY) for (size_t i = 0; i < entry; i++) some[i] = 255;
        if (fault == PAST_ANSWER && scale * entry < len) bytes[scale * entry] ^= 1;
        if (fault == NOT_WRITTEN) memcpy(some, bytes_lent + (some - bytes), entry);
        if (fault == OTHER_ENTRY) memcpy(some, bytes, entry);
        if (fault == OTHER_PANEL) {
            size_t panel = entry * record.ports / q->report.ng;
            memcpy(bytes + panel * (q->report.ng - 1), bytes, panel);
        }
        if (fault == NO_OFFSET || fault == BY_PANEL) answer_again(fault, choice, function, q, bits_lent, numbers, bytes);
        if (fault == BY_LAYER) answer_by_layer(function, q, bits_lent, numbers, bytes);
        if (fault == SUM_NOT_REDUCED) undo_reduction(q, numbers, bytes, scale);
    }
    if (fault == BEFORE_OUT) bytes[-1] ^= 1;
    if (fault == BEHIND_OUT) bytes[len] ^= 1;
    if (fault == BEFORE_MASK) bits[-1] = bits_lent[-1] ^ 1;
    if (fault == BEHIND_MASK) bits[mask_len] = bits_lent[mask_len] ^ 1;
    if (fault == MASK_BYTE && mask_len) bits[choice % mask_len] = bits_lent[choice % mask_len] ^ 1;
    if (fault == BEFORE_OFFSETS) turns[-1] = turns_lent[-1] ^ 1;
    if (fault == BEHIND_OFFSETS) turns[turns_len] = turns_lent[turns_len] ^ 1;
    if (fault == OFFSETS_BYTE && turns_len) turns[choice % turns_len] = turns_lent[choice % turns_len] ^ 1;
    return record;
}

static int same_record(const aspenflick_record *a, const aspenflick_record *b) { return !memcmp(a, b, sizeof *a); }

// Whether all beams from a place on are (0,0).
static int none_from(const aspenflick_record *record, size_t place) {
    uint32_t any = 0;
    for (size_t j = place; j < ASPENFLICK_MOST_LAYERS; j++) any |= record->beams[j].l | record->beams[j].m;
    return !any;
}

// The layers asked for, as far as a record has places.
static size_t named_layers(const request *q) {
    return q->report.v < ASPENFLICK_MOST_LAYERS ? q->report.v : ASPENFLICK_MOST_LAYERS;
}

static int all_in_range(const request *q, const aspenflick_record *record) {
    int good = 1;
    for (size_t j = 0; j < named_layers(q); j++) good &= record->beams[j].l < across(q) && record->beams[j].m < down(q);
    return good;
}

static int all_ones(const request *q, const uint8_t *bits, const aspenflick_record *record) {
    int good = 1;
    for (size_t j = 0; j < named_layers(q); j++) good &= is_one(q, bits, record->beams[j]);
    return good;
}

// Whether every entry of an answer of so many bytes is a phase, or a weight whose power is near the square of 16384.
static int legal(int function, const uint8_t *bytes, size_t len) {
    int good = 1;
    if (!functions[function].weights) {
        const uint16_t *phases = (const uint16_t *)(const void *)bytes;
        for (size_t i = 0; i < len / WIDTH; i++) good &= phases[i] < TURN;
        return good;
    }
    const int16_t *weights = (const int16_t *)(const void *)bytes;
    for (size_t i = 0; i < len / WIDTH; i += 2) {
        int16_t x = weights[i], y = weights[i + 1];
        uint32_t power = (uint32_t)(x * x) + (uint32_t)(y * y);
        good &= SQUARED - POWER_LIMIT <= power && power <= SQUARED + POWER_LIMIT;
    }
    return good;
}

static void print_record(const aspenflick_record *record) {
    printf(" %u %u %u %u", record->refusal, record->ports, record->layers, record->scale);
    for (size_t j = 0; j < ASPENFLICK_MOST_LAYERS; j++) printf(" (%u,%u)", record->beams[j].l, record->beams[j].m);
}

// One request: two calls and one of the version by hand. The fault is seeded into a quarter of them; then failures
// are counted, but not printed.
static void ask(int function, uint64_t number, int fault) {
    request q = any_request(function);
    extent m = {below(PLACES), q.mask_len};
    extent f = {WIDTH * below(PLACES / WIDTH), WIDTH * q.offsets_len};
    extent o = {WIDTH * below(PLACES / WIDTH), WIDTH * q.out_len};
    fill(&mask_lent, m);
    make_mask(inner(&mask_lent, m), m.len);
    copy(&mask, &mask_lent, m);
    fill(&offsets_lent, f);
    make_offsets((uint16_t *)(void *)inner(&offsets_lent, f), q.offsets_len);
    copy(&offsets, &offsets_lent, f);
    fill(&out_lent, o);
    copy(&out, &out_lent, o);
    copy(&out_baseline, &out_lent, o);
    // No byte of the other fill is as in the first one.
    copy(&out_again_lent, &out_lent, o);
    for (size_t i = 0; i < o.len; i++) inner(&out_again_lent, o)[i] ^= 255;
    copy(&out_again, &out_again_lent, o);

    uint8_t *bits = inner(&mask, m), *turns = inner(&offsets, f);
    uint8_t *bytes = inner(&out, o), *bytes_again = inner(&out_again, o);
    const uint8_t *bits_lent = inner(&mask_lent, m), *turns_lent = inner(&offsets_lent, f);
    const uint8_t *bytes_lent = inner(&out_lent, o), *bytes_again_lent = inner(&out_again_lent, o);
    const uint16_t *numbers = (const uint16_t *)(void *)turns, *numbers_lent = (const uint16_t *)(const void *)turns_lent;
    aspenflick_record record = call(function, &q, bits, numbers, bytes);
    aspenflick_record again = call(function, &q, bits, numbers, bytes_again);
    aspenflick_record baseline = call_baseline(function, &q, bits_lent, numbers_lent, inner(&out_baseline, o));
    if (fault && below(4) == 0) {
        uint32_t choice = (uint32_t)draw();
        record = spoil(fault, choice, function, &q, bits, turns, bytes, bytes_lent, record);
        again = spoil(fault, choice, function, &q, bits, turns, bytes_again, bytes_again_lent, again);
    }

    uint32_t ports = ports_of(&q), scale = q.report.v * ports;
    int refused = record.refusal != 0;
    // Of an answer that is longer than the buffer no more can be looked at.
    size_t answer = refused ? 0 : WIDTH * (functions[function].weights ? 2 : 1) * (size_t)scale;
    if (answer > o.len) answer = o.len;
    size_t rest = o.len - answer;
    const int holds[CHECKS] = {
        [KNOWN] = known(function, record.refusal),
        [ZEROS] = !refused || !(record.ports | record.layers | record.scale),
        [NO_BEAM] = !refused || none_from(&record, 0),
        [AS_LENT] = !refused || !memcmp(bytes, bytes_lent, o.len),
        [RECORD] = refused || (record.ports == ports && record.layers == q.report.v && record.scale == scale),
        [BEAMS_BEHIND] = refused || none_from(&record, q.report.v),
        [IN_RANGE] = refused || all_in_range(&q, &record),
        [NOT_BARRED] = refused || all_ones(&q, bits_lent, &record),
        [LEGAL] = refused || legal(function, bytes, answer),
        [BEHIND] = refused || !memcmp(bytes + answer, bytes_lent + answer, rest),
        [REPEATED] = same_record(&record, &again) && !memcmp(bytes, bytes_again, answer) &&
                     !memcmp(bytes_again + answer, bytes_again_lent + answer, rest),
        [OUT_GUARDS] = same_guards(&out, &out_lent, o) && same_guards(&out_again, &out_lent, o),
        [MASK_GUARDS] = same_guards(&mask, &mask_lent, m),
        [MASK_AS_LENT] = !memcmp(bits, bits_lent, m.len),
        [OFFSETS_GUARDS] = same_guards(&offsets, &offsets_lent, f),
        [OFFSETS_AS_LENT] = !memcmp(turns, turns_lent, f.len),
        [BASELINE_RECORD] = same_record(&record, &baseline),
        [BASELINE_OUT] = !memcmp(bytes, inner(&out_baseline, o), o.len),
    };
    if (record.refusal <= REFUSALS) outcomes[function][record.refusal]++;
    for (int check = 0; check < CHECKS; check++) {
        if (holds[check] || failures[function][check]++ || fault) continue;
        const aspenflick_panel_report r = q.report;
        printf("%s: request %llu fails `%s`: Ng=%u N1=%u N2=%u mode=%u v=%u i11=%u i12=%u i13=%u i14=%u,%u,%u "
               "i2=%u,%u,%u ranks=%u, %zu bytes of mask, room for %zu, %zu offsets",
               functions[function].name, (unsigned long long)number, check_names[check], r.ng, r.n1, r.n2, r.mode, r.v,
               r.i11, r.i12, r.i13, r.i14[0], r.i14[1], r.i14[2], r.i2[0], r.i2[1], r.i2[2], q.ranks, q.mask_len,
               q.out_len, q.offsets_len);
        for (size_t i = 0; i < q.offsets_len && i < ASPENFLICK_MOST_PORTS; i++) printf(" %u", numbers_lent[i]);
        printf(":");
        print_record(&record);
        printf(", the version by hand");
        print_record(&baseline);
        printf("\n");
    }
}

// Of several panels, whose calls take longer, half as many.
static uint64_t requests(int function, uint64_t count) { return function < PANEL_PHASES ? count : count / 2; }

static void run(uint64_t count, int fault) {
    for (int function = 0; function < FUNCTIONS; function++) {
        if (!is_for(fault, function)) continue;
        for (int k = 0; k <= REFUSALS; k++) outcomes[function][k] = 0;
        for (int k = 0; k < CHECKS; k++) failures[function][k] = 0;
        for (uint64_t number = 0; number < requests(function, count); number++) ask(function, number, fault);
    }
}

static uint32_t passed, failed;

// Counts a test, and gives what is printed of it.
static const char *test(int holds) {
    if (holds) passed++;
    else failed++;
    return holds ? "" : " FAILED";
}

static uint64_t decimal(const char *text) {
    uint64_t x = 0;
    for (; *text >= '0' && *text <= '9'; text++) x = 10 * x + (uint64_t)(*text - '0');
    return x;
}

int main(int arguments, char **argument) {
    if (arguments != 3) {
        printf("usage: random COUNT SEED\n");
        return 2;
    }
    uint64_t count = decimal(argument[1]);
    state = decimal(argument[2]);
    run(count, NONE);
    for (int function = 0; function < FUNCTIONS; function++) {
        unsigned long long *times = outcomes[function], *broken = failures[function], asked = requests(function, count);
        const char *name = functions[function].name;
        printf("%s: %llu requests, accepted %llu%s, by refusal", name, asked, times[0], test(times[0] * RAREST > asked));
        for (uint32_t k = 1; k <= REFUSALS; k++) {
            if (!known(function, k)) continue;
            printf("%s %u: %llu%s", k > 1 ? "," : "", k, times[k], test(times[k] * RAREST > asked));
        }
        printf("\n");
        for (int k = 0; k < CHECKS; k++) {
            printf("%s: %s: all but %llu%s\n", name, check_names[k], broken[k], test(asked && !broken[k]));
        }
    }
    for (int fault = NONE + 1; fault < FAULTS; fault++) {
        int check = faults[fault].seen_by;
        const char *comma = "";
        run(FAULTY, fault);
        printf("seeded: %s: `%s` fails", faults[fault].name, check_names[check]);
        for (int function = 0; function < FUNCTIONS; function++) {
            if (!is_for(fault, function)) continue;
            unsigned long long times = failures[function][check];
            printf("%s %llu times for %s%s", comma, times, functions[function].name, test(times > 0));
            comma = ",";
        }
        printf("\n");
    }
    printf("%u passed, %u failed\n", passed, failed);
    return failed != 0;
}
