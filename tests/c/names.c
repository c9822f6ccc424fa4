// Holds what the header names against what the functions answer: the version, the sizes, the mask bytes, the refusals, and
// the kinds and faults of a step of a log.
//
// The last line is `N passed, M failed`; the exit status is 0 only if M is 0.
// Freestanding: of the C library only printf.
#include <stdio.h>
#include "aspenflick.h"

static int passed, failed;

static void check(int holds, const char *what) {
    if (holds) passed++;
    else {
        failed++;
        printf("FAIL %s\n", what);
    }
}

static uint8_t mask[ASPENFLICK_MOST_MASK_BYTES + 1];
static uint16_t offsets[ASPENFLICK_MOST_PORTS + 1], phases[ASPENFLICK_MOST_PHASES + 1];
static int16_t weights[ASPENFLICK_MOST_WEIGHTS + 1];

// A turn, and the highest offset.
enum { TURN = 384, LAST = TURN - 1 };

// A report at (4,2) with three layers, where every number has a use, and one change of it for each refusal.
static const struct {
    const char *what;
    uint32_t name;
    aspenflick_report report;
    size_t bytes, offsets;
    uint16_t offset;  // the last of so many; the others are 0
    size_t room;
    uint8_t ranks;
} cases[] = {
    {"ACCEPTED", ASPENFLICK_ACCEPTED, {4, 2, 1, 3, 1, 1, 1, 1}, 16, 16, LAST, 48, 255},
    {"NO_SETTING", ASPENFLICK_NO_SETTING, {4, 5, 1, 3, 1, 1, 1, 1}, 16, 16, LAST, 48, 255},
    {"NO_MODE", ASPENFLICK_NO_MODE, {4, 2, 3, 3, 1, 1, 1, 1}, 16, 16, LAST, 48, 255},
    {"MASK_LENGTH", ASPENFLICK_MASK_LENGTH, {4, 2, 1, 3, 1, 1, 1, 1}, 17, 16, LAST, 48, 255},
    {"NO_RANK", ASPENFLICK_NO_RANK, {4, 2, 1, 9, 1, 1, 1, 1}, 16, 16, LAST, 48, 255},
    {"RANK_BARRED", ASPENFLICK_RANK_BARRED, {4, 2, 1, 3, 1, 1, 1, 1}, 16, 16, LAST, 48, 255 - 4},
    {"I11_RANGE", ASPENFLICK_I11_RANGE, {4, 2, 1, 3, 8, 1, 1, 1}, 16, 16, LAST, 48, 255},
    {"I12_RANGE", ASPENFLICK_I12_RANGE, {4, 2, 1, 3, 1, 8, 1, 1}, 16, 16, LAST, 48, 255},
    {"I13_RANGE", ASPENFLICK_I13_RANGE, {4, 2, 1, 3, 1, 1, 4, 1}, 16, 16, LAST, 48, 255},
    {"I2_RANGE", ASPENFLICK_I2_RANGE, {4, 2, 1, 3, 1, 1, 1, 2}, 16, 16, LAST, 48, 255},
    {"BEAM_BARRED", ASPENFLICK_BEAM_BARRED, {4, 2, 1, 3, 2, 1, 1, 1}, 16, 16, LAST, 48, 255},
    {"OFFSETS_UNFIT, one too few", ASPENFLICK_OFFSETS_UNFIT, {4, 2, 1, 3, 1, 1, 1, 1}, 16, 15, LAST, 47, 255},
    {"OFFSETS_UNFIT, one too many", ASPENFLICK_OFFSETS_UNFIT, {4, 2, 1, 3, 1, 1, 1, 1}, 16, 17, LAST, 48, 255},
    {"OFFSETS_UNFIT, a turn", ASPENFLICK_OFFSETS_UNFIT, {4, 2, 1, 3, 1, 1, 1, 1}, 16, 16, TURN, 48, 255},
    {"NO_ROOM", ASPENFLICK_NO_ROOM, {4, 2, 1, 3, 1, 1, 1, 1}, 16, 16, LAST, 47, 255},
};

// The same of two panels of (2,2) in mode 2, with two layers.
static const struct {
    const char *what;
    uint32_t name;
    aspenflick_panel_report report;
    size_t bytes, offsets;
    uint16_t offset;
    size_t room;
    uint8_t ranks;
} panel_cases[] = {
    {"ACCEPTED, panels", ASPENFLICK_ACCEPTED, {2, 2, 2, 2, 2, 1, 1, 1, {1, 1, 0}, {1, 1, 1}}, 8, 16, LAST, 32, 15},
    {"NO_SETTING, panels", ASPENFLICK_NO_SETTING, {1, 2, 2, 2, 2, 1, 1, 1, {1, 1, 0}, {1, 1, 1}}, 8, 16, LAST, 32, 15},
    {"NO_MODE, panels", ASPENFLICK_NO_MODE, {4, 2, 2, 2, 2, 1, 1, 1, {1, 1, 0}, {1, 1, 1}}, 8, 32, LAST, 64, 15},
    {"MASK_LENGTH, panels", ASPENFLICK_MASK_LENGTH, {2, 2, 2, 2, 2, 1, 1, 1, {1, 1, 0}, {1, 1, 1}}, 16, 16, LAST, 32, 15},
    {"NO_RANK, panels", ASPENFLICK_NO_RANK, {2, 2, 2, 2, 5, 1, 1, 1, {1, 1, 0}, {1, 1, 1}}, 8, 16, LAST, 80, 255},
    {"RANK_BARRED, panels", ASPENFLICK_RANK_BARRED, {2, 2, 2, 2, 2, 1, 1, 1, {1, 1, 0}, {1, 1, 1}}, 8, 16, LAST, 32, 15 - 2},
    {"I11_RANGE, panels", ASPENFLICK_I11_RANGE, {2, 2, 2, 2, 2, 8, 1, 1, {1, 1, 0}, {1, 1, 1}}, 8, 16, LAST, 32, 15},
    {"I12_RANGE, panels", ASPENFLICK_I12_RANGE, {2, 2, 2, 2, 2, 1, 8, 1, {1, 1, 0}, {1, 1, 1}}, 8, 16, LAST, 32, 15},
    {"I13_RANGE, panels", ASPENFLICK_I13_RANGE, {2, 2, 2, 2, 2, 1, 1, 4, {1, 1, 0}, {1, 1, 1}}, 8, 16, LAST, 32, 15},
    {"I14_RANGE", ASPENFLICK_I14_RANGE, {2, 2, 2, 2, 2, 1, 1, 1, {1, 1, 1}, {1, 1, 2}}, 8, 16, LAST, 32, 15},
    {"I2_RANGE, panels", ASPENFLICK_I2_RANGE, {2, 2, 2, 2, 2, 1, 1, 1, {1, 1, 0}, {1, 1, 2}}, 8, 16, LAST, 32, 15},
    {"BEAM_BARRED, panels", ASPENFLICK_BEAM_BARRED, {2, 2, 2, 2, 2, 4, 1, 0, {1, 1, 0}, {1, 1, 1}}, 8, 16, LAST, 32, 15},
    {"OFFSETS_UNFIT, one too few, panels", ASPENFLICK_OFFSETS_UNFIT, {2, 2, 2, 2, 2, 1, 1, 1, {1, 1, 0}, {1, 1, 1}}, 8, 15,
     LAST, 31, 15},
    {"OFFSETS_UNFIT, one too many, panels", ASPENFLICK_OFFSETS_UNFIT, {2, 2, 2, 2, 2, 1, 1, 1, {1, 1, 0}, {1, 1, 1}}, 8, 17,
     LAST, 32, 15},
    {"OFFSETS_UNFIT, a turn, panels", ASPENFLICK_OFFSETS_UNFIT, {2, 2, 2, 2, 2, 1, 1, 1, {1, 1, 0}, {1, 1, 1}}, 8, 16, TURN,
     32, 15},
    {"NO_ROOM, panels", ASPENFLICK_NO_ROOM, {2, 2, 2, 2, 2, 1, 1, 1, {1, 1, 0}, {1, 1, 1}}, 8, 16, LAST, 31, 15},
};

// So many offsets, the last of them as given.
static const uint16_t *ending(size_t count, uint16_t last) {
    for (size_t k = 0; k < count; k++) offsets[k] = 0;
    offsets[count - 1] = last;
    return offsets;
}

static void refusals(void) {
    mask[4 * 8 / 8] &= (uint8_t)~2;  // bars (4,1): 4 rows of 8 bits, and 1, in both masks
    for (size_t k = 0; k < sizeof cases / sizeof cases[0]; k++) {
        aspenflick_report r = cases[k].report;
        size_t bytes = cases[k].bytes, count = cases[k].offsets, room = cases[k].room;
        uint8_t ranks = cases[k].ranks;
        const uint16_t *list = ending(count, cases[k].offset);
        const uint32_t name = cases[k].name;
        check(aspenflick_phases(r, mask, bytes, ranks, list, count, phases, room).refusal == name, cases[k].what);
        check(aspenflick_weights(r, mask, bytes, ranks, list, count, weights, 2 * room).refusal == name, cases[k].what);
    }
    for (size_t k = 0; k < sizeof panel_cases / sizeof panel_cases[0]; k++) {
        aspenflick_panel_report r = panel_cases[k].report;
        size_t bytes = panel_cases[k].bytes, count = panel_cases[k].offsets, room = panel_cases[k].room;
        uint8_t ranks = panel_cases[k].ranks;
        const uint16_t *list = ending(count, panel_cases[k].offset);
        const uint32_t name = panel_cases[k].name;
        const char *what = panel_cases[k].what;
        check(aspenflick_panel_phases(r, mask, bytes, ranks, list, count, phases, room).refusal == name, what);
        check(aspenflick_panel_weights(r, mask, bytes, ranks, list, count, weights, 2 * room).refusal == name, what);
    }
    mask[4 * 8 / 8] = 255;
}

// A log that has each kind of step and each fault, and where.
static const uint8_t reports[] = {2, 1, 1, 1, 1, 0, 0, 1, 128, 0, 255, 255, 255, 255, 16, 128};
static const struct {
    const char *what;
    size_t from;
    uint32_t kind, fault;
    uint64_t place, next;
} steps[] = {
    {"LOG_REPORT", 0, ASPENFLICK_LOG_REPORT, 0, 0, 8},
    {"LOG_END", sizeof reports, ASPENFLICK_LOG_END, 0, 0, sizeof reports},
    {"LOG_END past the log", (size_t)-1, ASPENFLICK_LOG_END, 0, 0, (size_t)-1},
    {"FAULT_ENDS", 15, ASPENFLICK_LOG_FAULT, ASPENFLICK_FAULT_ENDS, sizeof reports, 15},
    {"FAULT_PADDED", 8, ASPENFLICK_LOG_FAULT, ASPENFLICK_FAULT_PADDED, 9, 8},
    {"FAULT_LARGE", 10, ASPENFLICK_LOG_FAULT, ASPENFLICK_FAULT_LARGE, 14, 10},
};

static void log_steps(void) {
    for (size_t k = 0; k < sizeof steps / sizeof steps[0]; k++) {
        aspenflick_log_step s = aspenflick_log_next(reports, sizeof reports, steps[k].from);
        check(s.kind == steps[k].kind && s.fault == steps[k].fault && s.place == steps[k].place && s.next == steps[k].next,
              steps[k].what);
    }
}

// The setting of each pair, the mask bytes that it needs and the largest sizes: a mask of another length is refused.
static void sizes(void) {
    uint32_t ports = 0, layers = 0, entries = 0, bytes = 0, settings = 0;
    for (uint32_t n1 = 0; n1 <= 40; n1++) {
        for (uint32_t n2 = 0; n2 <= 40; n2++) {
            uint32_t needed = aspenflick_mask_bytes(n1, n2);
            if (!needed) continue;
            settings++;
            if (needed > bytes) bytes = needed;
            const size_t count = 2 * n1 * n2, room = ASPENFLICK_MOST_PHASES;
            const uint16_t *list = ending(count, LAST);
            for (uint32_t v = 1; v <= 40; v++) {
                aspenflick_report r = {.n1 = n1, .n2 = n2, .mode = 1, .v = v};
                aspenflick_record a = aspenflick_phases(r, mask, needed, 255, list, count, phases, room);
                if (a.refusal) continue;
                aspenflick_record b = aspenflick_phases(r, mask, needed - 1, 255, list, count, phases, room);
                check(b.refusal == ASPENFLICK_MASK_LENGTH, "a mask of a byte less");
                b = aspenflick_weights(r, mask, needed, 255, list, count, weights, ASPENFLICK_MOST_WEIGHTS);
                check(b.refusal == ASPENFLICK_ACCEPTED, "room for weights");
                if (a.ports > ports) ports = a.ports;
                if (a.layers > layers) layers = a.layers;
                if (a.scale > entries) entries = a.scale;
            }
        }
    }
    check(settings == 14, "fourteen settings");
    check(ports == ASPENFLICK_MOST_PORTS, "MOST_PORTS");
    check(layers == ASPENFLICK_MOST_LAYERS, "MOST_LAYERS");
    check(layers == sizeof ((aspenflick_record *)0)->beams / sizeof(aspenflick_beam), "a beam for each of the most layers");
    check(entries == ASPENFLICK_MOST_PHASES, "MOST_PHASES");
    check(2 * entries == ASPENFLICK_MOST_WEIGHTS, "MOST_WEIGHTS");
    check(bytes == ASPENFLICK_MOST_MASK_BYTES, "MOST_MASK_BYTES");
}

int main(void) {
    for (size_t k = 0; k < sizeof mask; k++) mask[k] = 255;
    check(aspenflick_version() == ASPENFLICK_VERSION, "the version of the header and the library");
    refusals();
    log_steps();
    sizes();
    printf("%d passed, %d failed\n", passed, failed);
    return failed != 0;
}
