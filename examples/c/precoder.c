// Asks for the precoder of one report, in phases and in weights, and prints its layers' beams and its entries: as the
// standard has them, and with an offset for each port. Then again with an offset of a whole turn, with one of these beams
// barred, and with an index that is out of range.
//
// With nothing but the kit:      tools/x86 --build target/examples/precoder examples/c/precoder.c aspenflick
//                                tools/x86 target/examples/precoder
// With a C compiler on x86-64:   tools/install target/install
//                                export PKG_CONFIG_PATH=$PWD/target/install/lib/pkgconfig
//                                cc examples/c/precoder.c $(pkg-config --cflags --libs aspenflick) -o precoder
//                                LD_LIBRARY_PATH=target/install/lib ./precoder
#include <stdio.h>
#include "aspenflick.h"

enum { TURN = 384, PORTS = 4, LAYERS = 2, ENTRIES = LAYERS * PORTS };

static void print_entries(const uint16_t *phases, const int16_t *weights) {
    for (int k = 0; k < ENTRIES; k++) {
        printf("layer %d, port %d: %3d/%d turns, (%d, %d)/16384\n", k / PORTS + 1, k % PORTS + 1, phases[k], TURN,
               weights[2 * k], weights[2 * k + 1]);
    }
}

int main(void) {
    if (aspenflick_version() / 10000 != ASPENFLICK_VERSION_MAJOR) return 1;
    aspenflick_report report = {.n1 = 2, .n2 = 1, .mode = 1, .v = LAYERS, .i11 = 7, .i12 = 0, .i13 = 1, .i2 = 0};
    uint8_t mask[ASPENFLICK_MOST_MASK_BYTES];
    const uint8_t ranks = 0xff;  // no rank is barred
    const size_t bytes = aspenflick_mask_bytes(report.n1, report.n2);
    for (size_t k = 0; k < bytes; k++) mask[k] = 0xff;  // and no beam
    uint16_t offsets[PORTS] = {0};  // added to the phases of each port
    uint16_t phases[ENTRIES];       // layer after layer
    int16_t weights[2 * ENTRIES];   // real and imaginary part of each entry

    aspenflick_record record = aspenflick_phases(report, mask, bytes, ranks, offsets, PORTS, phases, ENTRIES);
    if (record.refusal != ASPENFLICK_ACCEPTED) return 1;
    aspenflick_weights(report, mask, bytes, ranks, offsets, PORTS, weights, 2 * ENTRIES);  // the same record
    printf("%u layers of %u ports, to be divided by the square root of %u\n", record.layers, record.ports, record.scale);
    for (int k = 0; k < LAYERS; k++) printf("layer %d: beam (%u,%u)\n", k + 1, record.beams[k].l, record.beams[k].m);
    print_entries(phases, weights);
    const aspenflick_beam second = record.beams[1];

    // the ports' cables are not equal: another offset for each
    for (int k = 0; k < PORTS; k++) offsets[k] = (uint16_t)(101 * k);
    aspenflick_phases(report, mask, bytes, ranks, offsets, PORTS, phases, ENTRIES);
    aspenflick_weights(report, mask, bytes, ranks, offsets, PORTS, weights, 2 * ENTRIES);
    printf("with offsets %d, %d, %d and %d\n", offsets[0], offsets[1], offsets[2], offsets[3]);
    print_entries(phases, weights);

    offsets[3] = TURN;  // is not reduced
    record = aspenflick_phases(report, mask, bytes, ranks, offsets, PORTS, phases, ENTRIES);
    printf("with an offset of %d: refusal %u, %s\n", offsets[3], record.refusal,
           record.refusal == ASPENFLICK_OFFSETS_UNFIT ? "unfit offsets" : "another");

    offsets[3] = TURN - 1;  // the highest there is
    // the beam (l,m) of layer 2 has bit l*M + m of the mask, where M is 1 for n2 = 1 and 4*n2 otherwise
    const uint32_t down = report.n2 > 1 ? 4 * report.n2 : 1, bit = second.l * down + second.m;
    mask[bit / 8] &= (uint8_t)~(1 << bit % 8);
    record = aspenflick_phases(report, mask, bytes, ranks, offsets, PORTS, phases, ENTRIES);
    printf("with beam (%u,%u) barred: refusal %u, %s\n", second.l, second.m, record.refusal,
           record.refusal == ASPENFLICK_BEAM_BARRED ? "a barred beam" : "another");

    report.i11 = 8;  // the first that is out of range
    record = aspenflick_phases(report, mask, bytes, ranks, offsets, PORTS, phases, ENTRIES);
    printf("with i11 = %u: refusal %u\n", report.i11, record.refusal);
    return 0;
}
