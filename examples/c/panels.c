// Asks for the precoder of one report of two panels, in phases and in weights, and prints its layers' beams and, panel by
// panel, its entries; then its phases with an offset for each port. Then again with offsets for one panel only, with a
// number of i14 that the mode does not use, and with mode 2 for four panels.
//
// With nothing but the kit:      tools/x86 --build target/examples/panels examples/c/panels.c aspenflick
//                                tools/x86 target/examples/panels
// With a C compiler on x86-64:   tools/install target/install
//                                export PKG_CONFIG_PATH=$PWD/target/install/lib/pkgconfig
//                                cc examples/c/panels.c $(pkg-config --cflags --libs aspenflick) -o panels
//                                LD_LIBRARY_PATH=target/install/lib ./panels
#include <stdio.h>
#include "aspenflick.h"

enum { TURN = 384, PANELS = 2, PANEL_PORTS = 4, PORTS = PANELS * PANEL_PORTS, LAYERS = 2, ENTRIES = LAYERS * PORTS };

int main(void) {
    if (aspenflick_version() / 10000 != ASPENFLICK_VERSION_MAJOR) return 1;
    aspenflick_panel_report report = {
        .ng = PANELS, .n1 = 2, .n2 = 1, .mode = 2, .v = LAYERS, .i11 = 7, .i12 = 0, .i13 = 1,
        .i14 = {1, 3, 0},  // mode 2 of two panels uses two numbers
        .i2 = {0, 1, 0},   // and here all three
    };
    uint8_t mask[ASPENFLICK_MOST_MASK_BYTES];
    const size_t bytes = aspenflick_mask_bytes(report.n1, report.n2);  // the mask is that of one panel
    for (size_t k = 0; k < bytes; k++) mask[k] = 0xff;  // no beam is barred
    const uint8_t ranks = 0xff;                         // and no rank
    uint16_t offsets[PORTS] = {0};  // added to the phases of each port, panel by panel
    uint16_t phases[ENTRIES];       // layer after layer, each panel by panel
    int16_t weights[2 * ENTRIES];   // real and imaginary part of each entry

    aspenflick_record record = aspenflick_panel_phases(report, mask, bytes, ranks, offsets, PORTS, phases, ENTRIES);
    if (record.refusal != ASPENFLICK_ACCEPTED) return 1;
    aspenflick_panel_weights(report, mask, bytes, ranks, offsets, PORTS, weights, 2 * ENTRIES);  // the same record
    printf("%u layers of %u ports, to be divided by the square root of %u\n", record.layers, record.ports, record.scale);
    // a layer has one beam, in every panel
    for (int k = 0; k < LAYERS; k++) printf("layer %d: beam (%u,%u)\n", k + 1, record.beams[k].l, record.beams[k].m);
    for (int k = 0; k < ENTRIES; k++) {
        if (k % PANEL_PORTS == 0) printf("layer %d, panel %d\n", k / PORTS + 1, k % PORTS / PANEL_PORTS + 1);
        printf("  port %d: %3d/%d turns, (%d, %d)/16384\n", k % PORTS + 1, phases[k], TURN, weights[2 * k],
               weights[2 * k + 1]);
    }

    // the ports' cables are not equal: another offset for each
    for (int k = 0; k < PORTS; k++) offsets[k] = (uint16_t)(51 * k);
    aspenflick_panel_phases(report, mask, bytes, ranks, offsets, PORTS, phases, ENTRIES);
    for (int k = 0; k < PORTS; k++) {
        printf("with an offset of %d, port %d: %d/%d and %d/%d turns\n", offsets[k], k + 1, phases[k], TURN,
               phases[PORTS + k], TURN);
    }

    record = aspenflick_panel_phases(report, mask, bytes, ranks, offsets, PANEL_PORTS, phases, ENTRIES);
    printf("with offsets for one panel: refusal %u\n", record.refusal);

    report.i14[2] = 1;
    record = aspenflick_panel_phases(report, mask, bytes, ranks, offsets, PORTS, phases, ENTRIES);
    printf("with a third number of i14: refusal %u\n", record.refusal);

    report.ng = 4;
    record = aspenflick_panel_phases(report, mask, bytes, ranks, offsets, PORTS, phases, ENTRIES);
    printf("with four panels in mode 2: refusal %u\n", record.refusal);
    return 0;
}
