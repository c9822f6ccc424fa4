// Reads a log of reports from its start to its end and prints each; then the same log with one byte damaged, up to its
// fault.
//
// With nothing but the kit:      tools/x86 --build target/examples/log examples/c/log.c aspenflick
//                                tools/x86 target/examples/log
// With a C compiler on x86-64:   tools/install target/install
//                                export PKG_CONFIG_PATH=$PWD/target/install/lib/pkgconfig
//                                cc examples/c/log.c $(pkg-config --cflags --libs aspenflick) -o log
//                                LD_LIBRARY_PATH=target/install/lib ./log
#include <stdio.h>
#include "aspenflick.h"

static const char *const faults[] = {
    [ASPENFLICK_FAULT_ENDS] = "the log ends inside a report",
    [ASPENFLICK_FAULT_PADDED] = "a number of several bytes ends with a zero byte",
    [ASPENFLICK_FAULT_LARGE] = "a number has more than 32 bits",
};

static void print_log(const uint8_t *bytes, size_t len) {
    // each step says where the next one starts; the loop ends, since a report has at least eight bytes
    aspenflick_log_step step = aspenflick_log_next(bytes, len, 0);
    for (; step.kind == ASPENFLICK_LOG_REPORT; step = aspenflick_log_next(bytes, len, step.next)) {
        const aspenflick_report r = step.report;  // eight numbers of 32 bits, which no function has judged yet
        printf("N1 %u, N2 %u, mode %u, v %u, i11 %u, i12 %u, i13 %u, i2 %u\n", r.n1, r.n2, r.mode, r.v, r.i11, r.i12,
               r.i13, r.i2);
    }
    const unsigned long long from = step.next, place = step.place;
    if (step.kind == ASPENFLICK_LOG_END) printf("the end, at byte %llu\n", from);
    else printf("fault %u at byte %llu, in the report from %llu on: %s\n", step.fault, place, from, faults[step.fault]);
}

int main(void) {
    if (aspenflick_version() / 10000 != ASPENFLICK_VERSION_MAJOR) return 1;
    uint8_t bytes[] = {
        0x02, 0x01, 0x01, 0x01, 0x01, 0x00, 0x00, 0x01,        // from byte 0 on: a byte for each number
        0x02, 0x01, 0x01, 0x02, 0x07, 0x00, 0x01, 0x00,        // from byte 8 on
        0x02, 0x01, 0x01, 0x01, 0xc8, 0x01, 0x00, 0x00, 0x01,  // from byte 16 on: the fifth number is 200, in two bytes
    };
    print_log(bytes, sizeof bytes);

    bytes[21] = 0x00;  // the last byte of 200: what is left is 72, which has a shorter form, 0x48
    printf("with byte 21 damaged:\n");
    print_log(bytes, sizeof bytes);
    return 0;
}
