// Calls aspenflick_phases, aspenflick_weights, aspenflick_panel_phases or aspenflick_panel_weights once for each request
// on standard input and writes what came of it to standard output.
//
// A request, all numbers little-endian: the function (one byte: 0 to 3, in the order above), the report (numbers of 32
// bits, in the order of its struct: 8 of them, or 14 for panels), the rank mask (one byte), the length of the beam mask
// (16 bits) and its bytes, the length of the list of offsets (16 bits) and its numbers (16 bits each), the length of the
// buffer in numbers of 16 bits (16 bits), the first fill value (one byte). The lent buffer's byte i is the first fill value
// plus 37 i, modulo 256.
// An answer: the record (twenty numbers of 32 bits: refusal, ports, layers, scale, and l and m of each of the eight
// beams), one byte that is 1 if all guards stand and the beam mask and the offsets are as lent, else 0, and the buffer's
// bytes after the call.
// After the last answer: how many bytes of stack the deepest call of each function has used (32 bits each; 0 if there was
// none).
//
// The exit status is 0 if the input ends after a whole request, 1 if it ends inside one or a request names no function,
// 2 if reading or writing fails.
// Freestanding: of the C library only read, write and _exit.
#include "aspenflick.h"
#include "stack.h"

long read(int, void *, size_t);
long write(int, const void *, size_t);
_Noreturn void _exit(int);

enum { PHASES, WEIGHTS, PANEL_PHASES, PANEL_WEIGHTS, FUNCTIONS };
enum { GUARD = 32, PLACES = 16, MOST = 65535, WIDTH = sizeof(uint16_t), CHUNK = 1 << 20 };

static uint8_t input[CHUNK], output[CHUNK];
static size_t input_at, input_end, output_end;

static void flush(void) {
    for (size_t at = 0; at < output_end;) {
        long n = write(1, output + at, output_end - at);
        if (n <= 0) _exit(2);
        at += (size_t)n;
    }
    output_end = 0;
}

// One byte of the input, or -1 at its end. What is answered so far is written before a read that may have to wait.
static int get(void) {
    if (input_at == input_end) {
        flush();
        long n = read(0, input, CHUNK);
        if (n < 0) _exit(2);
        if (n == 0) return -1;
        input_at = 0;
        input_end = (size_t)n;
    }
    return input[input_at++];
}

static _Noreturn void give_up(void) {
    flush();
    _exit(1);
}

// A number of the given count of bytes inside a request, where the input must not end.
static uint32_t number(int bytes) {
    uint32_t x = 0;
    for (int k = 0; k < bytes; k++) {
        int b = get();
        if (b < 0) give_up();
        x |= (uint32_t)b << 8 * k;
    }
    return x;
}

// Of at most CHUNK bytes.
static void put(const uint8_t *bytes, size_t len) {
    if (len > CHUNK - output_end) flush();
    for (size_t i = 0; i < len; i++) output[output_end + i] = bytes[i];
    output_end += len;
}

static void put_number(uint32_t x) {
    uint8_t bytes[4];
    for (int k = 0; k < 4; k++) bytes[k] = (uint8_t)(x >> 8 * k);
    put(bytes, 4);
}

static void put_record(const aspenflick_record *record) {
    put_number(record->refusal);
    put_number(record->ports);
    put_number(record->layers);
    put_number(record->scale);
    for (int k = 0; k < ASPENFLICK_MOST_LAYERS; k++) {
        put_number(record->beams[k].l);
        put_number(record->beams[k].m);
    }
}

// Bytes that are lent, between two guards.
typedef struct {
    _Alignas(PLACES) uint8_t room[GUARD + PLACES + WIDTH * MOST + GUARD];
    uint8_t *at;
    size_t len;
} loan;

// Guards hold nothing that a function answers, so that no number written there goes unseen: their bytes are 96 to 159, and
// the upper byte of a phase is 0 or 1, that of a weight at most 64 or at least 192.
static uint8_t guard(size_t i) { return (uint8_t)(96 + 29 * i % 64); }

// The loan starts at any of 16 neighbouring addresses, as place says.
static void lend(loan *l, size_t place, size_t len) {
    l->at = l->room + GUARD + place % PLACES;
    l->len = len;
    for (size_t i = 0; i < GUARD; i++) {
        (l->at - GUARD)[i] = guard(i);
        (l->at + len)[i] = guard(GUARD + i);
    }
}

static int guards_stand(const loan *l) {
    int stand = 1;
    for (size_t i = 0; i < GUARD; i++) {
        stand &= (l->at - GUARD)[i] == guard(i) && (l->at + l->len)[i] == guard(GUARD + i);
    }
    return stand;
}

// Lends bytes of the input, and keeps what they are.
static void lend_input(loan *l, uint8_t *as_lent, size_t place, size_t len) {
    lend(l, place, len);
    for (size_t i = 0; i < len; i++) l->at[i] = as_lent[i] = (uint8_t)number(1);
}

static int stands_as_lent(const loan *l, const uint8_t *as_lent) {
    int stands = guards_stand(l);
    for (size_t i = 0; i < l->len; i++) stands &= l->at[i] == as_lent[i];
    return stands;
}

// What stands in a record before the call: no answer has such numbers.
static const aspenflick_record unwritten = {
    ~0u, ~0u, ~0u, ~0u, {{~0u, ~0u}, {~0u, ~0u}, {~0u, ~0u}, {~0u, ~0u}, {~0u, ~0u}, {~0u, ~0u}, {~0u, ~0u}, {~0u, ~0u}},
};

static loan mask, list, buffer;
static uint8_t mask_as_lent[MOST], list_as_lent[WIDTH * MOST];

int main(void) {
    uint32_t deepest[FUNCTIONS] = {0};
    for (size_t count = 0;; count++) {
        int function = get();
        if (function < 0) break;
        if (function >= FUNCTIONS) give_up();
        int of_panels = function >= PANEL_PHASES;
        uint32_t n[14] = {0};
        for (int k = 0; k < (of_panels ? 14 : 8); k++) n[k] = number(4);
        aspenflick_report r = {n[0], n[1], n[2], n[3], n[4], n[5], n[6], n[7]};
        aspenflick_panel_report p = {n[0], n[1], n[2], n[3], n[4], n[5], n[6], n[7],
                                     {n[8], n[9], n[10]}, {n[11], n[12], n[13]}};
        uint8_t ranks = (uint8_t)number(1);
        lend_input(&mask, mask_as_lent, count / PLACES, number(2));
        // Numbers of 16 bits start at even addresses only. Those of the input are as this machine has them.
        size_t offsets_len = number(2);
        lend_input(&list, list_as_lent, WIDTH * (count / 3), WIDTH * offsets_len);
        size_t buffer_len = number(2);
        lend(&buffer, WIDTH * count, WIDTH * buffer_len);
        uint8_t fill = (uint8_t)number(1);
        for (size_t i = 0; i < buffer.len; i++, fill = (uint8_t)(fill + 37)) buffer.at[i] = fill;
        const uint16_t *offsets = (const uint16_t *)(const void *)list.at;
        uint16_t *phases = (uint16_t *)(void *)buffer.at;
        int16_t *weights = (int16_t *)(void *)buffer.at;

        aspenflick_record record = unwritten;
        paint();
        switch (function) {
        case PHASES:
            record = aspenflick_phases(r, mask.at, mask.len, ranks, offsets, offsets_len, phases, buffer_len);
            break;
        case WEIGHTS:
            record = aspenflick_weights(r, mask.at, mask.len, ranks, offsets, offsets_len, weights, buffer_len);
            break;
        case PANEL_PHASES:
            record = aspenflick_panel_phases(p, mask.at, mask.len, ranks, offsets, offsets_len, phases, buffer_len);
            break;
        case PANEL_WEIGHTS:
            record = aspenflick_panel_weights(p, mask.at, mask.len, ranks, offsets, offsets_len, weights, buffer_len);
            break;
        }
        uint32_t used = stack_used();
        if (used > deepest[function]) deepest[function] = used;

        int intact = stands_as_lent(&mask, mask_as_lent) & stands_as_lent(&list, list_as_lent) & guards_stand(&buffer);
        put_record(&record);
        put(&(uint8_t){(uint8_t)intact}, 1);
        put(buffer.at, buffer.len);
    }
    for (int function = 0; function < FUNCTIONS; function++) put_number(deepest[function]);
    flush();
    return 0;
}
