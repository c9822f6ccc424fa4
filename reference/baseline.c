// The whole job of both codebooks in plain C, written by hand: what the library's instructions and its answers to random
// calls are compared with.
#include "baseline.h"

enum { TURN = 384, HALF = TURN / 2, QUARTER = TURN / 4, EIGHTH = TURN / 8 };
enum { MOST_N1 = 16, MOST_N2 = 4, MOST_V = 8, MOST_ENTRIES = 256 };
enum { MOST_PANELS = 4, MOST_PANEL_N1 = 8, MOST_PANEL_N2 = 2, MOST_PANEL_V = 4, MOST_PANEL_ENTRIES = 128 };

typedef struct { uint8_t l, m; } beam;

// An accepted report: rows by columns of its beams, its blocks of ports, f and t, and B, B', B'', B''', reduced. A
// half-length beam stands twice, and two ports have (0,0).
typedef struct {
    uint8_t ports, rows, columns, blocks;
    uint16_t f, t;
    beam beams[4];
} plan;

// An accepted multi-panel report: f, what turns the two polarisations of the first panel into those of each other panel,
// and B and B', reduced.
typedef struct {
    uint8_t ports;
    uint16_t f, turns[MOST_PANELS - 1][2];
    beam beams[2];
} panel_plan;

// P by N2 and N1, and 0 where (N1,N2) is not a setting.
static const uint8_t ports_of[MOST_N2 + 1][MOST_N1 + 1] = {
    [1] = {[1] = 2, [2] = 4, [4] = 8, [6] = 12, [8] = 16, [12] = 24, [16] = 32},
    [2] = {[2] = 8, [3] = 12, [4] = 16, [6] = 24, [8] = 32},
    [3] = {[4] = 24},
    [4] = {[4] = 32},
};

// P by Ng / 2, N2 and N1, and 0 where (Ng,N1,N2) is not a setting.
static const uint8_t panel_ports_of[MOST_PANELS / 2 + 1][MOST_PANEL_N2 + 1][MOST_PANEL_N1 + 1] = {
    [1] = {[1] = {[2] = 8, [4] = 16, [8] = 32}, [2] = {[2] = 16, [4] = 32}},
    [2] = {[1] = {[2] = 16, [4] = 32}, [2] = {[2] = 32}},
};

// The phase for one step of l or m by N1 or N2. In a direction of one antenna l or m is 0.
static const uint16_t step_of[MOST_N1 + 1] = {
    [2] = TURN / 8, [3] = TURN / 12, [4] = TURN / 16, [6] = TURN / 24, [8] = TURN / 32, [12] = TURN / 48, [16] = TURN / 64,
};

// The rows of k in steps of (O1,O2): for N1 > N2 > 1, for N1 = N2, and for N2 = 1.
static const beam k_two_wide[4] = {{0, 0}, {1, 0}, {0, 1}, {2, 0}};
static const beam k_two_square[4] = {{0, 0}, {1, 0}, {0, 1}, {1, 1}};
static const beam k_two_line[4] = {{0, 0}, {1, 0}, {2, 0}, {3, 0}};

// Those for three and four layers. Smaller settings have the first of them.
static const beam k_three_wide[4] = {{1, 0}, {0, 1}, {1, 1}, {2, 0}};
static const beam k_three_line[4] = {{1, 0}, {2, 0}, {3, 0}, {4, 0}};

// The steps from B to B', B'' and B''' for five and more layers.
static const beam k_six_wide[2] = {{1, 0}, {1, 1}};
static const beam k_eight_wide[3] = {{1, 0}, {0, 1}, {1, 1}};
static const beam k_many_line[3] = {{1, 0}, {2, 0}, {3, 0}};

// A layer: the place of its beam, how many times f is added to the second polarisation, and what else is.
typedef struct { uint8_t place, times_f; uint16_t added; } column;

static const column columns_of[MOST_V + 1][MOST_V] = {
    [1] = {{0, 1, 0}},
    [2] = {{0, 1, 0}, {1, 1, HALF}},
    [3] = {{0, 1, 0}, {1, 1, 0}, {0, 1, HALF}},
    [4] = {{0, 1, 0}, {1, 1, 0}, {0, 1, HALF}, {1, 1, HALF}},
    [5] = {{0, 1, 0}, {0, 1, HALF}, {1, 0, 0}, {1, 0, HALF}, {2, 0, 0}},
    [6] = {{0, 1, 0}, {0, 1, HALF}, {1, 1, 0}, {1, 1, HALF}, {2, 0, 0}, {2, 0, HALF}},
    [7] = {{0, 1, 0}, {0, 1, HALF}, {1, 1, 0}, {2, 0, 0}, {2, 0, HALF}, {3, 0, 0}, {3, 0, HALF}},
    [8] = {{0, 1, 0}, {0, 1, HALF}, {1, 1, 0}, {1, 1, HALF}, {2, 0, 0}, {2, 0, HALF}, {3, 0, 0}, {3, 0, HALF}},
};

// 16384 times cosine and sine of each phase, to the nearest whole number.
static const int16_t weight_of[TURN][2] = {
    {16384, 0}, {16382, 268}, {16375, 536}, {16364, 804}, {16349, 1072}, {16329, 1339}, {16305, 1606}, {16277, 1872},
    {16244, 2139}, {16207, 2404}, {16165, 2669}, {16119, 2933}, {16069, 3196}, {16015, 3459}, {15956, 3720},
    {15893, 3981}, {15826, 4240}, {15754, 4499}, {15679, 4756}, {15599, 5012}, {15515, 5266}, {15426, 5520},
    {15334, 5771}, {15237, 6021}, {15137, 6270}, {15032, 6517}, {14924, 6762}, {14811, 7005}, {14694, 7246},
    {14574, 7486}, {14449, 7723}, {14321, 7959}, {14189, 8192}, {14053, 8423}, {13913, 8652}, {13770, 8878},
    {13623, 9102}, {13472, 9324}, {13318, 9543}, {13160, 9760}, {12998, 9974}, {12833, 10185}, {12665, 10394},
    {12493, 10600}, {12318, 10803}, {12140, 11003}, {11958, 11200}, {11773, 11394}, {11585, 11585}, {11394, 11773},
    {11200, 11958}, {11003, 12140}, {10803, 12318}, {10600, 12493}, {10394, 12665}, {10185, 12833}, {9974, 12998},
    {9760, 13160}, {9543, 13318}, {9324, 13472}, {9102, 13623}, {8878, 13770}, {8652, 13913}, {8423, 14053},
    {8192, 14189}, {7959, 14321}, {7723, 14449}, {7486, 14574}, {7246, 14694}, {7005, 14811}, {6762, 14924},
    {6517, 15032}, {6270, 15137}, {6021, 15237}, {5771, 15334}, {5520, 15426}, {5266, 15515}, {5012, 15599},
    {4756, 15679}, {4499, 15754}, {4240, 15826}, {3981, 15893}, {3720, 15956}, {3459, 16015}, {3196, 16069},
    {2933, 16119}, {2669, 16165}, {2404, 16207}, {2139, 16244}, {1872, 16277}, {1606, 16305}, {1339, 16329},
    {1072, 16349}, {804, 16364}, {536, 16375}, {268, 16382}, {0, 16384}, {-268, 16382}, {-536, 16375}, {-804, 16364},
    {-1072, 16349}, {-1339, 16329}, {-1606, 16305}, {-1872, 16277}, {-2139, 16244}, {-2404, 16207}, {-2669, 16165},
    {-2933, 16119}, {-3196, 16069}, {-3459, 16015}, {-3720, 15956}, {-3981, 15893}, {-4240, 15826}, {-4499, 15754},
    {-4756, 15679}, {-5012, 15599}, {-5266, 15515}, {-5520, 15426}, {-5771, 15334}, {-6021, 15237}, {-6270, 15137},
    {-6517, 15032}, {-6762, 14924}, {-7005, 14811}, {-7246, 14694}, {-7486, 14574}, {-7723, 14449}, {-7959, 14321},
    {-8192, 14189}, {-8423, 14053}, {-8652, 13913}, {-8878, 13770}, {-9102, 13623}, {-9324, 13472}, {-9543, 13318},
    {-9760, 13160}, {-9974, 12998}, {-10185, 12833}, {-10394, 12665}, {-10600, 12493}, {-10803, 12318}, {-11003, 12140},
    {-11200, 11958}, {-11394, 11773}, {-11585, 11585}, {-11773, 11394}, {-11958, 11200}, {-12140, 11003},
    {-12318, 10803}, {-12493, 10600}, {-12665, 10394}, {-12833, 10185}, {-12998, 9974}, {-13160, 9760}, {-13318, 9543},
    {-13472, 9324}, {-13623, 9102}, {-13770, 8878}, {-13913, 8652}, {-14053, 8423}, {-14189, 8192}, {-14321, 7959},
    {-14449, 7723}, {-14574, 7486}, {-14694, 7246}, {-14811, 7005}, {-14924, 6762}, {-15032, 6517}, {-15137, 6270},
    {-15237, 6021}, {-15334, 5771}, {-15426, 5520}, {-15515, 5266}, {-15599, 5012}, {-15679, 4756}, {-15754, 4499},
    {-15826, 4240}, {-15893, 3981}, {-15956, 3720}, {-16015, 3459}, {-16069, 3196}, {-16119, 2933}, {-16165, 2669},
    {-16207, 2404}, {-16244, 2139}, {-16277, 1872}, {-16305, 1606}, {-16329, 1339}, {-16349, 1072}, {-16364, 804},
    {-16375, 536}, {-16382, 268}, {-16384, 0}, {-16382, -268}, {-16375, -536}, {-16364, -804}, {-16349, -1072},
    {-16329, -1339}, {-16305, -1606}, {-16277, -1872}, {-16244, -2139}, {-16207, -2404}, {-16165, -2669},
    {-16119, -2933}, {-16069, -3196}, {-16015, -3459}, {-15956, -3720}, {-15893, -3981}, {-15826, -4240},
    {-15754, -4499}, {-15679, -4756}, {-15599, -5012}, {-15515, -5266}, {-15426, -5520}, {-15334, -5771},
    {-15237, -6021}, {-15137, -6270}, {-15032, -6517}, {-14924, -6762}, {-14811, -7005}, {-14694, -7246},
    {-14574, -7486}, {-14449, -7723}, {-14321, -7959}, {-14189, -8192}, {-14053, -8423}, {-13913, -8652},
    {-13770, -8878}, {-13623, -9102}, {-13472, -9324}, {-13318, -9543}, {-13160, -9760}, {-12998, -9974},
    {-12833, -10185}, {-12665, -10394}, {-12493, -10600}, {-12318, -10803}, {-12140, -11003}, {-11958, -11200},
    {-11773, -11394}, {-11585, -11585}, {-11394, -11773}, {-11200, -11958}, {-11003, -12140}, {-10803, -12318},
    {-10600, -12493}, {-10394, -12665}, {-10185, -12833}, {-9974, -12998}, {-9760, -13160}, {-9543, -13318},
    {-9324, -13472}, {-9102, -13623}, {-8878, -13770}, {-8652, -13913}, {-8423, -14053}, {-8192, -14189},
    {-7959, -14321}, {-7723, -14449}, {-7486, -14574}, {-7246, -14694}, {-7005, -14811}, {-6762, -14924},
    {-6517, -15032}, {-6270, -15137}, {-6021, -15237}, {-5771, -15334}, {-5520, -15426}, {-5266, -15515},
    {-5012, -15599}, {-4756, -15679}, {-4499, -15754}, {-4240, -15826}, {-3981, -15893}, {-3720, -15956},
    {-3459, -16015}, {-3196, -16069}, {-2933, -16119}, {-2669, -16165}, {-2404, -16207}, {-2139, -16244},
    {-1872, -16277}, {-1606, -16305}, {-1339, -16329}, {-1072, -16349}, {-804, -16364}, {-536, -16375}, {-268, -16382},
    {0, -16384}, {268, -16382}, {536, -16375}, {804, -16364}, {1072, -16349}, {1339, -16329}, {1606, -16305},
    {1872, -16277}, {2139, -16244}, {2404, -16207}, {2669, -16165}, {2933, -16119}, {3196, -16069}, {3459, -16015},
    {3720, -15956}, {3981, -15893}, {4240, -15826}, {4499, -15754}, {4756, -15679}, {5012, -15599}, {5266, -15515},
    {5520, -15426}, {5771, -15334}, {6021, -15237}, {6270, -15137}, {6517, -15032}, {6762, -14924}, {7005, -14811},
    {7246, -14694}, {7486, -14574}, {7723, -14449}, {7959, -14321}, {8192, -14189}, {8423, -14053}, {8652, -13913},
    {8878, -13770}, {9102, -13623}, {9324, -13472}, {9543, -13318}, {9760, -13160}, {9974, -12998}, {10185, -12833},
    {10394, -12665}, {10600, -12493}, {10803, -12318}, {11003, -12140}, {11200, -11958}, {11394, -11773},
    {11585, -11585}, {11773, -11394}, {11958, -11200}, {12140, -11003}, {12318, -10803}, {12493, -10600},
    {12665, -10394}, {12833, -10185}, {12998, -9974}, {13160, -9760}, {13318, -9543}, {13472, -9324}, {13623, -9102},
    {13770, -8878}, {13913, -8652}, {14053, -8423}, {14189, -8192}, {14321, -7959}, {14449, -7723}, {14574, -7486},
    {14694, -7246}, {14811, -7005}, {14924, -6762}, {15032, -6517}, {15137, -6270}, {15237, -6021}, {15334, -5771},
    {15426, -5520}, {15515, -5266}, {15599, -5012}, {15679, -4756}, {15754, -4499}, {15826, -4240}, {15893, -3981},
    {15956, -3720}, {16015, -3459}, {16069, -3196}, {16119, -2933}, {16165, -2669}, {16207, -2404}, {16244, -2139},
    {16277, -1872}, {16305, -1606}, {16329, -1339}, {16349, -1072}, {16364, -804}, {16375, -536}, {16382, -268},
};

// The sum of two phases, both below a turn.
static inline uint16_t turned(uint16_t phase, uint16_t by) {
    uint16_t rest = TURN - by;
    return phase < rest ? phase + by : phase - rest;
}

static inline int mask_bit(const uint8_t *mask, unsigned k) { return mask[k / 8] >> k % 8 & 1; }

// Whether there is an offset for each port, and none is a turn or more.
static int offsets_fit(const uint16_t *offsets, size_t offsets_len, size_t ports) {
    if (offsets_len != ports) return 0;
    for (size_t i = 0; i < ports; i++) {
        if (offsets[i] >= TURN) return 0;
    }
    return 1;
}

// By the ports of one panel.
static uint32_t i13_values(unsigned ports, unsigned v, int half_length) {
    if (half_length) return 4;
    if (ports == 2 || v == 1 || v > 4) return 1;
    if (v == 2) return ports == 4 ? 2 : 4;
    return ports == 4 ? 1 : ports == 8 ? 3 : 4;
}

// The steps from B to the beams after it.
static const beam *steps_of(unsigned n1, unsigned n2, unsigned v, unsigned i13) {
    switch (v) {
    case 2: return (n2 == 1 ? k_two_line : n1 == n2 ? k_two_square : k_two_wide) + i13;
    case 3:
    case 4: return (n2 == 1 ? k_three_line : k_three_wide) + i13;
    case 5:
    case 6: return n2 == 1 ? k_many_line : k_six_wide;
    default: return n2 == 1 ? k_many_line : k_eight_wide;
    }
}

// A beam, reduced. Neither number reaches twice the beams of its direction.
static inline beam reduced(unsigned l, unsigned m, unsigned across, unsigned down) {
    return (beam){l < across ? l : l - across, m < down ? m : m - down};
}

// Gives the first refusal that applies, or 0 and the plan.
static uint32_t judge(const aspenflick_report *r, const uint8_t *mask, size_t mask_len, uint8_t ranks,
                      const uint16_t *offsets, size_t offsets_len, size_t room, plan *p) {
    if (r->n1 > MOST_N1 || r->n2 > MOST_N2) return 1;
    unsigned ports = ports_of[r->n2][r->n1];
    if (ports == 0) return 1;
    if (r->mode != 1 && r->mode != 2) return 2;
    int two_ports = ports == 2;
    unsigned across = two_ports ? 1 : 4 * r->n1, down = r->n2 == 1 ? 1 : 4 * r->n2;
    if (mask_len != (two_ports ? 1 : across * down / 8)) return 3;
    unsigned v = r->v;
    if (v == 0 || v > MOST_V || v > ports) return 4;
    if (!(ranks >> (v - 1) & 1)) return 5;

    int mode_two = r->mode == 2 && v <= 2 && !two_ports;
    int half_length = ports >= 16 && (v == 3 || v == 4);
    int halves_i11 = mode_two || half_length || (v >= 7 && r->n1 == 4 && r->n2 == 1);
    int halves_i12 = r->n2 > 1 && (mode_two || (v >= 7 && r->n1 > 2 && r->n2 == 2));
    if (r->i11 >= across >> halves_i11) return 6;
    if (r->i12 >= down >> halves_i12) return 7;
    if (r->i13 >= i13_values(ports, v, half_length)) return 8;
    if (r->i2 >= (v == 1 ? 4u : 2u) << (mode_two ? 2 : 0)) return 9;

    unsigned l = r->i11, m = r->i12, n = r->i2;
    if (mode_two) {
        unsigned bits = v == 1 ? 2 : 1, q = n >> bits;
        n &= (1u << bits) - 1;
        l = 2 * l + (r->n2 > 1 ? q & 1 : q);
        m = r->n2 > 1 ? 2 * m + (q >> 1) : 0;
    } else if (half_length) {
        l = 2 * l;
    }

    unsigned used = v == 1 || half_length ? 1 : v <= 4 ? 2 : v <= 6 ? 3 : 4;
    const beam *k = steps_of(r->n1, r->n2, v, r->i13);
    for (unsigned i = 0; i < used; i++) {
        beam b = i ? reduced(l + 4 * k[i - 1].l, m + 4 * k[i - 1].m, across, down) : reduced(l, m, across, down);
        unsigned bit = two_ports ? (v == 1 ? n : 4 + n) : down * b.l + b.m;
        if (!mask_bit(mask, bit)) return 10;
        p->beams[i] = b;
    }
    if (half_length) {
        // The beams of the rows before and after; before row 0 stands the last.
        unsigned before = l ? l - 1 : across - 1;
        if (!mask_bit(mask, down * before + m) || !mask_bit(mask, down * (l + 1) + m)) return 10;
        p->beams[1] = p->beams[0];
    }
    if (!offsets_fit(offsets, offsets_len, ports)) return 13;
    if (room < v * ports) return 11;

    p->ports = ports;
    p->blocks = half_length ? 4 : 2;
    p->rows = half_length ? r->n1 / 2 : r->n1;
    p->columns = r->n2;
    p->f = n * QUARTER;
    p->t = r->i13 * EIGHTH;
    return 0;
}

// The same for a multi-panel report.
static uint32_t judge_panels(const aspenflick_panel_report *r, const uint8_t *mask, size_t mask_len, uint8_t ranks,
                             const uint16_t *offsets, size_t offsets_len, size_t room, panel_plan *p) {
    if ((r->ng != 2 && r->ng != 4) || r->n1 > MOST_PANEL_N1 || r->n2 > MOST_PANEL_N2) return 1;
    unsigned ports = panel_ports_of[r->ng / 2][r->n2][r->n1];
    if (ports == 0) return 1;
    if (r->mode != 1 && (r->mode != 2 || r->ng == 4)) return 2;
    unsigned across = 4 * r->n1, down = r->n2 == 1 ? 1 : 4 * r->n2;
    if (mask_len != across * down / 8) return 3;
    unsigned v = r->v;
    if (v == 0 || v > MOST_PANEL_V) return 4;
    if (!(ranks >> (v - 1) & 1)) return 5;

    unsigned l = r->i11, m = r->i12;
    if (l >= across) return 6;
    if (m >= down) return 7;
    if (r->i13 >= i13_values(2 * r->n1 * r->n2, v, 0)) return 8;
    const uint32_t *i14 = r->i14, *i2 = r->i2;
    unsigned i14_used = r->ng == 4 ? 3 : r->mode, i2_others = r->mode == 2 ? 2 : 1;
    if (i14[0] >= 4 || i14[1] >= (i14_used > 1 ? 4u : 1u) || i14[2] >= (i14_used > 2 ? 4u : 1u)) return 12;
    if (i2[0] >= (v == 1 ? 4u : 2u) || i2[1] >= i2_others || i2[2] >= i2_others) return 9;

    p->beams[0] = (beam){l, m};
    if (!mask_bit(mask, down * l + m)) return 10;
    if (v > 1) {
        const beam *k = steps_of(r->n1, r->n2, v, r->i13);
        beam b = reduced(l + 4 * k->l, m + 4 * k->m, across, down);
        if (!mask_bit(mask, down * b.l + b.m)) return 10;
        p->beams[1] = b;
    }
    if (!offsets_fit(offsets, offsets_len, ports)) return 13;
    if (room < v * ports) return 11;

    p->ports = ports;
    p->f = i2[0] * QUARTER;
    if (r->mode == 2) {
        p->turns[0][0] = (i14[0] + i2[1]) % 4 * QUARTER;
        p->turns[0][1] = (i14[1] + i2[2] - i2[0]) % 4 * QUARTER;
    } else {
        for (unsigned g = 0; g < r->ng - 1; g++) p->turns[g][0] = p->turns[g][1] = i14[g] * QUARTER;
    }
    return 0;
}

// Writes a beam: the first row by steps of `down`, and every other row from the one before it.
static void write_beam(uint16_t *out, size_t rows, size_t columns, uint16_t across, uint16_t down) {
    uint16_t phase = 0;
    for (size_t i = 0; i < columns; i++) {
        out[i] = phase;
        phase = turned(phase, down);
    }
    for (size_t i = columns; i < rows * columns; i++) out[i] = turned(out[i - columns], across);
}

static void write_turned(uint16_t *restrict out, const uint16_t *restrict block, size_t n, uint16_t by) {
    for (size_t i = 0; i < n; i++) out[i] = turned(block[i], by);
}

// Adds the offset of each port to every layer.
static void add_offsets(uint16_t *restrict out, const uint16_t *restrict offsets, size_t ports, size_t v) {
    for (size_t j = 0; j < v; j++, out += ports) {
        for (size_t i = 0; i < ports; i++) out[i] = turned(out[i], offsets[i]);
    }
}

// Writes every layer: its first block as a beam, and the others from it.
static void write_layers(const aspenflick_report *r, const plan *p, uint16_t *out) {
    size_t size = p->rows * p->columns;
    for (size_t j = 0; j < r->v; j++, out += p->ports) {
        const column *c = &columns_of[r->v][j];
        const beam *b = &p->beams[c->place];
        write_beam(out, p->rows, p->columns, b->l * step_of[r->n1], b->m * step_of[r->n2]);
        uint16_t second = c->times_f ? turned(p->f, c->added) : c->added;
        if (p->blocks == 2) {
            write_turned(out + size, out, size, second);
        } else {
            uint16_t quarter = turned(p->t, c->place ? HALF : 0);
            write_turned(out + size, out, size, quarter);
            write_turned(out + 2 * size, out, 2 * size, second);
        }
    }
}

// Writes every layer: its first panel, and the others from it.
static void write_panels(const aspenflick_panel_report *r, const panel_plan *p, uint16_t *out) {
    size_t size = r->n1 * r->n2;
    for (size_t j = 0; j < r->v; j++) {
        const column *c = &columns_of[r->v][j];
        const beam *b = &p->beams[c->place];
        const uint16_t *panel = out;
        write_beam(out, r->n1, r->n2, b->l * step_of[r->n1], b->m * step_of[r->n2]);
        write_turned(out + size, panel, size, turned(p->f, c->added));
        out += 2 * size;
        for (size_t g = 0; g < r->ng - 1; g++, out += 2 * size) {
            const uint16_t *turns = p->turns[g];
            if (turns[0] == turns[1]) {
                write_turned(out, panel, 2 * size, turns[0]);
            } else {
                write_turned(out, panel, size, turns[0]);
                write_turned(out + size, panel + size, size, turns[1]);
            }
        }
    }
}

static aspenflick_record refused(uint32_t refusal) { return (aspenflick_record){.refusal = refusal}; }

// Names the beam of each layer, by its place among these.
static aspenflick_record accepted(uint32_t ports, uint32_t v, const beam *beams) {
    aspenflick_record record = {.ports = ports, .layers = v, .scale = v * ports};
    for (size_t j = 0; j < v; j++) {
        const beam *b = &beams[columns_of[v][j].place];
        record.beams[j] = (aspenflick_beam){b->l, b->m};
    }
    return record;
}

static void write_weights(int16_t *restrict out, const uint16_t *restrict phases, size_t n) {
    for (size_t i = 0; i < n; i++) {
        out[2 * i] = weight_of[phases[i]][0];
        out[2 * i + 1] = weight_of[phases[i]][1];
    }
}

aspenflick_record baseline_phases(aspenflick_report r, const uint8_t *mask, size_t mask_len, uint8_t ranks,
                                  const uint16_t *offsets, size_t offsets_len, uint16_t *out, size_t out_len) {
    plan p;
    uint32_t refusal = judge(&r, mask, mask_len, ranks, offsets, offsets_len, out_len, &p);
    if (refusal) return refused(refusal);
    write_layers(&r, &p, out);
    add_offsets(out, offsets, p.ports, r.v);
    return accepted(p.ports, r.v, p.beams);
}

aspenflick_record baseline_weights(aspenflick_report r, const uint8_t *mask, size_t mask_len, uint8_t ranks,
                                   const uint16_t *offsets, size_t offsets_len, int16_t *out, size_t out_len) {
    plan p;
    uint32_t refusal = judge(&r, mask, mask_len, ranks, offsets, offsets_len, out_len / 2, &p);
    if (refusal) return refused(refusal);
    uint16_t phases[MOST_ENTRIES];
    write_layers(&r, &p, phases);
    add_offsets(phases, offsets, p.ports, r.v);
    write_weights(out, phases, r.v * p.ports);
    return accepted(p.ports, r.v, p.beams);
}

aspenflick_record baseline_panel_phases(aspenflick_panel_report r, const uint8_t *mask, size_t mask_len, uint8_t ranks,
                                        const uint16_t *offsets, size_t offsets_len, uint16_t *out, size_t out_len) {
    panel_plan p;
    uint32_t refusal = judge_panels(&r, mask, mask_len, ranks, offsets, offsets_len, out_len, &p);
    if (refusal) return refused(refusal);
    write_panels(&r, &p, out);
    add_offsets(out, offsets, p.ports, r.v);
    return accepted(p.ports, r.v, p.beams);
}

aspenflick_record baseline_panel_weights(aspenflick_panel_report r, const uint8_t *mask, size_t mask_len, uint8_t ranks,
                                         const uint16_t *offsets, size_t offsets_len, int16_t *out, size_t out_len) {
    panel_plan p;
    uint32_t refusal = judge_panels(&r, mask, mask_len, ranks, offsets, offsets_len, out_len / 2, &p);
    if (refusal) return refused(refusal);
    uint16_t phases[MOST_PANEL_ENTRIES];
    write_panels(&r, &p, phases);
    add_offsets(phases, offsets, p.ports, r.v);
    write_weights(out, phases, r.v * p.ports);
    return accepted(p.ports, r.v, p.beams);
}
