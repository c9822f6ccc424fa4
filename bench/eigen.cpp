// The same job in complex floating point with Eigen, the way link-level simulators compute W: beams as vectors of
// exponentials, Kronecker products, columns by rank, one factor, a diagonal of offsets; phases and weights are then read
// off its entries.
#include "aspenflick.h"
#include <cmath>
#include <complex>
#include <vector>
#include <Eigen/Dense>
#include <unsupported/Eigen/KroneckerProduct>

using Complex = std::complex<double>;
using Eigen::MatrixXcd;
using Eigen::VectorXcd;
using Report = aspenflick_report;
using Beam = aspenflick_beam;

namespace {

const int turn = 384;

struct Setting { uint32_t n1, n2; };

const std::vector<Setting> settings = {
    {1, 1}, {2, 1}, {2, 2}, {4, 1}, {3, 2}, {6, 1}, {4, 2}, {8, 1}, {4, 3}, {6, 2}, {12, 1}, {4, 4}, {8, 2}, {16, 1},
};

uint32_t ports(const Report &r) { return 2 * r.n1 * r.n2; }
uint32_t o1(const Report &r) { return r.n1 > 1 ? 4 : 1; }
uint32_t o2(const Report &r) { return r.n2 > 1 ? 4 : 1; }
bool modeTwo(const Report &r) { return r.mode == 2 && r.v <= 2 && ports(r) > 2; }
bool halfLength(const Report &r) { return (r.v == 3 || r.v == 4) && ports(r) >= 16; }

// The steps (k1,k2) for i13, and the fixed steps of five and more layers.
std::vector<Beam> steps(const Report &r) {
    uint32_t a = o1(r), b = o2(r);
    switch (r.v) {
    case 2:
        if (ports(r) == 2) return {{0, 0}};
        if (r.n1 == 2 && r.n2 == 1) return {{0, 0}, {a, 0}};
        if (r.n2 == 1) return {{0, 0}, {a, 0}, {2 * a, 0}, {3 * a, 0}};
        if (r.n1 == r.n2) return {{0, 0}, {a, 0}, {0, b}, {a, b}};
        return {{0, 0}, {a, 0}, {0, b}, {2 * a, 0}};
    case 3:
    case 4:
        if (r.n1 == 2 && r.n2 == 1) return {{a, 0}};
        if (r.n1 == 4 && r.n2 == 1) return {{a, 0}, {2 * a, 0}, {3 * a, 0}};
        if (r.n1 == 6 && r.n2 == 1) return {{a, 0}, {2 * a, 0}, {3 * a, 0}, {4 * a, 0}};
        if (r.n1 == 2) return {{a, 0}, {0, b}, {a, b}};
        return {{a, 0}, {0, b}, {a, b}, {2 * a, 0}};
    case 5:
    case 6:
        if (r.n2 == 1) return {{a, 0}, {2 * a, 0}};
        return {{a, 0}, {a, b}};
    case 7:
    case 8:
        if (r.n2 == 1) return {{a, 0}, {2 * a, 0}, {3 * a, 0}};
        return {{a, 0}, {0, b}, {a, b}};
    }
    return {};
}

uint32_t i13Values(const Report &r) {
    if (halfLength(r)) return 4;
    return r.v >= 2 && r.v <= 4 ? steps(r).size() : 1;
}

// B, B', B'' and B''' as far as the rank uses them, reduced, and n.
std::vector<Beam> beamsOf(const Report &r, uint32_t &n) {
    uint32_t l = r.i11, m = r.i12;
    n = r.i2;
    if (modeTwo(r)) {
        uint32_t g = r.v == 1 ? 4 : 2, q = r.i2 / g;
        n = r.i2 % g;
        l = 2 * r.i11 + (r.n2 > 1 ? q % 2 : q);
        m = r.n2 > 1 ? 2 * r.i12 + q / 2 : 0;
    }
    std::vector<Beam> beams = {{l, m}};
    if (r.v >= 2 && !halfLength(r)) {
        std::vector<Beam> k = steps(r);
        if (r.v <= 4) k = {k[r.i13]};
        for (const Beam &step : k) beams.push_back({l + step.l, m + step.m});
    }
    for (Beam &b : beams) b = {b.l % (r.n1 * o1(r)), b.m % (r.n2 * o2(r))};
    return beams;
}

bool bit(const uint8_t *mask, uint32_t k) { return mask[k / 8] >> (k % 8) & 1; }

// The first refusal that applies, or 0.
uint32_t judge(const Report &r, const uint8_t *mask, size_t maskLength, uint8_t ranks, const uint16_t *offsets,
               size_t offsetsLength, size_t room) {
    bool known = false;
    for (const Setting &s : settings) known = known || (s.n1 == r.n1 && s.n2 == r.n2);
    if (!known) return 1;
    if (r.mode != 1 && r.mode != 2) return 2;
    uint32_t across = r.n1 * o1(r), down = r.n2 * o2(r);
    if (maskLength != (across * down + 7) / 8) return 3;
    if (r.v == 0 || r.v > 8 || r.v > ports(r)) return 4;
    if (!(ranks >> (r.v - 1) & 1)) return 5;
    bool halvesI11 = modeTwo(r) || halfLength(r) || (r.v >= 7 && r.n1 == 4 && r.n2 == 1);
    bool halvesI12 = (modeTwo(r) && r.n2 > 1) || (r.v >= 7 && r.n1 > 2 && r.n2 == 2);
    if (r.i11 >= (halvesI11 ? across / 2 : across)) return 6;
    if (r.i12 >= (halvesI12 ? down / 2 : down)) return 7;
    if (r.i13 >= i13Values(r)) return 8;
    if (r.i2 >= (r.v == 1 ? 4u : 2u) * (modeTwo(r) ? 4 : 1)) return 9;
    if (ports(r) == 2) {
        if (!bit(mask, r.v == 1 ? r.i2 : 4 + r.i2)) return 10;
    } else {
        uint32_t n;
        for (const Beam &b : beamsOf(r, n)) {
            uint32_t k = down * (halfLength(r) ? 2 * b.l : b.l) + b.m, all = across * down;
            if (!bit(mask, k)) return 10;
            if (halfLength(r) && !(bit(mask, (k + all - down) % all) && bit(mask, k + down))) return 10;
        }
    }
    if (offsetsLength != ports(r)) return 13;
    for (size_t i = 0; i < offsetsLength; i++) {
        if (offsets[i] >= turn) return 13;
    }
    if (room < r.v * ports(r)) return 11;
    return 0;
}

// exp(2 pi j a / period) for a = 0, step, 2 step ...
VectorXcd exponentials(uint32_t length, uint32_t step, uint32_t period) {
    VectorXcd x(length);
    for (uint32_t a = 0; a < length; a++) x(a) = std::polar(1.0, 2 * M_PI * a * step / period);
    return x;
}

VectorXcd beamVector(const Report &r, const Beam &b) {
    VectorXcd u = exponentials(r.n2, b.m, o2(r) * r.n2);
    VectorXcd x = halfLength(r) ? exponentials(r.n1 / 2, 2 * b.l, o1(r) * r.n1) : exponentials(r.n1, b.l, o1(r) * r.n1);
    return Eigen::kroneckerProduct(x, u);
}

// A beam and its vector.
struct Direction { Beam pair; VectorXcd vector; };

// The precoder of an accepted report, P by v. Names the beam of each layer in the record.
MatrixXcd precoder(const Report &r, aspenflick_record &record) {
    uint32_t n;
    std::vector<Direction> x;
    for (const Beam &b : beamsOf(r, n)) x.push_back({b, beamVector(r, b)});
    Complex f = std::polar(1.0, M_PI / 2 * n), one = 1.0;
    MatrixXcd w(ports(r), r.v);
    auto column = [&](int j, const Direction &d, Complex c) {
        w.col(j) << d.vector, c * d.vector;
        record.beams[j] = d.pair;
    };
    if (halfLength(r)) {
        Complex t = std::polar(1.0, M_PI / 4 * r.i13);
        const VectorXcd &h = x[0].vector;
        for (uint32_t j = 0; j < r.v; j++) record.beams[j] = {2 * x[0].pair.l, x[0].pair.m};
        w.col(0) << h, t * h, f * h, f * t * h;
        w.col(1) << h, -t * h, f * h, -f * t * h;
        w.col(2) << h, t * h, -f * h, -f * t * h;
        if (r.v == 4) w.col(3) << h, -t * h, -f * h, f * t * h;
        return w / std::sqrt(double(r.v * ports(r)));
    }
    switch (r.v) {
    case 1:
        column(0, x[0], f);
        break;
    case 2:
        column(0, x[0], f), column(1, x[1], -f);
        break;
    case 3:
        column(0, x[0], f), column(1, x[1], f), column(2, x[0], -f);
        break;
    case 4:
        column(0, x[0], f), column(1, x[1], f), column(2, x[0], -f), column(3, x[1], -f);
        break;
    case 5:
        column(0, x[0], f), column(1, x[0], -f), column(2, x[1], one), column(3, x[1], -one), column(4, x[2], one);
        break;
    case 6:
        column(0, x[0], f), column(1, x[0], -f), column(2, x[1], f), column(3, x[1], -f);
        column(4, x[2], one), column(5, x[2], -one);
        break;
    case 7:
        column(0, x[0], f), column(1, x[0], -f), column(2, x[1], f);
        column(3, x[2], one), column(4, x[2], -one), column(5, x[3], one), column(6, x[3], -one);
        break;
    case 8:
        column(0, x[0], f), column(1, x[0], -f), column(2, x[1], f), column(3, x[1], -f);
        column(4, x[2], one), column(5, x[2], -one), column(6, x[3], one), column(7, x[3], -one);
        break;
    }
    return w / std::sqrt(double(r.v * ports(r)));
}

// The precoder behind the feed cables: each port is turned by its offset.
MatrixXcd behindCables(const MatrixXcd &w, const uint16_t *offsets) {
    VectorXcd cables(w.rows());
    for (Eigen::Index i = 0; i < w.rows(); i++) cables(i) = std::polar(1.0, 2 * M_PI * offsets[i] / turn);
    return cables.asDiagonal() * w;
}

aspenflick_record refused(uint32_t refusal) { return {refusal, 0, 0, 0, {}}; }
aspenflick_record accepted(const Report &r) { return {0, ports(r), r.v, r.v * ports(r), {}}; }

} // namespace

extern "C" aspenflick_record eigen_phases(aspenflick_report r, const uint8_t *mask, size_t mask_len, uint8_t ranks,
                                          const uint16_t *offsets, size_t offsets_len, uint16_t *out, size_t out_len) {
    uint32_t refusal = judge(r, mask, mask_len, ranks, offsets, offsets_len, out_len);
    if (refusal != 0) return refused(refusal);
    aspenflick_record record = accepted(r);
    MatrixXcd w = behindCables(precoder(r, record), offsets);
    for (Eigen::Index j = 0; j < w.cols(); j++) {
        for (Eigen::Index i = 0; i < w.rows(); i++) {
            long phase = std::lround(std::arg(w(i, j)) * turn / (2 * M_PI));
            *out++ = (phase + turn) % turn;
        }
    }
    return record;
}

extern "C" aspenflick_record eigen_weights(aspenflick_report r, const uint8_t *mask, size_t mask_len, uint8_t ranks,
                                           const uint16_t *offsets, size_t offsets_len, int16_t *out, size_t out_len) {
    uint32_t refusal = judge(r, mask, mask_len, ranks, offsets, offsets_len, out_len / 2);
    if (refusal != 0) return refused(refusal);
    aspenflick_record record = accepted(r);
    MatrixXcd w = behindCables(precoder(r, record), offsets) * (16384 * std::sqrt(double(r.v * ports(r))));
    for (Eigen::Index j = 0; j < w.cols(); j++) {
        for (Eigen::Index i = 0; i < w.rows(); i++) {
            *out++ = std::lround(w(i, j).real());
            *out++ = std::lround(w(i, j).imag());
        }
    }
    return record;
}
