/* The row of a case in doubles, after the formulas of documents 01 and 02: rounded, and with nothing to say by how much. */
#include "cases.h"
#include <math.h>

static const double pi = 3.14159265358979323846;

/* hundredths, by the number of the metal */
static const int kf[12] = {0, 700, 706, 1178, 1045, 1206, 1464, 1726, 1839, 1472, 2896, 3005};

struct yard {
    double lx, ly, lc, lr, n, root_of_area;
};

static struct yard yard_of(const int *v) {
    struct yard y;
    double d = v[SPACE] / 1000.0;
    y.lx = (v[ACROSS] - 1) * d;
    y.ly = (v[ALONG] - 1) * d;
    y.lc = v[ACROSS] * y.ly + v[ALONG] * y.lx;
    y.lr = v[RODS] * (v[RODLEN] / 1000.0);
    y.root_of_area = sqrt(y.lx * y.ly);
    double lp = 2 * (y.lx + y.ly);
    y.n = v[ACROSS] == v[ALONG] ? v[ACROSS] : 2 * y.lc / lp * sqrt(lp / (4 * y.root_of_area));
    return y;
}

static double decrement_factor(const int *v) {
    double ta = v[XR] / (2 * pi * v[HZ]), tf = v[CLEAR] / 1000.0;
    return sqrt(1 + ta / tf * (1 - exp(-2 * tf / ta)));
}

/* volts */
static double tolerable(const int *v, double weight) {
    double q = v[SOIL];
    if (v[LAYER] != 0)
        q = v[LAYER] - 0.09 * (v[LAYER] - v[SOIL]) / (2 * (v[THICK] / 1000.0) + 0.09);
    return (1000 + weight * q) * (v[BODY] == 50 ? 0.116 : 0.157) / sqrt(v[SHOCK] / 1000.0);
}

static double mesh_factor(const int *v, const struct yard *y) {
    double space = v[SPACE] / 1000.0, h = v[DEPTH] / 1000.0, dia = v[DIA] / 10000.0;
    double g = space * space / (16 * h * dia) + (space + 2 * h) * (space + 2 * h) / (8 * space * dia) - h / (4 * dia);
    double kii = v[PLACE] == 1 ? 1 : pow(2 * y->n, -2 / y->n);
    return (log(g) + kii / sqrt(1 + h) * log(8 / (pi * (2 * y->n - 1)))) / (2 * pi);
}

static double mesh_length(const int *v, const struct yard *y) {
    if (v[PLACE] != 1)
        return y->lc + y->lr;
    return y->lc + (1.55 + 1.22 * (v[RODLEN] / 1000.0) / sqrt(y->lx * y->lx + y->ly * y->ly)) * y->lr;
}

static double step_factor(const int *v, const struct yard *y) {
    double space = v[SPACE] / 1000.0, h = v[DEPTH] / 1000.0;
    return (1 / (2 * h) + 1 / (space + h) + (1 - pow(0.5, y->n - 2)) / space) / pi;
}

static double resistance(const int *v, const struct yard *y) {
    double s = y->root_of_area, h = v[DEPTH] / 1000.0, root = sqrt(20);
    return v[SOIL] * (1 / (y->lc + y->lr) + (1 + 1 / (1 + h * root / s)) / (root * s));
}

struct row_in_doubles row_of(const struct grounding_case *c) {
    const int *v = c->value;
    struct yard y = yard_of(v);
    struct row_in_doubles r;
    double *q = r.quantity;
    double df = decrement_factor(v), current = v[FAULT] * (v[SPLIT] / 1000.0) * df;
    double drive = v[SOIL] * (0.644 + 0.148 * y.n) * current;
    q[CURRENT] = 1e6 * current;
    q[FACTOR] = 1e9 * df;
    q[TOUCH] = 1000 * tolerable(v, 1.5);
    q[TOLERABLE_STEP] = 1000 * tolerable(v, 6);
    q[MESH] = 1000 * drive * mesh_factor(v, &y) / mesh_length(v, &y);
    q[STEP] = 1000 * drive * step_factor(v, &y) / (0.75 * y.lc + 0.85 * y.lr);
    q[RESISTANCE] = 1e6 * resistance(v, &y);
    q[RISE] = 1000 * current * (q[RESISTANCE] / 1e6);
    r.kcmil = ceil(v[FAULT] / 1000.0 * df * (kf[v[METAL]] / 100.0) * sqrt(v[WIRE] / 1000.0));
    r.verdict = q[MESH] <= q[TOUCH] && q[STEP] <= q[TOLERABLE_STEP] ? 1 : 2;
    return r;
}
