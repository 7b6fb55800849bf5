// work NAME ROUNDS: the works of this folder, in C. 32-bit numbers wrap. With OpenMP the rows of a work are shared out to threads.
#include <stdint.h>
#include <stdio.h>
#include <stdlib.h>
#include <string.h>

enum { SIDE = 1000, WIDE = 4096, SMALL = 200, FRONTS = 1000, LONG = 10000, BINS = 256, POINTS = 200, BOARD = 6, PLACES = 60 };

static int32_t add(int32_t a, int32_t b) { return (int32_t)((uint32_t)a + (uint32_t)b); }

static void neighbours(const int32_t *a, int32_t *b) {
#pragma omp parallel for
    for (int i = 0; i < SIDE; i++) {
        memcpy(b + i * SIDE, a + i * SIDE, sizeof(int32_t) * SIDE);
        for (int j = 1; j < SIDE - 1 && 0 < i && i < SIDE - 1; j++)
            b[i * SIDE + j] = (a[(i - 1) * SIDE + j] + a[(i + 1) * SIDE + j] + a[i * SIDE + j - 1] + a[i * SIDE + j + 1]) / 4;
    }
}

static int32_t flow(int32_t here, int32_t there) {
    int32_t d = there - here;
    return (d < -50 ? -50 : d > 50 ? 50 : d) / 5;
}

static void flows(const int32_t *a, int32_t *b) {
#pragma omp parallel for
    for (int i = 0; i < SIDE; i++) {
        memcpy(b + i * SIDE, a + i * SIDE, sizeof(int32_t) * SIDE);
        for (int j = 1; j < SIDE - 1 && 0 < i && i < SIDE - 1; j++) {
            const int32_t *m = a + i * SIDE + j;
            b[i * SIDE + j] = *m + flow(*m, m[-SIDE]) + flow(*m, m[SIDE]) + flow(*m, m[-1]) + flow(*m, m[1]);
        }
    }
}

static void life(const int32_t *a, int32_t *b) {
#pragma omp parallel for
    for (int i = 0; i < SIDE; i++) {
        memset(b + i * SIDE, 0, sizeof(int32_t) * SIDE);
        for (int j = 1; j < SIDE - 1 && 0 < i && i < SIDE - 1; j++) {
            const int32_t *m = a + i * SIDE + j;
            int32_t n = m[-SIDE - 1] + m[-SIDE] + m[-SIDE + 1] + m[-1] + m[1] + m[SIDE - 1] + m[SIDE] + m[SIDE + 1];
            b[i * SIDE + j] = n == 3 ? 1 : n == 2 ? *m : 0;
        }
    }
}

static void border(const int32_t *a, int32_t *b) {
#pragma omp parallel for
    for (int i = 0; i < SIDE; i++)
        for (int j = 0; j < SIDE; j++)
            b[i * SIDE + j] = (i > 0 ? a[i * SIDE + j] - a[(i - 1) * SIDE + j] : a[i * SIDE + j]) % 1000;
}

static void plus_one(const int32_t *a, int32_t *b) {
#pragma omp parallel for
    for (int i = 0; i < SIDE * SIDE; i++) b[i] = a[i] + 1;
}

static void chain(const int32_t *a, int32_t *b) {
    static int32_t c[SIDE * SIDE], d[SIDE * SIDE];
#pragma omp parallel for
    for (int i = 0; i < SIDE * SIDE; i++) c[i] = a[i] * 3;
#pragma omp parallel for
    for (int i = 0; i < SIDE * SIDE; i++) d[i] = c[i] + 7;
#pragma omp parallel for
    for (int i = 0; i < SIDE * SIDE; i++) b[i] = d[i] % 256;
}

static int32_t indices(int rounds) {
    static int32_t a[WIDE * WIDE];
    for (int t = 0; t < rounds; t++) {
#pragma omp parallel for
        for (int i = 0; i < WIDE; i++)
            for (int j = 0; j < WIDE; j++) a[i * WIDE + j] = i + j + t;
    }
    return a[WIDE + 1];
}

static void convolution(const int32_t *a, int32_t *b) {
    static const int32_t weights[3][3] = {{1, 2, 1}, {2, 4, 2}, {1, 2, 1}};
#pragma omp parallel for
    for (int i = 0; i < SIDE; i++) {
        memcpy(b + i * SIDE, a + i * SIDE, sizeof(int32_t) * SIDE);
        for (int j = 1; j < SIDE - 1 && 0 < i && i < SIDE - 1; j++) {
            int32_t sum = 0;
            for (int k = 0; k < 3; k++)
                for (int l = 0; l < 3; l++) sum += a[(i + k - 1) * SIDE + j + l - 1] * weights[k][l];
            b[i * SIDE + j] = sum / 16;
        }
    }
}

static int32_t product(int rounds) {
    static int32_t a[SMALL][SMALL], b[SMALL][SMALL], c[SMALL][SMALL];
    for (int i = 0; i < SMALL; i++)
        for (int j = 0; j < SMALL; j++) a[i][j] = b[i][j] = (i * 7 + j * 13) % 256;
    for (int t = 0; t < rounds; t++) {
#pragma omp parallel for
        for (int i = 0; i < SMALL; i++)
            for (int j = 0; j < SMALL; j++) {
                int32_t sum = 0;
                for (int k = 0; k < SMALL; k++) sum += a[i][k] * b[k][j];
                c[i][j] = sum % 256;
            }
        memcpy(a, c, sizeof a);
    }
    int32_t sum = 0;
    for (int i = 0; i < SMALL; i++)
        for (int j = 0; j < SMALL; j++) sum += a[i][j];
    return sum;
}

static int32_t totals(const int32_t *a, int rounds) {
    int32_t all = 0;
    for (int t = 0; t < rounds; t++) {
        uint32_t sum = 0;
#pragma omp parallel for reduction(+ : sum)
        for (int i = 0; i < SIDE * SIDE; i++) sum += (uint32_t)(a[i] * (a[i] + t) % 7);
        all = add(all, (int32_t)sum);
    }
    return all;
}

static int32_t scalars(int rounds) {
    int32_t a = 1, b = 0;
    for (int t = 0; t < rounds * 100000; t++) {
        a = (a * 5 + b) % 1000;
        b = (b + a) % 100000;
    }
    return a + b;
}

__attribute__((noipa)) static int32_t fib(int32_t n) { return n > 1 ? fib(n - 1) + fib(n - 2) : n; }

static int32_t fibs(int rounds) {
    int32_t s = 0;
    for (int t = 0; t < rounds; t++) s += fib(20) % 1000 + t;
    return s;
}

static int32_t prefix(int rounds) {
    static int32_t a[FRONTS], b[FRONTS];
    int32_t s = 0;
    for (int i = 0; i < FRONTS; i++) a[i] = i * 7 % 256;
    for (int t = 0; t < rounds; t++) {
#pragma omp parallel for
        for (int i = 0; i < FRONTS; i++) {
            int32_t sum = 0;
            for (int k = 0; k <= i; k++) sum += a[k];
            b[i] = sum % 256;
        }
        memcpy(a, b, sizeof a);
    }
    for (int i = 0; i < FRONTS; i++) s += a[i];
    return s;
}

static int32_t histogram(int rounds) {
    static int32_t a[LONG], counts[BINS];
    int32_t s = 0;
    for (int i = 0; i < LONG; i++) a[i] = i * 7 % 256;
    for (int t = 0; t < rounds; t++) {
#pragma omp parallel for
        for (int b = 0; b < BINS; b++) {
            int32_t count = 0;
            for (int i = 0; i < LONG; i++) count += a[i] == b ? 1 : 0;
            counts[b] = count;
        }
        s += counts[t % BINS];
        for (int i = 0; i < LONG; i++) a[i] = (a[i] + 1) % 256;
    }
    return s;
}

static int32_t escape(int32_t x, int32_t y, int32_t limit) {
    int32_t a = 0, b = 0, n = 0;
    while (a * a / 4096 + b * b / 4096 <= 16384 && n < limit) {
        int32_t real = a * a / 4096 - b * b / 4096 + x;
        b = 2 * a * b / 4096 + y;
        a = real;
        n++;
    }
    return n;
}

static int32_t mandelbrot(int rounds) {
    uint32_t s = 0;
    for (int t = 0; t < rounds; t++) {
#pragma omp parallel for reduction(+ : s)
        for (int i = 0; i < POINTS; i++)
            for (int j = 0; j < POINTS; j++) s += (uint32_t)escape(j * 12288 / POINTS - 8704, i * 10240 / POINTS - 5120, 50 + t % 2);
    }
    return (int32_t)s;
}

__attribute__((noipa)) static int32_t ways(const int32_t *columns, int row) {
    if (row == BOARD) return 1;
    int32_t count = 0;
    for (int column = 0; column < BOARD; column++) {
        int is_free = 1;
        for (int k = 0; k < row; k++)
            is_free = is_free && columns[k] != column && columns[k] - column != row - k && column - columns[k] != row - k;
        if (!is_free) continue;
        int32_t further[BOARD];
        memcpy(further, columns, sizeof further);
        further[row] = column;
        count += ways(further, row + 1);
    }
    return count;
}

static int32_t queens(int rounds) {
    int32_t s = 0;
    for (int t = 0; t < rounds; t++) {
        int32_t columns[BOARD] = {0};
        s += ways(columns, 0) + t % 2;
    }
    return s;
}

static int32_t paths(int rounds) {
    static int32_t a[PLACES][PLACES], b[PLACES][PLACES];
    int32_t s = 0;
    for (int i = 0; i < PLACES; i++)
        for (int j = 0; j < PLACES; j++) a[i][j] = i == j ? 0 : 1 + (i * 7 + j * 13) % 256;
    for (int t = 0; t < rounds; t++) {
#pragma omp parallel for
        for (int i = 0; i < PLACES; i++)
            for (int j = 0; j < PLACES; j++) {
                int32_t least = a[i][j];
                for (int k = 0; k < PLACES; k++) {
                    int32_t way = a[i][k] + a[k][j];
                    if (way < least) least = way;
                }
                b[i][j] = least;
            }
        memcpy(a, b, sizeof a);
    }
    for (int i = 0; i < PLACES; i++)
        for (int j = 0; j < PLACES; j++) s += a[i][j];
    return s;
}

static void total(const int32_t *a, const int32_t *b, int32_t *c) {
#pragma omp parallel for
    for (int i = 0; i < SIDE * SIDE; i++) c[i] = add(a[i], b[i]);
}

int main(int count, char **words) {
    if (count != 3) return 2;
    const char *work = words[1];
    int rounds = atoi(words[2]);
    if (!strcmp(work, "indices")) {
        printf("%d\n", rounds ? indices(rounds) : 0);
        return 0;
    }
    static const struct {
        const char *name;
        int32_t (*run)(int);
    } whole[] = {{"product", product}, {"scalars", scalars}, {"fib", fibs}, {"prefix", prefix}, {"histogram", histogram},
                 {"mandelbrot", mandelbrot}, {"queens", queens}, {"paths", paths}};
    for (size_t i = 0; i < sizeof whole / sizeof *whole; i++)
        if (!strcmp(work, whole[i].name)) {
            printf("%d\n", whole[i].run(rounds));
            return 0;
        }
    static int32_t one[SIDE * SIDE], two[SIDE * SIDE], first[SIDE * SIDE];
    int32_t *a = one, *b = two;
    int is_life = !strcmp(work, "life");
    for (int i = 0; i < SIDE; i++)
        for (int j = 0; j < SIDE; j++) a[i * SIDE + j] = is_life ? (i * 7 + j * 13) % 11 < 4 : (i * 7 + j * 13) % 256;
    if (!strcmp(work, "totals")) {
        printf("%d\n", totals(a, rounds));
        return 0;
    }
    memcpy(first, a, sizeof first);
    for (int t = 0; t < rounds; t++) {
        if (!strcmp(work, "neighbours")) neighbours(a, b);
        else if (!strcmp(work, "flows")) flows(a, b);
        else if (is_life) life(a, b);
        else if (!strcmp(work, "border")) border(a, b);
        else if (!strcmp(work, "plus_one")) plus_one(a, b);
        else if (!strcmp(work, "chain")) chain(a, b);
        else if (!strcmp(work, "convolution")) convolution(a, b);
        else total(first, a, b);
        int32_t *other = a;
        a = b;
        b = other;
    }
    int32_t sum = 0;
    for (int i = 0; i < SIDE * SIDE; i++) sum = add(sum, a[i]);
    printf("%d\n", sum);
    return 0;
}
