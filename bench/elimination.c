/* Times FLINT's reduced echelon form (nmod_mat_rref) of the 2m relations between the m symbols of a level,
   modulo 65521, as a dense matrix: elimination LEVEL prints m, the rank and the milliseconds of the best of
   three runs. Points are found by trying all units, apart from the program's own tables. */
#include <flint/flint.h>
#include <flint/nmod_mat.h>
#include <stdio.h>
#include <stdlib.h>
#include <time.h>

static long level;

static long gcd(long a, long b) {
    while (b) {
        long r = a % b;
        a = b;
        b = r;
    }
    return a;
}

/* the least place u * level + v of the pairs that name the point */
static long normal(long u, long v) {
    long best = level * level;
    u = ((u % level) + level) % level;
    v = ((v % level) + level) % level;
    for (long s = 0; s < level; s++) {
        if (gcd(s, level) != 1) continue;
        long place = (s * u % level) * level + s * v % level;
        if (place < best) best = place;
    }
    return best;
}

int main(int argc, char **argv) {
    if (argc != 2) return 2;
    level = atol(argv[1]);
    long *number = malloc(sizeof(long) * level * level), *symbols = malloc(sizeof(long) * level * level), m = 0;
    for (long place = 0; place < level * level; place++) {
        long u = place / level, v = place % level;
        number[place] = -1;
        if (gcd(gcd(u, v), level) == 1 && normal(u, v) == place) {
            number[place] = m;
            symbols[m++] = place;
        }
    }
    nmod_mat_t relations, work;
    nmod_mat_init(relations, 2 * m, m, 65521);
    nmod_mat_init(work, 2 * m, m, 65521);
    for (long k = 0; k < m; k++) {
        long u = symbols[k] / level, v = symbols[k] % level;
        long s = number[normal(v, -u)], t = number[normal(v, -u - v)], tt = number[normal(-u - v, u)];
        nmod_mat_entry(relations, k, k) += 1;
        nmod_mat_entry(relations, k, s) += 1;
        nmod_mat_entry(relations, m + k, k) += 1;
        nmod_mat_entry(relations, m + k, t) += 1;
        nmod_mat_entry(relations, m + k, tt) += 1;
    }
    double best = 1e9;
    long rank = 0;
    for (int run = 0; run < 3; run++) {
        struct timespec from, to;
        nmod_mat_set(work, relations);
        clock_gettime(CLOCK_MONOTONIC, &from);
        rank = nmod_mat_rref(work);
        clock_gettime(CLOCK_MONOTONIC, &to);
        double took = 1e3 * (to.tv_sec - from.tv_sec) + 1e-6 * (to.tv_nsec - from.tv_nsec);
        if (took < best) best = took;
    }
    printf("%ld %ld %.1f\n", m, rank, best);
    return 0;
}
