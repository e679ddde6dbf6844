/* Fits a curve to the marks of a hatch's edge, checks the fit, and prints it. Build: gcc -O2 example.c libwesalondo.a -o example */
#include <stdio.h>
#include "wesalondo.h"

#define N 12

int main(void) {
    /* x and y in turn, in millimetres */
    const double marks[2 * N] = {0, 0, 50, 31, 100, 55, 150, 72, 200, 83, 250, 87, 300, 85, 350, 77, 400, 61, 450, 40, 500, 12, 550, -24};
    const double tolerance = 2;
    double curves[9 * (N - 1)], params[N];
    uint32_t firsts[N - 1], worsts[N - 1];
    size_t made, curve, mark;

    uint32_t refused = wes_fit_joined(marks, 2 * N, tolerance, curves, 9 * (N - 1), firsts, N - 1, worsts, N - 1, params, N, &made);
    if (refused != WES_OK) {
        printf("refused by %u\n", refused);
        return 1;
    }
    /* What a fit hands out is sound. The checker is for lists that were kept, moved or made elsewhere. */
    uint32_t fault = wes_check_worst(marks, 2 * N, tolerance, made, curves, 9 * made, firsts, made, worsts, made, params, N, &curve, &mark);
    if (fault != WES_OK) {
        printf("fault or refusal %u at curve %zu, mark %zu\n", fault, curve, mark);
        return 1;
    }
    printf("%d marks, %zu curves\n", N, made);
    for (size_t j = 0; j < made; j++) {
        const double *c = &curves[9 * j];
        printf("from mark %u: (%.2f, %.2f) (%.2f, %.2f) (%.2f, %.2f) (%.2f, %.2f); mark %u is %.3f off\n", firsts[j], c[0], c[1], c[2],
               c[3], c[4], c[5], c[6], c[7], worsts[j], c[8]);
    }
    return 0;
}
