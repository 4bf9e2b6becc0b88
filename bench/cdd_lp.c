/* One linear program by cddlib's exact dual simplex method (dd_LPSolve), for which its packages have no command: reads a file
   with inequalities and a line "maximize" from standard input, and writes the greatest value.
   gcc -O2 -o cdd_lp cdd_lp.c -I/usr/include/cdd -lcddgmp -lgmp */
#ifndef GMPRATIONAL
#define GMPRATIONAL
#endif
#include <setoper.h>
#include <cdd.h>
#include <stdio.h>

static int fails(dd_ErrorType error) {
    if (error != dd_NoError) printf("error %d\n", error);
    return error != dd_NoError;
}

int main(void) {
    dd_ErrorType error = dd_NoError;
    dd_set_global_constants();
    dd_MatrixPtr rows = dd_PolyFile2Matrix(stdin, &error);
    if (fails(error)) return 1;
    dd_LPPtr program = dd_Matrix2LP(rows, &error);
    if (fails(error)) return 1;
    dd_LPSolve(program, dd_DualSimplex, &error);
    if (fails(error)) return 1;
    switch (program->LPS) {
    case dd_Optimal:
        printf("optimal ");
        dd_WriteNumber(stdout, program->optvalue);
        printf("\n");
        return 0;
    case dd_Inconsistent:
    case dd_StrucInconsistent:
        printf("infeasible\n");
        return 0;
    case dd_DualInconsistent:
    case dd_StrucDualInconsistent:
    case dd_Unbounded:
    case dd_DualUnbounded:
        printf("unbounded\n");
        return 0;
    default:
        printf("undecided\n");
        return 1;
    }
}
