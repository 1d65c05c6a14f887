/* Holds the library against the second implementation.
 *   against [-v] [SEED]     -v prints how often each number, phase and stage was met */
#include <stdio.h>
#include <stdlib.h>
#include <string.h>

#include "cases.h"

int main(int argc, char **argv) {
    bool verbose = argc > 1 && strcmp(argv[1], "-v") == 0;
    int next = verbose ? 2 : 1;
    char *rest = "";
    uint64_t seed = argc > next ? strtoull(argv[next], &rest, 10) : 28001;
    if (argc > next + 1 || *rest != '\0') {
        puts("usage: against [-v] [SEED], the seed a whole number");
        return 2;
    }
    setvbuf(stdout, NULL, _IOLBF, 0);
    seed_with(seed);
    parts();
    cards();
    stack(verbose);
    every_word();
    wears_long();
    for (int round = 0; round < 20; round++) {
        files(1000);
        cycles(250, 4000);
        steps(20, 10, 3000);
        loads(1000);
        readings(500);
        knots(2000);
        wears(1000);
        recordings(200);
        stores(40);
        helds(300, 15, 1500);
    }
    endless();
    return closing(seed, verbose);
}
