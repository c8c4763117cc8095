/* The second program: standard input in, document 01's text out. */
#include "bench.h"

#include <stdlib.h>

int main(void)
{
    static uint8_t input[MAX_INPUT];
    /* fread goes on over short pieces until the buffer is full or input ends */
    size_t length = fread(input, 1, sizeof input, stdin);

    /* More can't change the answer; read on so the writer isn't cut off. */
    while (getchar() != EOF)
        continue;
    if (ferror(stdin)) {
        perror("second: standard input");
        return EXIT_FAILURE;
    }

    bench_print(stdout, input, length);
    if (fflush(stdout) != 0) {
        perror("second: standard output");
        return EXIT_FAILURE;
    }
    return EXIT_SUCCESS;
}
