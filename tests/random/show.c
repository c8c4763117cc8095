/* show FILE: prints an input of the bench program as a readable schedule. */
#include "readable.h"

#include "generate.h"

#include <stdlib.h>

int main(int argc, char **argv)
{
    static uint8_t input[MAX_GENERATED];
    FILE *in;
    size_t length;

    if (argc != 2) {
        fprintf(stderr, "usage: show FILE\n");
        return 2;
    }
    in = fopen(argv[1], "rb");
    if (in == NULL) {
        perror(argv[1]);
        return 2;
    }
    length = fread(input, 1, sizeof input, in);
    fclose(in);
    readable(stdout, input, length, SIZE_MAX);
    return fflush(stdout) == 0 ? EXIT_SUCCESS : EXIT_FAILURE;
}
