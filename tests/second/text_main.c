/*
 * The second program for text: standard input in, with the one argument `import`
 * or `export`.  As the proved program it ends with status 0 where the input is
 * refused; the refusal goes to standard error.
 */
#include "text.h"

#include <stdlib.h>
#include <string.h>

enum { MAX_READ = 262143 }; /* more than any text or schedule that is taken */

/* Reads on past the room, so that the writer isn't cut off; gives MAX_READ + 1 then. */
static size_t read_input(uint8_t *input)
{
    size_t length = fread(input, 1, MAX_READ + 1, stdin);

    while (getchar() != EOF)
        continue;
    if (ferror(stdin)) {
        perror("second_text: standard input");
        exit(EXIT_FAILURE);
    }
    return length;
}

int main(int argc, char **argv)
{
    static uint8_t input[MAX_READ + 1], output[MAX_LINE * MAX_LINES];
    const char *direction = argc == 2 ? argv[1] : "";
    bool import = strcmp(direction, "import") == 0;
    uint32_t refusal;
    size_t written = 0;

    if (!import && strcmp(direction, "export") != 0) {
        fprintf(stderr, "usage: second_text import|export <INPUT >OUTPUT\n");
        return 0;
    }

    size_t length = read_input(input);

    refusal = (import ? text_import : text_export)(input, length, output,
                                                   sizeof output, &written);
    /* with newlines in what isn't kept any other refusal could become TOO_LONG */
    if (import && length > MAX_READ && refusal != TOO_LONG)
        fprintf(stderr, "import: more than %d bytes\n", MAX_READ);
    else if (refusal != 0)
        fprintf(stderr, "%s %lu\n", direction, (unsigned long)refusal);
    if (fwrite(output, 1, written, stdout) != written || fflush(stdout) != 0) {
        perror("second_text: standard output");
        return EXIT_FAILURE;
    }
    return EXIT_SUCCESS;
}
