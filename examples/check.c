/* A host in C: says of each file that is named whether it is a definition. */
#include <stdio.h>
#include <stdlib.h>

#include "jirvelko.h"

/* Larger than every definition; a byte more than fits is refused as any other. */
static uint8_t bytes[65536];

int main(int count, char **files) {
    int refused = 0;
    for (int i = 1; i < count; i++) {
        FILE *file = fopen(files[i], "rb");
        if (file == NULL) {
            perror(files[i]);
            return EXIT_FAILURE;
        }
        size_t length = fread(bytes, 1, sizeof bytes, file);
        fclose(file);

        jirvelko_verdict verdict = jirvelko_check_definition(bytes, length);
        if (verdict.cause == 0) {
            printf("%s: accepted\n", files[i]);
        } else {
            printf("%s: refused, cause %u, place %u\n", files[i], verdict.cause, verdict.place);
            refused++;
        }
    }
    printf("%d of %d refused\n", refused, count - 1);
    return EXIT_SUCCESS;
}
