/* unmatched FILE: says which clauses of the formula in FILE, encoded, can't be matched, and how many variables they name; and how
 * far the formula as a whole is from being matched.
 *
 * In this folder, once `rt lib` in crates/capi has built the library:
 *
 *     cc -std=c99 -o unmatched unmatched.c ../../crates/capi/out/libcapi.a
 *     ./unmatched ../unmatched.bin
 */
#include <stdint.h>
#include <stdio.h>
#include <stdlib.h>

#include "../../include/norwythai.h"

/* What stands where in the results. */
enum { ANSWER = 0, NUMBER = 2, PLACE = 3, CLAUSES = 4, DEFICIENCY = 4, VARIABLES = 5 };

/* The refusal whose clauses are marked. */
enum { UNMATCHED = 10 };

/* No assumptions: an address of no bytes, since the library takes no null pointer. */
static const uint8_t NOTHING[1] = {0};

static int fail(const char *why) {
    fprintf(stderr, "unmatched: %s\n", why);
    return EXIT_FAILURE;
}

static int refused(const uint64_t *results) {
    fprintf(stderr, "unmatched: refused %llu at %llu\n", (unsigned long long)results[NUMBER],
            (unsigned long long)results[PLACE]);
    return EXIT_FAILURE;
}

/* The status of a program that has printed all. */
static int printed(void) {
    return fflush(stdout) == 0 && !ferror(stdout) ? EXIT_SUCCESS : fail("the output can't be written");
}

/* Prints the deficiency of the formula, accepted or not, and gives the program's status. */
static int print_deficiency(const uint8_t *input, size_t length) {
    uint64_t results[NORWYTHAI_RESULTS];

    if (norwythai_deficiency(input, length, results, NORWYTHAI_RESULTS) != 0) {
        return fail("an array has the wrong length");
    }
    if (results[ANSWER] != NORWYTHAI_MEASURED) {
        return refused(results);
    }
    printf("deficiency %llu\n", (unsigned long long)results[DEFICIENCY]);
    return printed();
}

/* Prints the marked clauses, counted from 1, and how much they weigh, then the deficiency, and gives the program's status. */
static int print_marked(const uint8_t *input, size_t length, const uint8_t *buffer) {
    uint64_t results[NORWYTHAI_RESULTS];

    if (norwythai_weigh(input, length, NOTHING, 0, buffer, NORWYTHAI_BUFFER, results, NORWYTHAI_RESULTS) != 0) {
        return fail("an array has the wrong length");
    }
    if (results[ANSWER] != NORWYTHAI_COUNTED) {
        return refused(results);
    }
    for (int i = 0; i < NORWYTHAI_BUFFER; i++) {
        if (buffer[i] != 0) {
            printf("clause %d\n", i + 1);
        }
    }
    printf("%llu %s %llu %s\n", (unsigned long long)results[CLAUSES], results[CLAUSES] == 1 ? "clause names" : "clauses name",
           (unsigned long long)results[VARIABLES], results[VARIABLES] == 1 ? "variable" : "variables");
    return print_deficiency(input, length);
}

/* Judges the formula, and gives the program's status. */
static int print_judgement(const uint8_t *input, size_t length) {
    /* Zeros, so that nothing is marked behind the last clause's byte: those bytes stay as they are. */
    uint8_t buffer[NORWYTHAI_BUFFER] = {0};
    uint64_t results[NORWYTHAI_RESULTS];

    if (norwythai_judge(input, length, NOTHING, 0, buffer, NORWYTHAI_BUFFER, results, NORWYTHAI_RESULTS) != 0) {
        return fail("an array has the wrong length");
    }
    if (results[ANSWER] == NORWYTHAI_ACCEPTED) {
        puts("accepted");
        return print_deficiency(input, length);
    }
    if (results[NUMBER] != UNMATCHED) {
        return refused(results);
    }
    return print_marked(input, length, buffer);
}

int main(int argc, char **argv) {
    /* A formula in which no clause has a literal twice fits, and then there is a byte of room. */
    static uint8_t input[NORWYTHAI_FORMULA_BUFFER + 1];

    if (argc != 2) {
        return fail("usage: unmatched FILE");
    }
    FILE *file = fopen(argv[1], "rb");
    if (file == NULL) {
        return fail("the file can't be read");
    }
    size_t length = fread(input, 1, sizeof input, file);
    int bad = ferror(file);
    if (fclose(file) != 0 || bad) {
        return fail("the file can't be read");
    }
    if (length == sizeof input) {
        return fail("the file is too long");
    }
    return print_judgement(input, length);
}
