/* batches FILE SIZE: prints the models of the formula in FILE, in batches of SIZE models: a digit for each variable, or a dash if no
 * clause names it. The file has DIMACS text if its name ends in .cnf, else the encoded formula.
 *
 * In this folder, once `rt lib` in crates/capi has built the library:
 *
 *     cc -std=c99 -o batches batches.c ../../crates/capi/out/libcapi.a
 *     ./batches ../velodrome.cnf 10
 */
#include <stdint.h>
#include <stdio.h>
#include <stdlib.h>
#include <string.h>

#include "../../include/norwythai.h"

enum { BATCH_MOST = 1000 };

/* What stands where in the results. */
enum { ANSWER = 0, NUMBER = 2, PLACE = 3, VARIABLES = 4, WRITTEN = 4 };

/* No assumptions: an address of no bytes, since the library takes no null pointer. */
static const uint8_t NOTHING[1] = {0};

static int fail(const char *why) {
    fprintf(stderr, "batches: %s\n", why);
    return EXIT_FAILURE;
}

static int refused(const uint64_t *results) {
    fprintf(stderr, "batches: refused %llu at %llu\n", (unsigned long long)results[NUMBER],
            (unsigned long long)results[PLACE]);
    return EXIT_FAILURE;
}

/* Reads a whole file, of any length, into memory that the caller frees. Returns null if that could not be done. An empty file has an
   address, too: the library takes no null pointer. */
static uint8_t *read_input(const char *name, size_t *length) {
    FILE *file = fopen(name, "rb");
    if (file == NULL) {
        return NULL;
    }
    uint8_t *input = NULL;
    size_t room = 0;
    *length = 0;
    while (*length == room) {
        uint8_t *larger = realloc(input, 2 * room + 4096);
        if (larger == NULL) {
            break;
        }
        input = larger;
        room = 2 * room + 4096;
        *length += fread(input + *length, 1, room - *length, file);
    }
    int bad = *length == room || ferror(file); /* no more room, or a failed read */
    if (fclose(file) != 0 || bad) {
        free(input);
        return NULL;
    }
    return input;
}

/* The variables that some clause names, as an assignment has those that are true. The formula is readable, as judge has found. */
static uint64_t named_variables(const uint8_t *input) {
    uint64_t named = 0;
    size_t at = 2;
    while (input[at] != 5) {
        if (input[at] == 4) {
            at += 1;
        } else {
            named |= (uint64_t)1 << (input[at + 1] - 1);
            at += 2;
        }
    }
    return named;
}

/* Prints a model, variable 1 first. Returns 0 if that could be done. */
static int print_model(uint64_t model, uint64_t variables, uint64_t named) {
    for (uint64_t v = 0; v < variables; v++) {
        int column = (model >> v & 1) != 0 ? '1' : '0';
        if (putchar((named >> v & 1) != 0 ? column : '-') == EOF) {
            return 1;
        }
    }
    return putchar('\n') == EOF;
}

/* Prints all models in batches of so many, and gives the program's status. */
static int print_batches(const uint8_t *input, size_t length, size_t size) {
    static uint64_t models[BATCH_MOST];
    uint8_t buffer[NORWYTHAI_BUFFER], checkpoint[NORWYTHAI_CHECKPOINT];
    uint64_t results[NORWYTHAI_RESULTS];

    /* Whether the formula is accepted, and how many variables it has. */
    if (norwythai_judge(input, length, NOTHING, 0, buffer, NORWYTHAI_BUFFER, results, NORWYTHAI_RESULTS) != 0) {
        return fail("an array has the wrong length");
    }
    if (results[ANSWER] != NORWYTHAI_ACCEPTED) {
        return refused(results);
    }
    uint64_t variables = results[VARIABLES], named = named_variables(input);

    if (norwythai_start(checkpoint, NORWYTHAI_CHECKPOINT) != 0) {
        return fail("an array has the wrong length");
    }
    for (unsigned long batch = 1;; batch++) {
        /* The checkpoint is all that goes from one batch to the next: it may be kept, sent and brought back in between. */
        if (norwythai_list(input, length, NOTHING, 0, checkpoint, NORWYTHAI_CHECKPOINT, models, size, results,
                           NORWYTHAI_RESULTS) != 0) {
            return fail("an array has the wrong length");
        }
        if (results[ANSWER] == NORWYTHAI_REFUSED) {
            return refused(results);
        }
        if (results[WRITTEN] > 0 && printf("batch %lu\n", batch) < 0) {
            return fail("the output can't be written");
        }
        for (uint64_t i = 0; i < results[WRITTEN]; i++) {
            if (print_model(models[i], variables, named) != 0) {
                return fail("the output can't be written");
            }
        }
        if (results[ANSWER] == NORWYTHAI_ENDED) {
            break;
        }
    }
    return fflush(stdout) == 0 ? EXIT_SUCCESS : fail("the output can't be written");
}

/* The same of a DIMACS text. */
static int print_text_batches(const uint8_t *text, size_t length, size_t size) {
    static uint8_t formula[NORWYTHAI_FORMULA_BUFFER];
    uint64_t results[NORWYTHAI_RESULTS];

    if (norwythai_from_dimacs(text, length, formula, NORWYTHAI_FORMULA_BUFFER, results, NORWYTHAI_RESULTS) != 0) {
        return fail("an array has the wrong length");
    }
    if (results[ANSWER] != NORWYTHAI_WRITTEN) {
        return refused(results);
    }
    return print_batches(formula, (size_t)results[WRITTEN], size);
}

static int ends_in(const char *name, const char *end) {
    size_t length = strlen(name), end_length = strlen(end);
    return length >= end_length && strcmp(name + length - end_length, end) == 0;
}

int main(int argc, char **argv) {
    long size = argc == 3 ? strtol(argv[2], NULL, 10) : 0;
    if (size < 1 || size > BATCH_MOST) {
        return fail("usage: batches FILE SIZE, with a size of 1 to 1000");
    }
    size_t length;
    uint8_t *input = read_input(argv[1], &length);
    if (input == NULL) {
        return fail("the file can't be read");
    }
    int is_text = ends_in(argv[1], ".cnf");
    int status = is_text ? print_text_batches(input, length, (size_t)size) : print_batches(input, length, (size_t)size);
    free(input);
    return status;
}
