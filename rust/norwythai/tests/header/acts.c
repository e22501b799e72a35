/* Every function with every kind of answer, as the header says it. Reads as C and as C++. */
#include "norwythai.h"

#include <stdio.h>
#include <string.h>

#define REQUIRE(condition)                                        \
    do {                                                          \
        if (!(condition)) {                                       \
            fprintf(stderr, "line %d: " #condition "\n", __LINE__); \
            return 1;                                             \
        }                                                         \
    } while (0)

/* Two variables, of which exactly one is true. */
static const uint8_t INPUT[] = {1, 2, 2, 1, 2, 2, 4, 3, 1, 3, 2, 4, 5};

/* One variable, and two clauses, (1) and (not 1): stripping drops neither. */
static const uint8_t UNMATCHED[] = {1, 1, 2, 1, 4, 3, 1, 4, 5};

/* A literal that comes again, which counts once, and a variable that is named both ways. */
static const uint8_t REPEATED[] = {1, 2, 2, 1, 2, 2, 2, 1, 4, 3, 1, 3, 1, 3, 2, 4, 5};
static const uint8_t BOTH_WAYS[] = {1, 2, 2, 1, 2, 1, 3, 1, 4, 5};

static int test_check(void) {
    const uint8_t byte = 0;
    uint64_t results[NORWYTHAI_RESULTS];

    REQUIRE(norwythai_check(INPUT, sizeof INPUT, 1, results, NORWYTHAI_RESULTS) == 0);
    REQUIRE(results[0] == NORWYTHAI_YES);
    REQUIRE(norwythai_check(INPUT, sizeof INPUT, 3, results, NORWYTHAI_RESULTS) == 0);
    REQUIRE(results[0] == NORWYTHAI_NO);
    REQUIRE(norwythai_check(INPUT, sizeof INPUT, 4, results, NORWYTHAI_RESULTS) == 0);
    REQUIRE(results[0] == NORWYTHAI_REFUSED && results[2] == 12 && results[3] == 0);
    REQUIRE(norwythai_check(&byte, 0, 0, results, NORWYTHAI_RESULTS) == 0);
    REQUIRE(results[0] == NORWYTHAI_REFUSED && results[2] == 2 && results[3] == 0);
    REQUIRE(norwythai_check(REPEATED, sizeof REPEATED, 1, results, NORWYTHAI_RESULTS) == 0);
    REQUIRE(results[0] == NORWYTHAI_YES);
    REQUIRE(norwythai_check(BOTH_WAYS, sizeof BOTH_WAYS, 1, results, NORWYTHAI_RESULTS) == 0);
    REQUIRE(results[0] == NORWYTHAI_REFUSED && results[2] == 7 && results[3] == 6);
    return 0;
}

static int test_judge(void) {
    const uint8_t byte = 0;
    uint8_t buffer[NORWYTHAI_BUFFER];
    uint64_t results[NORWYTHAI_RESULTS];

    REQUIRE(norwythai_judge(INPUT, sizeof INPUT, &byte, 0, buffer, sizeof buffer, results, NORWYTHAI_RESULTS) == 0);
    REQUIRE(results[0] == NORWYTHAI_ACCEPTED && results[4] == 2 && results[5] == 2);
    REQUIRE(buffer[0] == 1 && buffer[1] == 2);
    REQUIRE(norwythai_judge(UNMATCHED, sizeof UNMATCHED, &byte, 0, buffer, sizeof buffer, results, NORWYTHAI_RESULTS) == 0);
    REQUIRE(results[0] == NORWYTHAI_REFUSED && results[2] == 10 && results[3] == 2);
    REQUIRE(norwythai_judge(INPUT, sizeof INPUT, &byte, 0, buffer, 0, results, NORWYTHAI_RESULTS) == 0);
    REQUIRE(results[0] == NORWYTHAI_REFUSED && results[2] == 1);
    return 0;
}

/* Four clauses over three variables: stripping notes variable 1 and drops the first two. */
static const uint8_t STRIPPED[] = {1, 3, 2, 1, 4, 2, 1, 4, 2, 2, 2, 3, 4, 3, 2, 3, 3, 4, 5};

/* Stripping drops the first two clauses, and the others, (1) and (not 1), are left. */
static const uint8_t LEFT_UNMATCHED[] = {1, 3, 2, 2, 4, 2, 2, 4, 2, 1, 4, 3, 1, 4, 5};

static int test_judge_by_stripping(void) {
    static const uint8_t SECOND_TRUE[] = {2, 1};
    static const uint8_t ROW[] = {NORWYTHAI_DROPPED + 1, NORWYTHAI_DROPPED + 1, 2, 3, 7};
    static const uint8_t ROW_UNDER[] = {NORWYTHAI_DROPPED + 1, NORWYTHAI_DROPPED + 1, 0, NORWYTHAI_DROPPED + 3, 7};
    static const uint8_t MARKS[] = {0, 0, 1, 1, 7};
    const uint8_t byte = 0;
    uint8_t buffer[NORWYTHAI_BUFFER];
    uint64_t results[NORWYTHAI_RESULTS];

    memset(buffer, 7, sizeof buffer);
    REQUIRE(norwythai_judge(STRIPPED, sizeof STRIPPED, &byte, 0, buffer, sizeof buffer, results, NORWYTHAI_RESULTS) == 0);
    REQUIRE(results[0] == NORWYTHAI_ACCEPTED && results[4] == 3 && results[5] == 4);
    REQUIRE(memcmp(buffer, ROW, sizeof ROW) == 0);
    REQUIRE(norwythai_judge(STRIPPED, sizeof STRIPPED, SECOND_TRUE, 2, buffer, sizeof buffer, results, NORWYTHAI_RESULTS) == 0);
    REQUIRE(results[0] == NORWYTHAI_ACCEPTED && memcmp(buffer, ROW_UNDER, sizeof ROW_UNDER) == 0);
    REQUIRE(norwythai_judge(LEFT_UNMATCHED, sizeof LEFT_UNMATCHED, &byte, 0, buffer, sizeof buffer, results,
                            NORWYTHAI_RESULTS) == 0);
    REQUIRE(results[0] == NORWYTHAI_REFUSED && results[2] == 10 && results[3] == 2 && results[4] == 0);
    REQUIRE(memcmp(buffer, MARKS, sizeof MARKS) == 0);
    /* The older name. */
    REQUIRE(NORWYTHAI_MATCHED == NORWYTHAI_ACCEPTED);
    return 0;
}

static int test_list_by_stripping(void) {
    const uint8_t byte = 0;
    uint8_t checkpoint[NORWYTHAI_CHECKPOINT];
    uint64_t models[3] = {7, 7, 7}, results[NORWYTHAI_RESULTS];

    REQUIRE(norwythai_start(checkpoint, sizeof checkpoint) == 0);
    REQUIRE(norwythai_walk(STRIPPED, sizeof STRIPPED, &byte, 0, checkpoint, sizeof checkpoint, 96, results, NORWYTHAI_RESULTS) == 0);
    REQUIRE(results[0] == NORWYTHAI_MODEL && results[1] == 5 && results[4] == 3 && results[5] == 2);
    REQUIRE(norwythai_list(STRIPPED, sizeof STRIPPED, &byte, 0, checkpoint, sizeof checkpoint, models, 3, results,
                           NORWYTHAI_RESULTS) == 0);
    REQUIRE(results[0] == NORWYTHAI_ENDED && results[4] == 1 && models[0] == 3 && models[1] == 7);
    REQUIRE(norwythai_list(LEFT_UNMATCHED, sizeof LEFT_UNMATCHED, &byte, 0, checkpoint, sizeof checkpoint, models, 3, results,
                           NORWYTHAI_RESULTS) == 0);
    REQUIRE(results[0] == NORWYTHAI_REFUSED && results[2] == 10 && results[3] == 2);
    return 0;
}

/* Variable 1 true and false, both true, and variable 2 twice. Any byte but 0 is true. */
static const uint8_t FIRST_TRUE[] = {1, 1};
static const uint8_t FIRST_FALSE[] = {1, 0};
static const uint8_t BOTH_TRUE[] = {2, 255, 1, 2};
static const uint8_t TWICE[] = {2, 1, 2, 1};

static int test_judge_under_assumptions(void) {
    uint8_t buffer[NORWYTHAI_BUFFER];
    uint64_t results[NORWYTHAI_RESULTS];

    memset(buffer, 7, sizeof buffer);
    REQUIRE(norwythai_judge(INPUT, sizeof INPUT, TWICE, 4, buffer, sizeof buffer, results, NORWYTHAI_RESULTS) == 0);
    REQUIRE(results[0] == NORWYTHAI_REFUSED && results[2] == 16 && results[3] == 1);
    REQUIRE(buffer[0] == 7 && buffer[1] == 7);
    REQUIRE(norwythai_judge(INPUT, sizeof INPUT, FIRST_TRUE, 2, buffer, sizeof buffer, results, NORWYTHAI_RESULTS) == 0);
    REQUIRE(results[0] == NORWYTHAI_ACCEPTED && results[4] == 2 && results[5] == 2);
    REQUIRE(buffer[0] == 0 && buffer[1] == 2 && buffer[2] == 7);
    REQUIRE(norwythai_judge(INPUT, sizeof INPUT, FIRST_FALSE, 2, buffer, sizeof buffer, results, NORWYTHAI_RESULTS) == 0);
    REQUIRE(results[0] == NORWYTHAI_ACCEPTED && buffer[0] == 2 && buffer[1] == 0);
    REQUIRE(norwythai_judge(INPUT, sizeof INPUT, BOTH_TRUE, 4, buffer, sizeof buffer, results, NORWYTHAI_RESULTS) == 0);
    REQUIRE(results[0] == NORWYTHAI_REFUSED && results[2] == 10 && results[3] == 1);
    REQUIRE(buffer[0] == 0 && buffer[1] == 1 && buffer[2] == 7);
    return 0;
}

static int test_weigh(void) {
    const uint8_t byte = 0;
    uint8_t buffer[NORWYTHAI_BUFFER];
    uint64_t results[NORWYTHAI_RESULTS];

    /* What judge marks: of the clauses (1) and (not 1) the one variable; of the empty clause that is left of (not 1, not 2) none. */
    memset(buffer, 7, sizeof buffer);
    REQUIRE(norwythai_judge(LEFT_UNMATCHED, sizeof LEFT_UNMATCHED, &byte, 0, buffer, sizeof buffer, results,
                            NORWYTHAI_RESULTS) == 0);
    REQUIRE(results[2] == 10 && results[3] == 2);
    REQUIRE(norwythai_weigh(LEFT_UNMATCHED, sizeof LEFT_UNMATCHED, &byte, 0, buffer, sizeof buffer, results,
                            NORWYTHAI_RESULTS) == 0);
    REQUIRE(results[0] == NORWYTHAI_COUNTED && results[1] == 0 && results[2] == 0 && results[3] == 0);
    REQUIRE(results[4] == 2 && results[5] == 1);
    /* One of the marks cleared. */
    buffer[2] = 0;
    REQUIRE(norwythai_weigh(LEFT_UNMATCHED, sizeof LEFT_UNMATCHED, &byte, 0, buffer, sizeof buffer, results,
                            NORWYTHAI_RESULTS) == 0);
    REQUIRE(results[0] == NORWYTHAI_COUNTED && results[4] == 1 && results[5] == 1);
    REQUIRE(buffer[0] == 0 && buffer[2] == 0 && buffer[3] == 1 && buffer[4] == 7);
    REQUIRE(norwythai_judge(INPUT, sizeof INPUT, BOTH_TRUE, 4, buffer, sizeof buffer, results, NORWYTHAI_RESULTS) == 0);
    REQUIRE(results[2] == 10 && results[3] == 1);
    REQUIRE(norwythai_weigh(INPUT, sizeof INPUT, BOTH_TRUE, 4, buffer, sizeof buffer, results, NORWYTHAI_RESULTS) == 0);
    REQUIRE(results[0] == NORWYTHAI_COUNTED && results[4] == 1 && results[5] == 0);

    /* Any marks, in a formula that is accepted: both clauses, one of which an assumption satisfies, without the assumed variable. */
    memset(buffer, 7, sizeof buffer);
    REQUIRE(norwythai_weigh(INPUT, sizeof INPUT, FIRST_TRUE, 2, buffer, sizeof buffer, results, NORWYTHAI_RESULTS) == 0);
    REQUIRE(results[0] == NORWYTHAI_COUNTED && results[4] == 2 && results[5] == 1);
    memset(buffer, 0, sizeof buffer);
    REQUIRE(norwythai_weigh(INPUT, sizeof INPUT, &byte, 0, buffer, sizeof buffer, results, NORWYTHAI_RESULTS) == 0);
    REQUIRE(results[0] == NORWYTHAI_COUNTED && results[4] == 0 && results[5] == 0);

    /* A short buffer, then the input, then the assumptions. */
    REQUIRE(norwythai_weigh(BOTH_WAYS, sizeof BOTH_WAYS, TWICE, 4, buffer, NORWYTHAI_BUFFER - 1, results, NORWYTHAI_RESULTS) == 0);
    REQUIRE(results[0] == NORWYTHAI_REFUSED && results[2] == 1 && results[3] == 0);
    REQUIRE(norwythai_weigh(BOTH_WAYS, sizeof BOTH_WAYS, TWICE, 4, buffer, sizeof buffer, results, NORWYTHAI_RESULTS) == 0);
    REQUIRE(results[0] == NORWYTHAI_REFUSED && results[2] == 7 && results[3] == 6);
    REQUIRE(norwythai_weigh(INPUT, sizeof INPUT, TWICE, 4, buffer, sizeof buffer, results, NORWYTHAI_RESULTS) == 0);
    REQUIRE(results[0] == NORWYTHAI_REFUSED && results[2] == 16 && results[3] == 1 && results[4] == 0 && results[5] == 0);
    return 0;
}

static int test_deficiency(void) {
    /* 97 empty clauses, of which 96 can be read. */
    static uint8_t empty[100];
    const uint8_t byte = 0;
    uint64_t results[NORWYTHAI_RESULTS] = {7, 7, 7, 7, 7, 7};

    REQUIRE(norwythai_deficiency(INPUT, sizeof INPUT, results, NORWYTHAI_RESULTS) == 0);
    REQUIRE(results[0] == NORWYTHAI_MEASURED && results[1] == 0 && results[2] == 0 && results[3] == 0);
    REQUIRE(results[4] == 0 && results[5] == 0);
    REQUIRE(norwythai_deficiency(UNMATCHED, sizeof UNMATCHED, results, NORWYTHAI_RESULTS) == 0);
    REQUIRE(results[0] == NORWYTHAI_MEASURED && results[4] == 1 && results[5] == 0);
    /* Nothing is stripped before: of (2) and (2), too, one is too many; and the accepted formula has one too many. */
    REQUIRE(norwythai_deficiency(LEFT_UNMATCHED, sizeof LEFT_UNMATCHED, results, NORWYTHAI_RESULTS) == 0);
    REQUIRE(results[0] == NORWYTHAI_MEASURED && results[4] == 2);
    REQUIRE(norwythai_deficiency(STRIPPED, sizeof STRIPPED, results, NORWYTHAI_RESULTS) == 0);
    REQUIRE(results[0] == NORWYTHAI_MEASURED && results[4] == 1);

    memset(empty, 4, sizeof empty);
    empty[0] = empty[1] = 1;
    empty[99] = 5;
    REQUIRE(norwythai_deficiency(empty, sizeof empty, results, NORWYTHAI_RESULTS) == 0);
    REQUIRE(results[0] == NORWYTHAI_REFUSED && results[2] == 8 && results[3] == 98 && results[4] == 0 && results[5] == 0);
    empty[98] = 5;
    REQUIRE(norwythai_deficiency(empty, sizeof empty - 1, results, NORWYTHAI_RESULTS) == 0);
    REQUIRE(results[0] == NORWYTHAI_MEASURED && results[2] == 0 && results[3] == 0 && results[4] == 96);

    REQUIRE(norwythai_deficiency(BOTH_WAYS, sizeof BOTH_WAYS, results, NORWYTHAI_RESULTS) == 0);
    REQUIRE(results[0] == NORWYTHAI_REFUSED && results[2] == 7 && results[3] == 6 && results[4] == 0);
    REQUIRE(norwythai_deficiency(&byte, 0, results, NORWYTHAI_RESULTS) == 0);
    REQUIRE(results[0] == NORWYTHAI_REFUSED && results[2] == 2 && results[3] == 0);
    return 0;
}

static int test_walk(void) {
    const uint8_t byte = 0;
    uint8_t checkpoint[NORWYTHAI_CHECKPOINT];
    uint64_t results[NORWYTHAI_RESULTS];

    REQUIRE(norwythai_start(checkpoint, sizeof checkpoint) == 0);
    REQUIRE(norwythai_walk(INPUT, sizeof INPUT, &byte, 0, checkpoint, sizeof checkpoint, 1, results, NORWYTHAI_RESULTS) == 0);
    REQUIRE(results[0] == NORWYTHAI_SPENT && results[4] == 1);
    REQUIRE(norwythai_walk(INPUT, sizeof INPUT, &byte, 0, checkpoint, sizeof checkpoint, 96, results, NORWYTHAI_RESULTS) == 0);
    REQUIRE(results[0] == NORWYTHAI_MODEL && results[1] == 2 && results[4] == 1);
    checkpoint[0] = 9;
    REQUIRE(norwythai_walk(INPUT, sizeof INPUT, &byte, 0, checkpoint, sizeof checkpoint, 96, results, NORWYTHAI_RESULTS) == 0);
    REQUIRE(results[0] == NORWYTHAI_REFUSED && results[2] == 11);
    return 0;
}

/* (1, 2) (1, 3) (2, 3) */
static const uint8_t PAIRS[] = {1, 3, 2, 1, 2, 2, 4, 2, 1, 2, 3, 4, 2, 2, 2, 3, 4, 5};

/* The steps to each model and to the end, summed over calls of one budget, beside what the trails tell. */
static int test_waits(uint32_t budget) {
    const uint8_t byte = 0;
    uint8_t checkpoint[NORWYTHAI_CHECKPOINT], earlier[NORWYTHAI_CHECKPOINT] = {0};
    uint64_t results[NORWYTHAI_RESULTS], steps = 0, models = 0;

    REQUIRE(norwythai_start(checkpoint, sizeof checkpoint) == 0);
    do {
        REQUIRE(norwythai_walk(PAIRS, sizeof PAIRS, &byte, 0, checkpoint, sizeof checkpoint, budget, results, NORWYTHAI_RESULTS) == 0);
        steps += results[4];
        if (results[0] == NORWYTHAI_MODEL) {
            uint64_t shared = 0;
            while (shared < 3 && earlier[2 + shared] == checkpoint[2 + shared])
                shared++;
            REQUIRE(checkpoint[0] == 1 && checkpoint[1] == 3);
            REQUIRE(steps == (models == 0 ? 3 : 2 * (3 - shared)));
            memcpy(earlier, checkpoint, sizeof earlier);
            models++;
            steps = 0;
        }
    } while (results[0] != NORWYTHAI_ENDED);
    REQUIRE(steps == 3 && models == 4);
    return 0;
}

static int test_list(void) {
    const uint8_t byte = 0;
    uint8_t checkpoint[NORWYTHAI_CHECKPOINT], before[NORWYTHAI_CHECKPOINT];
    uint64_t models[3] = {7, 7, 7}, results[NORWYTHAI_RESULTS];

    REQUIRE(norwythai_start(checkpoint, sizeof checkpoint) == 0);
    REQUIRE(norwythai_list(INPUT, sizeof INPUT, &byte, 0, checkpoint, sizeof checkpoint, models, 0, results, NORWYTHAI_RESULTS) == 0);
    REQUIRE(results[0] == NORWYTHAI_SPENT && results[4] == 0);
    REQUIRE(norwythai_list(INPUT, sizeof INPUT, &byte, 0, checkpoint, sizeof checkpoint, models, 1, results, NORWYTHAI_RESULTS) == 0);
    REQUIRE(results[0] == NORWYTHAI_MODEL && results[4] == 1 && models[0] == 2 && models[1] == 7);
    REQUIRE(norwythai_list(INPUT, sizeof INPUT, &byte, 0, checkpoint, sizeof checkpoint, models, 3, results, NORWYTHAI_RESULTS) == 0);
    REQUIRE(results[0] == NORWYTHAI_ENDED && results[4] == 1 && models[0] == 1 && models[1] == 7);

    checkpoint[0] = 9;
    memcpy(before, checkpoint, sizeof before);
    REQUIRE(norwythai_list(INPUT, sizeof INPUT, &byte, 0, checkpoint, sizeof checkpoint, models, 3, results, NORWYTHAI_RESULTS) == 0);
    REQUIRE(results[0] == NORWYTHAI_REFUSED && results[2] == 11 && results[4] == 0);
    REQUIRE(models[0] == 1 && models[1] == 7 && memcmp(before, checkpoint, sizeof before) == 0);
    return 0;
}

static int test_walk_under_assumptions(void) {
    uint8_t checkpoint[NORWYTHAI_CHECKPOINT];
    uint64_t results[NORWYTHAI_RESULTS];

    /* One variable is left: one step to the model, and one to the end. */
    REQUIRE(norwythai_start(checkpoint, sizeof checkpoint) == 0);
    REQUIRE(norwythai_walk(INPUT, sizeof INPUT, FIRST_TRUE, 2, checkpoint, sizeof checkpoint, 96, results, NORWYTHAI_RESULTS) == 0);
    REQUIRE(results[0] == NORWYTHAI_MODEL && results[1] == 1 && results[4] == 1);
    REQUIRE(checkpoint[0] == 1 && checkpoint[1] == 1 && checkpoint[2] == 2);
    REQUIRE(norwythai_walk(INPUT, sizeof INPUT, FIRST_FALSE, 2, checkpoint, sizeof checkpoint, 96, results, NORWYTHAI_RESULTS) == 0);
    REQUIRE(results[0] == NORWYTHAI_REFUSED && results[2] == 11);
    REQUIRE(norwythai_walk(INPUT, sizeof INPUT, TWICE, 4, checkpoint, sizeof checkpoint, 96, results, NORWYTHAI_RESULTS) == 0);
    REQUIRE(results[0] == NORWYTHAI_REFUSED && results[2] == 16 && results[3] == 1);
    REQUIRE(norwythai_walk(INPUT, sizeof INPUT, FIRST_TRUE, 2, checkpoint, sizeof checkpoint, 96, results, NORWYTHAI_RESULTS) == 0);
    REQUIRE(results[0] == NORWYTHAI_ENDED && results[4] == 1);
    return 0;
}

/* All variables are assumed: one model, and no steps. */
static int test_all_assumed(void) {
    static const uint8_t ALL[] = {2, 0, 1, 9};
    uint8_t checkpoint[NORWYTHAI_CHECKPOINT], start[NORWYTHAI_CHECKPOINT];
    uint64_t models[2] = {7, 7}, results[NORWYTHAI_RESULTS];

    REQUIRE(norwythai_start(start, sizeof start) == 0);
    memcpy(checkpoint, start, sizeof start);
    REQUIRE(norwythai_list(INPUT, sizeof INPUT, ALL, 4, checkpoint, sizeof checkpoint, models, 0, results, NORWYTHAI_RESULTS) == 0);
    REQUIRE(results[0] == NORWYTHAI_SPENT && results[4] == 0 && memcmp(checkpoint, start, sizeof start) == 0);
    REQUIRE(norwythai_walk(INPUT, sizeof INPUT, ALL, 4, checkpoint, sizeof checkpoint, 0, results, NORWYTHAI_RESULTS) == 0);
    REQUIRE(results[0] == NORWYTHAI_MODEL && results[1] == 1 && results[4] == 0 && results[5] == 0);
    REQUIRE(checkpoint[0] == 1 && memcmp(checkpoint + 1, start + 1, sizeof start - 1) == 0);
    REQUIRE(norwythai_walk(INPUT, sizeof INPUT, ALL, 4, checkpoint, sizeof checkpoint, 0, results, NORWYTHAI_RESULTS) == 0);
    REQUIRE(results[0] == NORWYTHAI_ENDED && results[4] == 0 && checkpoint[0] == 4);

    memcpy(checkpoint, start, sizeof start);
    REQUIRE(norwythai_list(INPUT, sizeof INPUT, ALL, 4, checkpoint, sizeof checkpoint, models, 2, results, NORWYTHAI_RESULTS) == 0);
    REQUIRE(results[0] == NORWYTHAI_ENDED && results[4] == 1 && models[0] == 1 && models[1] == 7);
    return 0;
}

/* Variables that no clause names: (1, 2), of three variables, and none named of two. */
static const uint8_t FIRST_TWO[] = {1, 3, 2, 1, 2, 2, 4, 5};
static const uint8_t NONE_NAMED[] = {1, 2, 5};

static int test_unnamed(void) {
    /* The unnamed variable as true, behind the named one. */
    static const uint8_t WITH_THIRD[] = {1, 2, 2, 128 + 3};
    const uint8_t byte = 0;
    uint8_t checkpoint[NORWYTHAI_CHECKPOINT];
    uint64_t models[3] = {7, 7, 7}, results[NORWYTHAI_RESULTS];

    /* The satisfied clause names variable 2, which comes both ways; variable 3 is false. */
    REQUIRE(norwythai_start(checkpoint, sizeof checkpoint) == 0);
    REQUIRE(norwythai_list(FIRST_TWO, sizeof FIRST_TWO, FIRST_TRUE, 2, checkpoint, sizeof checkpoint, models, 3, results,
                           NORWYTHAI_RESULTS) == 0);
    REQUIRE(results[0] == NORWYTHAI_ENDED && results[4] == 2 && models[0] == 1 && models[1] == 3 && models[2] == 7);
    REQUIRE(norwythai_check(FIRST_TWO, sizeof FIRST_TWO, 5, results, NORWYTHAI_RESULTS) == 0);
    REQUIRE(results[0] == NORWYTHAI_YES);
    REQUIRE(norwythai_start(checkpoint, sizeof checkpoint) == 0);
    memcpy(checkpoint, WITH_THIRD, sizeof WITH_THIRD);
    REQUIRE(norwythai_walk(FIRST_TWO, sizeof FIRST_TWO, FIRST_TRUE, 2, checkpoint, sizeof checkpoint, 96, results,
                           NORWYTHAI_RESULTS) == 0);
    REQUIRE(results[0] == NORWYTHAI_REFUSED && results[2] == 11 && results[3] == 0);

    /* Nothing is to be assigned: one model, and no steps. */
    REQUIRE(norwythai_start(checkpoint, sizeof checkpoint) == 0);
    REQUIRE(norwythai_walk(NONE_NAMED, sizeof NONE_NAMED, &byte, 0, checkpoint, sizeof checkpoint, 0, results,
                           NORWYTHAI_RESULTS) == 0);
    REQUIRE(results[0] == NORWYTHAI_MODEL && results[1] == 0 && results[4] == 0 && results[5] == 0);
    REQUIRE(checkpoint[0] == 1 && checkpoint[1] == 0);
    REQUIRE(norwythai_walk(NONE_NAMED, sizeof NONE_NAMED, &byte, 0, checkpoint, sizeof checkpoint, 0, results,
                           NORWYTHAI_RESULTS) == 0);
    REQUIRE(results[0] == NORWYTHAI_ENDED && results[4] == 0 && checkpoint[0] == 4);
    /* A variable that is assumed has its value. */
    REQUIRE(norwythai_start(checkpoint, sizeof checkpoint) == 0);
    REQUIRE(norwythai_walk(NONE_NAMED, sizeof NONE_NAMED, FIRST_TRUE, 2, checkpoint, sizeof checkpoint, 96, results,
                           NORWYTHAI_RESULTS) == 0);
    REQUIRE(results[0] == NORWYTHAI_MODEL && results[1] == 1 && results[4] == 0);
    /* Something is to be assigned: no walk has mode 1 at length 0. */
    REQUIRE(norwythai_walk(INPUT, sizeof INPUT, FIRST_TRUE, 2, checkpoint, sizeof checkpoint, 96, results, NORWYTHAI_RESULTS) == 0);
    REQUIRE(results[0] == NORWYTHAI_REFUSED && results[2] == 11);
    return 0;
}

/* One clause of all seven variables. With the last one true all assignments of the others are models, 64 of them, of which 50 are on the
   first page. */
static const uint8_t TWO_PAGES[] = {1, 7, 2, 1, 2, 2, 2, 3, 2, 4, 2, 5, 2, 6, 2, 7, 4, 5};
static const uint8_t SEVENTH_TRUE[] = {7, 1};

/* Whether a line has this serial, these columns and these steps. */
static int is_line(const uint8_t *line, const char *serial, const char *columns, const char *steps) {
    char expected[NORWYTHAI_LINE_SIZE];

    memset(expected, ' ', sizeof expected);
    memcpy(expected, serial, 6);
    memcpy(expected + 7, columns, strlen(columns));
    memcpy(expected + 56, steps, 3);
    expected[NORWYTHAI_LINE_SIZE - 1] = '\n';
    return memcmp(line, expected, sizeof expected) == 0;
}

static int test_page(void) {
    static uint8_t page[NORWYTHAI_PAGE_SIZE + 5];
    uint8_t checkpoint[NORWYTHAI_CHECKPOINT];
    uint64_t results[NORWYTHAI_RESULTS];
    const uint8_t *last = page + NORWYTHAI_LINE_SIZE * (NORWYTHAI_PAGE_LINES - 1);
    int line;

    REQUIRE(NORWYTHAI_PAGE_SIZE == NORWYTHAI_PAGE_LINES * NORWYTHAI_LINE_SIZE);
    REQUIRE(NORWYTHAI_MAX_SERIAL + NORWYTHAI_PAGE_LINES - 1 == 999999);
    memset(page, 7, sizeof page);
    REQUIRE(norwythai_start(checkpoint, sizeof checkpoint) == 0);
    REQUIRE(norwythai_page(TWO_PAGES, sizeof TWO_PAGES, SEVENTH_TRUE, 2, checkpoint, sizeof checkpoint, 960, page, sizeof page, results,
                           NORWYTHAI_RESULTS) == 0);
    REQUIRE(results[0] == NORWYTHAI_FULL && results[1] == 0 && results[4] == NORWYTHAI_PAGE_LINES && results[5] == 0);
    REQUIRE(is_line(page, "   960", "0000001", "  6") && is_line(page + NORWYTHAI_LINE_SIZE, "   961", "0000011", "  2"));
    REQUIRE(is_line(last, "  1009", "1100011", "  2") && page[NORWYTHAI_PAGE_SIZE] == 7);
    REQUIRE(checkpoint[0] == 1 && checkpoint[1] == 6);
    REQUIRE(norwythai_page(TWO_PAGES, sizeof TWO_PAGES, SEVENTH_TRUE, 2, checkpoint, sizeof checkpoint, 1010, page, sizeof page, results,
                           NORWYTHAI_RESULTS) == 0);
    REQUIRE(results[0] == NORWYTHAI_ENDED && results[4] == 14 && checkpoint[0] == 4);
    REQUIRE(is_line(page, "  1010", "1100101", "  4"));
    for (line = 14; line < NORWYTHAI_PAGE_LINES; line++) {
        REQUIRE(is_line(page + NORWYTHAI_LINE_SIZE * line, "      ", "", "   "));
    }
    REQUIRE(page[NORWYTHAI_PAGE_SIZE] == 7);

    /* An assumed variable has its digit. */
    REQUIRE(norwythai_start(checkpoint, sizeof checkpoint) == 0);
    REQUIRE(norwythai_page(INPUT, sizeof INPUT, FIRST_TRUE, 2, checkpoint, sizeof checkpoint, NORWYTHAI_MAX_SERIAL, page,
                           NORWYTHAI_PAGE_SIZE, results, NORWYTHAI_RESULTS) == 0);
    REQUIRE(results[0] == NORWYTHAI_ENDED && results[4] == 1 && is_line(page, "999950", "10", "  1"));
    /* One that is neither assumed nor named has a dash. */
    REQUIRE(norwythai_start(checkpoint, sizeof checkpoint) == 0);
    REQUIRE(norwythai_page(FIRST_TWO, sizeof FIRST_TWO, FIRST_TRUE, 2, checkpoint, sizeof checkpoint, 1, page, NORWYTHAI_PAGE_SIZE,
                           results, NORWYTHAI_RESULTS) == 0);
    REQUIRE(results[4] == 2 && is_line(page, "     1", "10-", "  1") && is_line(page + NORWYTHAI_LINE_SIZE, "     2", "11-", "  2"));
    REQUIRE(norwythai_start(checkpoint, sizeof checkpoint) == 0);
    REQUIRE(norwythai_page(NONE_NAMED, sizeof NONE_NAMED, FIRST_TRUE, 2, checkpoint, sizeof checkpoint, 1, page, NORWYTHAI_PAGE_SIZE,
                           results, NORWYTHAI_RESULTS) == 0);
    REQUIRE(results[4] == 1 && is_line(page, "     1", "1-", "  0"));
    return 0;
}

static int test_refused_page(void) {
    static uint8_t page[NORWYTHAI_PAGE_SIZE];
    const uint8_t byte = 0;
    uint8_t checkpoint[NORWYTHAI_CHECKPOINT];
    uint64_t results[NORWYTHAI_RESULTS];

    memset(page, 7, sizeof page);
    memset(checkpoint, 9, sizeof checkpoint);
    /* An input of no bytes, a bad serial and a short page: what is tested first is the page, and then the serial. */
    REQUIRE(norwythai_page(&byte, 0, &byte, 0, checkpoint, sizeof checkpoint, 0, page, NORWYTHAI_PAGE_SIZE - 1, results,
                           NORWYTHAI_RESULTS) == 0);
    REQUIRE(results[0] == NORWYTHAI_REFUSED && results[2] == 17 && results[3] == 0 && results[4] == 0);
    REQUIRE(norwythai_page(&byte, 0, &byte, 0, checkpoint, sizeof checkpoint, 0, page, sizeof page, results, NORWYTHAI_RESULTS) == 0);
    REQUIRE(results[0] == NORWYTHAI_REFUSED && results[2] == 18 && results[3] == 0 && results[4] == 0);
    REQUIRE(norwythai_page(&byte, 0, &byte, 0, checkpoint, sizeof checkpoint, NORWYTHAI_MAX_SERIAL + 1, page, sizeof page, results,
                           NORWYTHAI_RESULTS) == 0);
    REQUIRE(results[0] == NORWYTHAI_REFUSED && results[2] == 18);
    REQUIRE(norwythai_page(&byte, 0, &byte, 0, checkpoint, sizeof checkpoint, 1, page, sizeof page, results, NORWYTHAI_RESULTS) == 0);
    REQUIRE(results[0] == NORWYTHAI_REFUSED && results[2] == 2 && results[3] == 0);
    REQUIRE(norwythai_page(INPUT, sizeof INPUT, TWICE, 4, checkpoint, sizeof checkpoint, 1, page, sizeof page, results,
                           NORWYTHAI_RESULTS) == 0);
    REQUIRE(results[0] == NORWYTHAI_REFUSED && results[2] == 16 && results[3] == 1);
    REQUIRE(norwythai_page(INPUT, sizeof INPUT, &byte, 0, checkpoint, sizeof checkpoint, 1, page, sizeof page, results,
                           NORWYTHAI_RESULTS) == 0);
    REQUIRE(results[0] == NORWYTHAI_REFUSED && results[2] == 11 && results[4] == 0);
    REQUIRE(page[0] == 7 && memcmp(page, page + 1, sizeof page - 1) == 0);
    REQUIRE(checkpoint[0] == 9 && memcmp(checkpoint, checkpoint + 1, sizeof checkpoint - 1) == 0);
    return 0;
}

static int test_from_dimacs(void) {
    static const char TEXT[] = "c one of two\np cnf 2 2\n1 2\nc and again\n1 0\n-1 -2 0";
    static uint8_t buffer[NORWYTHAI_FORMULA_BUFFER + 1];
    const uint8_t *text = (const uint8_t *)TEXT;
    uint64_t results[NORWYTHAI_RESULTS];

    memset(buffer, 7, sizeof buffer);
    REQUIRE(norwythai_from_dimacs(text, sizeof TEXT - 1, buffer, sizeof buffer, results, NORWYTHAI_RESULTS) == 0);
    REQUIRE(results[0] == NORWYTHAI_WRITTEN && results[4] == sizeof INPUT && results[5] == 0);
    REQUIRE(memcmp(buffer, INPUT, sizeof INPUT) == 0 && buffer[sizeof INPUT] == 7);

    /* The zero byte at the end of a string is no part of the text, but of its last word. */
    memset(buffer, 7, sizeof buffer);
    REQUIRE(norwythai_from_dimacs(text, sizeof TEXT, buffer, sizeof buffer, results, NORWYTHAI_RESULTS) == 0);
    REQUIRE(results[0] == NORWYTHAI_REFUSED && results[2] == 14 && results[3] == sizeof TEXT - 2 && results[4] == 0);
    /* Without the 0 of the last clause, without all clauses, and without the p line. */
    REQUIRE(norwythai_from_dimacs(text, sizeof TEXT - 2, buffer, sizeof buffer, results, NORWYTHAI_RESULTS) == 0);
    REQUIRE(results[0] == NORWYTHAI_REFUSED && results[2] == 2 && results[3] == sizeof TEXT - 2);
    REQUIRE(norwythai_from_dimacs(text, 23, buffer, sizeof buffer, results, NORWYTHAI_RESULTS) == 0);
    REQUIRE(results[0] == NORWYTHAI_REFUSED && results[2] == 15 && results[3] == 21);
    REQUIRE(norwythai_from_dimacs(text, 0, buffer, sizeof buffer, results, NORWYTHAI_RESULTS) == 0);
    REQUIRE(results[0] == NORWYTHAI_REFUSED && results[2] == 13 && results[3] == 0);
    REQUIRE(norwythai_from_dimacs(text, sizeof TEXT - 1, buffer, NORWYTHAI_FORMULA_BUFFER - 1, results, NORWYTHAI_RESULTS) == 0);
    REQUIRE(results[0] == NORWYTHAI_REFUSED && results[2] == 1 && results[3] == 0);
    REQUIRE(buffer[0] == 7 && memcmp(buffer, buffer + 1, sizeof buffer - 1) == 0);
    return 0;
}

static int test_to_dimacs(void) {
    static const char TEXT[] = "p cnf 2 2\n1 2 0\n-1 -2 0\n";
    static uint8_t buffer[NORWYTHAI_TEXT_BUFFER + 1];
    uint64_t results[NORWYTHAI_RESULTS];

    memset(buffer, 7, sizeof buffer);
    REQUIRE(norwythai_to_dimacs(BOTH_WAYS, sizeof BOTH_WAYS, buffer, sizeof buffer, results, NORWYTHAI_RESULTS) == 0);
    REQUIRE(results[0] == NORWYTHAI_REFUSED && results[2] == 7 && results[3] == 6 && results[4] == 0);
    REQUIRE(norwythai_to_dimacs(INPUT, sizeof INPUT, buffer, NORWYTHAI_TEXT_BUFFER - 1, results, NORWYTHAI_RESULTS) == 0);
    REQUIRE(results[0] == NORWYTHAI_REFUSED && results[2] == 1 && results[3] == 0);
    REQUIRE(buffer[0] == 7 && memcmp(buffer, buffer + 1, sizeof buffer - 1) == 0);

    REQUIRE(norwythai_to_dimacs(REPEATED, sizeof REPEATED, buffer, sizeof buffer, results, NORWYTHAI_RESULTS) == 0);
    REQUIRE(results[0] == NORWYTHAI_WRITTEN && results[4] == sizeof TEXT - 1 && results[5] == 0);
    REQUIRE(memcmp(buffer, TEXT, sizeof TEXT - 1) == 0 && buffer[sizeof TEXT - 1] == 7);
    return 0;
}

/* A length in bytes is not that of the results, and assumptions have an even length. */
static int test_lengths(void) {
    static uint8_t page[NORWYTHAI_PAGE_SIZE];
    uint8_t buffer[NORWYTHAI_BUFFER], checkpoint[NORWYTHAI_CHECKPOINT];
    uint64_t models[1] = {7}, results[NORWYTHAI_RESULTS] = {7, 7, 7, 7, 7, 7};
    size_t odd;

    REQUIRE(sizeof results == 48);
    REQUIRE(norwythai_check(INPUT, sizeof INPUT, 1, results, sizeof results) == 1);
    REQUIRE(norwythai_start(checkpoint, sizeof checkpoint) == 0);
    memset(buffer, 7, sizeof buffer);
    for (odd = 1; odd < 4; odd += 2) {
        REQUIRE(norwythai_judge(INPUT, sizeof INPUT, TWICE, odd, buffer, sizeof buffer, results, NORWYTHAI_RESULTS) == 1);
        REQUIRE(norwythai_weigh(INPUT, sizeof INPUT, TWICE, odd, buffer, sizeof buffer, results, NORWYTHAI_RESULTS) == 1);
        REQUIRE(norwythai_walk(INPUT, sizeof INPUT, TWICE, odd, checkpoint, sizeof checkpoint, 96, results, NORWYTHAI_RESULTS) == 1);
        REQUIRE(norwythai_list(INPUT, sizeof INPUT, TWICE, odd, checkpoint, sizeof checkpoint, models, 1, results,
                               NORWYTHAI_RESULTS) == 1);
        REQUIRE(norwythai_page(INPUT, sizeof INPUT, TWICE, odd, checkpoint, sizeof checkpoint, 1, page, sizeof page, results,
                               NORWYTHAI_RESULTS) == 1);
    }
    REQUIRE(norwythai_weigh(INPUT, sizeof INPUT, TWICE, 0, buffer, sizeof buffer, results, sizeof results) == 1);
    REQUIRE(norwythai_deficiency(INPUT, sizeof INPUT, results, sizeof results) == 1);
    REQUIRE(norwythai_deficiency(INPUT, sizeof INPUT, results, 5) == 1);
    REQUIRE(norwythai_page(INPUT, sizeof INPUT, TWICE, 0, checkpoint, 49, 1, page, sizeof page, results, NORWYTHAI_RESULTS) == 1);
    REQUIRE(norwythai_page(INPUT, sizeof INPUT, TWICE, 0, checkpoint, sizeof checkpoint, 1, page, sizeof page, results, 5) == 1);
    REQUIRE(norwythai_weigh(INPUT, sizeof INPUT, TWICE, 0, buffer, sizeof buffer, results, 5) == 1);
    REQUIRE(results[0] == 7 && results[4] == 7 && results[5] == 7);
    REQUIRE(buffer[0] == 7 && checkpoint[0] == 0 && models[0] == 7 && page[0] == 0);
    return 0;
}

int main(void) {
    return test_check() || test_judge() || test_judge_by_stripping() || test_judge_under_assumptions() || test_weigh() ||
           test_deficiency() || test_walk() || test_waits(1) || test_waits(4) || test_waits(96) || test_list() ||
           test_list_by_stripping() || test_walk_under_assumptions() || test_all_assumed() || test_unnamed() ||
           test_page() || test_refused_page() || test_from_dimacs() || test_to_dimacs() || test_lengths();
}
