/* Ignores what each function returns: ten warnings. */
#include "norwythai.h"

void ignore(const uint8_t *input, uint8_t *bytes, uint64_t *numbers);

void ignore(const uint8_t *input, uint8_t *bytes, uint64_t *numbers) {
    norwythai_check(input, 0, 0, numbers, 6);
    norwythai_judge(input, 0, input, 0, bytes, 96, numbers, 6);
    norwythai_weigh(input, 0, input, 0, input, 96, numbers, 6);
    norwythai_deficiency(input, 0, numbers, 6);
    norwythai_start(bytes, 50);
    norwythai_walk(input, 0, input, 0, bytes, 50, 96, numbers, 6);
    norwythai_list(input, 0, input, 0, bytes, 50, numbers, 1, numbers + 1, 6);
    norwythai_page(input, 0, input, 0, bytes, 50, 1, bytes + 50, 3000, numbers, 6);
    norwythai_from_dimacs(input, 0, bytes, 9315, numbers, 6);
    norwythai_to_dimacs(input, 0, bytes, 18636, numbers, 6);
}
