/*
 * Norwythai: the models of a CNF formula, if it is accepted, one after the other or as pages of text; and DIMACS CNF text read and
 * written.
 *
 * The functions of libcapi.a. For each it is proved what it returns and how it leaves every buffer, on all inputs:
 * crates/capi/specs/Interface.antt has the definitions, and the comments here say them in words. None keeps any state, allocates or
 * calls the system: the archive needs memcpy and memset alone, and calls on different buffers may run at the same time.
 *
 * WHAT NO PROOF COVERS, and the caller must see to:
 *   - Each pointer is valid for the length that goes with it: so many elements can be read and, behind a pointer that is not const,
 *     written. During the call nobody else writes a buffer, nor reads one that is written.
 *   - Each length is the true one.
 *   - A buffer that is written (behind a pointer that is not const) overlaps no other buffer of the call.
 *   - A uint64_t pointer is aligned for uint64_t.
 *   - No pointer is null, also where the length is 0. Empty containers may give null: pass the address of any object of the element's
 *     type then, as in `norwythai_check(n == 0 ? &byte : input, n, ..)` with some `uint8_t byte`.
 *
 * LENGTHS COUNT ELEMENTS: for uint64_t the numbers, and not their bytes. With `uint64_t results[NORWYTHAI_RESULTS]` the length is
 * NORWYTHAI_RESULTS, 6; `sizeof results` is 48, for which a function returns 1. With `uint64_t models[10]` it is 10; `sizeof models` is
 * 80, and norwythai_list would write past the end.
 *
 * THE INPUT is an encoded formula: records of a kind byte and a body.
 *
 *   kind  meaning                                              body
 *   1     the number of variables n, 1 to 48; first, and once  one byte
 *   2     the clause has this variable as a positive literal   one byte, 1 to n
 *   3     the clause has this variable as a negative literal   one byte, 1 to n
 *   4     the clause ends                                      none
 *   5     the formula ends; nothing may follow                 none
 *
 * At most 96 clauses. A literal that stands in its clause twice or more often counts once, so an input may be of any length. An
 * assignment is a 64-bit number: variable v, counted from 1, is true if bit v - 1 is set. A model is an assignment in which every clause
 * has a literal that is true, and no variable above n is.
 *
 * ACCEPTED formulas are those that judge accepts and that walk, list and page go through. Clauses are matched if each can have a variable
 * that it names, no variable used twice. Stripping (pure literal elimination) takes the lowest variable that the clauses name one way
 * only, as positive or as negative literals, notes it and drops all clauses that name it, and goes on with the clauses that are left
 * until there is no such variable. A formula is accepted if it is matched, or if what stripping leaves of it is. So it may have more
 * clauses than variables. All four functions accept the same formulas, under the same assumptions.
 *
 * ASSUMPTIONS are values that judge, walk, list and page are to take for some variables. The list has two bytes for each: the variable,
 * counted from 1, and its value, 0 for false and any other byte for true. `assumptions_length` counts bytes; with 0 nothing is assumed.
 * They are applied first: a clause that one of them satisfies is gone, and the others lose the assumed variables. Matching, stripping
 * and walking are of what remains, and the models of a walk are those that have the assumed values, which stand among their bits. A
 * variable stands in the list once at most (refusal 16). Nothing but that refusal's place depends on the order, which is tested and not
 * proved. weigh takes such a list, too, and leaves the assumed variables uncounted.
 *
 * LISTED MODELS are those that walk, list and page bring. The variables TO ASSIGN are those that some clause names and that are not
 * assumed. Clauses count here as they are read, also those that an assumption satisfies. In a listed model each variable to assign has a
 * value, an assumed one has its assumed value, and any other, which no clause names, is false. Each setting of the named variables that
 * some model has, beside the assumed values, is listed exactly once. Other models are never listed, though check says yes to them. Where
 * nothing is to be assigned, an accepted formula has one listed model.
 *
 * A TEXT is DIMACS CNF: lines that start with c are comments, anywhere; the first other line is `p cnf` with the numbers of variables
 * and clauses; then come the literals as numbers, a minus before those that are negative, and 0 at the end of each clause. Line feeds (0A)
 * end lines; they and blanks (20), tabs (09) and carriage returns (0D) stand between words. Lines without words may stand behind the p
 * line only. A text may be of any length, and no zero byte ends it.
 *
 * THE ORDER of the listed models is that of the variables which the walk chooses: each takes false before true. Where stripping leaves
 * clauses, variables are tried by how many of these name them, most first, and of equally many the lowest first. The set of the listed
 * models does not depend on it.
 *
 * A CHECKPOINT is judged by the walk of this version alone, and no byte of it tells a version. One that an earlier version gave, whose
 * walk had another order, is refused by 11 if this walk never has it; one that happens to fit is taken as a checkpoint of this walk. To
 * see every model, start anew.
 *
 * THE RESULTS are NORWYTHAI_RESULTS numbers:
 *
 *              check  judge        weigh            deficiency  walk         list                     page          from_dimacs, to_dimacs
 *   results[0] the answer, 0 to 3 as below
 *   results[1] 0      0            0                0           model, or 0  last call's model, or 0  0             0
 *   results[2] the refusal's number, or 0 if the answer is no refusal
 *   results[3] the refusal's place, or 0 if the answer is no refusal
 *   results[4] 0      variables n  marked clauses   deficiency  steps made   models written           lines filled  bytes written
 *   results[5] 0      clauses m    their variables  0           expansions   0                        0             0
 *
 *   answer  check               judge               walk                                 list
 *   0       NORWYTHAI_YES       NORWYTHAI_ACCEPTED  NORWYTHAI_MODEL                      NORWYTHAI_MODEL: `models` is full
 *   1       NORWYTHAI_NO        -                   NORWYTHAI_SPENT: the budget is used  NORWYTHAI_SPENT: `models_length` is 0
 *   2       -                   -                   NORWYTHAI_ENDED: no model is left    NORWYTHAI_ENDED: no model is left
 *   3       NORWYTHAI_REFUSED   NORWYTHAI_REFUSED   NORWYTHAI_REFUSED                    NORWYTHAI_REFUSED
 *
 * weigh answers 0, NORWYTHAI_COUNTED, or 3, NORWYTHAI_REFUSED; deficiency 0, NORWYTHAI_MEASURED, or 3, NORWYTHAI_REFUSED. page answers
 * 0, NORWYTHAI_FULL, if all lines are filled; 2, NORWYTHAI_ENDED, if fewer are, since no model is left; or 3, NORWYTHAI_REFUSED.
 * from_dimacs and to_dimacs answer 0, NORWYTHAI_WRITTEN, or 3, NORWYTHAI_REFUSED.
 *
 * REFUSALS. Places are offsets into the input or the text, counted from 0, except at 10 and 16. In a text the place at 5 to 8 is the
 * word's first byte.
 *
 *   number  trade's word     given if                                            place
 *    1      short slate      the buffer is below 96 bytes (judge, weigh), 9,315
 *                            (from_dimacs) or 18,636 (to_dimacs)                 0
 *    2      cut short        the input runs out within a record or before kind
 *                            5, or the text within a clause                      length of the input or the text
 *    3      unknown kind     a record's kind is 0 or above 5                     its kind byte
 *    4      misplaced        a record of this kind may not come here             its kind byte
 *    5      bad kit          n is not 1 to 48                                    its kind byte, or the word
 *    6      no such switch   a literal's variable is not 1 to n                  its kind byte, or the word
 *    7      named twice      the clause already names the variable the other way its kind byte, or the word
 *    8      too many rules   a 97th clause ends                                  its kind byte, or the word
 *    9      tail             the input goes on behind kind 5                     first byte behind
 *   10      over-ruled       the clauses that remain can't be matched, nor can   number of marked clauses
 *                            those that stripping leaves of them
 *   11      foreign marker   the walk never has this checkpoint                  0
 *   12      stray switch     a checked assignment has a variable above n true    0
 *   13      bad opening      the first line that is no comment is no p line of   its first byte, or the text's
 *                            four words: p, cnf and two runs of digits           length if there is none
 *   14      bad word         a word behind the p line is neither digits nor a    its first byte
 *                            minus and digits that are not zero
 *   15      rule count       there are not as many clauses as the p line says    first byte of that number
 *           differs
 *   16      bad fixing       an assumption's variable is not 1 to n, or is       index of the first such
 *                            assumed before, with either value                   assumption, from 0
 *   17      short page       the page is below 3,000 bytes                       0
 *   18      bad serial       the first serial is 0 or above 999,950              0
 *
 * They are tested in the order 1, 17, 18, then record by record 2 to 8, then 9, 16, 10, 11, 12. check gives 2 to 9 and 12 only; judge 1
 * to 10 and 16; weigh 1 to 9 and 16; deficiency 2 to 9; walk and list 2 to 11 and 16; page these and 17 and 18; to_dimacs 1 to 9.
 * from_dimacs tests 1, 13, 5, then word by word 14, 6, 7, 8, and at the end 2 and 15. On a refusal results[1], results[4] and results[5]
 * are 0.
 *
 * A CHECKPOINT is NORWYTHAI_CHECKPOINT bytes that say where a walk stands: mode, length, 48 bytes of trail. norwythai_start gives the
 * first, norwythai_walk, norwythai_list and norwythai_page each the next, which any of them takes. It can be kept, copied and sent
 * anywhere, and used again with the same input and the same assumptions. Its trail has variables to assign and no others. It holds no
 * mark of the input and the assumptions: keep beside it what it is of. With another input or other assumptions it is refused by 11 where
 * it does not fit, and taken where it happens to.
 *
 * A PAGE is NORWYTHAI_PAGE_LINES lines of NORWYTHAI_LINE_SIZE bytes, one behind the other: NORWYTHAI_PAGE_SIZE bytes of text, to be
 * printed as they are. No zero byte ends it. A line with a model has
 *
 *   bytes 0 to 5    its serial in decimal digits, right-aligned: with blanks (20) before it
 *   byte  6         a blank
 *   bytes 7 to 54   48 columns, of which byte 6 + v is that of variable v: if some clause names it or it is assumed, a digit, 1 if it is
 *                   true and 0 if not, and else a dash (2D); behind that of variable n are blanks
 *   byte  55        a blank
 *   bytes 56 to 58  the steps from the line before to its model, right-aligned: as many as norwythai_walk makes between the two; on the
 *                   first line those from the checkpoint handed in
 *   byte  59        a line feed (0A)
 *
 * A line without a model is 59 blanks and a line feed.
 *
 * THE RETURNED NUMBER of every function is 0 if the results (norwythai_start: the checkpoint) were written, and 1 if `results_length`
 * is not NORWYTHAI_RESULTS, `checkpoint_length` is not NORWYTHAI_CHECKPOINT or `assumptions_length` is odd: then no byte of any buffer
 * has changed. A refusal is an answer: the function returns 0. Where the compiler can, it warns of a returned number that is ignored.
 */
#ifndef NORWYTHAI_H
#define NORWYTHAI_H

#include <stddef.h>
#include <stdint.h>

#define NORWYTHAI_RESULTS 6
#define NORWYTHAI_CHECKPOINT 50
#define NORWYTHAI_BUFFER 96
#define NORWYTHAI_FORMULA_BUFFER 9315
#define NORWYTHAI_TEXT_BUFFER 18636

/* The lines of a page, the bytes of a line and of a page, and the highest serial of a first line: the last line's is then 999,999. */
#define NORWYTHAI_PAGE_LINES 50
#define NORWYTHAI_LINE_SIZE 60
#define NORWYTHAI_PAGE_SIZE 3000
#define NORWYTHAI_MAX_SERIAL 999950

/* The answers of walk and list; ENDED is also page's, and REFUSED is all others'. */
#define NORWYTHAI_MODEL 0
#define NORWYTHAI_SPENT 1
#define NORWYTHAI_ENDED 2
#define NORWYTHAI_REFUSED 3

/* The other answers of check. */
#define NORWYTHAI_YES 0
#define NORWYTHAI_NO 1

/* The other answer of judge. The second name is older, from when only matched formulas were accepted. */
#define NORWYTHAI_ACCEPTED 0
#define NORWYTHAI_MATCHED NORWYTHAI_ACCEPTED

/* Added to the variable in judge's byte for a clause that stripping drops. */
#define NORWYTHAI_DROPPED 128

/* The other answer of weigh. */
#define NORWYTHAI_COUNTED 0

/* The other answer of deficiency. */
#define NORWYTHAI_MEASURED 0

/* The other answer of page. */
#define NORWYTHAI_FULL 0

/* The other answer of from_dimacs and to_dimacs. */
#define NORWYTHAI_WRITTEN 0

/* Marks a function whose returned number is not to be ignored. */
#if (defined(__cplusplus) && __cplusplus >= 201703L) || (defined(__STDC_VERSION__) && __STDC_VERSION__ >= 202311L)
#define NORWYTHAI_NODISCARD [[nodiscard]]
#elif defined(__GNUC__)
#define NORWYTHAI_NODISCARD __attribute__((warn_unused_result))
#else
#define NORWYTHAI_NODISCARD
#endif

#ifdef __cplusplus
extern "C" {
#endif

/*
 * Whether the assignment is a model of the formula, which need not be accepted. It need not be one that is listed.
 * Reads the input and the assignment; writes the results.
 * With `input_length` 0, `input` is the address of any byte and not null.
 */
NORWYTHAI_NODISCARD
uint32_t norwythai_check(const uint8_t *input, size_t input_length, uint64_t assignment,
                         uint64_t *results, size_t results_length);

/*
 * Whether the formula is accepted under the assumptions.
 * Reads the input and the assumptions; writes the results and into the buffer, of which it needs NORWYTHAI_BUFFER bytes or more
 * (fewer: refusal 1). Accepted: results[4] and results[5] are n and m, those of the whole formula, and byte i of the buffer, i below m, is
 *   0                      if an assumption satisfies clause i + 1;
 *   v, from 1 to n         if the clause is matched with variable v;
 *   NORWYTHAI_DROPPED + v  if stripping drops it: v is the first noted variable that it names.
 * What remains is first matched as a whole, and stripped only if that can't be. So where it is matched no byte is above n, though
 * stripping would drop clauses; where it isn't, the left clauses have their variables, no two the same one.
 * Refusal 10: byte i is 1 if clause i + 1 is marked, and 0 for every other clause, satisfied and dropped ones too. results[3] is how many
 * are marked. Without the assumed variables the marked clauses name exactly one variable fewer than they are, and none is marked without
 * need: without any single one of them the others can be matched.
 * The buffer's other bytes never change; on any refusal but 10 none does.
 * With `input_length`, `assumptions_length` or `buffer_length` 0, `input`, `assumptions` or `buffer` is the address of any byte and not
 * null.
 */
NORWYTHAI_NODISCARD
uint32_t norwythai_judge(const uint8_t *input, size_t input_length, const uint8_t *assumptions, size_t assumptions_length,
                         uint8_t *buffer, size_t buffer_length, uint64_t *results, size_t results_length);

/*
 * How many clauses the bytes of a buffer mark, results[4], and how many variables these clauses name, results[5]: each variable counted
 * once, and the assumed ones not.
 * Reads the input, the assumptions and the buffer, of which it needs NORWYTHAI_BUFFER bytes or more (fewer: refusal 1); writes the
 * results. Byte i of the buffer, i below m, marks clause i + 1 if it is not 0; the bytes behind these do not count.
 * Of the buffer as norwythai_judge left it at refusal 10, with the same input and the same assumptions, results[4] is judge's results[3],
 * and results[5] is one fewer (theorem judged-weighed in crates/capi/proofs/Theorems.antt). Any other marks can be weighed as well, such
 * as these with one of them cleared: it is not asked whether the formula is accepted, nor whether an assumption satisfies a marked clause.
 * With `input_length`, `assumptions_length` or `buffer_length` 0, `input`, `assumptions` or `buffer` is the address of any byte and not
 * null.
 */
NORWYTHAI_NODISCARD
uint32_t norwythai_weigh(const uint8_t *input, size_t input_length, const uint8_t *assumptions, size_t assumptions_length,
                         const uint8_t *buffer, size_t buffer_length, uint64_t *results, size_t results_length);

/*
 * How far the formula, which need not be accepted, is from being matched: results[4] is its deficiency (the field's maximum deficiency;
 * trade's word: shortfall), the number of its clauses less the most of them that can be matched together.
 * Reads the input; writes the results. Only an input that can't be read is refused, by 2 to 9.
 * Some of the clauses are by so many more than the variables that they name, and none are by more. At least so many clauses have to be
 * struck until the others are matched, and so many are enough, if they are the right ones. One clause more, at any place, leaves it or
 * raises it by one; one fewer leaves it or lowers it by one.
 * It takes no assumptions, and nothing is stripped before. It is 0 exactly if the formula is matched as a whole, and so accepted without
 * assumptions. Where judge, without assumptions, accepts a formula only since it strips down, it is above 0.
 * With `input_length` 0, `input` is the address of any byte and not null.
 */
NORWYTHAI_NODISCARD
uint32_t norwythai_deficiency(const uint8_t *input, size_t input_length, uint64_t *results, size_t results_length);

/*
 * The checkpoint at which every walk starts. Writes the checkpoint: 50 zeros.
 */
NORWYTHAI_NODISCARD
uint32_t norwythai_start(uint8_t *checkpoint, size_t checkpoint_length);

/*
 * One walk call on an accepted formula: goes on from the checkpoint until a listed model or the end comes, or as many steps as the budget
 * are made.
 * Reads the input, the assumptions, the checkpoint and the budget; writes the results, and over the checkpoint the one to go on from.
 * After NORWYTHAI_SPENT and NORWYTHAI_MODEL the walk goes on by another call, with the same assumptions. After NORWYTHAI_ENDED another
 * call says it again. On a refusal the checkpoint stays as it was (theorem walk-refused in crates/capi/proofs/Theorems.antt). A budget
 * of 96 always brings a model or the end. Where nothing is to be assigned there are no steps: on any budget, 0 too, the call from the
 * start brings the one listed model, and the next one the end.
 * The steps, added up over the calls, are exact (theorem demand-3-called in crates/capi/proofs/Theorems.antt). With n variables to assign
 * it is n steps to the first model, and n from the last one to the end. From a model to the next it is two for each variable from the
 * point on where their trails part: 2 * (n - k), where of the n bytes behind mode and length in the checkpoints that came with the two
 * models the first k are the same and the next one is not. How many are still to come, a call of budget 96 on a copy of the checkpoint
 * says.
 * With `input_length` or `assumptions_length` 0, `input` or `assumptions` is the address of any byte and not null.
 */
NORWYTHAI_NODISCARD
uint32_t norwythai_walk(const uint8_t *input, size_t input_length, const uint8_t *assumptions, size_t assumptions_length,
                        uint8_t *checkpoint, size_t checkpoint_length, uint32_t budget, uint64_t *results, size_t results_length);

/*
 * The next listed models of an accepted formula, as many as there is room for: what a list of walk calls of budget 96 gives, in one call.
 * Reads the input, the assumptions and the checkpoint; writes the models from the front of `models`, the results, and over the
 * checkpoint the one to go on from. It stops when `models` is full (NORWYTHAI_MODEL) or at the end (NORWYTHAI_ENDED). What stands behind
 * the last model written does not change. A refusal brings no model: results[4] is 0, and `models` and the checkpoint stay as they were
 * (theorem list-refused in crates/capi/proofs/Theorems.antt). `models_length` may be any number; with 0 it makes one walk call of budget
 * 0 (NORWYTHAI_SPENT, or NORWYTHAI_ENDED where no step is left, or a refusal), but none where that would bring a model: it answers
 * NORWYTHAI_SPENT then too, and the checkpoint stays, so that the model is still to come.
 * With `input_length` or `assumptions_length` 0, `input` or `assumptions` is the address of any byte, and with `models_length` 0,
 * `models` that of any uint64_t; none is null.
 */
NORWYTHAI_NODISCARD
uint32_t norwythai_list(const uint8_t *input, size_t input_length, const uint8_t *assumptions, size_t assumptions_length,
                        uint8_t *checkpoint, size_t checkpoint_length, uint64_t *models, size_t models_length,
                        uint64_t *results, size_t results_length);

/*
 * The next listed models of an accepted formula as a page, each line's serial one above that of the line before: what
 * NORWYTHAI_PAGE_LINES walk calls of budget 96 give, as text.
 * Reads the input, the assumptions, the checkpoint and the serial of the first line; writes the page, the results, and over the
 * checkpoint the one to go on from. results[4] is how many lines, from the top, have a model: NORWYTHAI_PAGE_LINES of them
 * (NORWYTHAI_FULL), and the checkpoint is then that behind the last one; or fewer, all that are left (NORWYTHAI_ENDED), and the checkpoint
 * is that of the end. The other lines are blank. Where just as many models were left as there are lines, the next page is all blank and
 * says NORWYTHAI_ENDED; a page from the end does, too.
 * The page needs NORWYTHAI_PAGE_SIZE bytes or more (fewer: refusal 17), and the serial is 1 to NORWYTHAI_MAX_SERIAL (else: refusal 18);
 * both are tested before the input is read. What stands behind the first NORWYTHAI_PAGE_SIZE bytes does not change. A refusal fills no
 * line: results[4] is 0, and every byte of the page and the checkpoint stay as they were (theorem page-refused in
 * crates/capi/proofs/Theorems.antt).
 * For the next page pass the same checkpoint again, and a serial that is NORWYTHAI_PAGE_LINES higher. Past NORWYTHAI_MAX_SERIAL the models
 * go on under any other serial, since no checkpoint holds one.
 * With `input_length`, `assumptions_length` or `page_length` 0, `input`, `assumptions` or `page` is the address of any byte and not null.
 */
NORWYTHAI_NODISCARD
uint32_t norwythai_page(const uint8_t *input, size_t input_length, const uint8_t *assumptions, size_t assumptions_length,
                        uint8_t *checkpoint, size_t checkpoint_length, uint32_t serial, uint8_t *page, size_t page_length,
                        uint64_t *results, size_t results_length);

/*
 * Reads a DIMACS CNF text into an encoded formula: the clauses in order, each literal once, at its first place in the clause.
 * Reads the text; writes the results and into the buffer, of which it needs NORWYTHAI_FORMULA_BUFFER bytes or more (fewer: refusal 1,
 * whatever the text is). The formula is the first results[4] bytes of the buffer. What stands behind them does not change; on a refusal
 * no byte of the buffer does.
 * With `text_length` or `buffer_length` 0, `text` or `buffer` is the address of any byte and not null.
 */
NORWYTHAI_NODISCARD
uint32_t norwythai_from_dimacs(const uint8_t *text, size_t text_length, uint8_t *buffer, size_t buffer_length,
                               uint64_t *results, size_t results_length);

/*
 * Writes an encoded formula, which need not be accepted, as DIMACS CNF text: the p line, then a line for each clause in order, each
 * literal once, at its first place in the clause, with one blank between two words. norwythai_from_dimacs reads
 * the same formula from it.
 * Reads the input; writes the results and into the buffer, of which it needs NORWYTHAI_TEXT_BUFFER bytes or more (fewer: refusal 1,
 * whatever the input is). The text is the first results[4] bytes of the buffer, with no zero byte behind them. What stands there does
 * not change; on a refusal no byte of the buffer does.
 * With `input_length` or `buffer_length` 0, `input` or `buffer` is the address of any byte and not null.
 */
NORWYTHAI_NODISCARD
uint32_t norwythai_to_dimacs(const uint8_t *input, size_t input_length, uint8_t *buffer, size_t buffer_length,
                             uint64_t *results, size_t results_length);

#ifdef __cplusplus
}
#endif

#endif
