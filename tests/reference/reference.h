/* The calls of the reference machine: plain C over the same byte tables and answers as the proved one. */
#ifndef REFERENCE_H
#define REFERENCE_H

#include <stddef.h>
#include <stdint.h>

/* Full sizes in bytes; a lent table of any other size is refused 8. */
enum {
    REFERENCE_PROCESS_ROW = 28,
    REFERENCE_VARIABLE_ROW = 4,
    REFERENCE_HEAD_SIZE = 10,
    REFERENCE_PROCS_SIZE = 512 * REFERENCE_PROCESS_ROW,
    REFERENCE_VARS_SIZE = 1024 * REFERENCE_VARIABLE_ROW
};

/* Every answer holds the refusal number in bits 0-7 (0: accepted) and, for 1 to 7, the offset in bits 32-63. */
/* No pointer may be null, and no two lent rows may overlap. */

/* Accepted: relations in bits 8-15, clauses in bits 16-23. */
uint64_t reference_load(const uint8_t *image, size_t image_len);

/* Fills all three tables for a fresh run. */
uint64_t reference_start(const uint8_t *image, size_t image_len, uint8_t *head, size_t head_len,
                         uint8_t *procs, size_t procs_len, uint8_t *vars, size_t vars_len);

/* Accepted: rule in bits 8-15, touched sort in bits 16-23 (0 process, 1 variable), its number in bits 32-63. */
uint64_t reference_step(const uint8_t *image, size_t image_len, uint8_t *head, size_t head_len,
                        uint8_t *procs, size_t procs_len, uint8_t *vars, size_t vars_len,
                        uint32_t process);

/* As reference_step, for the process whose turn it is. */
uint64_t reference_turn(const uint8_t *image, size_t image_len, uint8_t *head, size_t head_len,
                        uint8_t *procs, size_t procs_len, uint8_t *vars, size_t vars_len);

/* Accepted: end in bits 8-15 (1 success, 2 failure, 3 waiting, 4 room, 5 budget), steps made in bits 32-63. */
uint64_t reference_run(const uint8_t *image, size_t image_len, uint8_t *head, size_t head_len,
                       uint8_t *procs, size_t procs_len, uint8_t *vars, size_t vars_len,
                       uint16_t limit);

/* Binds the value of a goal variable to a constant. */
uint64_t reference_supply(const uint8_t *image, size_t image_len, uint8_t *head, size_t head_len,
                          uint8_t *procs, size_t procs_len, uint8_t *vars, size_t vars_len,
                          uint32_t variable, uint32_t value);

/* Step, turn and supply with a list of the variables bound: their count, then each, two bytes each; answers as theirs. */
uint64_t reference_step_bound(const uint8_t *image, size_t image_len, uint8_t *head, size_t head_len,
                              uint8_t *procs, size_t procs_len, uint8_t *vars, size_t vars_len,
                              uint8_t *bound, size_t bound_len, uint32_t process);
uint64_t reference_turn_bound(const uint8_t *image, size_t image_len, uint8_t *head, size_t head_len,
                              uint8_t *procs, size_t procs_len, uint8_t *vars, size_t vars_len,
                              uint8_t *bound, size_t bound_len);
uint64_t reference_supply_bound(const uint8_t *image, size_t image_len, uint8_t *head, size_t head_len,
                                uint8_t *procs, size_t procs_len, uint8_t *vars, size_t vars_len,
                                uint8_t *bound, size_t bound_len, uint32_t variable, uint32_t value);

/* Accepted: sort in bits 8-15 (1 constant, 2 variable), its number in bits 32-63. */
uint64_t reference_value(const uint8_t *image, size_t image_len, uint8_t *head, size_t head_len,
                         uint8_t *procs, size_t procs_len, uint8_t *vars, size_t vars_len,
                         uint32_t variable);

/* Accepted: a variable row (sort and number) for the value of each goal variable, how many in bits 32-63. */
uint64_t reference_values(const uint8_t *image, size_t image_len, uint8_t *head, size_t head_len,
                          uint8_t *procs, size_t procs_len, uint8_t *vars, size_t vars_len,
                          uint8_t *values, size_t values_len);

/* Writes the run as records of kinds 16, 17 and 18. Accepted: how many bytes in bits 32-63. */
uint64_t reference_save(const uint8_t *image, size_t image_len, uint8_t *head, size_t head_len,
                        uint8_t *procs, size_t procs_len, uint8_t *vars, size_t vars_len,
                        uint8_t *saved, size_t saved_len);

/* Fills all three tables with a saved run; refusals 2, 3 and 4 hold the offset of its record, and 18 is one of another rule. */
uint64_t reference_resume(const uint8_t *image, size_t image_len, uint8_t *head, size_t head_len,
                          uint8_t *procs, size_t procs_len, uint8_t *vars, size_t vars_len,
                          const uint8_t *saved, size_t saved_len);

/* Step, supply and run with a record of kind 32 or 33 for each, of ten bytes; answers as theirs. */
uint64_t reference_step_traced(const uint8_t *image, size_t image_len, uint8_t *head, size_t head_len,
                               uint8_t *procs, size_t procs_len, uint8_t *vars, size_t vars_len,
                               uint8_t *trace, size_t trace_len, uint32_t process, uint16_t stamp);
uint64_t reference_supply_traced(const uint8_t *image, size_t image_len, uint8_t *head, size_t head_len,
                                 uint8_t *procs, size_t procs_len, uint8_t *vars, size_t vars_len,
                                 uint8_t *trace, size_t trace_len, uint32_t variable, uint32_t value, uint16_t stamp);
uint64_t reference_run_traced(const uint8_t *image, size_t image_len, uint8_t *head, size_t head_len,
                              uint8_t *procs, size_t procs_len, uint8_t *vars, size_t vars_len,
                              uint8_t *trace, size_t trace_len, uint16_t limit, uint16_t stamp);

/* Plays a trace again. Accepted: its records in bits 32-63. 2, 3, 4, 19 and 20 hold the offset of a record; 20 keeps what was played. */
uint64_t reference_replay(const uint8_t *image, size_t image_len, uint8_t *head, size_t head_len,
                          uint8_t *procs, size_t procs_len, uint8_t *vars, size_t vars_len,
                          const uint8_t *trace, size_t trace_len);

/* Refuses nothing: 1 in bits 8-15 when some row is suspended, the lowest such number in bits 32-63. */
uint64_t reference_watch(const uint8_t *procs, size_t procs_len);

/*
 * PARLOG text to an image and its names, one a line: relations by number, then constants. Accepted: the image's length in bits 8-23, that
 * of the names in bits 32-63. Refused: 16 with the offset in the text; 17; 4, 5 or 6 with the offset in the image; 11.
 */
uint64_t reference_parse(uint8_t *image, size_t image_len, uint8_t *names, size_t names_len, const uint8_t *text,
                         size_t text_len);

/* An image with its names as PARLOG text. Accepted: its length in bits 32-63. Refused: 1 to 7, 17, 11. */
uint64_t reference_print(const uint8_t *image, size_t image_len, const uint8_t *names, size_t names_len, uint8_t *text,
                         size_t text_len);

#endif
