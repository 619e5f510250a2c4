/* One event as a call, on either side. */
#ifndef CALL_H
#define CALL_H

#include "bed.h"

uint64_t call_reference(struct bed *bed, const struct event *event);
uint64_t call_archive(struct bed *bed, const struct event *event);

/* The archive's plain call on rows in plain memory: a step, a turn or a supply. */
uint64_t call_plain(const struct bed *bed, const struct event *event, struct rows *rows);
uint64_t call_turn(const struct bed *bed, struct rows *rows);

/* The archive's save of rows in plain memory. */
uint64_t call_save(const struct bed *bed, struct rows *rows, uint8_t *saved, size_t length);

/* The archive's value of one variable. */
uint64_t call_value(const struct bed *bed, uint32_t variable);

#endif
