/* The planner in plain C: the interface of desk.h under another name. */
#ifndef PLANNER_H
#define PLANNER_H

#include <stddef.h>
#include <stdint.h>

uint32_t reference_call(const uint8_t *file, size_t file_len, uint8_t *block,
                        size_t block_len, uint64_t budget);

/* Open nodes when the last call ended. */
extern uint32_t reference_open_nodes;

#endif
