/* What the examples of docs/C.md use and do not declare: tools/check-library compiles each of them in a function after this. */
#include "jri.h"

#include <stdio.h>
#include <stdlib.h>
#include <string.h>
#include <unistd.h>

extern uint8_t *file, *bytes, *files, *window, *out, *pixels, *marks, *lines, *canvas;
extern size_t length, size, window_length, window_size, lines_size, one_length, two_length, canvas_size, stride;
extern uint64_t window_at;
extern uint32_t more, first, count, rows;
extern int input;
extern FILE *stream;
extern struct jri_header header;
extern struct jri_report report;
extern struct jri_position position;
extern struct jri_choice choices[];

void show(const uint8_t *lines, uint32_t first_line, uint32_t count);
int enlarge(uint8_t **buffer, size_t *size);
