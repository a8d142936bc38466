/*
 * The structs of jri.h have the sizes and offsets of the crates' structs. Compiled by tools/check-library as C and as C++;
 * tools/check-documents compares these numbers with the crates.
 */
#include "jri.h"

#include <assert.h>
#include <stddef.h>

#define SIZE(name, size) static_assert(sizeof(struct name) == (size), "the size of " #name)
#define AT(name, field, offset) static_assert(offsetof(struct name, field) == (offset), "the offset of " #name "." #field)

SIZE(jri_header, 96);
AT(jri_header, width, 0);
AT(jri_header, height, 4);
AT(jri_header, kind, 8);
AT(jri_header, components, 12);
AT(jri_header, intervals, 16);
AT(jri_header, refusal, 20);
AT(jri_header, pixels, 24);
AT(jri_header, detail, 32);
AT(jri_header, scan_at, 40);
AT(jri_header, restart, 48);
AT(jri_header, mcu_width, 52);
AT(jri_header, mcu_height, 56);
AT(jri_header, mcus_across, 60);
AT(jri_header, mcus_down, 64);
AT(jri_header, mcus, 68);
AT(jri_header, horizontal, 72);
AT(jri_header, vertical, 84);

SIZE(jri_report, 48);
AT(jri_report, intervals, 0);
AT(jri_report, sound, 4);
AT(jri_report, damaged, 8);
AT(jri_report, blank, 12);
AT(jri_report, ended, 16);
AT(jri_report, found, 20);
AT(jri_report, due, 24);
AT(jri_report, refusal, 28);
AT(jri_report, at, 32);
AT(jri_report, detail, 40);

SIZE(jri_position, 40);
AT(jri_position, at, 0);
AT(jri_position, bit, 8);
AT(jri_position, row, 12);
AT(jri_position, interval, 16);
AT(jri_position, mcu, 20);
AT(jri_position, predictions, 24);
AT(jri_position, state, 36);

SIZE(jri_rows, 24);
AT(jri_rows, rows, 0);
AT(jri_rows, lines, 4);
AT(jri_rows, first_line, 8);
AT(jri_rows, refusal, 12);
AT(jri_rows, detail, 16);

SIZE(jri_damage, 40);
AT(jri_damage, interval, 0);
AT(jri_damage, first_mcu, 4);
AT(jri_damage, mcus, 8);
AT(jri_damage, decodable, 12);
AT(jri_damage, first_line, 16);
AT(jri_damage, last_line, 20);
AT(jri_damage, start, 24);
AT(jri_damage, end, 32);

SIZE(jri_damage_list, 32);
AT(jri_damage_list, count, 0);
AT(jri_damage_list, next, 4);
AT(jri_damage_list, next_at, 8);
AT(jri_damage_list, refusal, 16);
AT(jri_damage_list, detail, 24);

SIZE(jri_break, 16);
AT(jri_break, at, 0);
AT(jri_break, code, 8);
AT(jri_break, due, 9);
AT(jri_break, skipped, 12);

SIZE(jri_resynced, 48);
AT(jri_resynced, ended, 0);
AT(jri_resynced, found, 4);
AT(jri_resynced, due, 8);
AT(jri_resynced, refusal, 12);
AT(jri_resynced, size, 16);
AT(jri_resynced, breaks, 24);
AT(jri_resynced, at, 32);
AT(jri_resynced, detail, 40);

SIZE(jri_choice, 16);
AT(jri_choice, copy, 0);
AT(jri_choice, mark, 4);
AT(jri_choice, decodable, 8);
AT(jri_choice, differs, 12);

SIZE(jri_mended, 32);
AT(jri_mended, intervals, 0);
AT(jri_mended, damaged, 4);
AT(jri_mended, copy, 8);
AT(jri_mended, refusal, 12);
AT(jri_mended, size, 16);
AT(jri_mended, detail, 24);
