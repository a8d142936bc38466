"""The structs, calls and numbers of jri.h."""

from __future__ import annotations

from typing import Any

CALLS = 11

SOUND, NO_MEMORY, REFUSED, DAMAGED, BUFFER_TOO_SMALL, NO_LINES, NO_LAYOUT, NEED_MORE, TOO_LONG, NO_COPIES, OTHER_HEADER = range(11)

#: The status of calls that do not judge the restart intervals.
OK = SOUND

COMPLETE, PARTIAL = range(2)

AS_IS, RESYNC = range(2)

#: The layouts of a canvas, and the size of a pixel in bytes in each.
LAYOUTS = {"rgb": (1, 3), "bgr": (2, 3), "rgbx": (3, 4), "bgrx": (4, 4)}


def declare(builder: Any) -> None:
    """Declares libjri to a builder of cffi. python/make_ffi.py writes _ffi.py from these declarations."""
    builder.cdef(
        """
        struct jri_header { uint32_t width, height, kind, components, intervals, refusal; uint64_t pixels, detail, scan_at;
                            uint32_t restart, mcu_width, mcu_height, mcus_across, mcus_down, mcus, horizontal[3], vertical[3]; };
        struct jri_report { uint32_t intervals, sound, damaged, blank, ended, found, due, refusal; uint64_t at, detail; };
        struct jri_position { uint64_t at; uint32_t bit, row, interval, mcu; int32_t predictions[3]; uint32_t state; };
        struct jri_rows { uint32_t rows, lines, first_line, refusal; uint64_t detail; };
        struct jri_damage { uint32_t interval, first_mcu, mcus, decodable, first_line, last_line; uint64_t start, end; };
        struct jri_damage_list { uint32_t count, next; uint64_t next_at; uint32_t refusal; uint64_t detail; };
        struct jri_break { uint64_t at; uint8_t code, due; uint32_t skipped; };
        struct jri_resynced { uint32_t ended, found, due, refusal; uint64_t size, breaks, at, detail; };
        struct jri_choice { uint32_t copy, mark, decodable, differs; };
        struct jri_mended { uint32_t intervals, damaged, copy, refusal; uint64_t size, detail; };
        uint32_t jri_version(void);
        uint32_t jri_read_header(const uint8_t *, size_t, uint32_t, struct jri_header *);
        uint32_t jri_decode(const uint8_t *, size_t, uint32_t, uint8_t *, size_t, uint8_t *, size_t, struct jri_report *);
        uint32_t jri_decode_lines(const uint8_t *, size_t, uint32_t, uint32_t, uint32_t, uint8_t *, size_t, struct jri_report *);
        uint32_t jri_check(const uint8_t *, size_t, uint32_t, uint8_t *, size_t, struct jri_report *);
        uint32_t jri_decode_rows(const uint8_t *, size_t, uint32_t, struct jri_position *, uint32_t, uint8_t *, size_t,
                                 struct jri_rows *);
        uint32_t jri_skip_rows(const uint8_t *, size_t, uint32_t, struct jri_position *, uint32_t, struct jri_rows *);
        uint32_t jri_decode_canvas(const uint8_t *, size_t, uint32_t, uint8_t *, size_t, size_t, uint32_t, uint8_t *, size_t,
                                   struct jri_report *);
        uint32_t jri_list_damage(const uint8_t *, size_t, uint32_t, uint32_t, uint64_t, struct jri_damage *, size_t,
                                 struct jri_damage_list *);
        uint32_t jri_resynchronise(const uint8_t *, size_t, uint8_t *, size_t, struct jri_break *, size_t, struct jri_resynced *);
        uint32_t jri_mend(const uint8_t *, size_t, const size_t *, size_t, uint8_t *, size_t, struct jri_choice *, size_t,
                          struct jri_mended *);
        uint64_t jri_refusal_text(uint32_t, uint64_t, uint8_t *, size_t);
        uint64_t jri_end_text(const struct jri_report *, uint8_t *, size_t);
        uint64_t jri_build_text(uint8_t *, size_t);
        uint32_t jri_lay_out(const uint8_t *, size_t, uint32_t, uint32_t, uint8_t *, size_t, size_t, uint32_t);
        """
    )
