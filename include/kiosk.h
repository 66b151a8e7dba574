/* The journey kiosk's library. Link target/staticlib/libkiosk.a (made by `tests/library`, of the crate kiosk_c).
 *
 * Every call ends, for any bytes and any numbers, and never reads or writes outside what it was lent. `answer` is four
 * numbers: {0, ..} on success, {number, place, stop, 0} on a refusal (stop only for refusal 20, else 0). On a refusal every
 * buffer lent to write is all zero; after success what lies beyond what was written is zero. The refusal numbers are those
 * of kinds/specs/Refusals.antt. Pointers may be anything where the length is 0, and may not overlap.
 */
#ifndef KIOSK_H
#define KIOSK_H

#include <stddef.h>
#include <stdint.h>

#ifdef __cplusplus
extern "C" {
#endif

/* Reads a timetable text. runs: at least 20,480 numbers, FROM TO DEP ARR TRIP for each run; codes: at least 510 numbers, start
 * (from the text's first byte) and length of each stop's code. Answer {0, stops, runs, 0}. Refuses 17, 8, then the first bad
 * line: 1, 2, 3, 4, 5, 6, 7, 8 with the line as place. */
void kiosk_read(const uint8_t *text, size_t text_length, uint32_t *runs, size_t runs_length, uint32_t *codes, size_t codes_length, uint32_t answer[4]);

/* The journey that leaves at or after t and arrives first; of those the one that leaves last. Answer {0, departure, arrival, 0}.
 * Refuses 9, 10, 11 (the first bad label), 12, 13, 14, 16. */
void kiosk_early(const uint8_t *tables, size_t tables_length, uint32_t from, uint32_t to, uint32_t t, uint32_t answer[4]);

/* The journey that arrives by t and leaves last; of those the one that arrives first. Refusals as for kiosk_early. */
void kiosk_late(const uint8_t *tables, size_t tables_length, uint32_t from, uint32_t to, uint32_t t, uint32_t answer[4]);

/* The journey that leaves at or after t, arrives by t2 and takes least time; of those the one that leaves first.
 * Refuses 9, 10, 11, 12, 13, 14, 15 (t > t2), 16. */
void kiosk_short(const uint8_t *tables, size_t tables_length, uint32_t from, uint32_t to, uint32_t t, uint32_t t2, uint32_t answer[4]);

/* Builds the tables of the label rule. tables: lent for the file; answer {0, length, labels, 0}, and the file at the front of tables. work: at
 * least kiosk_build_room() numbers, all zero afterwards. Refuses 8, 17, 5, 6, 7 (the run as place); 22 (more than 8,192 labels by the rule); 17 (the
 * tables lent are shorter than the file; 50,174 bytes are always enough). */
uint32_t kiosk_build_room(void);
void kiosk_build(uint32_t stops, uint32_t run_count, const uint32_t *runs, size_t runs_length, uint8_t *tables, size_t tables_length,
                 uint16_t *work, size_t work_length, uint32_t answer[4]);

/* The check: whether these tables, whoever made them, give every ask this timetable's best. Answer {0, 0, 0, 0} where they are accepted.
 * Given numbers: stops, run_count, and FROM TO DEP ARR TRIP for each run. work: at least kiosk_check_room() numbers, all zero afterwards.
 * Refuses 9, 10, 11; 8, 17, 5, 6, 7 (the run as place); 21; 19 (the first unsupported label); 20 (the first run and stop with a gap). */
uint32_t kiosk_check_room(void);
void kiosk_check(const uint8_t *tables, size_t tables_length, uint32_t stops, uint32_t run_count, const uint32_t *runs, size_t runs_length,
                 uint16_t *work, size_t work_length, uint32_t answer[4]);

/* The asks with their rides: answer {0, departure, arrival, rides}, and the run numbers of the rides at the front of list. 2,879 numbers are
 * always enough for the list. work: at least kiosk_rides_room() numbers, all zero afterwards.
 * Refuses 9, 10, 11; 8, 17, 5, 6, 7; 21; 12, 13, 14, 15, 16; 18 (rides missing); 17 (the list is too short). */
uint32_t kiosk_rides_room(void);
void kiosk_early_rides(const uint8_t *tables, size_t tables_length, uint32_t stops, uint32_t run_count, const uint32_t *runs, size_t runs_length,
                       uint32_t from, uint32_t to, uint32_t t, uint32_t *list, size_t list_length, uint16_t *work, size_t work_length, uint32_t answer[4]);
void kiosk_late_rides(const uint8_t *tables, size_t tables_length, uint32_t stops, uint32_t run_count, const uint32_t *runs, size_t runs_length,
                      uint32_t from, uint32_t to, uint32_t t, uint32_t *list, size_t list_length, uint16_t *work, size_t work_length, uint32_t answer[4]);
void kiosk_short_rides(const uint8_t *tables, size_t tables_length, uint32_t stops, uint32_t run_count, const uint32_t *runs, size_t runs_length,
                       uint32_t from, uint32_t to, uint32_t t, uint32_t t2, uint32_t *list, size_t list_length, uint16_t *work, size_t work_length, uint32_t answer[4]);

#ifdef __cplusplus
}
#endif

#endif
