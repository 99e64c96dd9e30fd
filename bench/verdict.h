/* The verdict on a plan, in plain C: the same method and the same answers as the proved function. */
#ifndef VERDICT_H
#define VERDICT_H

#include <stddef.h>
#include <stdint.h>

enum { WORK = 65536, RECORD = 126 };

/* An answer: 0 is consistent, VIOLATED + the set, REFUSED + the number. */
enum { CONSISTENT = 0, VIOLATED = 0x10000, REFUSED = 0x20000 };

/* The one written by hand. */
uint32_t plain_verdict(const uint8_t *file, size_t file_len, uint8_t *work, size_t work_len, uint8_t *record, size_t record_len);

/* The proved one, from the static library. */
uint32_t vodjimar_verdict(const uint8_t *file, size_t file_len, uint8_t *work, size_t work_len, uint8_t *record, size_t record_len);

/* The proved call for a whole class: plan files, each after a two-byte length, and a place of PLACE bytes for each. How many places are filled, or REFUSED + the number. */
enum { FILES = 16, PLACE = 130 };
uint32_t vodjimar_class(const uint8_t *input, size_t input_len, uint8_t *work, size_t work_len, uint8_t *answers, size_t answers_len);

/* Another build of the verdict, where bench/run is given one to compare with. */
#ifdef BEFORE
uint32_t vodjimar_before(const uint8_t *file, size_t file_len, uint8_t *work, size_t work_len, uint8_t *record, size_t record_len);
#endif

typedef uint32_t verdict_fn(const uint8_t *, size_t, uint8_t *, size_t, uint8_t *, size_t);

#endif
