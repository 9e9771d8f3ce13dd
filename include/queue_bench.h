#ifndef QUEUE_BENCH_H
#define QUEUE_BENCH_H

#include <stddef.h>
#include <stdint.h>

#ifdef __cplusplus
extern "C" {
#endif

/*
 * Plays the run file in file[0 .. file_length) and writes the report to the start of area[0 .. area_length); where file,
 * run or report is refused, one line stands there in place of the report: "refused LAYER NUMBER PLACE" and a line feed.
 * Every byte of the area behind that text is zero. A text that fills the area has no zero byte behind it.
 *
 * Answers the length of the text, which is never 0. Where not even the line of the refusal fits, the answer is -14 and
 * the whole area is zero. An area of 65,536 bytes suffices for every file.
 *
 * Any bytes and any lengths may be handed over, 0 included. Neither pointer may be null (with length 0 any other address
 * will do), the area may not overlap the file, and neither length may be more than 2^63 - 1.
 *
 * The call allocates nothing, never panics, and needs about 128 KiB of stack.
 */
int64_t queue_bench_play(const uint8_t *file, size_t file_length, uint8_t *area, size_t area_length);

#ifdef __cplusplus
}
#endif

#endif
