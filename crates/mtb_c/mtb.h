/*
 * mtb.h: image registration by median threshold bitmaps, every call proved. Version 4.1.0.
 *
 * Link libmtb_c.a, which `rt lib` in crates/mtb_c writes to its out/ (x86-64-v2). docs/CALLS.md has each call in full.
 *
 * Status. A call returns 0 where it is accepted, else the number of the first check that fails, in the order given with the call
 * after "Refused:". A refused call writes nothing but `values`, and under 10 the scratch.
 *
 * Lists. A list passes as a pointer and its length in elements. Its length is exactly the one given with the call; only scratch,
 * record space and the buffer of a file that is written may be longer, and then what lies past the need stays as it was, and a file
 * that is read has any length. Pointers are aligned and never null, not at length 0 either, and what a call writes overlaps nothing
 * else that it is lent.
 *
 * Slots, such as `x` or `count`, are never read, so that they need not be set before. They are written only where the call is
 * accepted; mtb_row and mtb_level, which have no refusal, always write theirs. `values` is written at its front by the refusals that
 * carry values (4, 5 and 10), as said below, and else left alone.
 *
 * Frames. A frame has width * height samples, row by row, one byte each; a side may be 0. A bitmap has ceil(width / 64) words a
 * row, lowest bit first; the bits of a row past the width are its padding. A stack's frames stand one after another in exposure
 * order, from the darkest to the brightest or the other way: each is compared with the one next to it, and frames that lie far apart
 * in exposure compare badly. A shift (x, y) moves right and down.
 *
 * Since 4.0.0 every frame has a percentile of its own: mtb_shift takes two, mtb_align_stack and mtb_report a list. A call of one of these that
 * was written for an older header does not compile with this one. Declarations that are kept elsewhere, as in Rust or Python, have to be
 * changed by hand: the names are the same, so that an old one links, and passes wrong arguments.
 *
 * There is no state and no allocation. Calls may run at the same time on separate buffers. MTB_STACK bytes of stack suffice for every
 * call; a thread that calls needs them beside its own.
 */
#ifndef MTB_H
#define MTB_H

#include <stdbool.h>
#include <stddef.h>
#include <stdint.h>

#ifdef __cplusplus
extern "C" {
#endif

#define MTB_VERSION "4.1.0"

/* Limits. */
#define MTB_MOST_SIDE 8192
#define MTB_MOST_FRAMES 16
#define MTB_MOST_REACH 64
#define MTB_STACK 98304

/* How a search is run, with the usual choice. docs/TERMS.md says how to choose. All but the percentile are the same for all frames.
   bits         a step reaches 2^bits - 1 pixels on each axis, less on small frames: L is the least of bits - 1, log2(longest side) - 1
                and log2(shortest side), logarithms rounded down and nothing below 0, or 0 if a side is 0; the step lies within 2^(L + 1) - 1.
                Any number is taken.
   tolerance    samples within this distance of the cut are not compared.
   percentile   of each frame, 0 to 100: its cut is the least value that has this share of the frame's samples below it. 50 is the median; a
                dark frame may want 83, a bright one 17. The percentiles of frames next to each other should be no more than 5 apart. With
                one percentile for all frames the shifts are those of the Rust crate mtb-align.
   subsampled   how frames are halved: MTB_AVERAGE takes the mean of four samples, MTB_SUBSAMPLE the upper left one. */
#define MTB_BITS 6
#define MTB_TOLERANCE 4
#define MTB_PERCENTILE 50
#define MTB_AVERAGE false
#define MTB_SUBSAMPLE true

/* The numbers of a status. */
enum mtb_status {
    MTB_ACCEPTED = 0,
    MTB_SIDE = 1,        /* a side over 8,192 */
    MTB_LENGTH = 2,      /* a list or buffer of the wrong length */
    MTB_OVER_100 = 3,    /* a percentile over 100 */
    MTB_SIZES = 4,       /* sizes differ */
    MTB_NO_FRAME = 5,    /* no such reference */
    MTB_FRAMES = 6,      /* over 16 frames */
    MTB_SCRATCH = 7,     /* scratch too short */
    MTB_PADDING = 8,     /* a padding bit set */
    MTB_REACH = 9,       /* a reach over 64 */
    MTB_RECORDS = 10,    /* record space too short */
    MTB_PIXEL = 11,      /* a pixel outside */
    MTB_COORDINATE = 12, /* a coordinate outside 32 bits */
    MTB_HEADER = 13,     /* a PGM header malformed or cut short, or a place past the file's end */
    MTB_HIGHEST = 14,    /* a highest value other than 255 */
    MTB_SHORT = 15       /* fewer samples than the header promises */
};

/* ---- single frames ---- */

/* Grey from RGB: (54 red + 183 green + 19 blue) / 256, rounded down. rgb has 3 bytes a pixel. Refused: 1; 2 for rgb, gray. Writes gray. */
uint32_t mtb_from_rgb(const uint8_t *rgb, size_t rgb_length, size_t width, size_t height,
                      uint8_t *gray, size_t gray_length);

/* Halves both sides, rounded down: (sum of four + 2) / 4, rounded down, or the upper left sample. shrunk has (width / 2) * (height / 2).
   Refused: 1; 2 for samples, shrunk. Writes shrunk. */
uint32_t mtb_shrink2(const uint8_t *samples, size_t samples_length, size_t width, size_t height,
                     bool subsampled, uint8_t *shrunk, size_t shrunk_length);

/* The cut, 0 to 256: how many bins from 0 up it takes to hold samples * percentile / 100, rounded down. Refused: 1; 2 for samples; 3.
   Writes cut. */
uint32_t mtb_threshold(const uint8_t *samples, size_t samples_length, size_t width, size_t height,
                       uint8_t percentile, uint16_t *cut);

/* Packs two bitmaps, each of height * ceil(width / 64) words: bits above the cut, and bits farther from it than tolerance.
   Refused: 1; 2 for samples, threshold, exclusion; 3. Writes both, padding clear. */
uint32_t mtb_compute_bitmaps(const uint8_t *samples, size_t samples_length, size_t width, size_t height,
                             uint8_t percentile, uint8_t tolerance,
                             uint64_t *threshold, size_t threshold_length,
                             uint64_t *exclusion, size_t exclusion_length);

/* Reads the pixel of column x and row y. Refused: 1; 2 for words; 11. Writes pixel. */
uint32_t mtb_get(const uint64_t *words, size_t words_length, size_t width, size_t height,
                 size_t x, size_t y, bool *pixel);

/* Sets the pixel of column x and row y to value. Refused: 1; 2 for words; 11. Writes that bit of words and no other. */
uint32_t mtb_set(uint64_t *words, size_t words_length, size_t width, size_t height,
                 size_t x, size_t y, bool value);

/* Counts the set bits. Refused: 1; 2 for words; 8. Writes total. */
uint32_t mtb_count_ones(const uint64_t *words, size_t words_length, size_t width, size_t height,
                        uint64_t *total);

/* Row y of a bitmap as a part of words: returns how many words it has, in place of a status, and writes to start where it stands.
   Both are 0 where 1, 2 or 11 holds. */
size_t mtb_row(const uint64_t *words, size_t words_length, size_t width, size_t height,
               size_t y, size_t *start);

/* ---- PGM files ---- */

/* Reads the image that begins at byte `at` of a file, in Netpbm's binary greymap format: P5, then width, height and highest value, each a
   number behind white space, one white space byte, and width * height samples. White space is one or more of blank, tab, carriage
   return and line feed; before the highest value a comment, from # through the next line feed, counts as white space, alone too. A
   number has one or more digits, any number of them, zeros in front too. Sides may be 0.
   samples is where the samples start, so that file + samples is the frame, in place; next is the byte behind them, where another image
   may begin, or the file's length where it has no more. Refused: 13; 1; 14; 15. Writes width, height, samples, next. */
uint32_t mtb_read_pgm(const uint8_t *file, size_t file_length, size_t at,
                      size_t *width, size_t *height, size_t *samples, size_t *next);

/* Reads as many images as widths is long, each directly behind the one before it, the first at byte `at`, and lays them out as
   mtb_align_stack and mtb_report take them: widths, heights, and the samples joined. samples has exactly the sum of their width * height,
   which mtb_read_pgm tells image by image. Sizes may differ; a stack of such frames is refused by 4. next is the byte behind the last image,
   or `at` where none is asked for.
   Refused: 6; 2 for heights; 13, 1, 14, 15 of one image after another; 2 for samples. Where no image is asked for, a place past the end is 13
   too. Writes widths, heights, samples, next. */
uint32_t mtb_read_stack(const uint8_t *file, size_t file_length, size_t at,
                        size_t *widths, size_t widths_length, size_t *heights, size_t heights_length,
                        uint8_t *samples, size_t samples_length, size_t *next);

/* Bytes that are enough for the file of any frame of this size: the header has 11 to 17. */
#define MTB_PGM_SPACE(width, height) ((size_t)(width) * (size_t)(height) + 17)

/* Writes a frame as a file to the front of `file`, in one form: P5, line feed, width, blank, height, line feed, 255, line feed, samples. The
   numbers are in decimal with no 0 in front, and there is no comment. So frames of the same size and samples, and no others, have the same
   bytes. mtb_read_pgm reads the frame back wherever its file stands, and an image that it accepted takes no more bytes written than it
   took. file_length is how long the buffer `file` is: as long as the file that is written, or longer, and then what lies past that file stays
   as it was. length is how long the file is, so that another image may be written to file + length. Refused: 1; 2 for samples, and for a
   buffer that is too short. Writes file, length. */
uint32_t mtb_write_pgm(const uint8_t *samples, size_t samples_length, size_t width, size_t height,
                       uint8_t *file, size_t file_length, size_t *length);

/* ---- mosaics ---- */

/* A colour sensor's mosaic has one sample a pixel, and its colours repeat every two columns and every two rows. Its four planes, numbered
   and stored one after another: 0 has the even rows' even columns, 1 the even rows' odd columns, 2 the odd rows' even columns, 3 the odd
   rows' odd columns. Columns and rows count from 0. Of an odd side there is one more even column or row, so planes may differ in size or be
   empty; together they have width * height samples, each sample of the mosaic once. */
#define MTB_EVEN_EVEN 0
#define MTB_EVEN_ODD 1
#define MTB_ODD_EVEN 2
#define MTB_ODD_ODD 3

/* Takes a mosaic apart: column u and row v of plane p are the mosaic's column 2u + p % 2 and row 2v + p / 2. mosaic and planes have
   exactly width * height samples. Refused: 1; 2 for mosaic, planes. Writes planes. */
uint32_t mtb_take_apart(const uint8_t *mosaic, size_t mosaic_length, size_t width, size_t height,
                        uint8_t *planes, size_t planes_length);

/* Puts a mosaic together from its planes: this undoes mtb_take_apart, and that undoes this. Refused: 1; 2 for mosaic, planes. Writes mosaic. */
uint32_t mtb_put_together(const uint8_t *planes, size_t planes_length, size_t width, size_t height,
                          uint8_t *mosaic, size_t mosaic_length);

/* The four planes of a mosaic of this size, by number: planes + starts[p] is a frame of widths[p] by heights[p], in place, for every call
   that takes frames. With even sides all four have one size, and the planes as they stand are a stack of four frames. Pixels next to each
   other in a plane lie two apart in the mosaic: a shift (x, y) of a plane is (2x, 2y) of the mosaic. Refused: 1. Writes starts, widths,
   heights, four numbers each. */
uint32_t mtb_planes(size_t width, size_t height, size_t starts[4], size_t widths[4], size_t heights[4]);

/* ---- levels ---- */

/* The scratch of a step, a stack or a report of frames of this size: bytes, twice the samples of the halved levels 1 to L, which is
   the sum over k of (width / 2^k) * (height / 2^k), each rounded down; words, 4 * height * ceil(width / 64). At most 44,739,240 bytes and
   4,194,304 words. A pyramid needs half the bytes; a stack or report of one frame needs none. Refused: 1. Writes bytes, words. */
uint32_t mtb_scratch(size_t width, size_t height, uint32_t bits, size_t *bytes, size_t *words);

/* Writes the halved levels 1 to L of a frame one after another to the front of scratch. Refused: 1; 2 for samples; 7. */
uint32_t mtb_pyramid(const uint8_t *samples, size_t samples_length, size_t width, size_t height,
                     uint32_t bits, bool subsampled, uint8_t *scratch, size_t scratch_length);

/* Level k of a frame, 0 for the frame itself, as a part of frame or of the scratch that mtb_pyramid filled: returns how many samples it
   has, in place of a status, and writes which of the two it is in and where it starts. The part is empty, with false and 0, past level L
   and where 1, 2 (for frame) or 7 holds. */
size_t mtb_level(const uint8_t *frame, size_t frame_length, size_t width, size_t height,
                 uint32_t bits, const uint8_t *scratch, size_t scratch_length,
                 size_t k, bool *in_scratch, size_t *start);

/* ---- shifts and crops ---- */

/* Doubles a shift. Refused: 12. Writes new_x, new_y. */
uint32_t mtb_doubled(int32_t x, int32_t y, int32_t *new_x, int32_t *new_y);

/* Adds (by_x, by_y) to a shift. Refused: 12. Writes new_x, new_y. */
uint32_t mtb_offset(int32_t x, int32_t y, int32_t by_x, int32_t by_y, int32_t *new_x, int32_t *new_y);

/* Moves a frame right by x and down by y, with 0 where nothing moves in. Refused: 1; 2 for samples, moved. Writes moved. */
uint32_t mtb_shifted(const uint8_t *samples, size_t samples_length, size_t width, size_t height,
                     int32_t x, int32_t y, uint8_t *moved, size_t moved_length);

/* The crop that every frame covers once moved by its shift. shifts has x, then y for each frame. An empty crop has a width or height of 0.
   Refused: 1; 2 for an odd list. Writes left, top, wide, high. */
uint32_t mtb_common_crop(const int32_t *shifts, size_t shifts_length, size_t width, size_t height,
                         size_t *left, size_t *top, size_t *wide, size_t *high);

/* ---- two frames ---- */

/* The counts of two packed pairs at a shift of the target: pixels that compare, and those of them that disagree. Refused: 1 for either
   size; 4; 2 for any of the four bitmaps; 8. Writes disagreeing, compared. Refused by 4, writes values: width and height of the reference,
   then of the target. */
uint32_t mtb_disagreement(const uint64_t *reference_threshold, size_t reference_threshold_length,
                          const uint64_t *reference_exclusion, size_t reference_exclusion_length,
                          size_t width, size_t height,
                          const uint64_t *target_threshold, size_t target_threshold_length,
                          const uint64_t *target_exclusion, size_t target_exclusion_length,
                          size_t target_width, size_t target_height,
                          int32_t x, int32_t y, uint64_t *disagreeing, uint64_t *compared,
                          size_t values[5]);

/* The step of two frames: how far the target has to move to sit on the reference. percentile is the reference's, target_percentile the
   target's: each frame is cut at its own, at every level. bytes and words are the scratch that mtb_scratch gives.
   comparisons is the number of shifts that were tried: at each level from L to 0 those up to and including the first that disagrees in no
   pixel, or nine; L + 1 to 9 * (L + 1) in all.
   Refused: 1 for either size; 3 for either percentile; 4; 2 for reference, target; 7. Writes x, y, comparisons, and the scratch. Refused by 4,
   writes values: width and height of the reference, then of the target. */
uint32_t mtb_shift(const uint8_t *reference, size_t reference_length, size_t width, size_t height, uint8_t percentile,
                   const uint8_t *target, size_t target_length, size_t target_width, size_t target_height, uint8_t target_percentile,
                   uint32_t bits, uint8_t tolerance, bool subsampled,
                   uint8_t *bytes, size_t bytes_length, uint64_t *words, size_t words_length,
                   int32_t *x, int32_t *y, uint64_t *comparisons, size_t values[5]);

/* ---- a stack ---- */

/* The total shift of every frame of a stack, which lays it on frame `reference`: from there down to 0, then up, each frame steps against
   the one next to it on the reference's side, its neighbour, and the steps are added up. widths, heights and percentiles have one entry a frame,
   and each frame is cut at its own percentile; samples has the frames one after another, shifts 2 * frames entries: x, then y for each frame.
   bytes and words are the scratch that mtb_scratch gives.
   Refused: 6 for widths, heights; 2 for heights, percentiles; 1; 3 for any percentile; 5; 4; 2 for samples, shifts; 7. So 17 percentiles for 16
   frames are 2. Writes shifts and the scratch. Refused by 5, writes values: the reference and the number of frames; by 4: width and height of a
   neighbour, those of the frame that differs from it, and that frame's number. */
uint32_t mtb_align_stack(const size_t *widths, size_t widths_length, const size_t *heights, size_t heights_length,
                         const uint8_t *percentiles, size_t percentiles_length,
                         const uint8_t *samples, size_t samples_length, size_t reference,
                         uint32_t bits, uint8_t tolerance, bool subsampled,
                         int32_t *shifts, size_t shifts_length,
                         uint8_t *bytes, size_t bytes_length, uint64_t *words, size_t words_length,
                         size_t values[5]);

/* A frame's verdict. It speaks of the shifts within reach of the frame's step and of no other: a rival that lies farther is not looked for. Nor
   does it speak of the eight shifts around the step, of which one may fit as well, or better.
   A frame's total shift is to be trusted only if every frame from it to the reference, itself among them, is alone. */
enum mtb_verdict {
    MTB_REFERENCE = 0, /* the reference; it does not move */
    MTB_WEAK = 1,      /* the step compares fewer than floor pixels: its shift is no measurement */
    MTB_ALONE = 2,     /* the step is the only rival: every shift within reach that is two or more pixels away compares fewer than floor
                          pixels or disagrees in over margin more than the step */
    MTB_CONTESTED = 3  /* the step is a rival, and so is a shift within reach that is two or more pixels away */
};

/* A record: 20 bytes, five numbers of 32 bits, low byte first: frame, x, y, disagreeing, compared. x and y are signed (two's complement)
   and relative to the frame's neighbour, as a step is, while `shifts` has totals. Frames rise, then y, then x. */
#define MTB_RECORD 20

/* Bytes that are enough for the records of any report of so many frames at this reach: 4,992,300 for 16 and 64. They are those of the whole
   window, the eight shifts around each step, which are no rivals, among them. */
#define MTB_RECORD_SPACE(frames, reach) \
    ((size_t)MTB_RECORD * ((frames) > 0 ? (size_t)(frames) - 1 : 0) * (2 * (size_t)(reach) + 1) * (2 * (size_t)(reach) + 1))

/* The stack with every rival of each frame's step: a shift within reach of the step on both axes that compares at least floor pixels and
   disagrees in at most margin more than the step, and is not one of the eight shifts around the step. Both frames of a pair are counted at
   full size, the frame cut at its own percentile and its neighbour at the neighbour's. The step is a rival itself, unless the frame is weak; the
   reference has none. At reach 0 and 1 only the step can be one, so that no frame is contested. reach is 0 to 64, floor and margin are any
   numbers of pixels. Lists and scratch are those of mtb_align_stack; verdicts has one entry a frame. A record space of length 0 asks how many
   records there are: refused by 10 if there is one.
   Refused: as the stack, with verdicts after shifts in the last 2 and 9 before 7; 10. Writes shifts, verdicts, the crop of the shifts (left, top,
   wide, high), count, that many records at the front of records, and the scratch. Refused by 5 or 4, writes values as the stack does; by
   10, the number of records needed to values[0], and the scratch. */
uint32_t mtb_report(const size_t *widths, size_t widths_length, const size_t *heights, size_t heights_length,
                    const uint8_t *percentiles, size_t percentiles_length,
                    const uint8_t *samples, size_t samples_length, size_t reference,
                    uint32_t bits, uint8_t tolerance, bool subsampled,
                    uint32_t reach, uint32_t floor, uint32_t margin,
                    int32_t *shifts, size_t shifts_length, uint8_t *verdicts, size_t verdicts_length,
                    uint8_t *records, size_t records_length,
                    uint8_t *bytes, size_t bytes_length, uint64_t *words, size_t words_length,
                    size_t *left, size_t *top, size_t *wide, size_t *high, size_t *count,
                    size_t values[5]);

#ifdef __cplusplus
}
#endif

#endif
