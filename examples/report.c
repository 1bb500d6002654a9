/* The report of a bracket: report REACH < FILE.pgm, or report WIDTH HEIGHT REACH < FRAMES. The frames stand one after another on standard
   input, as PGM images or as bare samples, a byte each. Prints a line for the bracket, one for each frame and one for each of its rivals, as
   the program stacksteps does. */
#include "input.h"
#include "mtb.h"

static int32_t field(const uint8_t *record, int i) {
    const uint8_t *b = record + 4 * i;
    return (int32_t)((uint32_t)b[0] | (uint32_t)b[1] << 8 | (uint32_t)b[2] << 16 | (uint32_t)b[3] << 24);
}

static void refused(uint32_t status) {
    printf("refused %u\n", (unsigned)status);
    exit(1);
}

/* A stack's lists. */
static size_t frames, widths[MTB_MOST_FRAMES], heights[MTB_MOST_FRAMES], length;
static uint8_t percentiles[MTB_MOST_FRAMES], *samples;

/* Image by image up to the file's end, for their number and that of their samples; then all of them. */
static void read_images(const uint8_t *file, size_t file_length) {
    size_t at = 0, start;
    uint32_t status;
    while (at < file_length) {
        if (frames == MTB_MOST_FRAMES) refused(MTB_FRAMES);
        status = mtb_read_pgm(file, file_length, at, &widths[frames], &heights[frames], &start, &at);
        if (status != MTB_ACCEPTED) fprintf(stderr, "the image at byte %zu cannot be read\n", at), refused(status);
        length += widths[frames] * heights[frames];
        frames++;
    }
    samples = (uint8_t *)room(length);
    status = mtb_read_stack(file, file_length, 0, widths, frames, heights, frames, samples, length, &at);
    if (status != MTB_ACCEPTED) refused(status);
}

/* Bare samples of frames of one size. */
static void take_frames(size_t width, size_t height) {
    frames = width * height > 0 ? length / (width * height) : 0;
    if (frames * width * height != length) fprintf(stderr, "bad input\n"), exit(1);
    if (frames > MTB_MOST_FRAMES) refused(MTB_FRAMES);
    for (size_t k = 0; k < frames; k++) widths[k] = width, heights[k] = height;
}

int main(int argc, char **argv) {
    static const char *const verdict_names[] = {"reference", "weak", "alone", "contested"};
    if (argc != 2 && argc != 4) return fprintf(stderr, "usage: report REACH < FILE.pgm, or report WIDTH HEIGHT REACH < FRAMES\n"), 2;
    uint32_t reach = (uint32_t)strtoul(argv[argc - 1], NULL, 10);
    size_t input_length;
    uint8_t *input = standard_input(&input_length);
    if (argc == 2) {
        read_images(input, input_length);
        free(input);
    } else {
        samples = input, length = input_length;
        take_frames(strtoul(argv[1], NULL, 10), strtoul(argv[2], NULL, 10));
    }

    /* Each frame is cut at a percentile of its own; here all at the same. */
    for (size_t k = 0; k < frames; k++) percentiles[k] = MTB_PERCENTILE;

    /* The frames of a stack are of one size, or it is refused. */
    size_t bytes_needed, words_needed, values[5];
    uint32_t status = mtb_scratch(frames > 0 ? widths[0] : 0, frames > 0 ? heights[0] : 0, MTB_BITS, &bytes_needed, &words_needed);
    if (status != MTB_ACCEPTED) refused(status);
    uint8_t *bytes = (uint8_t *)room(bytes_needed);
    uint64_t *words = (uint64_t *)room(8 * words_needed);
    int32_t shifts[2 * MTB_MOST_FRAMES];
    uint8_t verdicts[MTB_MOST_FRAMES];
    size_t space = MTB_RECORD_SPACE(frames, reach <= MTB_MOST_REACH ? reach : 0);
    uint8_t *records = (uint8_t *)room(space);
    size_t left, top, wide, high, count;
    status = mtb_report(widths, frames, heights, frames, percentiles, frames, samples, length, 0,
                        MTB_BITS, MTB_TOLERANCE, MTB_AVERAGE, reach, 1, 0,
                        shifts, 2 * frames, verdicts, frames, records, space,
                        bytes, bytes_needed, words, words_needed,
                        &left, &top, &wide, &high, &count, values);
    if (status != MTB_ACCEPTED) refused(status);

    printf("frames %zu crop %zu %zu %zu %zu\n", frames, left, top, wide, high);
    for (size_t k = 0, i = 0; k < frames; k++) {
        size_t end = i; /* records stand by frame */
        while (end < count && field(records + MTB_RECORD * end, 0) == (int32_t)k) end++;
        printf("%zu %d %d %s %zu\n", k, shifts[2 * k], shifts[2 * k + 1], verdict_names[verdicts[k]], end - i);
        for (; i < end; i++) {
            const uint8_t *r = records + MTB_RECORD * i;
            printf("%d %d %d %d %d\n", field(r, 0), field(r, 1), field(r, 2), field(r, 3), field(r, 4));
        }
    }
    free(records), free(samples), free(words), free(bytes);
    return 0;
}
