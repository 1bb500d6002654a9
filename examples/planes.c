/* How far the planes of a colour sensor's mosaics have to move to sit on those of the first: planes < MOSAICS.pgm. The mosaics are the images of the
   file, all of one size. Prints for each of the four planes a line with its rows, columns and size, and then one for each mosaic behind the first: its
   number, and the step of its plane, right and down. A plane's step is half of the mosaic's. */
#include "input.h"
#include "mtb.h"

static void accepted(uint32_t status, const char *what, size_t number) {
    if (status != MTB_ACCEPTED) fprintf(stderr, "the %s %zu: refused %u\n", what, number, (unsigned)status), exit(1);
}

int main(void) {
    static const struct { size_t number; const char *name; } planes[] = {{MTB_EVEN_EVEN, "even rows, even columns"}, {MTB_EVEN_ODD, "even rows, odd columns"},
                                                                         {MTB_ODD_EVEN, "odd rows, even columns"}, {MTB_ODD_ODD, "odd rows, odd columns"}};
    size_t length, width = 0, height = 0, mosaics = 0;
    uint8_t *file = standard_input(&length);
    uint8_t *apart = (uint8_t *)room(length); /* the planes of one mosaic after another take no more than the file */
    for (size_t at = 0, next; at < length; at = next, mosaics++) {
        size_t wide, high, start;
        accepted(mtb_read_pgm(file, length, at, &wide, &high, &start, &next), "image at byte", at);
        if (mosaics == 0) width = wide, height = high;
        if (wide != width || high != height) return fprintf(stderr, "the image at byte %zu is of another size\n", at), 1;
        size_t area = width * height;
        accepted(mtb_take_apart(file + start, area, width, height, apart + mosaics * area, area), "image at byte", at);
    }

    size_t starts[4], widths[4], heights[4], bytes_needed, words_needed, values[5];
    accepted(mtb_planes(width, height, starts, widths, heights), "planes of the image at byte", 0);
    /* This plane is the largest, and a scratch may be longer than needed. */
    accepted(mtb_scratch(widths[MTB_EVEN_EVEN], heights[MTB_EVEN_EVEN], MTB_BITS, &bytes_needed, &words_needed), "scratch of plane", MTB_EVEN_EVEN);
    uint8_t *bytes = (uint8_t *)room(bytes_needed);
    uint64_t *words = (uint64_t *)room(8 * words_needed);
    for (size_t i = 0; i < 4; i++) {
        size_t p = planes[i].number;
        printf("%s: %zu by %zu\n", planes[i].name, widths[p], heights[p]);
        /* A plane is a frame where it stands. */
        const uint8_t *first = apart + starts[p];
        size_t samples = widths[p] * heights[p];
        for (size_t k = 1; k < mosaics; k++) {
            int32_t x, y;
            uint64_t comparisons;
            uint32_t status = mtb_shift(first, samples, widths[p], heights[p], MTB_PERCENTILE,
                                        first + k * width * height, samples, widths[p], heights[p], MTB_PERCENTILE,
                                        MTB_BITS, MTB_TOLERANCE, MTB_AVERAGE,
                                        bytes, bytes_needed, words, words_needed, &x, &y, &comparisons, values);
            accepted(status, "step of plane", p);
            printf("%zu %d %d\n", k, (int)x, (int)y);
        }
    }
    free(words), free(bytes), free(apart), free(file);
    return 0;
}
