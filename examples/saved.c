/* The images of a PGM file in the one form that a frame is written in: saved < FILE.pgm > SAVED.pgm. Of two files of the same frames, however
   their headers are spaced and commented, it makes the same bytes, so that cmp tells them apart by size and samples alone. */
#include "input.h"
#include "mtb.h"

int main(void) {
    size_t length;
    uint8_t *file = standard_input(&length);
    for (size_t at = 0, next; at < length; at = next) {
        size_t width, height, start, written;
        uint32_t status = mtb_read_pgm(file, length, at, &width, &height, &start, &next);
        if (status != MTB_ACCEPTED) return fprintf(stderr, "the image at byte %zu cannot be read: refused %u\n", at, (unsigned)status), 1;
        size_t space = MTB_PGM_SPACE(width, height);
        uint8_t *saved = (uint8_t *)room(space);
        status = mtb_write_pgm(file + start, next - start, width, height, saved, space, &written);
        if (status != MTB_ACCEPTED || fwrite(saved, 1, written, stdout) != written) return fprintf(stderr, "the image at byte %zu is not written\n", at), 1;
        free(saved);
    }
    free(file);
    return fflush(stdout) == 0 ? 0 : 1;
}
