/* What a C programmer would write in place of the port's readers and its writer of greymaps, and to take a mosaic apart and put it together, to
   time them beside. */

#include <stddef.h>
#include <stdint.h>
#include <stdio.h>
#include <string.h>

/* What is read of an image: its size, where its samples start, and the place behind them. */
enum { WIDTH, HEIGHT, SAMPLES, NEXT };

uint32_t peer_scan(const uint8_t *file, size_t image[4]);
uint32_t peer_scan_bytes(const uint8_t *file, size_t file_length, size_t image[4]);
uint32_t peer_scan_stack(const uint8_t *file, size_t count, size_t *widths, size_t *heights, uint8_t *samples, size_t *next);
uint32_t peer_print(const uint8_t *samples, size_t width, size_t height, uint8_t *file, size_t file_length, size_t *length);
void peer_take_apart(const uint8_t *mosaic, size_t width, size_t height, uint8_t *planes);
void peer_put_together(const uint8_t *planes, size_t width, size_t height, uint8_t *mosaic);

static uint32_t answer(size_t image[4], size_t highest, size_t header) {
    image[SAMPLES] = header;
    image[NEXT] = header + image[WIDTH] * image[HEIGHT];
    return highest == 255 ? 0 : 1;
}

/* A header without comments. sscanf first looks for the end of its string: where the first sample is 0, it is found at once. */
uint32_t peer_scan(const uint8_t *file, size_t image[4]) {
    size_t highest;
    int length;
    if (sscanf((const char *)file, "P5 %zu %zu %zu%n", &image[WIDTH], &image[HEIGHT], &highest, &length) != 3) {
        return 1;
    }
    return answer(image, highest, (size_t)length + 1);
}

/* Images one behind another, as many as there are widths, into lists that are long enough. */
uint32_t peer_scan_stack(const uint8_t *file, size_t count, size_t *widths, size_t *heights, uint8_t *samples, size_t *next) {
    const uint8_t *at = file;
    for (size_t frame = 0; frame < count; frame++) {
        size_t image[4];
        if (peer_scan(at, image) != 0) {
            return 1;
        }
        widths[frame] = image[WIDTH];
        heights[frame] = image[HEIGHT];
        memcpy(samples, at + image[SAMPLES], image[NEXT] - image[SAMPLES]);
        samples += image[NEXT] - image[SAMPLES];
        at += image[NEXT];
    }
    *next = (size_t)(at - file);
    return 0;
}

/* Past white space and comments. */
static const uint8_t *past_gap(const uint8_t *at, const uint8_t *end) {
    while (at < end) {
        if (*at == '#') {
            while (at < end && *at != '\n') {
                at++;
            }
        } else if (*at == ' ' || *at == '\t' || *at == '\r' || *at == '\n') {
            at++;
        } else {
            break;
        }
    }
    return at;
}

/* A header with comments, byte by byte. */
uint32_t peer_scan_bytes(const uint8_t *file, size_t file_length, size_t image[4]) {
    const uint8_t *end = file + file_length, *at = file + 2;
    size_t numbers[3];
    if (file_length < 2 || file[0] != 'P' || file[1] != '5') {
        return 1;
    }
    for (int which = 0; which < 3; which++) {
        size_t number = 0;
        for (at = past_gap(at, end); at < end && *at >= '0' && *at <= '9'; at++) {
            number = 10 * number + (size_t)(*at - '0');
        }
        numbers[which] = number;
    }
    image[WIDTH] = numbers[0];
    image[HEIGHT] = numbers[1];
    return answer(image, numbers[2], (size_t)(at - file) + 1);
}

/* A frame as a file. */
uint32_t peer_print(const uint8_t *samples, size_t width, size_t height, uint8_t *file, size_t file_length, size_t *length) {
    char header[64];
    size_t header_length = (size_t)sprintf(header, "P5\n%zu %zu\n255\n", width, height);
    if (file_length < header_length + width * height) {
        return 1;
    }
    memcpy(file, header, header_length);
    memcpy(file + header_length, samples, width * height);
    *length = header_length + width * height;
    return 0;
}

/* Where the planes have the sample in column x of row y. */
static inline size_t place(size_t width, size_t height, size_t x, size_t y) {
    size_t even_columns = (width + 1) / 2, even_rows = (height + 1) / 2;
    size_t plane_width = x % 2 == 0 ? even_columns : width / 2, plane_height = y % 2 == 0 ? even_rows : height / 2;
    size_t rows_before = y % 2 == 0 ? 0 : even_rows * width, columns_before = x % 2 == 0 ? 0 : plane_height * even_columns;
    return rows_before + columns_before + y / 2 * plane_width + x / 2;
}

/* Pixel by pixel of the mosaic, both lists as long as its size says. */
void peer_take_apart(const uint8_t *mosaic, size_t width, size_t height, uint8_t *planes) {
    for (size_t y = 0; y < height; y++) {
        for (size_t x = 0; x < width; x++) {
            planes[place(width, height, x, y)] = mosaic[y * width + x];
        }
    }
}

void peer_put_together(const uint8_t *planes, size_t width, size_t height, uint8_t *mosaic) {
    for (size_t y = 0; y < height; y++) {
        for (size_t x = 0; x < width; x++) {
            mosaic[y * width + x] = planes[place(width, height, x, y)];
        }
    }
}
