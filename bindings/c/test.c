/* Calls every function of the library through its header, by numbers and by a frame: the known small answers, each refusal, and what stays unchanged. */
#include <stdio.h>
#include <string.h>

#include "beamacorn.h"

static int checks, failures;

#define CHECK(fact)                                                      \
    do {                                                                 \
        ++checks;                                                        \
        if (!(fact)) {                                                   \
            ++failures;                                                  \
            fprintf(stderr, "%s:%d: not so: %s\n", __FILE__, __LINE__, #fact); \
        }                                                                \
    } while (0)

/* Answers, field by field. */
static bool is_verdict(beamacorn_verdict r, uint32_t number, bool yes) { return r.number == number && r.yes == yes; }
static bool is_span(beamacorn_span r, uint32_t number, int32_t start, int32_t end) { return r.number == number && r.start == start && r.end == end; }
static bool is_length(beamacorn_length r, uint32_t number, uint32_t points) { return r.number == number && r.points == points; }
static bool is_step(beamacorn_step r, uint32_t number, int32_t x, int32_t y) { return r.number == number && r.x == x && r.y == y; }
static bool is_rows(beamacorn_rows r, uint32_t number, int32_t first, uint32_t count) { return r.number == number && r.first == first && r.count == count; }
static bool is_size(beamacorn_size r, uint32_t number, uint32_t bytes) { return r.number == number && r.bytes == bytes; }
static bool is_read(beamacorn_read r, uint32_t number, uint32_t colour) { return r.number == number && r.colour == colour; }
static bool is_drawn(beamacorn_drawn r, uint32_t number, uint32_t count) { return r.number == number && r.count == count; }
static bool is_placed(beamacorn_placed r, uint32_t number, bool inside) { return r.number == number && r.inside == inside; }
static bool is_lights(beamacorn_lights r, uint32_t number, uint32_t count) { return r.number == number && r.count == count; }

/* Whether each of n bytes is v. */
static bool all(const uint8_t *bytes, size_t n, uint8_t v)
{
    for (size_t i = 0; i < n; ++i) {
        if (bytes[i] != v) {
            return false;
        }
    }
    return true;
}

static void lines(void)
{
    static const int32_t rows[] = {0, 0, 1, 1, 2, 2};

    CHECK(is_length(beamacorn_line_length(0, 0, 0, 0), 0, 1));
    CHECK(is_length(beamacorn_line_length(-131072, 0, 131071, 5), 0, 262144));
    CHECK(is_length(beamacorn_line_length(131072, 0, 0, 0), 5, 0));
    CHECK(is_length(beamacorn_line_length(0, 0, 0, -131073), 5, 0));

    CHECK(is_step(beamacorn_line_point(0, 0, 2, 1, 1), 0, 1, 0));
    CHECK(is_step(beamacorn_line_point(2, 1, 0, 0, 1), 0, 1, 1));
    for (uint32_t k = 0; k < 6; ++k) {
        CHECK(is_step(beamacorn_line_point(0, 0, 5, 2, k), 0, (int32_t)k, rows[k]));
    }
    CHECK(is_step(beamacorn_line_point(-131072, -131072, 131071, 131071, 262143), 0, 131071, 131071));
    CHECK(is_step(beamacorn_line_point(3, 4, 3, 4, 1), 7, 0, 0));
    CHECK(is_step(beamacorn_line_point(3, 4, 3, 131072, 4294967295u), 5, 0, 0));

    CHECK(is_verdict(beamacorn_line_has_point(0, 0, 2, 1, 1, 0), 0, true));
    CHECK(is_verdict(beamacorn_line_has_point(0, 0, 2, 1, 1, 1), 0, false));
    CHECK(is_verdict(beamacorn_line_has_point(0, 0, 2, 1, INT32_MIN, INT32_MAX), 0, false));
    CHECK(is_verdict(beamacorn_line_has_point(0, 0, 0, 131072, 0, 0), 5, false));
}

static void connected_lines(void)
{
    static const int32_t columns[] = {0, 1, 1, 2, 3, 3, 4, 5}, rows[] = {0, 0, 1, 1, 1, 2, 2, 2};
    /* From (3, 3) in the eight directions: the end, and the extra point, which has index 2. */
    static const int32_t around[][4] = {{6, 4, 4, 4}, {4, 6, 3, 5}, {2, 6, 2, 4}, {0, 4, 1, 3}, {0, 2, 2, 2}, {2, 0, 3, 1}, {4, 0, 4, 2}, {6, 2, 5, 3}};

    CHECK(is_length(beamacorn_connected_length(0, 0, 0, 0), 0, 1));
    CHECK(is_length(beamacorn_connected_length(0, 0, 5, 2), 0, 8));
    CHECK(is_length(beamacorn_connected_length(-131072, -131072, 131071, 131071), 0, 524287));
    CHECK(is_length(beamacorn_connected_length(131072, 0, 0, 0), 5, 0));
    CHECK(is_length(beamacorn_connected_length(0, 0, 0, -131073), 5, 0));

    for (uint32_t i = 0; i < 8; ++i) {
        CHECK(is_step(beamacorn_connected_point(0, 0, 5, 2, i), 0, columns[i], rows[i]));
        CHECK(is_step(beamacorn_connected_point(3, 3, around[i][0], around[i][1], 2), 0, around[i][2], around[i][3]));
    }
    CHECK(is_step(beamacorn_connected_point(-131072, -131072, 131071, 131071, 524286), 0, 131071, 131071));
    CHECK(is_step(beamacorn_connected_point(0, 0, 5, 2, 8), 7, 0, 0));
    CHECK(is_step(beamacorn_connected_point(3, 4, 3, 4, 1), 7, 0, 0));
    CHECK(is_step(beamacorn_connected_point(3, 4, 3, 131072, 4294967295u), 5, 0, 0));

    CHECK(is_verdict(beamacorn_connected_has_point(0, 0, 2, 1, 1, 0), 0, true));
    CHECK(is_verdict(beamacorn_connected_has_point(0, 0, 2, 1, 1, 1), 0, true));
    CHECK(is_verdict(beamacorn_connected_has_point(0, 0, 2, 1, 2, 0), 0, false));
    CHECK(is_verdict(beamacorn_connected_has_point(0, 0, 2, 1, INT32_MIN, INT32_MAX), 0, false));
    CHECK(is_verdict(beamacorn_connected_has_point(0, 0, 0, 131072, 0, 0), 5, false));
}

static void triangles(void)
{
    CHECK(is_verdict(beamacorn_triangle_contains(0, 0, 86400, 0, 0, 40000, 20000, 10000), 0, true));
    CHECK(is_verdict(beamacorn_triangle_contains(0, 0, 4, 2, 2, 1, 1, 0), 0, true));
    CHECK(is_verdict(beamacorn_triangle_contains(0, 0, -2, 2, 2, 0, -1, 0), 0, false));
    CHECK(is_verdict(beamacorn_triangle_contains(0, 0, 4, 0, 0, 4, INT32_MAX, INT32_MIN), 0, false));
    CHECK(is_verdict(beamacorn_triangle_contains(0, 0, 4, 0, 0, 131072, 0, 0), 5, false));
    CHECK(is_verdict(beamacorn_triangle_contains(0, 0, 4, 0, 0, 131071, 0, 0), 0, true));

    CHECK(is_rows(beamacorn_triangle_rows(0, 3, 4, -1, 2, 1), 0, -1, 5));
    CHECK(is_rows(beamacorn_triangle_rows(0, -131072, 1, 131071, 2, 0), 0, -131072, 262144));
    CHECK(is_rows(beamacorn_triangle_rows(0, 3, 4, -1, -131073, 1), 5, 0, 0));

    CHECK(is_span(beamacorn_triangle_row_span(0, 0, 4, 2, 2, 1, 0), 0, 0, 2));
    CHECK(is_span(beamacorn_triangle_row_span(0, 0, 4, 2, 2, 1, 1), 0, 2, 4));
    CHECK(is_span(beamacorn_triangle_row_span(0, 0, 4, 2, 2, 1, 2), 0, 4, 5));
    CHECK(is_span(beamacorn_triangle_row_span(0, 0, 4, 2, 2, 1, INT32_MIN), 0, 0, 0));
    CHECK(is_span(beamacorn_triangle_row_span(0, 0, 65536, 0, 0, 65536, 10), 0, 0, 65527));
    CHECK(is_span(beamacorn_triangle_row_span(131072, 0, 4, 2, 2, 1, 1), 5, 0, 0));
}

static void circles(void)
{
    CHECK(is_span(beamacorn_circle_row_span(0, 0, 3, 0), 0, 1, 2));
    CHECK(is_span(beamacorn_circle_row_span(0, 0, 3, 1), 0, 0, 3));
    CHECK(is_span(beamacorn_circle_row_span(0, 0, 4, 0), 0, 1, 3));
    CHECK(is_span(beamacorn_circle_row_span(0, 0, 4, 4), 0, 0, 0));
    CHECK(is_span(beamacorn_circle_row_span(0, 0, 131073, 4), 6, 0, 0));
    CHECK(is_span(beamacorn_circle_row_span(0, 131072, 131073, 4), 5, 0, 0));

    CHECK(is_verdict(beamacorn_circle_contains(0, 0, 3, 0, 0), 0, false));
    CHECK(is_verdict(beamacorn_circle_contains(0, 0, 3, 1, 0), 0, true));
    CHECK(is_verdict(beamacorn_circle_contains(0, 0, 0, 0, 0), 0, false));
    CHECK(is_verdict(beamacorn_circle_contains(7, 7, 1, 7, 7), 0, true));
    CHECK(is_verdict(beamacorn_circle_contains(0, 0, 1, 32768, 0), 0, false));
    CHECK(is_verdict(beamacorn_circle_contains(131071, 0, 1, 131071, 0), 0, true));
    CHECK(is_verdict(beamacorn_circle_contains(131071, 0, 2, 131071, 0), 6, false));
    CHECK(is_verdict(beamacorn_circle_contains(-131073, 0, 1, 0, 0), 5, false));
}

/* Words of its own for each number of the table, and one for all that are in none. */
static void reasons(void)
{
    const char *unknown = beamacorn_reason(BEAMACORN_BAD_DISTANCE + 1);

    CHECK(strcmp(beamacorn_reason(BEAMACORN_DONE), "done") == 0);
    CHECK(strcmp(beamacorn_reason(BEAMACORN_OUT_OF_BOUNDS), "a coordinate is outside -131072 to 131071") == 0);
    CHECK(strcmp(beamacorn_reason(UINT32_MAX), unknown) == 0);
    for (uint32_t number = BEAMACORN_DONE; number <= BEAMACORN_BAD_DISTANCE; ++number) {
        CHECK(strcmp(beamacorn_reason(number), unknown) != 0);
        for (uint32_t other = BEAMACORN_DONE; other < number; ++other) {
            CHECK(strcmp(beamacorn_reason(number), beamacorn_reason(other)) != 0);
        }
    }
}

static void verdicts(void)
{
    CHECK(beamacorn_says(beamacorn_circle_contains(0, 0, 3, 1, 0)) == BEAMACORN_SAYS_YES);
    CHECK(beamacorn_says(beamacorn_circle_contains(0, 0, 3, 0, 0)) == BEAMACORN_SAYS_NO);
    CHECK(beamacorn_says(beamacorn_circle_contains(0, 131072, 3, 0, 0)) == BEAMACORN_SAYS_NOTHING);
}

static void frames(void)
{
    uint8_t buf[8] = {0};

    CHECK(is_size(beamacorn_frame_size(10, 3, 1, 2), 0, 6));
    CHECK(is_size(beamacorn_frame_size(9, 5, 2, 3), 0, 15));
    CHECK(is_size(beamacorn_frame_size(7, 2, 24, 21), 0, 42));
    CHECK(is_size(beamacorn_frame_size(2048, 2048, 32, 8192), 0, 16777216));
    CHECK(is_size(beamacorn_frame_size(2049, 1, 3, 769), 1, 0));
    CHECK(is_size(beamacorn_frame_size(2049, 1, 1, 257), 2, 0));

    CHECK(is_placed(beamacorn_set_pixel(buf, 8, 10, 1, 1, 0, 2, 9, 0, 1), 0, true));
    CHECK(buf[0] == 0 && buf[1] == 0x40);
    CHECK(is_read(beamacorn_pixel(buf, 8, 10, 1, 1, 0, 2, 9, 0), 0, 1));
    CHECK(is_read(beamacorn_pixel(buf, 8, 10, 1, 1, 0, 2, 10, 0), 8, 0));
    CHECK(is_read(beamacorn_pixel(buf, 1, 10, 1, 1, 0, 2, 10, 0), 3, 0));
    CHECK(is_placed(beamacorn_set_pixel(buf, 8, 10, 1, 1, 0, 2, 10, 0, 1), 0, false));
    CHECK(is_placed(beamacorn_set_pixel(buf, 8, 10, 1, 1, 0, 2, 9, 1, 1), 0, false));
    CHECK(is_placed(beamacorn_set_pixel(buf, 8, 10, 1, 1, 0, 2, INT32_MIN, INT32_MAX, 1), 0, false));
    CHECK(is_placed(beamacorn_set_pixel(buf, 8, 10, 1, 1, 0, 2, 9, 0, 2), 4, false));
    CHECK(buf[0] == 0 && buf[1] == 0x40 && all(buf + 2, 6, 0));

    CHECK(is_placed(beamacorn_set_pixel(buf + 2, 3, 1, 1, 24, 0, 3, 0, 0, 0x010203), 0, true));
    CHECK(buf[2] == 3 && buf[3] == 2 && buf[4] == 1);
    CHECK(is_placed(beamacorn_set_pixel(buf + 2, 3, 1, 1, 24, 1, 3, 0, 0, 0x010203), 0, true));
    CHECK(buf[2] == 1 && buf[3] == 2 && buf[4] == 3);
    CHECK(is_read(beamacorn_pixel(buf + 2, 3, 1, 1, 24, 4294967295u, 3, 0, 0), 0, 0x010203));
    CHECK(is_read(beamacorn_pixel(buf + 2, 3, 1, 1, 24, 0, 3, 0, 0), 0, 0x030201));

    /* An empty buffer: enough for no pixels, and too short for one. */
    CHECK(is_drawn(beamacorn_fill(NULL, 0, 0, 2048, 32, 0, 0, 7), 0, 0));
    CHECK(is_drawn(beamacorn_draw_circle(NULL, 0, 2048, 0, 1, 0, 256, 0, 0, 9, 1), 0, 0));
    CHECK(is_placed(beamacorn_set_pixel(NULL, 0, 1, 1, 1, 0, 1, 0, 0, 1), 3, false));
    CHECK(is_read(beamacorn_pixel(NULL, 0, 0, 0, 1, 0, 0, 0, 0), 8, 0));
    CHECK(is_lights(beamacorn_lit(NULL, 0, 0, 2048, 1, 0, 0), 0, 0));
}

static void drawing(void)
{
    /* Four rows of ten pixels, a bit each: two bytes a row, six bits of them padding. */
    uint8_t buf[9];

    memset(buf, 0xa5, sizeof buf);
    CHECK(is_drawn(beamacorn_fill(buf, 9, 10, 4, 1, 0, 2, 0), 0, 40));
    CHECK(buf[0] == 0 && buf[1] == 0x25 && buf[6] == 0 && buf[7] == 0x25 && buf[8] == 0xa5);
    CHECK(is_drawn(beamacorn_fill(buf, 9, 10, 4, 1, 0, 2, 1), 0, 40));
    CHECK(buf[0] == 0xff && buf[1] == 0xe5 && buf[8] == 0xa5);

    memset(buf, 0, sizeof buf);
    CHECK(is_drawn(beamacorn_draw_line(buf, 9, 10, 4, 1, 0, 2, 0, 0, 5, 2, 1), 0, 6));
    CHECK(buf[0] == 0xc0 && buf[2] == 0x30 && buf[4] == 0x0c && buf[6] == 0);

    /* The extra points of a connected line lie below it from the left, and above it from the right. */
    memset(buf, 0, sizeof buf);
    CHECK(is_drawn(beamacorn_draw_connected_line(buf, 9, 10, 4, 1, 0, 2, 0, 0, 5, 2, 1), 0, 8));
    CHECK(buf[0] == 0xc0 && buf[2] == 0x70 && buf[4] == 0x1c && buf[6] == 0);
    memset(buf, 0, sizeof buf);
    CHECK(is_drawn(beamacorn_draw_connected_line(buf, 9, 10, 4, 1, 0, 2, 5, 2, 0, 0, 1), 0, 8));
    CHECK(buf[0] == 0xe0 && buf[2] == 0x38 && buf[4] == 0x0c && buf[6] == 0);

    memset(buf, 0, sizeof buf);
    CHECK(is_drawn(beamacorn_draw_triangle(buf, 9, 10, 4, 1, 0, 2, 0, 0, 3, 0, 0, 3, 1), 0, 10));
    CHECK(buf[0] == 0xf0 && buf[2] == 0xe0 && buf[4] == 0xc0 && buf[6] == 0x80);

    memset(buf, 0, sizeof buf);
    CHECK(is_drawn(beamacorn_draw_outline(buf, 9, 10, 4, 1, 0, 2, 0, 0, 3, 0, 0, 3, 1), 0, 9));
    CHECK(buf[0] == 0xf0 && buf[2] == 0xa0 && buf[4] == 0xc0 && buf[6] == 0x80);

    /* An outline stays on its fill, whatever the order of its vertices: (1, 1) is a point of the line from (2, 1) to (0, 0), and of neither. */
    memset(buf, 0, sizeof buf);
    CHECK(is_drawn(beamacorn_draw_outline(buf, 9, 10, 4, 1, 0, 2, 2, 1, 0, 0, 2, 0, 1), 0, 4));
    CHECK(buf[0] == 0xe0 && buf[2] == 0x20 && buf[4] == 0);
    CHECK(is_drawn(beamacorn_draw_outline(buf, 9, 10, 4, 1, 0, 2, 0, 0, 2, 0, 2, 1, 1), 0, 4));
    CHECK(is_drawn(beamacorn_draw_triangle(buf, 9, 10, 4, 1, 0, 2, 2, 1, 0, 0, 2, 0, 1), 0, 4));
    CHECK(buf[0] == 0xe0 && buf[2] == 0x20 && buf[4] == 0);
    CHECK(is_verdict(beamacorn_line_has_point(2, 1, 0, 0, 1, 1), 0, true));
    CHECK(is_verdict(beamacorn_triangle_contains(2, 1, 0, 0, 2, 0, 1, 1), 0, false));

    memset(buf, 0, sizeof buf);
    CHECK(is_drawn(beamacorn_draw_circle(buf, 9, 10, 4, 1, 0, 2, 0, 0, 4, 1), 0, 12));
    CHECK(buf[0] == 0x60 && buf[2] == 0xf0 && buf[4] == 0xf0 && buf[6] == 0x60);

    /* Cut by the frame's edges, and off the frame. */
    CHECK(is_drawn(beamacorn_draw_line(buf, 9, 10, 4, 1, 0, 2, -131072, 3, 131071, 3, 1), 0, 10));
    CHECK(is_drawn(beamacorn_draw_connected_line(buf, 9, 10, 4, 1, 0, 2, 8, 1, 11, 4, 1), 0, 4));
    CHECK(is_drawn(beamacorn_draw_outline(buf, 9, 10, 4, 1, 0, 2, 7, 0, 10, 0, 7, 3, 1), 0, 8));
    CHECK(is_drawn(beamacorn_draw_circle(buf, 9, 10, 4, 1, 0, 2, -2, -2, 4, 1), 0, 3));
    CHECK(is_drawn(beamacorn_draw_triangle(buf, 9, 10, 4, 1, 0, 2, 10, 0, 99, 0, 10, 99, 1), 0, 0));

    /* The first reason is given, with 0 beside it, and no byte changes. */
    memset(buf, 0xa5, sizeof buf);
    CHECK(is_drawn(beamacorn_draw_line(buf, 0, 2049, 4, 3, 0, 769, 131072, 0, 5, 2, 2), 1, 0));
    CHECK(is_drawn(beamacorn_draw_connected_line(buf, 0, 2049, 4, 3, 0, 769, 131072, 0, 5, 2, 2), 1, 0));
    CHECK(is_drawn(beamacorn_draw_connected_line(buf, 0, 2049, 4, 1, 0, 257, 131072, 0, 5, 2, 2), 2, 0));
    CHECK(is_drawn(beamacorn_draw_connected_line(buf, 7, 10, 4, 1, 0, 2, 131072, 0, 5, 2, 2), 3, 0));
    CHECK(is_drawn(beamacorn_draw_connected_line(buf, 8, 10, 4, 1, 0, 2, 131072, 0, 5, 2, 2), 4, 0));
    CHECK(is_drawn(beamacorn_draw_connected_line(buf, 8, 10, 4, 1, 0, 2, 131072, 0, 5, 2, 1), 5, 0));
    CHECK(is_drawn(beamacorn_draw_triangle(buf, 0, 2049, 4, 1, 0, 257, 131072, 0, 5, 2, 0, 0, 2), 2, 0));
    CHECK(is_drawn(beamacorn_draw_outline(buf, 7, 10, 4, 1, 0, 2, 131072, 0, 5, 2, 0, 0, 2), 3, 0));
    CHECK(is_drawn(beamacorn_draw_circle(buf, 8, 10, 4, 1, 0, 2, 131072, 0, 5, 2), 4, 0));
    CHECK(is_drawn(beamacorn_fill(buf, 8, 10, 4, 1, 0, 2, 2), 4, 0));
    CHECK(is_drawn(beamacorn_draw_outline(buf, 8, 10, 4, 1, 0, 2, 131072, 0, 5, 2, 0, 0, 1), 5, 0));
    CHECK(is_drawn(beamacorn_draw_circle(buf, 8, 10, 4, 1, 0, 2, 131071, 0, 2, 1), 6, 0));
    CHECK(all(buf, 9, 0xa5));
}

static void lit_pixels(void)
{
    /* Three rows of ten pixels, a bit each, and two bytes behind them; all padding and the tail set. */
    static const uint8_t buf[] = {0x80, 0x3f, 0x00, 0x7f, 0xff, 0xff, 0xff, 0xff};

    CHECK(is_lights(beamacorn_lit(buf, 8, 10, 3, 1, 0, 2), 0, 12));
    CHECK(is_lights(beamacorn_lit(buf, 6, 10, 3, 1, 4294967295u, 2), 0, 12));
    CHECK(is_lights(beamacorn_lit(buf, 8, 9, 3, 1, 0, 2), 0, 10));
    CHECK(is_lights(beamacorn_lit(buf, 8, 16, 4, 1, 0, 2), 0, 46));

    /* The first reason is given, 3 before 10. */
    CHECK(is_lights(beamacorn_lit(buf, 0, 2049, 3, 3, 0, 769), 1, 0));
    CHECK(is_lights(beamacorn_lit(buf, 0, 2049, 3, 2, 0, 513), 2, 0));
    CHECK(is_lights(beamacorn_lit(buf, 5, 10, 3, 1, 0, 2), 3, 0));
    CHECK(is_lights(beamacorn_lit(buf, 8, 10, 3, 2, 0, 3), 3, 0));
    CHECK(is_lights(beamacorn_lit(buf, 8, 4, 3, 2, 0, 1), 10, 0));
    CHECK(is_lights(beamacorn_lit(buf, 8, 0, 3, 8, 0, 0), 10, 0));
    CHECK(is_lights(beamacorn_lit(NULL, 0, 10, 3, 1, 0, 2), 3, 0));
}

static void image_files(void)
{
    /* Three rows of ten pixels, a bit each, all padding set; a grey row; a pixel of colour 0x010203, its little end first and its big end first. */
    static const uint8_t one_bit[] = {0x80, 0x3f, 0x00, 0x7f, 0xff, 0xff}, grey[] = {7, 200}, little[] = {3, 2, 1}, big[] = {1, 2, 3};
    static const char p4[] = "P4\n10 3\n\x80\x00\x00\x40\xff\xc0", p5[] = "P5\n2 1\n255\n\x07\xc8", p6[] = "P6\n1 1\n255\n\x01\x02\x03";
    uint8_t out[16];

    CHECK(is_size(beamacorn_image_size(10, 3, 1, 2), 0, 14));
    CHECK(is_size(beamacorn_image_size(3, 10, 1, 1), 0, 18));
    CHECK(is_size(beamacorn_image_size(2, 1, 8, 2), 0, 13));
    CHECK(is_size(beamacorn_image_size(2048, 2048, 24, 6144), 0, 12582929));
    CHECK(is_size(beamacorn_image_size(2049, 0, 3, 769), 1, 0));
    CHECK(is_size(beamacorn_image_size(2049, 0, 2, 513), 2, 0));
    CHECK(is_size(beamacorn_image_size(10, 3, 2, 3), 10, 0));
    CHECK(is_size(beamacorn_image_size(10, 0, 1, 2), 10, 0));

    memset(out, 0xa5, sizeof out);
    CHECK(is_size(beamacorn_write_image(one_bit, 6, 10, 3, 1, 0, 2, out, 14), 0, 14));
    CHECK(memcmp(out, p4, 14) == 0 && all(out + 14, 2, 0xa5));
    memset(out, 0xa5, sizeof out);
    CHECK(is_size(beamacorn_write_image(grey, 2, 2, 1, 8, 0, 2, out, 16), 0, 13));
    CHECK(memcmp(out, p5, 13) == 0 && all(out + 13, 3, 0xa5));
    CHECK(is_size(beamacorn_write_image(little, 3, 1, 1, 24, 0, 3, out, 16), 0, 14));
    CHECK(memcmp(out, p6, 14) == 0);
    memset(out, 0xa5, sizeof out);
    CHECK(is_size(beamacorn_write_image(big, 3, 1, 1, 24, 4294967295u, 3, out, 14), 0, 14));
    CHECK(memcmp(out, p6, 14) == 0 && all(out + 14, 2, 0xa5));

    /* The first reason is given, 10 before 9, and no byte changes. */
    memset(out, 0xa5, sizeof out);
    CHECK(is_size(beamacorn_write_image(one_bit, 0, 2049, 0, 3, 0, 769, out, 0), 1, 0));
    CHECK(is_size(beamacorn_write_image(one_bit, 0, 2049, 0, 2, 0, 513, out, 0), 2, 0));
    CHECK(is_size(beamacorn_write_image(one_bit, 5, 10, 3, 1, 0, 2, out, 0), 3, 0));
    CHECK(is_size(beamacorn_write_image(one_bit, 6, 3, 3, 2, 0, 1, out, 0), 10, 0));
    CHECK(is_size(beamacorn_write_image(one_bit, 6, 0, 3, 1, 0, 0, out, 0), 10, 0));
    CHECK(is_size(beamacorn_write_image(one_bit, 6, 10, 3, 1, 0, 2, out, 13), 9, 0));
    CHECK(all(out, 16, 0xa5));
    CHECK(is_size(beamacorn_write_image(NULL, 0, 10, 3, 1, 0, 2, out, 16), 3, 0));
    CHECK(is_size(beamacorn_write_image(NULL, 0, 0, 0, 1, 0, 0, NULL, 0), 10, 0));
    CHECK(is_size(beamacorn_write_image(one_bit, 6, 10, 3, 1, 0, 2, NULL, 0), 9, 0));
}

/* Reads the first n bytes of a file into a frame of 2 by 1 grey pixels that has 1 and 2, with a byte behind them. */
static bool reads(const char *file, size_t n, uint32_t number, uint8_t left, uint8_t right)
{
    uint8_t buf[] = {1, 2, 0xa5};

    return beamacorn_read_image(buf, 3, 2, 1, 8, 0, 2, (const uint8_t *)file, n) == number && buf[0] == left && buf[1] == right && buf[2] == 0xa5;
}

/* A string literal with its length, its closing NUL left aside. */
#define ALL(text) (text), sizeof(text) - 1

static void files_read(void)
{
    static const char p4[] = "P4\r\n0010\t 3\n\x80\x3f\x00\x40\xff\xc0", p6[] = "P6\n1 1\n255\n\x01\x02\x03";
    const uint8_t *one_bit = (const uint8_t *)p4, *colour = (const uint8_t *)p6;
    uint8_t buf[8], out[16];

    /* The file's padding is ignored, and the frame's kept, as is the tail. */
    memset(buf, 0xff, sizeof buf);
    CHECK(beamacorn_read_image(buf, 8, 10, 3, 1, 0, 2, one_bit, sizeof p4 - 1) == 0);
    CHECK(memcmp(buf, "\x80\x3f\x00\x7f\xff\xff\xff\xff", 8) == 0);
    memset(buf, 0, sizeof buf);
    CHECK(beamacorn_read_image(buf, 8, 10, 3, 1, 4294967295u, 2, one_bit, sizeof p4) == 0);
    CHECK(memcmp(buf, "\x80\x00\x00\x40\xff\xc0\x00\x00", 8) == 0);

    /* Red first in the file, and in each order of the frame what was written. */
    CHECK(beamacorn_read_image(buf, 3, 1, 1, 24, 0, 3, colour, 14) == 0);
    CHECK(buf[0] == 3 && buf[1] == 2 && buf[2] == 1);
    CHECK(is_size(beamacorn_write_image(buf, 3, 1, 1, 24, 0, 3, out, 16), 0, 14));
    CHECK(beamacorn_read_image(buf, 4, 1, 1, 24, 1, 3, out, 14) == 0);
    CHECK(buf[0] == 1 && buf[1] == 2 && buf[2] == 3 && buf[3] == 0x40);

    /* White space, leading zeros, and pixels that look like white space. */
    CHECK(reads(ALL("P5\n2 1\n255\n\x07\xc8"), 0, 7, 200));
    CHECK(reads(ALL("P5 2\t\t1\r255\r\n "), 0, 10, 32));
    CHECK(reads(ALL("P5\n0002 01 0255\n9# and more"), 0, '9', '#'));

    /* A bad header. */
    CHECK(reads(ALL("P5\n# by hand\n2 1\n255\n\x07\xc8"), 11, 1, 2));
    CHECK(reads(ALL("P5\n2 1#\n255\n\x07\xc8"), 11, 1, 2));
    CHECK(reads(ALL("P5\n00002 1\n255\n\x07\xc8"), 11, 1, 2));
    CHECK(reads(ALL("P5\n2 1\n254\n\x07\xc8"), 11, 1, 2));
    CHECK(reads(ALL("P5\n2 1 \v255\n\x07\xc8"), 11, 1, 2));
    CHECK(reads(ALL("P52 1\n255\n\x07\xc8"), 11, 1, 2));
    CHECK(reads(ALL("P6\n2 1\n255\n\x07\xc8"), 11, 1, 2));
    CHECK(reads(ALL("P5\n9 9\n25\n"), 11, 1, 2));
    CHECK(reads(ALL("P5\n2 1\n255"), 11, 1, 2));
    CHECK(reads(NULL, 0, 11, 1, 2));

    /* Another size before too few pixels. */
    CHECK(reads(ALL("P5\n1 2\n255\n\x07\xc8"), 13, 1, 2));
    CHECK(reads(ALL("P5\n9 9\n255\n"), 13, 1, 2));
    CHECK(reads(ALL("P5\n2 1\n255\n"), 12, 1, 2));
    CHECK(reads(ALL("P5\n2 1\n255\n\x07"), 12, 1, 2));

    /* The frame first: 1, 2, 14, 3 and 10, whatever the file is. */
    memset(buf, 0xa5, sizeof buf);
    CHECK(beamacorn_read_image(buf, 0, 2049, 0, 3, 0, 769, NULL, 0) == 1);
    CHECK(beamacorn_read_image(buf, 0, 2049, 0, 2, 0, 513, NULL, 0) == 2);
    CHECK(beamacorn_read_image(buf, 5, 10, 3, 1, 0, 2, NULL, 0) == 3);
    CHECK(beamacorn_read_image(buf, 2, 3, 3, 2, 0, 1, NULL, 0) == 3);
    CHECK(beamacorn_read_image(buf, 3, 3, 3, 2, 0, 1, NULL, 0) == 10);
    CHECK(beamacorn_read_image(buf, 8, 0, 3, 1, 0, 0, one_bit, sizeof p4 - 1) == 10);
    CHECK(beamacorn_read_image(NULL, 0, 0, 0, 1, 0, 0, NULL, 0) == 10);
    CHECK(all(buf, 8, 0xa5));
}

static void rows_apart(void)
{
    /* Three rows of ten pixels, a bit each, four bytes from one to the next: six bits and two bytes of each are padding. */
    uint8_t buf[14], out[16];

    CHECK(is_size(beamacorn_frame_size(10, 3, 1, 4), 0, 12));
    CHECK(is_size(beamacorn_frame_size(10, 3, 1, 16384), 0, 49152));
    CHECK(is_size(beamacorn_frame_size(2048, 2048, 32, 16384), 0, 33554432));
    CHECK(is_size(beamacorn_frame_size(0, 3, 1, 4), 0, 12));
    CHECK(is_size(beamacorn_frame_size(10, 3, 1, 1), 14, 0));
    CHECK(is_size(beamacorn_frame_size(10, 3, 1, 16385), 14, 0));
    CHECK(is_size(beamacorn_frame_size(10, 3, 1, 4294967295u), 14, 0));
    CHECK(is_size(beamacorn_frame_size(2049, 3, 1, 0), 2, 0));
    CHECK(is_size(beamacorn_frame_size(2049, 3, 3, 0), 1, 0));

    memset(buf, 0xff, sizeof buf);
    CHECK(is_drawn(beamacorn_fill(buf, 14, 10, 3, 1, 0, 4, 0), 0, 30));
    CHECK(memcmp(buf, "\x00\x3f\xff\xff\x00\x3f\xff\xff\x00\x3f\xff\xff\xff\xff", 14) == 0);
    CHECK(is_placed(beamacorn_set_pixel(buf, 12, 10, 3, 1, 0, 4, 9, 1, 1), 0, true));
    CHECK(is_placed(beamacorn_set_pixel(buf, 12, 10, 3, 1, 0, 4, 10, 0, 0), 0, false));
    CHECK(is_drawn(beamacorn_draw_line(buf, 12, 10, 3, 1, 0, 4, 0, 2, 9, 2, 1), 0, 10));
    CHECK(memcmp(buf, "\x00\x3f\xff\xff\x00\x7f\xff\xff\xff\xff\xff\xff\xff\xff", 14) == 0);
    CHECK(is_read(beamacorn_pixel(buf, 12, 10, 3, 1, 0, 4, 9, 1), 0, 1));
    CHECK(is_read(beamacorn_pixel(buf, 12, 10, 3, 1, 0, 4, 8, 1), 0, 0));
    CHECK(is_lights(beamacorn_lit(buf, 12, 10, 3, 1, 0, 4), 0, 11));

    /* The file has no gap, and none is read from it. */
    CHECK(is_size(beamacorn_image_size(10, 3, 1, 4), 0, 14));
    CHECK(is_size(beamacorn_write_image(buf, 12, 10, 3, 1, 0, 4, out, 16), 0, 14));
    CHECK(memcmp(out, "P4\n10 3\n\x00\x00\x00\x40\xff\xc0", 14) == 0);
    memset(buf, 0, sizeof buf);
    CHECK(beamacorn_read_image(buf, 12, 10, 3, 1, 0, 4, out, 14) == 0);
    CHECK(memcmp(buf, "\x00\x00\x00\x00\x00\x40\x00\x00\xff\xc0\x00\x00\x00\x00", 14) == 0);

    /* The gap behind the last row is needed too; 14 comes before 3 and all that follows, and no byte changes. */
    memset(buf, 0xa5, sizeof buf);
    CHECK(is_drawn(beamacorn_fill(buf, 11, 10, 3, 1, 0, 4, 2), 3, 0));
    CHECK(is_drawn(beamacorn_fill(buf, 0, 10, 3, 1, 0, 1, 2), 14, 0));
    CHECK(is_placed(beamacorn_set_pixel(buf, 0, 10, 3, 1, 0, 16385, 0, 0, 2), 14, false));
    CHECK(is_read(beamacorn_pixel(buf, 0, 10, 3, 1, 0, 1, 10, 0), 14, 0));
    CHECK(is_lights(beamacorn_lit(buf, 0, 10, 3, 2, 0, 1), 14, 0));
    CHECK(is_drawn(beamacorn_draw_line(buf, 0, 10, 3, 1, 0, 1, 131072, 0, 5, 2, 2), 14, 0));
    CHECK(is_drawn(beamacorn_draw_connected_line(buf, 0, 10, 3, 1, 0, 1, 131072, 0, 5, 2, 2), 14, 0));
    CHECK(is_drawn(beamacorn_draw_triangle(buf, 0, 10, 3, 1, 0, 1, 131072, 0, 5, 2, 0, 0, 2), 14, 0));
    CHECK(is_drawn(beamacorn_draw_outline(buf, 0, 10, 3, 1, 0, 1, 131072, 0, 5, 2, 0, 0, 2), 14, 0));
    CHECK(is_drawn(beamacorn_draw_circle(buf, 0, 10, 3, 1, 0, 1, 131072, 0, 131073, 2), 14, 0));
    CHECK(is_size(beamacorn_image_size(10, 3, 2, 2), 14, 0));
    CHECK(is_size(beamacorn_write_image(buf, 0, 10, 3, 2, 0, 2, out, 0), 14, 0));
    CHECK(beamacorn_read_image(buf, 0, 10, 3, 2, 0, 2, NULL, 0) == 14);
    CHECK(all(buf, 14, 0xa5));
}

static bool is_frame(beamacorn_frame r, uint32_t width, uint32_t height, uint32_t depth, uint32_t order, uint32_t distance)
{
    return r.width == width && r.height == height && r.depth == depth && r.order == order && r.distance == distance;
}

/* The functions that take a frame: each number reaches its place, by an answer or by the bytes. */
static void described(void)
{
    beamacorn_frame pane = beamacorn_packed_frame(10, 3, 1, 0), wide = {3, 2, 24, 1, 16}, little = {3, 2, 24, 0, 16};
    uint8_t buf[32], by_numbers[32], out[32];

    CHECK(is_frame(pane, 10, 3, 1, 0, 2));
    CHECK(is_frame(wide, 3, 2, 24, 1, 16));
    CHECK(is_frame(beamacorn_packed_frame(2048, 7, 32, 5), 2048, 7, 32, 5, 8192));
    CHECK(is_frame(beamacorn_packed_frame(0, 0, 1, 0), 0, 0, 1, 0, 0));
    CHECK(is_frame(beamacorn_packed_frame(4294967295u, 1, 8, 0), 4294967295u, 1, 8, 0, 4294967295u));
    CHECK(is_frame(beamacorn_packed_frame(4294967295u, 1, 9, 0), 4294967295u, 1, 9, 0, 0));
    CHECK(is_frame(beamacorn_packed_frame(4294967295u, 1, 4294967295u, 0), 4294967295u, 1, 4294967295u, 0, 0));

    CHECK(is_size(beamacorn_frame_bytes(pane), 0, 6));
    CHECK(is_size(beamacorn_frame_bytes(wide), 0, 32));
    CHECK(is_size(beamacorn_frame_bytes(beamacorn_packed_frame(4294967295u, 1, 8, 0)), 2, 0));
    CHECK(is_size(beamacorn_frame_image_size(pane), 0, 14));
    CHECK(is_size(beamacorn_frame_image_size(wide), 0, 29));

    memset(buf, 0xa5, sizeof buf);
    CHECK(is_placed(beamacorn_frame_set_pixel(buf, 32, wide, 2, 1, 0x010203), 0, true));
    CHECK(buf[22] == 1 && buf[23] == 2 && buf[24] == 3 && all(buf, 22, 0xa5) && all(buf + 25, 7, 0xa5));
    CHECK(is_read(beamacorn_frame_pixel(buf, 32, wide, 2, 1), 0, 0x010203));
    CHECK(is_read(beamacorn_frame_pixel(buf, 32, little, 2, 1), 0, 0x030201));
    CHECK(is_drawn(beamacorn_frame_fill(buf, 31, wide, 7), 3, 0));
    CHECK(is_drawn(beamacorn_frame_fill(buf, 32, wide, 7), 0, 6));
    CHECK(buf[0] == 0 && buf[2] == 7 && buf[24] == 7 && all(buf + 9, 7, 0xa5) && all(buf + 25, 7, 0xa5));
    CHECK(is_lights(beamacorn_frame_lit(buf, 32, wide), 10, 0));

    /* A drawing call each, beside the same by numbers. */
    pane.distance = 4;
    memset(buf, 0xa5, sizeof buf);
    memset(by_numbers, 0xa5, sizeof by_numbers);
#define ALIKE(by_frame, call)                                                                              \
    do {                                                                                                   \
        beamacorn_drawn first = by_frame, second = call;                                                   \
        CHECK(first.number == 0 && first.count > 0 && second.number == 0 && first.count == second.count); \
        CHECK(memcmp(buf, by_numbers, sizeof buf) == 0);                                                   \
    } while (0)
    ALIKE(beamacorn_frame_draw_line(buf, 12, pane, 1, 0, 9, 2, 0), beamacorn_draw_line(by_numbers, 12, 10, 3, 1, 0, 4, 1, 0, 9, 2, 0));
    ALIKE(beamacorn_frame_draw_connected_line(buf, 12, pane, 9, 0, 1, 2, 1), beamacorn_draw_connected_line(by_numbers, 12, 10, 3, 1, 0, 4, 9, 0, 1, 2, 1));
    ALIKE(beamacorn_frame_draw_triangle(buf, 12, pane, 1, 2, 7, 0, 6, 1, 0), beamacorn_draw_triangle(by_numbers, 12, 10, 3, 1, 0, 4, 1, 2, 7, 0, 6, 1, 0));
    ALIKE(beamacorn_frame_draw_outline(buf, 12, pane, 0, 1, 8, 2, 3, 0, 1), beamacorn_draw_outline(by_numbers, 12, 10, 3, 1, 0, 4, 0, 1, 8, 2, 3, 0, 1));
    ALIKE(beamacorn_frame_draw_circle(buf, 12, pane, 5, 1, 4, 0), beamacorn_draw_circle(by_numbers, 12, 10, 3, 1, 0, 4, 5, 1, 4, 0));
    CHECK(beamacorn_frame_lit(buf, 12, pane).count == beamacorn_lit(by_numbers, 12, 10, 3, 1, 0, 4).count);

    /* Written, and read into a frame whose rows are further apart. */
    CHECK(is_size(beamacorn_frame_write_image(buf, 12, pane, out, 32), 0, 14));
    pane.distance = 9;
    memset(by_numbers, 0xff, sizeof by_numbers);
    CHECK(beamacorn_frame_read_image(by_numbers, 26, pane, out, 14) == 3);
    CHECK(beamacorn_frame_read_image(by_numbers, 27, pane, out, 14) == 0);
    for (int y = 0; y < 3; ++y) {
        CHECK(by_numbers[9 * y] == buf[4 * y] && (by_numbers[9 * y + 1] | 0x3f) == (buf[4 * y + 1] | 0x3f) && all(by_numbers + 9 * y + 2, 7, 0xff));
    }
}

int main(void)
{
    lines();
    connected_lines();
    triangles();
    circles();
    reasons();
    verdicts();
    frames();
    drawing();
    lit_pixels();
    image_files();
    files_read();
    rows_apart();
    described();
    printf("%d checks, %d failed\n", checks, failures);
    return failures != 0;
}
