/* SPDX-License-Identifier: MIT OR Apache-2.0 */
/*
 * Beamacorn: lines, triangles, circles, packed frames and image files of them, exact for every input. docs/RULES.md has the rules.
 *
 * Link libbeamacorn.a, which `bindings/library` proves and writes to target/staticlib. It needs nothing but the C library's memory functions,
 * allocates nothing and keeps nothing between calls, so that any thread may call at any time; two calls at once must not lend the same buffer if one
 * of them draws or writes into it.
 *
 * Every function takes whatever numbers it is given. An answer's `number` is 0, or says why the call was refused: of several reasons the first, in the
 * order that the function names. With a refusal every other number of the answer is 0, `yes` and `inside` are false, and no byte of a buffer is changed.
 * So no value means anything before the number was looked at, and `false` alone does not mean "outside": of a verdict ask `beamacorn_says`, which has three
 * answers. With BEAMACORN_STRICT defined, GCC and Clang warn wherever a C program reads `yes` itself.
 *
 * The range: coordinates of a vertex, of a line end and of a circle's top-left corner are accepted from -131,072 to 131,071; x grows to the right, y
 * downwards. A pixel or a row that is asked about, or set, may be any int32_t. A frame has at most 2,048 by 2,048 pixels, and its rows at most 16,384 bytes
 * from one to the next.
 *
 * What is larger must be counted in a larger unit before it is asked about. A wedge of 160,000 Mbit/s fits in units of 10 Mbit/s; the answer is then that
 * of the coarser grid, and a sample within one unit of an edge may count otherwise. The 604,800 seconds of a week do not fit: use the second of the day or
 * the minute of the week.
 */
#ifndef BEAMACORN_H
#define BEAMACORN_H

#include <stdbool.h>
#include <stddef.h>
#include <stdint.h>

/* The version of this header and of the library, as in CHANGELOG.md. */
#define BEAMACORN_VERSION "0.4.2"
#define BEAMACORN_VERSION_MAJOR 0
#define BEAMACORN_VERSION_MINOR 4
#define BEAMACORN_VERSION_PATCH 2

#if defined BEAMACORN_STRICT && defined __GNUC__ && !defined __cplusplus
#define BEAMACORN_BEHIND_THE_NUMBER __attribute__((deprecated("no with a refusal too: ask beamacorn_says")))
#else
#define BEAMACORN_BEHIND_THE_NUMBER
#endif

#ifdef __cplusplus
extern "C" {
#endif

/* What `number` may be. */
enum {
    BEAMACORN_DONE = 0,
    BEAMACORN_BAD_DEPTH = 1,      /* the depth is not 1, 2, 4, 8, 16, 24 or 32 */
    BEAMACORN_TOO_LARGE = 2,      /* the width or the height is above 2,048 */
    BEAMACORN_SHORT_BUFFER = 3,   /* the buffer is shorter than the frame needs */
    BEAMACORN_BAD_COLOUR = 4,     /* the colour is 2 to the power of the depth, or more */
    BEAMACORN_OUT_OF_BOUNDS = 5,  /* a vertex, line end or circle top-left has a coordinate outside -131,072 to 131,071 */
    BEAMACORN_CIRCLE_TOO_FAR = 6, /* left + diameter or top + diameter is above 131,072 */
    BEAMACORN_PAST_LAST_STEP = 7, /* a point of a line is asked at a step or an index past its last */
    BEAMACORN_OUTSIDE_FRAME = 8,  /* a pixel is read outside the frame */
    BEAMACORN_SHORT_OUTPUT = 9,   /* the output is shorter than what is written into it */
    BEAMACORN_UNFIT_FRAME = 10,   /* the operation takes no frame of this depth, or none without pixels */
    BEAMACORN_BAD_HEADER = 11,    /* the file does not begin with a header of the frame's format */
    BEAMACORN_SHORT_FILE = 12,    /* the file has fewer bytes of pixels than its picture takes */
    BEAMACORN_OTHER_SIZE = 13,    /* the file's picture is not as wide and as high as the frame */
    BEAMACORN_BAD_DISTANCE = 14   /* the row distance is less than a row takes, or above 16,384 */
};

/*
 * What a number says, in words for a message; of one that is not in the table, that it is not.
 *
 *     fprintf(stderr, "refused with %" PRIu32 ": %s\n", call.number, beamacorn_reason(call.number));
 */
static inline const char *beamacorn_reason(uint32_t number)
{
    switch (number) {
    case BEAMACORN_DONE: return "done";
    case BEAMACORN_BAD_DEPTH: return "the depth is not 1, 2, 4, 8, 16, 24 or 32";
    case BEAMACORN_TOO_LARGE: return "the frame's width or height is above 2048";
    case BEAMACORN_SHORT_BUFFER: return "the buffer is too short";
    case BEAMACORN_BAD_COLOUR: return "the colour does not fit the depth";
    case BEAMACORN_OUT_OF_BOUNDS: return "a coordinate is outside -131072 to 131071";
    case BEAMACORN_CIRCLE_TOO_FAR: return "the circle's box ends past 131072";
    case BEAMACORN_PAST_LAST_STEP: return "the step is past the line's last";
    case BEAMACORN_OUTSIDE_FRAME: return "the pixel is outside the frame";
    case BEAMACORN_SHORT_OUTPUT: return "the output is too short";
    case BEAMACORN_UNFIT_FRAME: return "the frame's depth or size is not taken";
    case BEAMACORN_BAD_HEADER: return "the file's header is not taken";
    case BEAMACORN_SHORT_FILE: return "the file has too few pixels";
    case BEAMACORN_OTHER_SIZE: return "the file's picture has another size";
    case BEAMACORN_BAD_DISTANCE: return "the rows are too close or too far apart";
    default: return "a number that is not in the table";
    }
}

/* ---- Questions on lines, triangles and circles ---- */

/* A yes or no; no with a refusal, so that `yes` says something only where `number` is 0. */
typedef struct {
    uint32_t number;
    bool yes BEAMACORN_BEHIND_THE_NUMBER;
} beamacorn_verdict;

/* What a verdict says. None of the three is another in disguise, and a compiler warns of a `switch` that leaves one out. */
typedef enum {
    BEAMACORN_SAYS_NO,
    BEAMACORN_SAYS_YES,
    BEAMACORN_SAYS_NOTHING /* refused: `number` says why */
} beamacorn_said;

#if defined BEAMACORN_STRICT && defined __GNUC__ && !defined __cplusplus
#pragma GCC diagnostic push
#pragma GCC diagnostic ignored "-Wdeprecated-declarations"
#endif
/*
 * Yes, no, or nothing with a refusal.
 *
 *     beamacorn_verdict inside = beamacorn_triangle_contains(0, 0, 86400, 0, 0, 40000, second, load);
 *     switch (beamacorn_says(inside)) {
 *     case BEAMACORN_SAYS_YES: ++minutes; break;
 *     case BEAMACORN_SAYS_NO: break;
 *     case BEAMACORN_SAYS_NOTHING: return refused(inside.number);
 *     }
 */
static inline beamacorn_said beamacorn_says(beamacorn_verdict verdict)
{
    if (verdict.number != BEAMACORN_DONE) {
        return BEAMACORN_SAYS_NOTHING;
    }
    return verdict.yes ? BEAMACORN_SAYS_YES : BEAMACORN_SAYS_NO;
}
#if defined BEAMACORN_STRICT && defined __GNUC__ && !defined __cplusplus
#pragma GCC diagnostic pop
#endif

/* A row's columns, from `start` to one before `end`; 0 to 0 where there are none. */
typedef struct {
    uint32_t number;
    int32_t start;
    int32_t end;
} beamacorn_span;

/* How many points a line has, or a connected line. */
typedef struct {
    uint32_t number;
    uint32_t points;
} beamacorn_length;

/* A point of a line, or of a connected line. */
typedef struct {
    uint32_t number;
    int32_t x;
    int32_t y;
} beamacorn_step;

/* The rows of a triangle: the first, and how many. */
typedef struct {
    uint32_t number;
    int32_t first;
    uint32_t count;
} beamacorn_rows;

/*
 * How many points the line from (x1, y1) to (x2, y2) has: one more than the larger of its width and its height.
 * Refused with 5.
 *
 *     beamacorn_length line = beamacorn_line_length(0, 0, 5, 2);
 *     if (line.number == 0) { walk(line.points); }
 */
beamacorn_length beamacorn_line_length(int32_t x1, int32_t y1, int32_t x2, int32_t y2);

/*
 * The point of the line from (x1, y1) to (x2, y2) at a step. Step 0 is the start, the number of points less 1 is the end. Which pixels lie between
 * depends on the end that the line starts from.
 * Refused with 5, and with 7 for a later step.
 *
 *     beamacorn_step at = beamacorn_line_point(0, 0, 5, 2, 3);
 *     if (at.number == 0) { visit(at.x, at.y); }
 */
beamacorn_step beamacorn_line_point(int32_t x1, int32_t y1, int32_t x2, int32_t y2, uint32_t step);

/*
 * Whether the pixel (x, y) is a point of the line from (x1, y1) to (x2, y2). Its cost does not grow with the line.
 * Refused with 5.
 *
 *     beamacorn_verdict on = beamacorn_line_has_point(0, 0, 5, 2, 3, 1);
 *     if (on.number != 0) { return refused(on.number); }
 *     if (beamacorn_says(on) == BEAMACORN_SAYS_YES) { visit(3, 1); }
 */
beamacorn_verdict beamacorn_line_has_point(int32_t x1, int32_t y1, int32_t x2, int32_t y2, int32_t x, int32_t y);

/*
 * How many points the connected line from (x1, y1) to (x2, y2) has: one more than its width and its height together.
 *
 * Its points are those of the line, and an extra one between two that touch at a corner only: the pixel on the right of the line that shares an edge with
 * both. Seen from the point before it that is the pixel below on the way right and down, to the left on the way left and down, above on the way left and up,
 * to the right on the way right and up. So each point shares an edge with the next, and a colour that is flooded from pixel to pixel, over corners too,
 * finds no gap between them.
 * Refused with 5.
 *
 *     beamacorn_length trace = beamacorn_connected_length(0, 0, 5, 2);
 *     if (trace.number == 0) { walk(trace.points); }
 */
beamacorn_length beamacorn_connected_length(int32_t x1, int32_t y1, int32_t x2, int32_t y2);

/*
 * The point of the connected line from (x1, y1) to (x2, y2) at an index. Index 0 is the start, the number of points less 1 is the end, and an extra point
 * comes between its neighbours. Its cost does not grow with the line.
 * Refused with 5, and with 7 for a larger index.
 *
 *     beamacorn_step at = beamacorn_connected_point(0, 0, 5, 2, 2);
 *     if (at.number == 0) { visit(at.x, at.y); }
 */
beamacorn_step beamacorn_connected_point(int32_t x1, int32_t y1, int32_t x2, int32_t y2, uint32_t index);

/*
 * Whether the pixel (x, y) is a point of the connected line from (x1, y1) to (x2, y2). Its cost does not grow with the line.
 * Refused with 5.
 *
 *     beamacorn_verdict on = beamacorn_connected_has_point(0, 0, 5, 2, 1, 1);
 *     if (on.number != 0) { return refused(on.number); }
 *     if (beamacorn_says(on) == BEAMACORN_SAYS_YES) { visit(1, 1); }
 */
beamacorn_verdict beamacorn_connected_has_point(int32_t x1, int32_t y1, int32_t x2, int32_t y2, int32_t x, int32_t y);

/*
 * Whether the triangle of the vertices (x1, y1), (x2, y2), (x3, y3), which may come in any order, lie on one line or coincide, contains
 * the pixel (x, y). A point of an edge is contained, the edge walked from its upper end, or from the left one where it is level: so every pixel
 * of the triangle's outline is. Its cost does not grow with the triangle.
 * Refused with 5.
 *
 *     beamacorn_verdict inside = beamacorn_triangle_contains(0, 0, 86400, 0, 0, 40000, second, load);
 *     if (inside.number != 0) { return refused(inside.number); }
 *     minutes += beamacorn_says(inside) == BEAMACORN_SAYS_YES;
 */
beamacorn_verdict beamacorn_triangle_contains(int32_t x1, int32_t y1, int32_t x2, int32_t y2, int32_t x3, int32_t y3, int32_t x, int32_t y);

/*
 * The triangle's first row, and how many rows it has: at least 1.
 * Refused with 5.
 *
 *     beamacorn_rows rows = beamacorn_triangle_rows(0, 0, 4, 2, 2, 1);
 *     if (rows.number == 0) { visit_rows(rows.first, rows.count); }
 */
beamacorn_rows beamacorn_triangle_rows(int32_t x1, int32_t y1, int32_t x2, int32_t y2, int32_t x3, int32_t y3);

/*
 * The columns of row y that the triangle contains: 0 to 0 for a row above or below it. Its cost does not grow with the triangle.
 * Refused with 5.
 *
 *     beamacorn_span row = beamacorn_triangle_row_span(0, 0, 4, 2, 2, 1, y);
 *     if (row.number == 0) { for (int32_t x = row.start; x < row.end; ++x) { visit(x, y); } }
 */
beamacorn_span beamacorn_triangle_row_span(int32_t x1, int32_t y1, int32_t x2, int32_t y2, int32_t x3, int32_t y3, int32_t y);

/*
 * Whether the circle whose box has the top-left corner (left, top) and sides of `diameter` pixels contains the pixel (x, y). The diameter 0
 * contains nothing.
 * Refused with 5, and with 6 where the box ends past 131,072.
 *
 *     beamacorn_verdict inside = beamacorn_circle_contains(0, 0, 3, x, y);
 *     if (inside.number != 0) { return refused(inside.number); }
 *     if (beamacorn_says(inside) == BEAMACORN_SAYS_YES) { visit(x, y); }
 */
beamacorn_verdict beamacorn_circle_contains(int32_t left, int32_t top, uint32_t diameter, int32_t x, int32_t y);

/*
 * The columns of row y that the circle contains: 0 to 0 for a row outside its box.
 * Refused with 5, and with 6 where the box ends past 131,072.
 *
 *     beamacorn_span row = beamacorn_circle_row_span(0, 0, 3, y);
 *     if (row.number == 0) { for (int32_t x = row.start; x < row.end; ++x) { visit(x, y); } }
 */
beamacorn_span beamacorn_circle_row_span(int32_t left, int32_t top, uint32_t diameter, int32_t y);

/*
 * ---- Frames and drawing. These may change with the second part of the version. ----
 *
 * A frame is described by five numbers: its width and height in pixels, 0 to 2,048 each; its depth in bits; where a pixel takes several bytes, its order, 0
 * for the little end first, anything else for the big end; and the distance in bytes from the begin of a row to that of the next. A row takes
 * (width * depth + 7) / 8 bytes; the distance is at least that and at most 16,384. At depths below 8 the first pixel is in a byte's high bits. The bits that
 * pad a row, the bytes between two rows and those past the frame never change. The last row is followed by a gap too: a frame takes distance * height bytes.
 *
 * `buf` points to `len` bytes that the caller lends for the call; it may be longer than the frame needs. Where `len` is 0 no byte is
 * touched and `buf` may be any pointer, NULL too. Such a buffer is enough for a frame that takes no byte, and refused with 3 for any other.
 *
 * Each operation has two functions. The one that the library exports takes the five numbers one by one. The other has `frame_` in its name, as
 * beamacorn_frame_fill beside beamacorn_fill, and for the size beamacorn_frame_bytes; it takes them as a `beamacorn_frame`, so that a program names them once:
 *
 *     beamacorn_frame pane = beamacorn_packed_frame(320, 200, 1, 0);
 *     beamacorn_drawn line = beamacorn_frame_draw_line(buf, len, pane, 0, 0, 319, 199, 1);
 */

/* The description of a frame. Any numbers make one; each call judges it. */
typedef struct {
    uint32_t width;
    uint32_t height;
    uint32_t depth;
    uint32_t order;
    uint32_t distance;
} beamacorn_frame;

/*
 * The description of a frame whose rows have no gap between them: the distance is what a row takes. Where 32 bits do not hold that, it is 0, and the frame is
 * refused with 1 or 2. For rows that start on a boundary, set the distance afterwards, or make it larger:
 *
 *     beamacorn_frame panel = beamacorn_packed_frame(250, 122, 1, 0);
 *     panel.distance = (panel.distance + 3) / 4 * 4;
 */
static inline beamacorn_frame beamacorn_packed_frame(uint32_t width, uint32_t height, uint32_t depth, uint32_t order)
{
    uint64_t bytes = ((uint64_t)width * depth + 7) / 8;
    beamacorn_frame frame = {width, height, depth, order, bytes <= UINT32_MAX ? (uint32_t)bytes : 0};

    return frame;
}

/* The five numbers of a frame, in the order of the functions that the library exports. */
#define BEAMACORN_NUMBERS_OF(frame) (frame).width, (frame).height, (frame).depth, (frame).order, (frame).distance

/* How many bytes a frame takes, or its image file. */
typedef struct {
    uint32_t number;
    uint32_t bytes;
} beamacorn_size;

/* A pixel's colour. */
typedef struct {
    uint32_t number;
    uint32_t colour;
} beamacorn_read;

/* What a call that draws answers: how many pixels of the frame its figure contains, each once and whatever its colour was; 0 if the figure lies off it. */
typedef struct {
    uint32_t number;
    uint32_t count;
} beamacorn_drawn;

/* Whether the pixel that was to be set is inside the frame; no with a refusal too. */
typedef struct {
    uint32_t number;
    bool inside;
} beamacorn_placed;

/* How many pixels of a one-bit frame are lit. */
typedef struct {
    uint32_t number;
    uint32_t count;
} beamacorn_lights;

/*
 * How many bytes a buffer for the frame must have, in either order: distance * height.
 * Refused with 1, 2 and 14, in this order.
 *
 *     beamacorn_size size = beamacorn_frame_bytes(pane);
 *     if (size.number == 0) { buf = calloc(size.bytes, 1); }
 */
beamacorn_size beamacorn_frame_size(uint32_t width, uint32_t height, uint32_t depth, uint32_t distance);
static inline beamacorn_size beamacorn_frame_bytes(beamacorn_frame frame)
{
    return beamacorn_frame_size(frame.width, frame.height, frame.depth, frame.distance);
}

/*
 * Sets the pixel (x, y) to the colour, and says whether it is inside the frame. Outside that is done, and changes nothing.
 * Refused with 1, 2, 14, 3 and 4, in this order.
 *
 *     beamacorn_placed call = beamacorn_frame_set_pixel(buf, len, pane, x, y, 1);
 *     if (call.number != 0) { return refused(call.number); }
 *     seen += call.inside;
 */
beamacorn_placed beamacorn_set_pixel(uint8_t *buf, size_t len, uint32_t width, uint32_t height, uint32_t depth, uint32_t order, uint32_t distance,
                                     int32_t x, int32_t y, uint32_t colour);
static inline beamacorn_placed beamacorn_frame_set_pixel(uint8_t *buf, size_t len, beamacorn_frame frame, int32_t x, int32_t y, uint32_t colour)
{
    return beamacorn_set_pixel(buf, len, BEAMACORN_NUMBERS_OF(frame), x, y, colour);
}

/*
 * The colour of the pixel (x, y).
 * Refused with 1, 2, 14 and 3, in this order, and with 8 outside the frame.
 *
 *     beamacorn_read pixel = beamacorn_frame_pixel(buf, len, pane, x, y);
 *     if (pixel.number == 0) { show(pixel.colour); }
 */
beamacorn_read beamacorn_pixel(const uint8_t *buf, size_t len, uint32_t width, uint32_t height, uint32_t depth, uint32_t order, uint32_t distance,
                               int32_t x, int32_t y);
static inline beamacorn_read beamacorn_frame_pixel(const uint8_t *buf, size_t len, beamacorn_frame frame, int32_t x, int32_t y)
{
    return beamacorn_pixel(buf, len, BEAMACORN_NUMBERS_OF(frame), x, y);
}

/*
 * How many pixels of a one-bit frame have the colour 1. Padding, gaps and the bytes past the frame are not counted.
 * Refused with 1, 2, 14 and 3, in this order, and with 10 where the depth is not 1. A frame without pixels has none that are lit.
 *
 *     beamacorn_lights lit = beamacorn_frame_lit(buf, len, pane);
 *     if (lit.number == 0) { show(lit.count); }
 */
beamacorn_lights beamacorn_lit(const uint8_t *buf, size_t len, uint32_t width, uint32_t height, uint32_t depth, uint32_t order, uint32_t distance);
static inline beamacorn_lights beamacorn_frame_lit(const uint8_t *buf, size_t len, beamacorn_frame frame)
{
    return beamacorn_lit(buf, len, BEAMACORN_NUMBERS_OF(frame));
}

/*
 * Sets every pixel of the frame to the colour, and says how many those are: width times height.
 * Refused with 1, 2, 14, 3 and 4, in this order.
 *
 *     beamacorn_drawn call = beamacorn_frame_fill(buf, len, pane, 1);
 *     if (call.number != 0) { return refused(call.number); }
 */
beamacorn_drawn beamacorn_fill(uint8_t *buf, size_t len, uint32_t width, uint32_t height, uint32_t depth, uint32_t order, uint32_t distance,
                               uint32_t colour);
static inline beamacorn_drawn beamacorn_frame_fill(uint8_t *buf, size_t len, beamacorn_frame frame, uint32_t colour)
{
    return beamacorn_fill(buf, len, BEAMACORN_NUMBERS_OF(frame), colour);
}

/*
 * Draws the points of the line from (x1, y1) to (x2, y2) that lie in the frame, and says how many those are.
 * Refused with 1, 2, 14, 3, 4 and 5, in this order.
 *
 *     beamacorn_drawn call = beamacorn_frame_draw_line(buf, len, pane, 0, 0, 5, 2, 1);
 *     if (call.number != 0) { return refused(call.number); }
 *     if (call.count == 0) { note("the graph lies off the pane"); }
 */
beamacorn_drawn beamacorn_draw_line(uint8_t *buf, size_t len, uint32_t width, uint32_t height, uint32_t depth, uint32_t order, uint32_t distance,
                                    int32_t x1, int32_t y1, int32_t x2, int32_t y2, uint32_t colour);
static inline beamacorn_drawn beamacorn_frame_draw_line(uint8_t *buf, size_t len, beamacorn_frame frame, int32_t x1, int32_t y1, int32_t x2, int32_t y2,
                                                        uint32_t colour)
{
    return beamacorn_draw_line(buf, len, BEAMACORN_NUMBERS_OF(frame), x1, y1, x2, y2, colour);
}

/*
 * Draws the connected line from (x1, y1) to (x2, y2), every pixel of the frame that beamacorn_connected_has_point says yes to, and says how many those
 * are.
 * Refused with 1, 2, 14, 3, 4 and 5, in this order.
 *
 *     beamacorn_drawn call = beamacorn_frame_draw_connected_line(buf, len, pane, 0, 0, 5, 2, 1);
 *     if (call.number != 0) { return refused(call.number); }
 */
beamacorn_drawn beamacorn_draw_connected_line(uint8_t *buf, size_t len, uint32_t width, uint32_t height, uint32_t depth, uint32_t order, uint32_t distance,
                                              int32_t x1, int32_t y1, int32_t x2, int32_t y2, uint32_t colour);
static inline beamacorn_drawn beamacorn_frame_draw_connected_line(uint8_t *buf, size_t len, beamacorn_frame frame, int32_t x1, int32_t y1, int32_t x2, int32_t y2,
                                                                  uint32_t colour)
{
    return beamacorn_draw_connected_line(buf, len, BEAMACORN_NUMBERS_OF(frame), x1, y1, x2, y2, colour);
}

/*
 * Draws the filled triangle, every pixel of the frame that beamacorn_triangle_contains says yes to, and says how many those are.
 * Refused with 1, 2, 14, 3, 4 and 5, in this order.
 *
 *     beamacorn_drawn call = beamacorn_frame_draw_triangle(buf, len, pane, 0, 0, 9, 0, 0, 9, 1);
 *     if (call.number != 0) { return refused(call.number); }
 */
beamacorn_drawn beamacorn_draw_triangle(uint8_t *buf, size_t len, uint32_t width, uint32_t height, uint32_t depth, uint32_t order, uint32_t distance,
                                        int32_t x1, int32_t y1, int32_t x2, int32_t y2, int32_t x3, int32_t y3, uint32_t colour);
static inline beamacorn_drawn beamacorn_frame_draw_triangle(uint8_t *buf, size_t len, beamacorn_frame frame, int32_t x1, int32_t y1, int32_t x2, int32_t y2,
                                                            int32_t x3, int32_t y3, uint32_t colour)
{
    return beamacorn_draw_triangle(buf, len, BEAMACORN_NUMBERS_OF(frame), x1, y1, x2, y2, x3, y3, colour);
}

/*
 * Draws the triangle's outline: its three edges, each from its upper end, or from the left one where it is level. So it is the same for any
 * order of the vertices, and beamacorn_triangle_contains says yes to each pixel of it. Says how many pixels of the frame the edges have; one
 * that two of them have counts once.
 * Refused with 1, 2, 14, 3, 4 and 5, in this order.
 *
 *     beamacorn_drawn call = beamacorn_frame_draw_outline(buf, len, pane, 0, 0, 9, 0, 0, 9, 1);
 *     if (call.number != 0) { return refused(call.number); }
 */
beamacorn_drawn beamacorn_draw_outline(uint8_t *buf, size_t len, uint32_t width, uint32_t height, uint32_t depth, uint32_t order, uint32_t distance,
                                       int32_t x1, int32_t y1, int32_t x2, int32_t y2, int32_t x3, int32_t y3, uint32_t colour);
static inline beamacorn_drawn beamacorn_frame_draw_outline(uint8_t *buf, size_t len, beamacorn_frame frame, int32_t x1, int32_t y1, int32_t x2, int32_t y2,
                                                           int32_t x3, int32_t y3, uint32_t colour)
{
    return beamacorn_draw_outline(buf, len, BEAMACORN_NUMBERS_OF(frame), x1, y1, x2, y2, x3, y3, colour);
}

/*
 * Draws the filled circle, every pixel of the frame that beamacorn_circle_contains says yes to, and says how many those are.
 * Refused with 1, 2, 14, 3, 4, 5 and 6, in this order.
 *
 *     beamacorn_drawn call = beamacorn_frame_draw_circle(buf, len, pane, 10, 10, 25, 1);
 *     if (call.number != 0) { return refused(call.number); }
 */
beamacorn_drawn beamacorn_draw_circle(uint8_t *buf, size_t len, uint32_t width, uint32_t height, uint32_t depth, uint32_t order, uint32_t distance,
                                      int32_t left, int32_t top, uint32_t diameter, uint32_t colour);
static inline beamacorn_drawn beamacorn_frame_draw_circle(uint8_t *buf, size_t len, beamacorn_frame frame, int32_t left, int32_t top, uint32_t diameter,
                                                          uint32_t colour)
{
    return beamacorn_draw_circle(buf, len, BEAMACORN_NUMBERS_OF(frame), left, top, diameter, colour);
}

/*
 * ---- Image files. These may change with the second part of the version. ----
 *
 * A frame as a Netpbm file: depth 1 as P4, depth 8 as P5 with the maximum 255, depth 24 as P6, red in the colour's high byte. The file holds the picture
 * alone: whatever the frame's byte order, row distance, padding and tail, the same picture has the same file, whose rows have no gap. The pixel value 1 is
 * black in a P4.
 *
 * `out` points to `out_len` bytes that the caller lends for the file and that are no part of `buf`; they may be more than the file takes. Where
 * `out_len` is 0 it may be any pointer, NULL too. So it is with the `file_len` bytes of `file`, which are read and not changed.
 */

/*
 * How many bytes the frame's image file has, in either order, at any distance and whatever its pixels are.
 * Refused with 1, 2, 14 and 10, in this order: 10 for a depth that is not 1, 8 or 24, and for a width or a height of 0.
 *
 *     beamacorn_size file = beamacorn_frame_image_size(pane);
 *     if (file.number == 0) { out = malloc(file.bytes); }
 */
beamacorn_size beamacorn_image_size(uint32_t width, uint32_t height, uint32_t depth, uint32_t distance);
static inline beamacorn_size beamacorn_frame_image_size(beamacorn_frame frame)
{
    return beamacorn_image_size(frame.width, frame.height, frame.depth, frame.distance);
}

/*
 * Writes the frame's image file into the first bytes of `out`, and says how many they are. The bytes past them stay as they are.
 * Refused with 1, 2, 14, 3, 10 and 9, in this order: 10 as above, and 9 where `out_len` is less than the file's length.
 *
 *     beamacorn_size file = beamacorn_frame_write_image(buf, len, pane, out, out_len);
 *     if (file.number != 0) { return refused(file.number); }
 *     fwrite(out, 1, file.bytes, attachment);
 */
beamacorn_size beamacorn_write_image(const uint8_t *buf, size_t len, uint32_t width, uint32_t height, uint32_t depth, uint32_t order, uint32_t distance,
                                     uint8_t *out, size_t out_len);
static inline beamacorn_size beamacorn_frame_write_image(const uint8_t *buf, size_t len, beamacorn_frame frame, uint8_t *out, size_t out_len)
{
    return beamacorn_write_image(buf, len, BEAMACORN_NUMBERS_OF(frame), out, out_len);
}

/*
 * Reads an image file into the frame: sets every pixel to the colour that it has in the file. What beamacorn_write_image wrote reads back to the same picture.
 * The padding of the frame, its gaps and the bytes past it stay; the file's padding and the bytes past its pixels are not looked at. There is no value beside
 * the number, so it is answered as it is: 0, or why the file was refused.
 *
 * The header is the magic, the width, the height and, but for a P4, the maximum. Before each of these numbers stand one or more of space, tab, CR and LF, behind the
 * last one exactly one of them, and then the pixels begin. A number has one to four digits, leading zeros among them. Comments are not taken: Netpbm's
 * `pnmtopnm` drops them, and so does ImageMagick's `convert` with `-depth 8 -strip`.
 * Refused with 1, 2, 14, 3, 10, 11, 13 and 12, in this order: 10 as above; 11 where the magic is not the depth's, a number is none, the maximum is not 255 or the
 * file ends within its header; 13 where the file's width or height is another than the frame's; 12 where its pixels are not all there.
 *
 *     uint32_t number = beamacorn_frame_read_image(buf, len, pane, file, file_len);
 *     if (number != 0) { return refused(number); }
 */
uint32_t beamacorn_read_image(uint8_t *buf, size_t len, uint32_t width, uint32_t height, uint32_t depth, uint32_t order, uint32_t distance,
                              const uint8_t *file, size_t file_len);
static inline uint32_t beamacorn_frame_read_image(uint8_t *buf, size_t len, beamacorn_frame frame, const uint8_t *file, size_t file_len)
{
    return beamacorn_read_image(buf, len, BEAMACORN_NUMBERS_OF(frame), file, file_len);
}

#ifdef __cplusplus
}
#endif

#endif
