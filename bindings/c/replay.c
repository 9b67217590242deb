/*
 * Answers lines of docs/REPLAY.md as the program `replay` does, by the functions of the header: what is asked by each line's numbers, in their order,
 * must come back as the proved program says.
 *
 *     replay                        answers standard input by the functions that the library exports
 *     replay --described            answers it by those of the header that take a beamacorn_frame
 *     replay --functions            lists the functions and how many numbers each takes, buffers and their lengths left aside
 *     replay --swap FUNCTION I J    answers with two of a function's numbers changed over, counted from 0
 */
#include <inttypes.h>
#include <stdio.h>
#include <stdlib.h>
#include <string.h>

#include "beamacorn.h"

enum { BYTES = 65536, MOST_DUMPED = 4096, MOST_PUT = 48, LONGEST_LINE = 128, FRAME = 5, MOST_NUMBERS = FRAME + 7 };

/* The frame described last: width, height, depth, order and row distance, and the part of the buffer that is lent. */
static uint8_t buffer[BYTES];
static int64_t frame[FRAME] = {0, 0, 1, 0, 0};
static size_t lent;

/* The file buffer, and how much of it is lent to write an image into, or to read one from. */
static uint8_t file[BYTES];
static size_t room;

static void say(int64_t number) { printf("%" PRId64, number); }
static void say_also(int64_t value) { printf("\t%" PRId64, value); }

static void say_verdict(beamacorn_verdict r) { say(r.number), say_also(r.yes); }
static void say_span(beamacorn_span r) { say(r.number), say_also(r.start), say_also(r.end); }
static void say_length(beamacorn_length r) { say(r.number), say_also(r.points); }
static void say_step(beamacorn_step r) { say(r.number), say_also(r.x), say_also(r.y); }
static void say_rows(beamacorn_rows r) { say(r.number), say_also(r.first), say_also(r.count); }
static void say_size(beamacorn_size r) { say(r.number), say_also(r.bytes); }
static void say_read(beamacorn_read r) { say(r.number), say_also(r.colour); }
static void say_drawn(beamacorn_drawn r) { say(r.number), say_also(r.count); }
static void say_placed(beamacorn_placed r) { say(r.number), say_also(r.inside); }
static void say_lights(beamacorn_lights r) { say(r.number), say_also(r.count); }

/* Whether frames are put to the functions that take one, and not as five numbers. */
static bool is_described;

/* The functions, each with its numbers in their order. */
static void line_length(const int64_t *n) { say_length(beamacorn_line_length(n[0], n[1], n[2], n[3])); }
static void line_point(const int64_t *n) { say_step(beamacorn_line_point(n[0], n[1], n[2], n[3], n[4])); }
static void line_has_point(const int64_t *n) { say_verdict(beamacorn_line_has_point(n[0], n[1], n[2], n[3], n[4], n[5])); }
static void connected_length(const int64_t *n) { say_length(beamacorn_connected_length(n[0], n[1], n[2], n[3])); }
static void connected_point(const int64_t *n) { say_step(beamacorn_connected_point(n[0], n[1], n[2], n[3], n[4])); }
static void connected_has_point(const int64_t *n) { say_verdict(beamacorn_connected_has_point(n[0], n[1], n[2], n[3], n[4], n[5])); }
static void triangle_contains(const int64_t *n) { say_verdict(beamacorn_triangle_contains(n[0], n[1], n[2], n[3], n[4], n[5], n[6], n[7])); }
static void triangle_rows(const int64_t *n) { say_rows(beamacorn_triangle_rows(n[0], n[1], n[2], n[3], n[4], n[5])); }
static void triangle_row_span(const int64_t *n) { say_span(beamacorn_triangle_row_span(n[0], n[1], n[2], n[3], n[4], n[5], n[6])); }
static void circle_contains(const int64_t *n) { say_verdict(beamacorn_circle_contains(n[0], n[1], n[2], n[3], n[4])); }
static void circle_row_span(const int64_t *n) { say_span(beamacorn_circle_row_span(n[0], n[1], n[2], n[3])); }

/* A function on the frame in both of its forms: the five numbers come first, and those behind them are the same. */
static beamacorn_frame described(const int64_t *n)
{
    return (beamacorn_frame){n[0], n[1], n[2], n[3], n[4]};
}
#define ON_FRAME(name, ...) \
    (is_described ? beamacorn_frame_##name(buffer, lent, described(n), __VA_ARGS__) : beamacorn_##name(buffer, lent, n[0], n[1], n[2], n[3], n[4], __VA_ARGS__))
static void frame_size(const int64_t *n)
{
    beamacorn_frame of = {n[0], n[1], n[2], 0, n[3]};

    say_size(is_described ? beamacorn_frame_bytes(of) : beamacorn_frame_size(n[0], n[1], n[2], n[3]));
}
static void image_size(const int64_t *n)
{
    say_size(is_described ? beamacorn_frame_image_size(described(n)) : beamacorn_image_size(n[0], n[1], n[2], n[4]));
}
static void lit(const int64_t *n)
{
    say_lights(is_described ? beamacorn_frame_lit(buffer, lent, described(n)) : beamacorn_lit(buffer, lent, n[0], n[1], n[2], n[3], n[4]));
}
static void set_pixel(const int64_t *n) { say_placed(ON_FRAME(set_pixel, n[5], n[6], n[7])); }
static void pixel(const int64_t *n) { say_read(ON_FRAME(pixel, n[5], n[6])); }
static void fill(const int64_t *n) { say_drawn(ON_FRAME(fill, n[5])); }
static void draw_line(const int64_t *n) { say_drawn(ON_FRAME(draw_line, n[5], n[6], n[7], n[8], n[9])); }
static void draw_connected_line(const int64_t *n) { say_drawn(ON_FRAME(draw_connected_line, n[5], n[6], n[7], n[8], n[9])); }
static void draw_triangle(const int64_t *n) { say_drawn(ON_FRAME(draw_triangle, n[5], n[6], n[7], n[8], n[9], n[10], n[11])); }
static void draw_outline(const int64_t *n) { say_drawn(ON_FRAME(draw_outline, n[5], n[6], n[7], n[8], n[9], n[10], n[11])); }
static void draw_circle(const int64_t *n) { say_drawn(ON_FRAME(draw_circle, n[5], n[6], n[7], n[8])); }
static void write_image(const int64_t *n) { say_size(ON_FRAME(write_image, file, room)); }
static void read_image(const int64_t *n) { say(ON_FRAME(read_image, file, room)); }

/* A line's word, the numbers that follow it (s signed, u unsigned), and the function: with the frame's numbers first, if it is asked of the frame. */
typedef struct {
    const char *word, *kinds, *name;
    void (*function)(const int64_t *numbers);
    bool of_frame;
} question;

static const question questions[] = {
    {"length", "ssss", "beamacorn_line_length", line_length, false},
    {"point", "ssssu", "beamacorn_line_point", line_point, false},
    {"online", "ssssss", "beamacorn_line_has_point", line_has_point, false},
    {"tracelength", "ssss", "beamacorn_connected_length", connected_length, false},
    {"tracepoint", "ssssu", "beamacorn_connected_point", connected_point, false},
    {"ontrace", "ssssss", "beamacorn_connected_has_point", connected_has_point, false},
    {"inside", "ssssssss", "beamacorn_triangle_contains", triangle_contains, false},
    {"rows", "ssssss", "beamacorn_triangle_rows", triangle_rows, false},
    {"span", "sssssss", "beamacorn_triangle_row_span", triangle_row_span, false},
    {"disc", "ssuss", "beamacorn_circle_contains", circle_contains, false},
    {"discspan", "ssus", "beamacorn_circle_row_span", circle_row_span, false},
    {"pixel", "ssu", "beamacorn_set_pixel", set_pixel, true},
    {"read", "ss", "beamacorn_pixel", pixel, true},
    {"lit", "", "beamacorn_lit", lit, true},
    {"fill", "u", "beamacorn_fill", fill, true},
    {"line", "ssssu", "beamacorn_draw_line", draw_line, true},
    {"trace", "ssssu", "beamacorn_draw_connected_line", draw_connected_line, true},
    {"triangle", "ssssssu", "beamacorn_draw_triangle", draw_triangle, true},
    {"outline", "ssssssu", "beamacorn_draw_outline", draw_outline, true},
    {"circle", "ssuu", "beamacorn_draw_circle", draw_circle, true},
    {"imagesize", "", "beamacorn_image_size", image_size, true},
};

/* The functions of `frame`, whose line has an order and a length besides, and of `image` and `load`, whose line has the length of the file. */
static const question size_of_frame = {"frame", "uuuu", "beamacorn_frame_size", frame_size, false};
static const question image_of_frame = {"image", "", "beamacorn_write_image", write_image, true};
static const question image_into_frame = {"load", "", "beamacorn_read_image", read_image, true};

/* Which numbers of which function are changed over, if any. */
static const char *swapped = "";
static size_t first, second;

static void answer(const question *asked, const int64_t *numbers)
{
    int64_t all[MOST_NUMBERS];
    size_t before = asked->of_frame ? FRAME : 0;

    memcpy(all, frame, before * sizeof *all);
    memcpy(all + before, numbers, strlen(asked->kinds) * sizeof *all);
    if (strcmp(asked->name, swapped) == 0) {
        int64_t kept = all[first];
        all[first] = all[second];
        all[second] = kept;
    }
    asked->function(all);
}

/* Reads one to ten digits, after an optional minus where the kind is s, that 32 bits hold. */
static bool read_number(const char *field, char kind, int64_t *value)
{
    const char *digits = field + (kind == 's' && *field == '-');
    size_t length = strlen(digits);

    if (length < 1 || length > 10 || strspn(digits, "0123456789") != length) {
        return false;
    }
    *value = strtoll(field, NULL, 10);
    return kind == 's' ? INT32_MIN <= *value && *value <= INT32_MAX : *value <= UINT32_MAX;
}

/* Cuts a line into fields at its tabs, and reads the numbers of those behind the word. */
static bool read_numbers(char *fields, const char *kinds, int64_t *numbers)
{
    for (; *kinds != '\0'; ++kinds, ++numbers) {
        if (fields == NULL) {
            return false;
        }
        char *tab = strchr(fields, '\t');
        if (tab != NULL) {
            *tab = '\0';
        }
        if (!read_number(fields, *kinds, numbers)) {
            return false;
        }
        fields = tab == NULL ? NULL : tab + 1;
    }
    return fields == NULL;
}

static bool describe(char *fields)
{
    int64_t n[6];

    if (!read_numbers(fields, "uuuuuu", n) || n[3] > 1 || n[4] > BYTES) {
        return false;
    }
    const int64_t numbers[] = {n[0], n[1], n[2], n[3], n[5]}, without_order[] = {n[0], n[1], n[2], n[5]};
    memcpy(frame, numbers, sizeof frame);
    lent = (size_t)n[4];
    memset(buffer, 0, sizeof buffer);
    answer(&size_of_frame, without_order);
    return true;
}

/* `image` and `load`. */
static bool with_file(const question *asked, char *fields)
{
    int64_t given;

    if (!read_numbers(fields, "u", &given) || given > BYTES) {
        return false;
    }
    room = (size_t)given;
    answer(asked, &given);
    return true;
}

/* `bytes`: a place in the file buffer, and two digits a byte. */
static bool put(char *fields)
{
    int64_t at;
    char *digits = fields == NULL ? NULL : strchr(fields, '\t');

    if (digits == NULL) {
        return false;
    }
    *digits++ = '\0';
    size_t length = strlen(digits);
    if (!read_number(fields, 'u', &at) || length == 0 || length % 2 != 0 || length > 2 * MOST_PUT || strspn(digits, "0123456789abcdef") != length
        || at + (int64_t)length / 2 > BYTES) {
        return false;
    }
    for (; *digits != '\0'; digits += 2) {
        char pair[] = {digits[0], digits[1], '\0'};
        file[at++] = (uint8_t)strtoul(pair, NULL, 16);
    }
    say(0);
    return true;
}

/* `preset` and `wipe`. */
static bool set_all(uint8_t *bytes, char *fields)
{
    int64_t value;

    if (!read_numbers(fields, "u", &value) || value > UINT8_MAX) {
        return false;
    }
    memset(bytes, (int)value, BYTES);
    say(0);
    return true;
}

/* `dump` and `file`. */
static bool show(const uint8_t *bytes, char *fields)
{
    int64_t n[2];

    if (!read_numbers(fields, "uu", n) || n[1] > MOST_DUMPED || n[0] + n[1] > BYTES) {
        return false;
    }
    for (int64_t i = n[0]; i < n[0] + n[1]; ++i) {
        printf("%02x", bytes[i]);
    }
    return true;
}

/* Answers a line; false if it is none. */
static bool answer_line(char *line, size_t length)
{
    int64_t numbers[MOST_NUMBERS];
    char *tab = strchr(line, '\t');
    char *fields = tab == NULL ? NULL : tab + 1;

    if (length > LONGEST_LINE || strlen(line) != length) {
        return false;
    }
    if (tab != NULL) {
        *tab = '\0';
    }
    if (strcmp(line, "frame") == 0) {
        return describe(fields);
    }
    if (strcmp(line, "preset") == 0) {
        return set_all(buffer, fields);
    }
    if (strcmp(line, "dump") == 0) {
        return show(buffer, fields);
    }
    if (strcmp(line, "image") == 0) {
        return with_file(&image_of_frame, fields);
    }
    if (strcmp(line, "load") == 0) {
        return with_file(&image_into_frame, fields);
    }
    if (strcmp(line, "bytes") == 0) {
        return put(fields);
    }
    if (strcmp(line, "wipe") == 0) {
        return set_all(file, fields);
    }
    if (strcmp(line, "file") == 0) {
        return show(file, fields);
    }
    for (size_t i = 0; i < sizeof questions / sizeof *questions; ++i) {
        if (strcmp(line, questions[i].word) == 0) {
            if (!read_numbers(fields, questions[i].kinds, numbers)) {
                return false;
            }
            answer(&questions[i], numbers);
            return true;
        }
    }
    return false;
}

/* Reads a line without its LF, and how long it is; a longer one than any good line is cut. False at the end of the input. */
static bool next_line(char *line, size_t *length)
{
    int byte = getchar();

    if (byte == EOF) {
        return false;
    }
    for (*length = 0; byte != EOF && byte != '\n'; byte = getchar()) {
        if (*length <= LONGEST_LINE) {
            line[(*length)++] = (char)byte;
        }
    }
    line[*length] = '\0';
    return true;
}

static void list(const question *asked)
{
    printf("%s\t%zu\n", asked->name, (asked->of_frame ? FRAME : 0) + strlen(asked->kinds));
}

int main(int argc, char **argv)
{
    char line[LONGEST_LINE + 2];
    size_t length;

    if (argc == 2 && strcmp(argv[1], "--functions") == 0) {
        list(&size_of_frame);
        list(&image_of_frame);
        list(&image_into_frame);
        for (size_t i = 0; i < sizeof questions / sizeof *questions; ++i) {
            list(&questions[i]);
        }
        return 0;
    }
    if (argc == 5 && strcmp(argv[1], "--swap") == 0) {
        swapped = argv[2];
        first = strtoul(argv[3], NULL, 10);
        second = strtoul(argv[4], NULL, 10);
    } else if (argc == 2 && strcmp(argv[1], "--described") == 0) {
        is_described = true;
    } else if (argc != 1) {
        fputs("usage: replay [--described | --functions | --swap FUNCTION I J]\n", stderr);
        return 2;
    }
    while (next_line(line, &length)) {
        fputs(answer_line(line, length) ? "\n" : "bad line\n", stdout);
    }
    return ferror(stdin) || fflush(stdout) != 0;
}
