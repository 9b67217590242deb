/*
 * Reads image files with the frame and the file each right before a page, and right behind one, that no program may touch: a byte read or written past an end
 * stops this program. Every beginning of a small file of each format, and each byte of its header replaced by each of 256 values; what is answered, and what is
 * left in the frame, must be the same as in plain memory. Some of the frames have a gap behind each of their rows.
 */
#define _DEFAULT_SOURCE
#include <stdio.h>
#include <string.h>
#include <sys/mman.h>
#include <unistd.h>

#include "beamacorn.h"

enum { LONGEST = 64 };

/* A page between two that can't be touched; NULL if there is none to be had. */
static uint8_t *guarded(size_t page)
{
    uint8_t *pages = mmap(NULL, 3 * page, PROT_NONE, MAP_PRIVATE | MAP_ANONYMOUS, -1, 0);

    if (pages == MAP_FAILED || mprotect(pages + page, page, PROT_READ | PROT_WRITE) != 0) {
        return NULL;
    }
    return pages + page;
}

/* A frame, how many bytes it takes and how many of them are pixels, and a file of its size and how long the file's header is. */
typedef struct {
    beamacorn_frame frame;
    size_t size, pixels, header;
    const char *file;
    size_t length;
} sample;

#define FILE_OF(text) (text), sizeof(text) - 1
static const sample samples[] = {
    {{10, 2, 1, 0, 2}, 4, 4, 9, FILE_OF("P4\n010 2\n\x80\x3f\x00\x40more")},
    {{10, 2, 1, 0, 5}, 10, 4, 9, FILE_OF("P4\n010 2\n\x80\x3f\x00\x40more")},
    {{2, 1, 8, 0, 2}, 2, 2, 13, FILE_OF("P5 2\t1\r\n0255\n\x07\xc8")},
    {{1, 2, 24, 0, 3}, 6, 6, 11, FILE_OF("P6\n1 2\n255 \x01\x02\x03\x04\x05\x06\n")},
    {{1, 2, 24, 0, 4}, 8, 6, 11, FILE_OF("P6\n1 2\n255 \x01\x02\x03\x04\x05\x06\n")},
};

static uint8_t *frame_page, *file_page;
static size_t page;
static int reads, wrong, accepted;

/* Reads n bytes with frame and file at one end of their pages, and in plain memory. */
static void read_at(const sample *of, const uint8_t *file, size_t n, uint32_t order, bool at_the_end)
{
    beamacorn_frame frame = of->frame;
    uint8_t plain[LONGEST], plain_file[LONGEST];
    uint8_t *bytes = at_the_end ? frame_page + page - of->size : frame_page;
    uint8_t *guarded_file = at_the_end ? file_page + page - n : file_page;

    frame.order = order;
    memset(plain, 0xa5, sizeof plain);
    memset(bytes, 0xa5, of->size);
    memset(plain_file, ' ', sizeof plain_file);
    memcpy(plain_file, file, n);
    memcpy(guarded_file, file, n);
    uint32_t expected = beamacorn_frame_read_image(plain, of->size, frame, plain_file, n);
    uint32_t number = beamacorn_frame_read_image(bytes, of->size, frame, guarded_file, n);

    ++reads;
    accepted += number == 0;
    if (number != expected || memcmp(bytes, plain, of->size) != 0 || memcmp(guarded_file, file, n) != 0) {
        ++wrong;
        fprintf(stderr, "depth %u, %zu bytes: %u where %u is answered in plain memory\n", (unsigned)frame.depth, n, (unsigned)number, (unsigned)expected);
    }
}

static void read_everywhere(const sample *of, const uint8_t *file, size_t n)
{
    for (uint32_t order = 0; order < 2; ++order) {
        read_at(of, file, n, order, true);
        read_at(of, file, n, order, false);
    }
}

int main(void)
{
    page = (size_t)sysconf(_SC_PAGESIZE);
    frame_page = guarded(page);
    file_page = guarded(page);
    if (frame_page == NULL || file_page == NULL) {
        fputs("no page can be guarded\n", stderr);
        return 1;
    }
    for (size_t i = 0; i < sizeof samples / sizeof *samples; ++i) {
        const sample *of = &samples[i];
        uint8_t file[LONGEST];

        memcpy(file, of->file, of->length);
        for (size_t n = 0; n <= of->length; ++n) {
            read_everywhere(of, file, n);
        }
        for (size_t place = 0; place < of->header; ++place) {
            for (int value = 0; value < 256; ++value) {
                file[place] = (uint8_t)value;
                read_everywhere(of, file, of->header + of->pixels);
                read_everywhere(of, file, place + 1);
            }
            file[place] = (uint8_t)of->file[place];
        }
    }
    printf("%d files read between guard pages, %d of them accepted, %d wrong\n", reads, accepted, wrong);
    return wrong != 0 || accepted == 0;
}
