/* Paints a tag, reads it from all four starts, paints and reads a sheet, writes the reading as a report and reads that, and finds the
   saddle points of a small picture, with the C interface of Muosleap.

   Every buffer is initialized before it is lent, outputs too, as the header asks. From the root of the repository, after
   `(cd crates/muosleap_c && rt lib)`:

       mkdir -p target
       cc -I include tools/host/examples/read.c -L crates/muosleap_c/out -lmuosleap_c -o target/read && target/read
*/
#include <stdint.h>
#include <stdio.h>
#include <stdlib.h>
#include <string.h>

#include "muosleap.h"

enum { T36H11 = 3, WIDTH = 160, HEIGHT = 120, PITCH = 192, SIDE = 32, ROWS = 2, COLUMNS = 3, TAGS = ROWS * COLUMNS };

/* Ends the program where a call is refused. None of the calls here writes anything then. */
static void accepted(const char *call, uint32_t refusal)
{
    if (refusal != 0) {
        fprintf(stderr, "%s: refusal %u\n", call, (unsigned)refusal);
        exit(1);
    }
}

/* Paints the code 0xd5d628584, tag 0 of T36H11, 8 pixels a module, with its last module misprinted, and reads it. The reading says
   how many modules differ. The picture is as a camera sends it that pads its lines: one starts every 192 bytes, and behind each but
   the last are 32 bytes of filler, which neither call reads or writes. For a picture without filler the pitch is the width. */
static void read_painted_tag(void)
{
    static uint8_t picture[PITCH * (HEIGHT - 1) + WIDTH];
    float quad[8] = {0}, started[8] = {0}, corners[8] = {0};
    size_t id = 0;
    uint8_t turn = 0, differing = 0;

    accepted("paint", muosleap_paint_tag_in(picture, sizeof picture, WIDTH, HEIGHT, PITCH, T36H11, 0xd5d628584 ^ 1,
                                            /* place */ 40, 20, /* cell */ 8, /* turn */ 0, /* light, dark */ 220, 30, quad));
    for (int start = 0; start < 4; start++) {
        for (int k = 0; k < 8; k++)
            started[k] = quad[(k + 2 * start) % 8];
        accepted("read", muosleap_try_decode_quad_in(picture, sizeof picture, WIDTH, HEIGHT, PITCH, T36H11, started, &id, &turn,
                                                     &differing, corners));
        printf("start %d: tag %zu, turn %u, differing modules %u, first corner of the print (%.1f, %.1f)\n", start, id,
               (unsigned)turn, (unsigned)differing, corners[6], corners[7]);
    }
}

/* Writes a list's reading as a report, as into a file, reads it again, and compares: the same rows, and the same bits of corners. */
static void report_and_read(const uint64_t rows[4 * TAGS], const float corners[8 * TAGS])
{
    uint8_t report[2 + 37 * TAGS] = {0};
    uint64_t rows_again[4 * TAGS] = {0};
    float corners_again[8 * TAGS] = {0};
    size_t written = 0, count = 0;

    accepted("write", muosleap_write_report(rows, 4 * TAGS, corners, 8 * TAGS, report, sizeof report, &written));
    accepted("reread", muosleap_read_report(report, written, rows_again, 4 * TAGS, corners_again, 8 * TAGS, &count));
    printf("report of the sheet: %zu bytes, read again as %zu rows, %s\n", written, count,
           memcmp(rows, rows_again, sizeof rows_again) == 0 && memcmp(corners, corners_again, sizeof corners_again) == 0
               ? "the same" : "others");
}

/* Paints a sheet of two rows of three tags, 4 pixels a module and a gap of 2 modules between tags, and reads its quads as one list.
   Tag 0 is lower left; numbers rise along a row and then upward. */
static void read_painted_sheet(void)
{
    static uint8_t picture[PITCH * (HEIGHT - 1) + WIDTH];
    float quads[8 * TAGS] = {0}, corners[8 * TAGS] = {0};
    uint64_t rows[4 * TAGS] = {0};

    accepted("sheet", muosleap_paint_sheet_in(picture, sizeof picture, WIDTH, HEIGHT, PITCH, T36H11, ROWS, COLUMNS, /* gap */ 2,
                                              /* place */ 10, 10, /* cell */ 4, /* turn */ 0, /* light, dark */ 220, 30, quads,
                                              8 * TAGS));
    accepted("list", muosleap_try_decode_quads_in(picture, sizeof picture, WIDTH, HEIGHT, PITCH, T36H11, quads, 8 * TAGS, rows,
                                                  4 * TAGS, corners, 8 * TAGS));
    for (int k = 0; k < TAGS; k++)
        printf("quad %d of the sheet: refusal %u, tag %u, upper left (%.1f, %.1f)\n", k, (unsigned)rows[4 * k],
               (unsigned)rows[4 * k + 1], quads[8 * k], quads[8 * k + 1]);
    report_and_read(rows, corners);
}

/* Four squares that meet in one point: picture to clusters. */
static void find_saddle_point(void)
{
    static float picture[SIDE * SIDE], between[SIDE * SIDE], blurred[SIDE * SIDE], response[SIDE * SIDE];
    static uint32_t worklist[3 * SIDE * SIDE + 1];
    const float weights[5] = {0.0625f, 0.25f, 0.375f, 0.25f, 0.0625f};
    const size_t count = SIDE * SIDE;
    uint64_t rows[3 * 8] = {0};
    size_t total = 0;
    float threshold = 0, center[2] = {0};

    for (int i = 0; i < SIDE * SIDE; i++)
        picture[i] = (i % SIDE < SIDE / 2) == (i / SIDE < SIDE / 2) ? 1.0f : 0.0f;
    accepted("blur", muosleap_gaussian_blur_f32(picture, count, SIDE, SIDE, weights, 5, between, count, blurred, count));
    accepted("response", muosleap_hessian_response(blurred, count, SIDE, SIDE, response, count));
    accepted("threshold", muosleap_response_threshold(response, count, SIDE, SIDE, &threshold));
    accepted("clusters", muosleap_init_saddle_clusters(response, count, SIDE, SIDE, threshold, worklist, 3 * count + 1,
                                                       rows, 3 * 8, &total));
    for (size_t i = 0; i < total && i < 8; i++) {
        accepted("centre", muosleap_cluster_center(rows[3 * i], rows[3 * i + 1], rows[3 * i + 2], center));
        printf("saddle point at (%.1f, %.1f), from %u samples\n", center[0], center[1], (unsigned)rows[3 * i + 2]);
    }
}

int main(void)
{
    read_painted_tag();
    read_painted_sheet();
    find_saddle_point();
    return 0;
}
