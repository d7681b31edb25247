/*
 * Muosleap: from a picture to clusters, from a quad to a tag, and from a list's reading to a report and back. Link with libmuosleap_c.a.
 *
 * What each function answers
 *   0 where the call is accepted, and else the number of a refusal. A function tests its refusals in the order in which its
 *   comment names them and answers the first that holds. A refused call leaves every buffer as it was, the worklist too; the one
 *   exception is the count that muosleap_best_tag gives beside 13.
 *
 * What the caller owes
 *   - Every pointer is aligned for its type and not null, also where its count is 0.
 *   - Behind a pointer with a count lie that many elements, and behind one without a count the one element or the eight or
 *     two numbers that its comment names. All of them are initialized, those of outputs and the filler of planes too.
 *   - No buffer that a call may write overlaps another buffer of the same call.
 *   - No other thread writes a lent buffer, or reads one that the call may write, while the call runs.
 *   Nothing else is demanded: every number is taken, and refused where it does not fit.
 *
 * Buffers
 *   - A pointer and the count of elements behind it stand next to each other. A pointer to const is only read.
 *   - A plane is `height` lines of `width` samples; y grows downward.
 *   - A float plane has no pitch: it is one line right after the other, and its count is width × height.
 *   - An 8-bit plane has a pitch, from the width to 8,192 bytes: pixel (x, y) is byte y × pitch + x. Behind each line but the last
 *     are pitch - width bytes of filler, behind the last line none, so its count is pitch × (height - 1) + width. Without filler
 *     the pitch is the width.
 *   - Filler may hold anything. It is never read and never written: a plane is read and painted as if its lines had no filler.
 *   - A quad is eight numbers: x0 y0 x1 y1 x2 y2 x3 y3. So are the corners of a tag.
 *   - An output that is longer than what is written keeps the rest of its elements.
 *   - A word of edge² bits is a square of modules; its highest bit is the first module.
 *
 * Readings and reports
 *   A reading is the rows of a list, four numbers each (refusal, id, turn, differing modules), and eight corner numbers a row. A row
 *   without a refusal has an id below 1,024 which no other such row has, a turn of at most 3, at most 63 differing modules, and corners
 *   that refusal 8 lets through. A refused row has 8 to 13 or 18, and every other bit of it and of its corners is zero. What
 *   muosleap_try_decode_quads and muosleap_try_decode_quads_in write is always a reading. A report is a reading as bytes
 *   (docs/REPORTS.md): one reading has one report, and one report one reading.
 *
 * Families
 *   By number: 0 T16H5, 1 T25H7, 2 T25H9, 3 T36H11, 4 T36H11B1. Else a table is lent: edge (modules a side inside the border),
 *   border (modules), match threshold (`hamming_distance`) and the codes.
 *
 * Refusals
 *    1  a plane side is 0 or above 4,096; a float plane's length is not width × height; an 8-bit plane's pitch is below its width
 *       or above 8,192, or its length is not pitch × (height - 1) + width
 *    2  weights not an odd number from 1 to 15, or one outside 0.0 to 1.0 or NaN
 *    3  a sample to be blurred outside 0.0 to 1.0, a sample lent to the response, threshold or clusters of magnitude above 65,536,
 *       or NaN in any of them
 *    4  threshold infinite or NaN
 *    5  worklist shorter than 3 × width × height + 1
 *    6  table with edge outside 1..8, border outside 1..4, no code or above 1,024 codes, match threshold outside 1..64, or a code
 *       of 2^(edge²) or more; or no such family
 *    7  the table fails the likeness check
 *    8  a corner coordinate is NaN or of magnitude 16,384 or more
 *    9  a corner rounds outside the picture
 *   10  a sample rounds outside the picture
 *   11  greatest minus least level below 50
 *   12  more unsure modules than allowed
 *   13  no code near in four turns
 *   14  painting word of 2^(edge²) or more, cell outside 1..64 pixels, turn above 3, light less than 50 above dark, or a tag that
 *       does not end at least one pixel before the right and lower edges
 *   15  no levels, or more than 64; for a centre, a sum or count of 2^24 or more, or a count of 0
 *   16  quad list not a multiple of 8 numbers or above 1,024 quads, or an output shorter than four numbers and eight corner
 *       numbers a quad; for a sheet, an output shorter than eight numbers a tag
 *   17  a sheet's side of 0 or above 32 tags, a gap outside 1..16 cells, more tags than codes, or a grid that does not end at
 *       least one pixel before the right and lower edges
 *   18  another quad of the list gives the same id
 *   19  more than 1,024 whole rows, in a report by its first two bytes, or an output too short
 *   20  rows that are not whole, are no such reading or have not eight corner numbers each, or bytes that none writes, spare bytes
 *       included
 */
#ifndef MUOSLEAP_H
#define MUOSLEAP_H

#include <stddef.h>
#include <stdint.h>

#ifdef __cplusplus
extern "C" {
#endif

/*
 * One turn of a word of edge² bits: place i × edge + j takes the bit of place j × edge + edge - 1 - i.
 * Refusals: 6, for the edge alone.
 * word: the turned word.
 */
uint32_t muosleap_rotate_bits(uint64_t bits, uint8_t edge, uint64_t *word);

/*
 * The code that a word shows, and the first turn, 0 to 3, at which it differs from a code in fewer bits than the match threshold. The
 * search ends at a code that differs in no bit; its answer is that of a search through all codes.
 * Refusals: 6 (the border is not lent and not tested), 13.
 * id: the code's position from 0. turn: the turn. differing: in how many bits the code differs from the word turned so often, the
 * fewest that a code does; below the match threshold, so 63 at most. Bits above the square count too, at turn 0 alone: a turned word
 * has none.
 * compared: the count of codes compared, each code met in each turn begun, the one that ends the search included. In a table of n codes
 * it is turn × n + id + 1 where differing is 0, and (turn + 1) × n where it is not. It is written beside 0 and beside 13, where it is
 * 4 × n; beside 13 nothing else is written, and beside 6 nothing at all.
 */
uint32_t muosleap_best_tag(uint64_t bits, uint8_t hamming_distance, const uint64_t *codes, size_t codes_count, uint8_t edge,
                           size_t *id, uint8_t *turn, uint8_t *differing, size_t *compared);

/*
 * Whether a table can be read one way only: with the match threshold t, each code has at least t ones and t zeros in its square,
 * and any two codes in any turns, or one code in two turns, differ in at least 2 × t - 1 bits. The readers do not test this.
 * Refusals: 6, 7.
 */
uint32_t muosleap_check_likeness(uint8_t edge, uint8_t border, uint8_t hamming_distance, const uint64_t *codes,
                                 size_t codes_count);

/*
 * Levels to bits: 1 for a level above the middle of least and greatest; the first level is the highest bit. A level nearer to the
 * middle than the band is unsure, and at most `allowed` of them may be.
 * Refusals: 15, 11, 12.
 * word: the bits.
 */
uint32_t muosleap_bit_code(const uint8_t *levels, size_t levels_count, uint8_t band, uint32_t allowed, uint64_t *word);

/*
 * The tag at a quad of an 8-bit plane, read with a lent table.
 * Refusals: 1, 6, 8, 9, 10, 11, 12, 13.
 * quad: eight numbers. id, turn: as of muosleap_best_tag. differing: how many modules differ from the tag's code, fewer than the match
 * threshold. It tells wear: with a table that passes the likeness check a clean tag gives 0. corners: eight numbers, the quad turned
 * left by the turn, then reversed.
 */
uint32_t muosleap_try_decode_quad(const uint8_t *plane, size_t plane_count, size_t width, size_t height, size_t pitch,
                                  uint8_t edge, uint8_t border, uint8_t hamming_distance, const uint64_t *codes,
                                  size_t codes_count, const float quad[8], size_t *id, uint8_t *turn, uint8_t *differing,
                                  float corners[8]);

/*
 * The same by family number.
 * Refusals: 1, 6 (no such family), 8, 9, 10, 11, 12, 13.
 */
uint32_t muosleap_try_decode_quad_in(const uint8_t *plane, size_t plane_count, size_t width, size_t height, size_t pitch,
                                     uint8_t family, const float quad[8], size_t *id, uint8_t *turn, uint8_t *differing,
                                     float corners[8]);

/*
 * Each quad of a list read by itself with a lent table; then an id that two or more of them give is not trusted.
 * Refusals: 1, 6, 16. The refusals of a quad, 8 to 13 and then 18, stand in its row, and the call is accepted.
 * quads: eight numbers a quad. rows: four numbers a quad, which are its refusal or 0, its id, its turn and its differing modules.
 * corners: eight numbers a quad. A refused quad's row is 0 but for the refusal, and its corners are 0.
 * Quads that are read with the same id, two or more of them, are all refused with 18; a quad that stands in the list twice counts
 * twice, so lend each found quad once. What a quad is refused for by itself, 8 to 13, stays: it then gives no id and makes no other
 * quad 18. Reading one quad alone never gives 18.
 */
uint32_t muosleap_try_decode_quads(const uint8_t *plane, size_t plane_count, size_t width, size_t height, size_t pitch,
                                   uint8_t edge, uint8_t border, uint8_t hamming_distance, const uint64_t *codes,
                                   size_t codes_count, const float *quads, size_t quads_count, uint64_t *rows, size_t rows_count,
                                   float *corners, size_t corners_count);

/*
 * The same by family number.
 * Refusals: 1, 6 (no such family), 16; 8 to 13 and 18 stand in rows.
 */
uint32_t muosleap_try_decode_quads_in(const uint8_t *plane, size_t plane_count, size_t width, size_t height, size_t pitch,
                                      uint8_t family, const float *quads, size_t quads_count, uint64_t *rows, size_t rows_count,
                                      float *corners, size_t corners_count);

/*
 * The report of a reading: its bytes, for a file or a line, which muosleap_read_report reads again.
 * Refusals: 19 (more than 1,024 whole rows), 20, 19 (an output shorter than the report).
 * rows, corners: the reading, with their exact counts, 4 and 8 times the number of rows; no row at all is a reading. report: its bytes.
 * A report has two bytes, and for each row 2 where it is refused and 35 to 37 where not, so 2 + 37 bytes a row are always enough; bytes
 * beyond it stay as they were. written: how many bytes the report has.
 */
uint32_t muosleap_write_report(const uint64_t *rows, size_t rows_count, const float *corners, size_t corners_count,
                               uint8_t *report, size_t report_count, size_t *written);

/*
 * The reading of a report, every bit of its corners as it was written. Only what muosleap_write_report writes is taken.
 * Refusals: 20 (fewer than two bytes), 19 (the number of rows in the first two bytes, low byte first, is above 1,024), 20, 19 (rows or
 * corners are too short).
 * report: its bytes, with their exact count; a byte more or less is 20. rows: four numbers a row, corners: eight numbers a row, as of
 * muosleap_try_decode_quads; 4,096 and 8,192 numbers are always enough, and numbers beyond the reading stay as they were. count: how many
 * rows there are.
 */
uint32_t muosleap_read_report(const uint8_t *report, size_t report_count, uint64_t *rows, size_t rows_count, float *corners,
                              size_t corners_count, size_t *count);

/*
 * Fills an 8-bit plane with light and draws one tag into it, its upper left pixel at (x, y), `cell` pixels a module: dark borders, and
 * a light module for each bit that is 1. At turn 0, 1, 2, 3 the print's first corner is upper left, upper right, lower right, lower left.
 * Refusals: 1, 6 (edge and border), 14.
 * plane: the picture; its filler stays as it was. quad: eight numbers, the tag's outer corners, clockwise from the print's first.
 */
uint32_t muosleap_paint_tag(uint8_t *plane, size_t plane_count, size_t width, size_t height, size_t pitch, uint8_t edge,
                            uint8_t border, uint64_t word, size_t x, size_t y, size_t cell, uint8_t turn, uint8_t light,
                            uint8_t dark, float quad[8]);

/*
 * The same with the edge and the border of a family.
 * Refusals: 1, 6 (no such family), 14.
 */
uint32_t muosleap_paint_tag_in(uint8_t *plane, size_t plane_count, size_t width, size_t height, size_t pitch, uint8_t family,
                               uint64_t word, size_t x, size_t y, size_t cell, uint8_t turn, uint8_t light, uint8_t dark,
                               float quad[8]);

/*
 * Fills an 8-bit plane with light and draws a sheet into it: a grid of a lent table's codes, `rows` × `columns` tags, each drawn as
 * muosleap_paint_tag draws it, all at one turn. The grid's upper left pixel is (x, y); between two tags are `gap` cells of light, so
 * that the next tag begins (edge + 2 × border + gap) × cell pixels further. The lower left tag is position 0 and shows the first code;
 * positions rise along a row and then upward. With a table that passes the likeness check, which is not tested here, each tag is read
 * under its position, in a list too where no other quad gives its id.
 * Refusals: 1, 6, 14 (cell, turn, light and dark), 17, 16.
 * plane: the picture; its filler stays as it was. quads: eight numbers a tag in the order of the positions, each tag's outer corners
 * as muosleap_paint_tag gives them. Numbers beyond these stay as they were.
 */
uint32_t muosleap_paint_sheet(uint8_t *plane, size_t plane_count, size_t width, size_t height, size_t pitch, uint8_t edge,
                              uint8_t border, uint8_t hamming_distance, const uint64_t *codes, size_t codes_count, size_t rows,
                              size_t columns, size_t gap, size_t x, size_t y, size_t cell, uint8_t turn, uint8_t light,
                              uint8_t dark, float *quads, size_t quads_count);

/*
 * The same with the table of a family.
 * Refusals: 1, 6 (no such family), 14, 17, 16.
 */
uint32_t muosleap_paint_sheet_in(uint8_t *plane, size_t plane_count, size_t width, size_t height, size_t pitch, uint8_t family,
                                 size_t rows, size_t columns, size_t gap, size_t x, size_t y, size_t cell, uint8_t turn,
                                 uint8_t light, uint8_t dark, float *quads, size_t quads_count);

/*
 * A blur by lent weights, across into `temp` and then down into `out`, edges repeated.
 * Refusals: 1 (any of the three planes), 2, 3.
 * img: the plane to be blurred. temp, out: planes of the same sides, both written whole.
 */
uint32_t muosleap_gaussian_blur_f32(const float *img, size_t img_count, size_t width, size_t height, const float *weights,
                                    size_t weights_count, float *temp, size_t temp_count, float *out, size_t out_count);

/*
 * The response of each sample, low at saddles; 0 at the border.
 * Refusals: 1 (either plane), 3.
 * out: a plane of the same sides, written whole.
 */
uint32_t muosleap_hessian_response(const float *img, size_t img_count, size_t width, size_t height, float *out, size_t out_count);

/*
 * The lowest response times 0.05; a zero is +0.0.
 * Refusals: 1, 3.
 * threshold: the product.
 */
uint32_t muosleap_response_threshold(const float *response, size_t response_count, size_t width, size_t height,
                                     float *threshold);

/*
 * The clusters of a plane: connected sets, by four neighbours, of samples below the threshold, with at least one sample off the border,
 * in the order of their first such sample, row by row.
 * Refusals: 1, 3, 4, 5.
 * h_mat: the plane; clustered samples hold the largest finite float afterwards. worklist: at least 3 × width × height + 1 numbers for
 * the call's own use; nothing is promised of what it holds afterwards. rows: three numbers a cluster, which are sum of x, sum of y and
 * count; as many whole rows as fit are written. total: how many clusters there are, also those whose rows did not fit.
 */
uint32_t muosleap_init_saddle_clusters(float *h_mat, size_t h_mat_count, size_t width, size_t height, float threshold,
                                       uint32_t *worklist, size_t worklist_count, uint64_t *rows, size_t rows_count,
                                       size_t *total);

/*
 * The centre of a cluster from its row: each sum divided by the count.
 * Refusals: 15.
 * center: two numbers, x and y.
 */
uint32_t muosleap_cluster_center(uint64_t sum_x, uint64_t sum_y, uint64_t count, float center[2]);

#ifdef __cplusplus
}
#endif

#endif
