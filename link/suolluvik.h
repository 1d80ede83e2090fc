/* Suolluvik, linked: the deltas, coordinates, axes, instances, measures and glyph metrics of a variable font, as the
 * font-variation part of swash 0.2.10 answers them. libsuolluvik.a (`./suolluvik lib`) has these functions, for x86-64.
 *
 * Refusals. A function that can refuse returns SUOLLUVIK_OK, which is 0, or the number of its refusal. On a refusal every
 * value that is written through a pointer is 0, and no list changes. Without one all of them are written; of a list the
 * first elements, as many as are counted, and those beyond stay.
 *
 * Lists. A list is a pointer and, right behind it, how many elements it has. Any bytes, offsets, ids, coordinates and
 * floats are taken. What is asked of the caller: a pointer is aligned for its type; behind it are as many elements as
 * said, initialised where they are read; what is written through a pointer overlaps nothing else of the call; a bool is 0
 * or 1. NULL with 0 elements is an empty list; any other pointer is not null.
 *
 * Floats. The thread's float environment rounds to nearest and flushes nothing to zero, as C has it at a program's start; one
 * that is linked with -ffast-math starts with another.
 *
 * A font is the whole file, and offsets count from its start; 0 says that there is no such table. `fvar` is that table
 * alone. Coordinates are normalised, in 2.14; a missing one is 0. A 16.16 number is written as its raw integer. A tag is the
 * number that its four letters make, the first one highest: wght is 0x77676874.
 *
 * The answers are swash's, also where OpenType says something else, but for avar maps that OpenType does not allow, for rows
 * past a subtable's item count, for what hmtx, vmtx and VORG do not have, which is refused, where swash has some number, and
 * for an instance's PostScript name id, where swash has another number of the table; docs/DIFFERENCES.md has each such place.
 * One where both depart from OpenType is met in many fonts: of MVAR's records most are refused. */
#ifndef SUOLLUVIK_H
#define SUOLLUVIK_H

#include <stdbool.h>
#include <stddef.h>
#include <stdint.h>

#ifdef __cplusplus
extern "C" {
#endif

/* The version of this header, and that of the library. It rises by one when a function, a refusal or a size of the record
 * of measures is added; nothing is taken away. A library whose version is lower than the header's is older than it, and
 * has not all that the header says. */
#define SUOLLUVIK_VERSION 3
uint32_t suolluvik_version(void);

/* A later library may answer other numbers too: they are refusals like these. */
enum suolluvik_refusal {
    SUOLLUVIK_OK = 0,
    /* an offset of HVAR, VVAR, hmtx, vmtx, VORG, of the store or of a bearing map is 0, or an MVAR has no records */
    SUOLLUVIK_ABSENT = 1,
    /* a read reaches past the end, or did when the list of scalars was filled */
    SUOLLUVIK_SHORT = 2,
    /* an axis, instance, subtable, row or region index, or the number of a vertical case, is not below its count */
    SUOLLUVIK_INDEX = 3,
    /* a tag is not found */
    SUOLLUVIK_TAG = 4,
    /* a map count of 0, no long records, more words than region indices, an offset of 2^32 or more, an instance size of 0
     * or 1, a value that can't be normalised */
    SUOLLUVIK_ARITHMETIC = 5,
    /* tags and values differ in number */
    SUOLLUVIK_LENGTHS = 6,
    /* a list is too short for what is to be written, a list of scalars has fewer numbers than there are regions, or no record
     * of measures has this many floats */
    SUOLLUVIK_ROOM = 7
};

/* The delta of a glyph's advance, by the HVAR or VVAR at the offset xvar; as a 16.16 number, or as a float. */
uint8_t suolluvik_advance_delta_fixed(const uint8_t *font, size_t font_len, uint32_t xvar, uint16_t glyph_id,
                                      const int16_t *coords, size_t coords_len, int32_t *value);
uint8_t suolluvik_advance_delta(const uint8_t *font, size_t font_len, uint32_t xvar, uint16_t glyph_id,
                                const int16_t *coords, size_t coords_len, float *value);

/* The delta of its left or top bearing. */
uint8_t suolluvik_sb_delta_fixed(const uint8_t *font, size_t font_len, uint32_t xvar, uint16_t glyph_id,
                                 const int16_t *coords, size_t coords_len, int32_t *value);
uint8_t suolluvik_sb_delta(const uint8_t *font, size_t font_len, uint32_t xvar, uint16_t glyph_id,
                           const int16_t *coords, size_t coords_len, float *value);

/* The delta of a measure, by its tag, by the MVAR at the offset mvar. Here an offset of 0 is opened like any other. As in
 * swash a record's two indices are taken in the other order than OpenType's: most records of real fonts are refused by 3. */
uint8_t suolluvik_mvar_delta_fixed(const uint8_t *font, size_t font_len, uint32_t mvar, uint32_t tag,
                                   const int16_t *coords, size_t coords_len, int32_t *value);
uint8_t suolluvik_mvar_delta(const uint8_t *font, size_t font_len, uint32_t mvar, uint32_t tag,
                             const int16_t *coords, size_t coords_len, float *value);

/* For a line of type, the regions of a store are worked out once: their scalars are put into a list, a number for each region,
 * and deltas are then read with the list and without coordinates. For every glyph and tag a filled list gives what the six
 * functions above give at those coordinates, refusals included. It belongs to one store of one font, and to the coordinates that
 * it was filled for: by another list the number is another one. 65535 numbers have room for every store. */

/* The offset of the store of the HVAR or VVAR at the offset xvar. Refused by 1 where there is no xvar or no store, by 2, and by 5
 * where it is 2^32 or more. */
uint8_t suolluvik_store_offset(const uint8_t *font, size_t font_len, uint32_t xvar, uint32_t *value);

/* The offset of the store of the MVAR at the offset mvar, from where that MVAR starts, as all offsets of an MVAR are: its list is
 * filled with the part of the font from there on, font + mvar and font_len - mvar. Refused by 2, else by 1 where there are no
 * records or no store; where it is not refused, mvar is at most font_len. An mvar of 0 is opened like any other. */
uint8_t suolluvik_mvar_store_offset(const uint8_t *font, size_t font_len, uint32_t mvar, uint32_t *value);

/* Fills a list for the store at the offset `store`: each region's scalar, from 0 to 65536, or -1 where its record runs out
 * before the scalar is known. count is how many regions there are; elements beyond stay. Refused by 1 for an offset of 0, by 2
 * where the number of regions can't be read, and by 7 for a list that has fewer elements. */
uint8_t suolluvik_fill_scalars(const uint8_t *font, size_t font_len, uint32_t store, const int16_t *coords,
                               size_t coords_len, int32_t *scalars, size_t scalars_len, uint16_t *count);

/* The deltas above, read with a list. xvar and mvar are what the list's store was found by, and the font is the whole one, for an
 * MVAR too. Besides what is refused above: by 7 for a list that has fewer numbers than the store has regions, just before the
 * glyph's or tag's regions are read, and even where it has none; by 2 for a region that has -1. Any other number is taken for a
 * scalar, modulo 2^32. */
uint8_t suolluvik_advance_delta_fixed_with(const uint8_t *font, size_t font_len, uint32_t xvar, uint16_t glyph_id,
                                           const int32_t *scalars, size_t scalars_len, int32_t *value);
uint8_t suolluvik_advance_delta_with(const uint8_t *font, size_t font_len, uint32_t xvar, uint16_t glyph_id,
                                     const int32_t *scalars, size_t scalars_len, float *value);
uint8_t suolluvik_sb_delta_fixed_with(const uint8_t *font, size_t font_len, uint32_t xvar, uint16_t glyph_id,
                                      const int32_t *scalars, size_t scalars_len, int32_t *value);
uint8_t suolluvik_sb_delta_with(const uint8_t *font, size_t font_len, uint32_t xvar, uint16_t glyph_id,
                                const int32_t *scalars, size_t scalars_len, float *value);
uint8_t suolluvik_mvar_delta_fixed_with(const uint8_t *font, size_t font_len, uint32_t mvar, uint32_t tag,
                                        const int32_t *scalars, size_t scalars_len, int32_t *value);
uint8_t suolluvik_mvar_delta_with(const uint8_t *font, size_t font_len, uint32_t mvar, uint32_t tag,
                                  const int32_t *scalars, size_t scalars_len, float *value);

/* How many axes fvar's header counts, and how many instances; 0 where that can't be read. */
uint16_t suolluvik_axis_count(const uint8_t *fvar, size_t fvar_len);
uint16_t suolluvik_instance_count(const uint8_t *fvar, size_t fvar_len);

/* An axis, by its index; the first one with a tag. min, default and max are 16.16 numbers; the lowest bit of the flags
 * says that the axis is to be hidden. */
uint8_t suolluvik_axis(const uint8_t *fvar, size_t fvar_len, uint16_t index, uint32_t *tag, int32_t *min,
                       int32_t *default_value, int32_t *max, uint16_t *flags, uint16_t *name_id);
uint8_t suolluvik_axis_by_tag(const uint8_t *fvar, size_t fvar_len, uint32_t tag, uint16_t *index, int32_t *min,
                              int32_t *default_value, int32_t *max, uint16_t *flags, uint16_t *name_id);

/* A 16.16 number as the nearest float. */
float suolluvik_fixed_to_f32(int32_t fixed);

/* An instance, by its index. has_postscript_name is 1 or 0; where it is 0, postscript_name_id is. That id stands at the end
 * of the instance's own record, and 0xFFFF there says that there is none; swash reads another number of the table. */
uint8_t suolluvik_instance(const uint8_t *fvar, size_t fvar_len, uint16_t index, uint16_t *name_id,
                           uint8_t *has_postscript_name, uint16_t *postscript_name_id);

/* The values of an instance, one for each axis. */
uint8_t suolluvik_instance_floats(const uint8_t *fvar, size_t fvar_len, uint16_t index, float *out, size_t out_len,
                                  uint16_t *count);

/* The coordinates that settings give, a tag and a value each: at most 32, one for each axis. The last setting of a tag
 * wins; an axis without one is at 0; one with a tag that no axis has changes nothing; a NaN counts as 0. avar is an offset
 * in the font. */
uint8_t suolluvik_normalized_coords(const uint8_t *fvar, size_t fvar_len, const uint8_t *font, size_t font_len,
                                    uint32_t avar, const uint32_t *tags, size_t tags_len, const float *values,
                                    size_t values_len, int16_t *out, size_t out_len, uint16_t *count);

/* The coordinates of an instance, one for each axis. */
uint8_t suolluvik_instance_coords(const uint8_t *fvar, size_t fvar_len, const uint8_t *font, size_t font_len,
                                  uint32_t avar, uint16_t index, int16_t *out, size_t out_len, uint16_t *count);

/* A font's measures, which are changed in place, with swash's names: a descent is minus OpenType's descender. A record is
 * handed over with how many floats it has, SUOLLUVIK_METRICS_FLOATS, which is neither 1 nor its sizeof: thirteen, and any
 * other number is refused by 7. A later header may have further floats behind these, and its library takes both: a program
 * that was built before hands over thirteen. So start from `= {0}`, and hand no record to a part of a program that was built
 * by another header. */
typedef struct suolluvik_metrics {
    float ascent;
    float descent;
    float leading;
    float vertical_ascent;
    float vertical_descent;
    float vertical_leading;
    float cap_height;
    float x_height;
    float average_width;
    float max_width;
    float underline_offset;
    float strikeout_offset;
    float stroke_size;
} suolluvik_metrics;
#define SUOLLUVIK_METRICS_FLOATS (sizeof(suolluvik_metrics) / sizeof(float))

/* From the unvaried measures, in font units, those at some coordinates, by the MVAR at the offset mvar, 0 for none; the
 * vertical ones are shifted only with vertical metrics, which is to say if the font has a vhea. Where it does not open, or the
 * coordinate list is empty, they stay; where a delta is refused, so does its measure. What is shifted already is shifted once
 * more. */
uint8_t suolluvik_materialize_metrics(const uint8_t *font, size_t font_len, uint32_t mvar, const int16_t *coords,
                                      size_t coords_len, bool has_vertical_metrics, suolluvik_metrics *measures,
                                      size_t measures_len);

/* The measures scaled for pixels per em (by 1 where there are no units per em), and scaled by a factor. */
uint8_t suolluvik_scale_metrics(uint16_t units_per_em, float ppem, suolluvik_metrics *measures, size_t measures_len);
uint8_t suolluvik_linear_scale_metrics(float scale, suolluvik_metrics *measures, size_t measures_len);

/* A glyph's metrics are (unvaried + delta) * scale, where a refused delta is 0. `unvaried` is what hmtx or vmtx has, as
 * suolluvik_xmtx_advance and suolluvik_xmtx_sb read it. The scale is any float; this is the one for pixels per em (1 where
 * there are no units per em). */
float suolluvik_scale_glyph_metrics(uint16_t units_per_em, float ppem);

/* The advance width and the left side bearing of a glyph, by the HVAR at the offset hvar. */
float suolluvik_advance_width(const uint8_t *font, size_t font_len, uint32_t hvar, uint16_t glyph_id,
                              const int16_t *coords, size_t coords_len, uint16_t unvaried, float scale);
float suolluvik_lsb(const uint8_t *font, size_t font_len, uint32_t hvar, uint16_t glyph_id, const int16_t *coords,
                    size_t coords_len, int16_t unvaried, float scale);

/* What the font has for vertical type: vmtx and glyf, vmtx and VORG, or neither, and advance height and origin are made
 * from its measures. swash looks for vmtx only where there is a vhea, and for VORG before glyf; where it finds vmtx and neither
 * of these, it synthesizes from zeros, without MVAR. A function that is handed another number as `vertical` refuses by 3. */
enum suolluvik_vertical { SUOLLUVIK_VMTX_GLYF = 0, SUOLLUVIK_VMTX_VORG = 1, SUOLLUVIK_SYNTHESIZED = 2 };

/* What is made from the unvaried measures; the descent is minus hhea's descender, or OS/2's. */
void suolluvik_synthesize(float ascent, float descent, float *advance, float *origin);

/* The same at some coordinates, by the MVAR at the offset mvar, 0 for none. With vmtx they stay. */
uint8_t suolluvik_materialize_glyph_metrics(const uint8_t *font, size_t font_len, uint8_t vertical, uint32_t mvar,
                                            const int16_t *coords, size_t coords_len, float advance, float origin,
                                            float *advance_at, float *origin_at);

/* The advance height, the top side bearing and the vertical origin of a glyph, by the VVAR at the offset vvar. In the
 * synthesized case height and origin are `synthesized`, the advance for the one and the origin for the other, times the
 * scale; the bearing is 0 times the scale, and nothing else is used; in the others `synthesized` is not. For the origin
 * `unvaried` is the top side bearing, and y the glyph's yMax with glyf, its origin there with VORG. As in swash the origin
 * is (y + bearing) * scale with glyf, where the bearing is scaled already, and y * scale with VORG; where there is no y
 * (has_y is false) it is units_per_em * scale, with VORG as a signed 16-bit number. */
uint8_t suolluvik_advance_height(const uint8_t *font, size_t font_len, uint8_t vertical, uint32_t vvar,
                                 float synthesized, uint16_t glyph_id, const int16_t *coords, size_t coords_len,
                                 uint16_t unvaried, float scale, float *value);
uint8_t suolluvik_tsb(const uint8_t *font, size_t font_len, uint8_t vertical, uint32_t vvar, uint16_t glyph_id,
                      const int16_t *coords, size_t coords_len, int16_t unvaried, float scale, float *value);
uint8_t suolluvik_vertical_origin(const uint8_t *font, size_t font_len, uint16_t units_per_em, uint8_t vertical,
                                  uint32_t vvar, float synthesized, uint16_t glyph_id, const int16_t *coords,
                                  size_t coords_len, int16_t unvaried, bool has_y, int16_t y, float scale,
                                  float *value);

/* The unvaried advance of a glyph, and its left or top bearing, by the hmtx or vmtx at the offset xmtx. long_metric_count is
 * hhea's or vhea's: so many long records, an advance and a bearing each, and behind them bearings alone; a glyph past the
 * long records has the last one's advance. A count of 0 is refused by 5, else an offset of 0 by 1, else a read past the
 * font's end by 2; where the table ends is not asked. */
uint8_t suolluvik_xmtx_advance(const uint8_t *font, size_t font_len, uint32_t xmtx, uint16_t long_metric_count,
                               uint16_t glyph_id, uint16_t *value);
uint8_t suolluvik_xmtx_sb(const uint8_t *font, size_t font_len, uint32_t xmtx, uint16_t long_metric_count,
                          uint16_t glyph_id, int16_t *value);

/* The y of a glyph's vertical origin, unvaried, by the VORG at the offset vorg, whose records are searched by halving: that of
 * the glyph's record, or the default where none is found. An offset of 0 is refused by 1, else a read past the font's end by
 * 2. */
uint8_t suolluvik_vorg_origin(const uint8_t *font, size_t font_len, uint32_t vorg, uint16_t glyph_id, int16_t *value);

/* The advance of a glyph at some coordinates, and its bearing, each in one call: (unvaried + delta) * scale with the unvaried
 * one of hmtx or vmtx, and with the delta by the HVAR or VVAR at the offset xvar, 0 for none. Refused by 5, 1 and 2 as the
 * unvaried one is; a refused delta is 0. */
uint8_t suolluvik_adjusted_advance(const uint8_t *font, size_t font_len, uint32_t xmtx, uint16_t long_metric_count,
                                   uint32_t xvar, uint16_t glyph_id, const int16_t *coords, size_t coords_len,
                                   float scale, float *value);
uint8_t suolluvik_adjusted_sb(const uint8_t *font, size_t font_len, uint32_t xmtx, uint16_t long_metric_count,
                              uint32_t xvar, uint16_t glyph_id, const int16_t *coords, size_t coords_len, float scale,
                              float *value);

#ifdef __cplusplus
}
#endif

#endif
