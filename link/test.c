/* Calls every function of suolluvik.h, with an answer that document 01 gives or that follows from its rules, and with each
 * refusal that the function can give. Values and lists hold something else before each call. A failed check is a line; the
 * last line is 'N passed, M failed', and the status 1 where one failed. tests/link builds and runs this. */
#include "suolluvik.h"
#include <math.h>
#include <stdio.h>
#include <string.h>

static int passed, failed;

static void check(int holds, const char *function, const char *name)
{
    if (holds) {
        passed++;
    } else {
        failed++;
        printf("failed, in C: %s: %s\n", function, name);
    }
}

/* Some bytes, given by hexadecimal digits. */
struct bytes {
    uint8_t at[256];
    size_t len;
};

static struct bytes bytes(const char *hex)
{
    struct bytes b;
    b.len = 0;
    for (; *hex; hex++) {
        unsigned byte = 0;
        if (*hex != ' ') {
            sscanf(hex, "%2x", &byte);
            b.at[b.len++] = (uint8_t)byte;
            hex++;
        }
    }
    return b;
}

/* The deltas. */

/* An HVAR at 4: the offsets of its store and of its two maps. */
#define HVAR(store, advances, bearings) "00000000 00010000 " store advances bearings
#define PLAIN HVAR("00000010", "00000000", "00000000")
/* A store with a region, its one row and the entry. */
#define STORE(triple, entry) "0001 0000000c 0001 00000016 0001 0001" triple "0001 0000 0001 0000" entry
#define S1 PLAIN STORE("000040004000", "64")
#define S2 PLAIN STORE("000030004000", "03")
#define S3 PLAIN STORE("c00020004000", "03")
#define S4 PLAIN "0001 0000000c 0001 0000001c 0001 0002 c00020004000 c00020004000 0001 0002 0002 0000 0001 7fff 7fff"
#define S5 PLAIN "0001 0000000c 0001 00000010 0001 0000 0001 0000 0000"
/* One row, and a byte behind it; the triple is skipped. */
#define ONE_ROW(words) PLAIN "0001 0000000c 0001 00000016 0001 0001 000000000000 0001" words "0001 0000 64 05"
/* H1's map, for advances and for bearings, its store, and its store with a wrong region index and a wrong word count. */
#define MAPS HVAR("00000018", "00000010", "00000010")
#define MAP "0007 0003 000102 00"
#define H1_COUNTED(items, words, region) "0001 0000000c 0001 00000010 0000 0001" items words "0001" region "0a0b0c"
#define H1_ROWS(words, region) H1_COUNTED("0003", words, region)
#define H1 MAPS MAP H1_ROWS("0000", "0000")

/* An HVAR at 4 and a VVAR at 90, each with two advances and two bearings. A row has a byte for the first axis, up to 1, and one
 * for the second, down to -1. At 8192 and -4096, in this order, HVAR's rows are 55, 23, 3 and -2.5, VVAR's 32, 16, 11 and 3.5.
 * A glyph past the first has the second entry of a map: 256, which is 0 in eight bits, has it too. */
#define REGIONS "0002 0002 000040004000 000000000000 000000000000 c000c0000000"
#define XVAR_COUNTED(items, rows) \
    "00010000 00000010 0000004a 00000050 0001 0000000c 0001 00000028" REGIONS items "0000 0002 0000 0001" rows \
    "0007 0002 0001 0007 0002 0203"
#define XVAR(rows) XVAR_COUNTED("0004", rows)
#define BOTH "00000000" XVAR("6414 280c 0af8 e232") XVAR("3c08 1810 1404 0602")

/* Two regions behind two subtables and a map: glyph 0 has the first one, the others have the second, which goes down to -1 on the
 * first axis; of its second axis the triple is cut. */
#define CUT \
    HVAR("00000010", "00000032", "00000032") "0001 00000028 0002 00000010 00000019 0001 0000 0001 0000 64" \
    "0001 0000 0001 0001 0a 0000 0002 0002 0002 0002 000040004000 000000000000 c000c0000000 0000"

/* An MVAR at 4 with the eleven measures, sorted; inner comes before outer. Its rows have a word for the first axis, and a byte
 * for the second, where a missing coordinate is 0. */
#define MVAR_HEADER(count, store) "00000000 0001 0000 0000 0008" count store
#define RECORDS \
    "63706874 0000 0000 68617363 0001 0000 68647363 0002 0000 686c6770 0003 0000 7374726f 0004 0000 756e646f 0005 0000" \
    "756e6473 0006 0000 76617363 0007 0000 76647363 0008 0000 766c6770 0009 0000 78686774 000a 0000"
#define ROWS_COUNTED(items, words) \
    "0001 0000000c 0001 00000028" REGIONS items words "0002 0000 0001" \
    "002801 006402 ffc403 000a05 000c06 fff807 000609 00c80a ff9c0b 000e0d 001e0e"
#define ROWS(words) ROWS_COUNTED("000b", words)
#define MEASURES MVAR_HEADER("000b", "0064") RECORDS ROWS("0001")
#define ONE_RECORD(tail) MVAR_HEADER("0001", "0014") "68617363" tail "0001 0000000c 0001 00000016"

#define TAG(a, b, c, d) ((uint32_t)(a) << 24 | (uint32_t)(b) << 16 | (uint32_t)(c) << 8 | (uint32_t)(d))
#define HASC TAG('h', 'a', 's', 'c')
#define XHGT TAG('x', 'h', 'g', 't')

enum kind { ADVANCE, BEARING, MEASURE };

struct delta {
    enum kind kind;
    const char *name, *font;
    uint32_t offset, id;
    size_t coords_len;
    int16_t coords[2];
    uint8_t number;
    int32_t value;
};

static const struct delta deltas[] = {
    {ADVANCE, "S1 at 8192", S1, 4, 0, 1, {8192}, 0, 3276800},
    {ADVANCE, "S1 at 16384", S1, 4, 0, 1, {16384}, 0, 6553600},
    {ADVANCE, "S1 at 0", S1, 4, 0, 1, {0}, 0, 0},
    {ADVANCE, "S1 at -1", S1, 4, 0, 1, {-1}, 0, 0},
    {ADVANCE, "S1, no coordinates", S1, 4, 0, 0, {0}, 0, 0},
    {ADVANCE, "S2", S2, 4, 0, 1, {4096}, 0, 65535},
    {ADVANCE, "S3", S3, 4, 0, 1, {4096}, 0, 196608},
    {ADVANCE, "S3, no coordinates", S3, 4, 0, 0, {0}, 0, 196608},
    {ADVANCE, "S4", S4, 4, 0, 1, {0}, 0, -131072},
    {ADVANCE, "S5", S5, 4, 0, 1, {0}, 0, 0},
    {ADVANCE, "H1, glyph 0", H1, 4, 0, 0, {0}, 0, 655360},
    {ADVANCE, "H1, glyph 1", H1, 4, 1, 0, {0}, 0, 720896},
    {ADVANCE, "H1, glyph 2", H1, 4, 2, 0, {0}, 0, 786432},
    {ADVANCE, "H1, glyph 3", H1, 4, 3, 0, {0}, 0, 786432},
    {ADVANCE, "H1, glyph 65535", H1, 4, 65535, 0, {0}, 0, 786432},
    {ADVANCE, "no HVAR", S1, 0, 0, 1, {8192}, 1, 0},
    {ADVANCE, "no store", HVAR("00000000", "00000000", "00000000"), 4, 0, 1, {8192}, 1, 0},
    {ADVANCE, "an empty font", "", 4, 0, 1, {8192}, 2, 0},
    {ADVANCE, "S1 without its entry", PLAIN STORE("000040004000", ""), 4, 0, 1, {8192}, 2, 0},
    {ADVANCE, "an offset far past the end", S1, 0xffffffff, 0, 1, {8192}, 2, 0},
    {ADVANCE, "no subtable", PLAIN "0001 0000000c 0000 00000016", 4, 0, 1, {8192}, 3, 0},
    {ADVANCE, "a region past the count", MAPS MAP H1_ROWS("0000", "0001"), 4, 0, 0, {0}, 3, 0},
    {ADVANCE, "one row, glyph 0", ONE_ROW("0000"), 4, 0, 0, {0}, 0, 6553600},
    {ADVANCE, "a row at the count", ONE_ROW("0000"), 4, 1, 0, {0}, 3, 0},
    {ADVANCE, "a row past the count", ONE_ROW("0000"), 4, 65535, 0, {0}, 3, 0},
    {ADVANCE, "a row at the count, more words than regions", ONE_ROW("0002"), 4, 1, 0, {0}, 5, 0},
    {ADVANCE, "a row at the count, no regions", S5, 4, 1, 0, {0}, 3, 0},
    {ADVANCE, "a row at the count, by a map", MAPS MAP H1_COUNTED("0002", "0000", "0000"), 4, 2, 0, {0}, 3, 0},
    {ADVANCE, "a map without entries", MAPS "0007 0000" H1_ROWS("0000", "0000"), 4, 0, 0, {0}, 5, 0},
    {ADVANCE, "more words than regions", MAPS MAP H1_ROWS("0002", "0000"), 4, 0, 0, {0}, 5, 0},
    {ADVANCE, "a store at 2^32", HVAR("fffffffc", "00000000", "00000000"), 4, 0, 0, {0}, 5, 0},
    {BEARING, "H1, glyph 0", H1, 4, 0, 0, {0}, 0, 655360},
    {BEARING, "H1, glyph 1", H1, 4, 1, 0, {0}, 0, 720896},
    {BEARING, "H1, glyph 65535", H1, 4, 65535, 0, {0}, 0, 786432},
    {BEARING, "no HVAR", H1, 0, 0, 0, {0}, 1, 0},
    {BEARING, "no store", HVAR("00000000", "00000010", "00000010") MAP, 4, 0, 0, {0}, 1, 0},
    {BEARING, "no map: S1", S1, 4, 0, 1, {8192}, 1, 0},
    {BEARING, "a font that ends in the HVAR", "00000000 00010000 00000018 00000010 000000", 4, 0, 0, {0}, 2, 0},
    {BEARING, "a region past the count", MAPS MAP H1_ROWS("0000", "0001"), 4, 0, 0, {0}, 3, 0},
    {BEARING, "a row at the count", MAPS MAP H1_COUNTED("0002", "0000", "0000"), 4, 2, 0, {0}, 3, 0},
    {BEARING, "VVAR, a row at the count", "00000000" XVAR("6414 280c 0af8 e232") XVAR_COUNTED("0003", "3c08 1810 1404 0602"), 90, 1, 0, {0}, 3, 0},
    {BEARING, "a map without entries", MAPS "0007 0000" H1_ROWS("0000", "0000"), 4, 0, 0, {0}, 5, 0},
    {BEARING, "more words than regions", MAPS MAP H1_ROWS("0002", "0000"), 4, 0, 0, {0}, 5, 0},
    {ADVANCE, "HVAR, two axes", BOTH, 4, 0, 2, {8192, -4096}, 0, 3604480},
    {ADVANCE, "HVAR, glyph 256", BOTH, 4, 256, 2, {8192, -4096}, 0, 1507328},
    {ADVANCE, "VVAR, two axes", BOTH, 90, 0, 2, {8192, -4096}, 0, 2097152},
    {ADVANCE, "VVAR, glyph 256", BOTH, 90, 256, 2, {8192, -4096}, 0, 1048576},
    {BEARING, "HVAR, two axes", BOTH, 4, 0, 2, {8192, -4096}, 0, 196608},
    {BEARING, "HVAR, glyph 256", BOTH, 4, 256, 2, {8192, -4096}, 0, -163840},
    {BEARING, "VVAR, two axes", BOTH, 90, 0, 2, {8192, -4096}, 0, 720896},
    {BEARING, "VVAR, glyph 256", BOTH, 90, 256, 2, {8192, -4096}, 0, 229376},
    {ADVANCE, "a cut region that is not named", CUT, 4, 0, 1, {8192}, 0, 3276800},
    {ADVANCE, "a cut region that is not named, left outside", CUT, 4, 0, 1, {-8192}, 0, 0},
    {ADVANCE, "a cut region", CUT, 4, 1, 1, {-8192}, 2, 0},
    {ADVANCE, "a cut region, a scalar of 0 before", CUT, 4, 1, 0, {0}, 2, 0},
    {ADVANCE, "a cut region, left outside before", CUT, 4, 1, 1, {8192}, 0, 0},
    {BEARING, "a cut region that is not named", CUT, 4, 0, 1, {8192}, 0, 3276800},
    {BEARING, "a cut region", CUT, 4, 256, 1, {-8192}, 2, 0},
    {BEARING, "a cut region, left outside before", CUT, 4, 256, 1, {1}, 0, 0},
    {MEASURE, "hasc, two axes", MEASURES, 4, HASC, 2, {8192, -4096}, 0, 3309568},
    {MEASURE, "hdsc, two axes", MEASURES, 4, TAG('h', 'd', 's', 'c'), 2, {8192, -4096}, 0, -1916928},
    {MEASURE, "hasc halfway", MEASURES, 4, HASC, 1, {8192}, 0, 3276800},
    {MEASURE, "hasc", MEASURES, 4, HASC, 1, {16384}, 0, 6553600},
    {MEASURE, "xhgt, the last one", MEASURES, 4, XHGT, 1, {16384}, 0, 1966080},
    {MEASURE, "hasc, no coordinates", MEASURES, 4, HASC, 0, {0}, 0, 0},
    {MEASURE, "an MVAR at 0", "0001 0000 0000 0008 0001 0014 68617363 0000 0000" STORE("000040004000", "64"), 0, HASC, 1, {8192}, 0, 3276800},
    {MEASURE, "no records", MVAR_HEADER("0000", "0064") RECORDS ROWS("0001"), 4, HASC, 1, {8192}, 1, 0},
    {MEASURE, "no store", MVAR_HEADER("000b", "0000") RECORDS ROWS("0001"), 4, HASC, 1, {8192}, 1, 0},
    {MEASURE, "an offset past the end", MEASURES, 255, HASC, 1, {8192}, 2, 0},
    {MEASURE, "a font that ends in the header", "00000000 0001 0000 0000 0008 000b 00", 4, HASC, 1, {8192}, 2, 0},
    {MEASURE, "a subtable past the count", ONE_RECORD("0000 0001"), 4, HASC, 1, {8192}, 3, 0},
    {MEASURE, "a row at the count", MVAR_HEADER("000b", "0064") RECORDS ROWS_COUNTED("0001", "0001"), 4, HASC, 1, {8192}, 3, 0},
    {MEASURE, "another tag", MEASURES, 4, TAG('s', 't', 'r', 's'), 1, {8192}, 4, 0},
    {MEASURE, "more words than regions", MVAR_HEADER("000b", "0064") RECORDS ROWS("0003"), 4, HASC, 1, {8192}, 5, 0},
};

static void try_deltas(void)
{
    static const char *const names[][2] = {
        {"advance_delta_fixed", "advance_delta"}, {"sb_delta_fixed", "sb_delta"}, {"mvar_delta_fixed", "mvar_delta"}};
    size_t i;
    for (i = 0; i < sizeof deltas / sizeof *deltas; i++) {
        const struct delta *d = &deltas[i];
        struct bytes font = bytes(d->font);
        uint16_t glyph = (uint16_t)d->id;
        int32_t value = 12345;
        float real = 123.5f;
        uint8_t number = 99, number_of_real = 99;
        switch (d->kind) {
        case ADVANCE:
            number = suolluvik_advance_delta_fixed(font.at, font.len, d->offset, glyph, d->coords, d->coords_len, &value);
            number_of_real = suolluvik_advance_delta(font.at, font.len, d->offset, glyph, d->coords, d->coords_len, &real);
            break;
        case BEARING:
            number = suolluvik_sb_delta_fixed(font.at, font.len, d->offset, glyph, d->coords, d->coords_len, &value);
            number_of_real = suolluvik_sb_delta(font.at, font.len, d->offset, glyph, d->coords, d->coords_len, &real);
            break;
        case MEASURE:
            number = suolluvik_mvar_delta_fixed(font.at, font.len, d->offset, d->id, d->coords, d->coords_len, &value);
            number_of_real = suolluvik_mvar_delta(font.at, font.len, d->offset, d->id, d->coords, d->coords_len, &real);
            break;
        }
        check(number == d->number && value == d->value, names[d->kind][0], d->name);
        /* each of these numbers is a float */
        check(number_of_real == d->number && real == (float)d->value / 65536.0f && (d->number == 0 || !signbit(real)), names[d->kind][1], d->name);
    }
}

/* Lists of scalars. */

static void try_store(const char *name, const char *hex, uint32_t xvar, uint8_t number, uint32_t expected)
{
    struct bytes font = bytes(hex);
    uint32_t value = 77;
    uint8_t found = suolluvik_store_offset(font.at, font.len, xvar, &value);
    check(found == number && value == expected, "store_offset", name);
}

static void try_mvar_store(const char *name, const char *hex, uint32_t mvar, uint8_t number, uint32_t expected)
{
    struct bytes font = bytes(hex);
    uint32_t value = 77;
    uint8_t found = suolluvik_mvar_store_offset(font.at, font.len, mvar, &value);
    check(found == number && value == expected, "mvar_store_offset", name);
}

static void try_stores(void)
{
    try_store("S1", S1, 4, 0, 20);
    try_store("H1", H1, 4, 0, 28);
    try_store("HVAR", BOTH, 4, 0, 20);
    try_store("VVAR", BOTH, 90, 0, 106);
    try_store("a font that ends behind it", "00000000 00010000 00012345", 4, 0, 0x12349);
    try_store("the last one", "00000000 00010000 fffffffb", 4, 0, 0xffffffff);
    try_store("2^32", "00000000 00010000 fffffffc", 4, 5, 0);
    try_store("no HVAR", S1, 0, 1, 0);
    try_store("no HVAR, no font", "", 0, 1, 0);
    try_store("no store", HVAR("00000000", "00000000", "00000000"), 4, 1, 0);
    try_store("an empty font", "", 4, 2, 0);
    try_store("cut", "00000000 00010000 000000", 4, 2, 0);
    try_store("an offset past 65536", S1, 65540, 2, 0);
    try_store("an offset far past the end", S1, 0xffffffff, 2, 0);

    try_mvar_store("the measures", MEASURES, 4, 0, 100);
    try_mvar_store("an MVAR at 0", "0001 0000 0000 0008 0001 0014", 0, 0, 20);
    try_mvar_store("the last one", MVAR_HEADER("8000", "ffff"), 4, 0, 65535);
    try_mvar_store("no records", MVAR_HEADER("0000", "0064"), 4, 1, 0);
    try_mvar_store("no store", MVAR_HEADER("000b", "0000"), 4, 1, 0);
    try_mvar_store("cut in the size", "00000000 0001 0000 0000 00", 4, 2, 0);
    try_mvar_store("cut in the count", "00000000 0001 0000 0000 0008 00", 4, 2, 0);
    try_mvar_store("cut in the offset", "00000000 0001 0000 0000 0008 000b 00", 4, 2, 0);
    try_mvar_store("no records, cut in the offset", "00000000 0001 0000 0000 0008 0000 00", 4, 2, 0);
    try_mvar_store("an empty font", "", 0, 2, 0);
    try_mvar_store("an offset past 65536", MEASURES, 65540, 2, 0);
    try_mvar_store("an offset far past the end", MEASURES, 0xffffffff, 2, 0);
}

/* What stays. */
#define K (-77)
#define UNCUT 256

struct filling {
    const char *name, *font;
    size_t cut;
    uint32_t store;
    size_t coords_len;
    int16_t coords[2];
    size_t room;
    uint8_t number;
    uint16_t count;
    int32_t scalars[4];
};

static const struct filling fillings[] = {
    {"S1 at 8192", S1, UNCUT, 20, 1, {8192}, 4, 0, 1, {32768, K, K, K}},
    {"S1 at 16384", S1, UNCUT, 20, 1, {16384}, 1, 0, 1, {65536, K, K, K}},
    {"S1 at 0", S1, UNCUT, 20, 1, {0}, 4, 0, 1, {0, K, K, K}},
    {"S1, no coordinates", S1, UNCUT, 20, 0, {8192}, 4, 0, 1, {0, K, K, K}},
    {"S2", S2, UNCUT, 20, 1, {4096}, 4, 0, 1, {21845, K, K, K}},
    {"S3, no coordinates", S3, UNCUT, 20, 0, {0}, 4, 0, 1, {65536, K, K, K}},
    {"S4", S4, UNCUT, 20, 1, {0}, 4, 0, 2, {65536, 65536, K, K}},
    {"S5, no regions", S5, UNCUT, 20, 1, {0}, 4, 0, 0, {K, K, K, K}},
    {"S5, no regions, no list", S5, UNCUT, 20, 1, {0}, 0, 0, 0, {K, K, K, K}},
    {"two axes", BOTH, UNCUT, 20, 2, {8192, -4096}, 2, 0, 2, {32768, 16384, K, K}},
    {"two axes, one coordinate", BOTH, UNCUT, 20, 1, {8192, -4096}, 4, 0, 2, {32768, 0, K, K}},
    {"two axes, VVAR", BOTH, UNCUT, 106, 2, {4096, -16384}, 3, 0, 2, {16384, 65536, K, K}},
    {"no store", S1, UNCUT, 0, 1, {8192}, 4, 1, 0, {K, K, K, K}},
    {"no store, no list, no font", "", UNCUT, 0, 1, {8192}, 0, 1, 0, {K, K, K, K}},
    {"an empty font", "", UNCUT, 20, 1, {8192}, 4, 2, 0, {K, K, K, K}},
    {"cut in the region list's offset", S1, 25, 20, 1, {8192}, 4, 2, 0, {K, K, K, K}},
    {"cut in the axis count", S1, 33, 20, 1, {8192}, 4, 2, 0, {K, K, K, K}},
    {"cut in the region count", S1, 35, 20, 1, {8192}, 4, 2, 0, {K, K, K, K}},
    {"cut in the region count, no list", S1, 35, 20, 1, {8192}, 0, 2, 0, {K, K, K, K}},
    {"cut behind the counts", S1, 36, 20, 1, {8192}, 4, 0, 1, {-1, K, K, K}},
    {"cut in the triple", S1, 41, 20, 1, {8192}, 4, 0, 1, {-1, K, K, K}},
    {"cut in the triple, at -1", S1, 41, 20, 1, {-1}, 4, 0, 1, {-1, K, K, K}},
    {"cut behind the triple", S1, 42, 20, 1, {8192}, 4, 0, 1, {32768, K, K, K}},
    {"cut in the second region", BOTH, 59, 20, 2, {8192, -4096}, 4, 0, 2, {32768, -1, K, K}},
    {"cut in the first region", BOTH, 47, 20, 2, {8192, -4096}, 4, 0, 2, {-1, -1, K, K}},
    {"cut in the first region, a scalar of 0 before", BOTH, 47, 20, 2, {0, -4096}, 4, 0, 2, {-1, -1, K, K}},
    {"cut in the first region, left outside before", BOTH, 47, 20, 2, {-1, -4096}, 4, 0, 2, {0, -1, K, K}},
    {"a list that is too short", BOTH, UNCUT, 20, 2, {8192, -4096}, 1, 7, 0, {K, K, K, K}},
    {"no list", S1, UNCUT, 20, 1, {8192}, 0, 7, 0, {K, K, K, K}},
    {"no subtable count", "00000000 0001 00000002", UNCUT, 4, 1, {8192}, 4, 0, 2, {65536, 65536, K, K}},
    {"a region list far past the end", "00000000 0001 ffffffff 0001", UNCUT, 4, 1, {8192}, 4, 2, 0, {K, K, K, K}},
    {"an offset past 65536", S1, UNCUT, 65556, 1, {8192}, 4, 2, 0, {K, K, K, K}},
    {"an offset far past the end", S1, UNCUT, 0xffffffff, 1, {8192}, 4, 2, 0, {K, K, K, K}},
};

/* Room for every store, and one element more. */
static int32_t longest[65536];

static void try_fillings(void)
{
    struct bytes font;
    uint16_t count = 77;
    uint8_t number;
    size_t i;
    int same = 1;
    for (i = 0; i < sizeof fillings / sizeof *fillings; i++) {
        const struct filling *f = &fillings[i];
        int32_t list[4] = {K, K, K, K};
        font = bytes(f->font);
        if (font.len > f->cut)
            font.len = f->cut;
        count = 77;
        number = suolluvik_fill_scalars(font.at, font.len, f->store, f->coords, f->coords_len, list, f->room, &count);
        check(number == f->number && count == f->count, "fill_scalars", f->name);
        check(memcmp(list, f->scalars, sizeof list) == 0, "fill_scalars, the list", f->name);
    }

    /* 65535 regions, and no axes */
    font = bytes("00000000 0001 00000006 0000 ffff");
    for (i = 0; i < 65536; i++)
        longest[i] = K;
    number = suolluvik_fill_scalars(font.at, font.len, 4, NULL, 0, longest, 65534, &count);
    for (i = 0; i < 65536; i++)
        same = same && longest[i] == K;
    check(number == 7 && count == 0 && same, "fill_scalars", "a list of 65534");
    number = suolluvik_fill_scalars(font.at, font.len, 4, NULL, 0, longest, 65535, &count);
    for (i = 0; i < 65535; i++)
        same = same && longest[i] == 65536;
    check(number == 0 && count == 65535 && same && longest[65535] == K, "fill_scalars", "a list of 65535");
}

/* A store with two regions of which the row names the second; one whose row names none; one whose second index is wrong. */
#define SECOND PLAIN "0001 0000000c 0001 0000001c 0001 0002 c00020004000 c00020004000 0001 0000 0001 0001 64"
#define NONE PLAIN "0001 0000000c 0001 00000016 0001 0001 000040004000 0001 0000 0000"
#define WRONG PLAIN "0001 0000000c 0001 0000001c 0001 0002 c00020004000 c00020004000 0001 0000 0002 0000 0005 02 03"
/* S1 up to its region index, and up to the count of these less a byte. */
#define UNNAMED PLAIN "0001 0000000c 0001 00000016 0001 0001 000040004000 0001 0000 0001"
#define UNCOUNTED PLAIN "0001 0000000c 0001 00000016 0001 0001 000040004000 0001 0000 00"
#define AT_0 "0001 0000 0000 0008 0001 0014 68617363 0000 0000" STORE("000040004000", "64")

/* A delta that is read with the first ones of these. */
struct reading {
    enum kind kind;
    const char *name, *font;
    uint32_t offset, id;
    size_t len;
    int32_t scalars[3];
    uint8_t number;
    int32_t value;
};

static const struct reading readings[] = {
    {ADVANCE, "S1", S1, 4, 0, 1, {12345}, 0, 1234500},
    {ADVANCE, "a longer list", S1, 4, 0, 3, {12345, -1, -1}, 0, 1234500},
    {ADVANCE, "0", S1, 4, 0, 1, {0}, 0, 0},
    {ADVANCE, "above 65536", S1, 4, 0, 1, {65537}, 0, 6553700},
    {ADVANCE, "below -1", S1, 4, 0, 1, {-2}, 0, -200},
    {ADVANCE, "-1", S1, 4, 0, 1, {-1}, 2, 0},
    {ADVANCE, "the largest number", S2, 4, 0, 1, {INT32_MAX}, 0, 2147483645},
    {ADVANCE, "the least number", S2, 4, 0, 1, {INT32_MIN}, 0, INT32_MIN},
    {ADVANCE, "S4, a sum that wraps", S4, 4, 0, 2, {65536, 65536}, 0, -131072},
    {ADVANCE, "S4, products that wrap", S4, 4, 0, 2, {INT32_MAX, INT32_MAX}, 0, -65534},
    {ADVANCE, "HVAR", BOTH, 4, 0, 2, {1, 1000}, 0, 20100},
    {ADVANCE, "HVAR, exchanged", BOTH, 4, 0, 2, {1000, 1}, 0, 100020},
    {ADVANCE, "HVAR, glyph 256", BOTH, 4, 256, 2, {1, 1000}, 0, 12040},
    {ADVANCE, "VVAR", BOTH, 90, 0, 2, {1, 1000}, 0, 8060},
    {ADVANCE, "VVAR, glyph 256", BOTH, 90, 256, 2, {1, 1000}, 0, 16024},
    {ADVANCE, "the first one is -1", BOTH, 4, 0, 2, {-1, 1000}, 2, 0},
    {ADVANCE, "the second one is -1", BOTH, 4, 0, 2, {1, -1}, 2, 0},
    {ADVANCE, "-1 that is not named", SECOND, 4, 0, 2, {-1, 10}, 0, 1000},
    {ADVANCE, "-1 that is named", SECOND, 4, 0, 2, {10, -1}, 2, 0},
    {ADVANCE, "-1, and no region is named", NONE, 4, 0, 1, {-1}, 0, 0},
    {ADVANCE, "no list, and no region is named", NONE, 4, 0, 0, {0}, 7, 0},
    {ADVANCE, "no list, no regions", S5, 4, 0, 0, {0}, 0, 0},
    {ADVANCE, "no list", S1, 4, 0, 0, {12345}, 7, 0},
    {ADVANCE, "a list that is too short", BOTH, 4, 0, 1, {1, 1000}, 7, 0},
    {ADVANCE, "a list that is too short for what no row names", WRONG, 4, 0, 1, {1}, 7, 0},
    {ADVANCE, "a region past the count", MAPS MAP H1_ROWS("0000", "0001"), 4, 0, 1, {5}, 3, 0},
    {ADVANCE, "a region past the count, in the list", MAPS MAP H1_ROWS("0000", "0001"), 4, 0, 3, {5, 5, 5}, 3, 0},
    {ADVANCE, "a region past the count, no list", MAPS MAP H1_ROWS("0000", "0001"), 4, 0, 0, {0}, 7, 0},
    {ADVANCE, "a wrong region behind -1", WRONG, 4, 0, 3, {-1, 1, 1}, 2, 0},
    {ADVANCE, "a wrong region behind 1", WRONG, 4, 0, 3, {1, 1, 1}, 3, 0},
    {ADVANCE, "without the entry", PLAIN STORE("000040004000", ""), 4, 0, 1, {1}, 2, 0},
    {ADVANCE, "without the entry, 0", PLAIN STORE("000040004000", ""), 4, 0, 1, {0}, 2, 0},
    {ADVANCE, "without the entry, no list", PLAIN STORE("000040004000", ""), 4, 0, 0, {1}, 7, 0},
    {ADVANCE, "without the region index", UNNAMED, 4, 0, 1, {1}, 2, 0},
    {ADVANCE, "without the region index, no list", UNNAMED, 4, 0, 0, {1}, 7, 0},
    {ADVANCE, "without the count of regions, no list", UNCOUNTED, 4, 0, 0, {1}, 2, 0},
    {ADVANCE, "a row at the count, no list", ONE_ROW("0000"), 4, 1, 0, {0}, 3, 0},
    {ADVANCE, "a row at the count, more words than regions, no list", ONE_ROW("0002"), 4, 1, 0, {0}, 5, 0},
    {ADVANCE, "no subtable, no list", PLAIN "0001 0000000c 0000 00000016 0001 0001", 4, 0, 0, {0}, 3, 0},
    {ADVANCE, "a map without entries, no list", MAPS "0007 0000" H1_ROWS("0000", "0000"), 4, 0, 0, {0}, 5, 0},
    {ADVANCE, "a store at 2^32, no list", HVAR("fffffffc", "00000000", "00000000"), 4, 0, 0, {0}, 5, 0},
    {ADVANCE, "no HVAR, no list", S1, 0, 0, 0, {0}, 1, 0},
    {ADVANCE, "no store, no list", HVAR("00000000", "00000000", "00000000"), 4, 0, 0, {0}, 1, 0},
    {ADVANCE, "no HVAR", S1, 0, 0, 1, {1}, 1, 0},
    {ADVANCE, "an offset past 65536", S1, 65540, 0, 1, {1}, 2, 0},
    {ADVANCE, "an offset far past the end", S1, 0xffffffff, 0, 1, {1}, 2, 0},
    {BEARING, "H1", H1, 4, 1, 1, {100}, 0, 1100},
    {BEARING, "HVAR", BOTH, 4, 0, 2, {1, 1000}, 0, -7990},
    {BEARING, "HVAR, glyph 256", BOTH, 4, 256, 2, {1, 1000}, 0, 49970},
    {BEARING, "VVAR", BOTH, 90, 0, 2, {1, 1000}, 0, 4020},
    {BEARING, "VVAR, glyph 256", BOTH, 90, 256, 2, {1, 1000}, 0, 2006},
    {BEARING, "a longer list", BOTH, 4, 0, 3, {1, 1000, -1}, 0, -7990},
    {BEARING, "below -1", H1, 4, 2, 1, {-3}, 0, -36},
    {BEARING, "the largest number", H1, 4, 1, 1, {INT32_MAX}, 0, 2147483637},
    {BEARING, "-1", BOTH, 4, 0, 2, {1, -1}, 2, 0},
    {BEARING, "a list that is too short", BOTH, 4, 0, 1, {1, 1000}, 7, 0},
    {BEARING, "a region past the count, in the list", MAPS MAP H1_ROWS("0000", "0001"), 4, 0, 3, {5, 5, 5}, 3, 0},
    {BEARING, "a region past the count, no list", MAPS MAP H1_ROWS("0000", "0001"), 4, 0, 0, {0}, 7, 0},
    {BEARING, "a row at the count, no list", MAPS MAP H1_COUNTED("0002", "0000", "0000"), 4, 2, 0, {0}, 3, 0},
    {BEARING, "more words than regions, no list", MAPS MAP H1_ROWS("0002", "0000"), 4, 0, 0, {0}, 5, 0},
    {BEARING, "no map: S1", S1, 4, 0, 1, {1}, 1, 0},
    {BEARING, "no HVAR, no list", H1, 0, 0, 0, {0}, 1, 0},
    {BEARING, "a font that ends in the HVAR, no list", "00000000 00010000 00000018 00000010 000000", 4, 0, 0, {0}, 2, 0},
    {MEASURE, "hasc", MEASURES, 4, HASC, 2, {1, 1000}, 0, 2100},
    {MEASURE, "hdsc", MEASURES, 4, TAG('h', 'd', 's', 'c'), 2, {1, 1000}, 0, 2940},
    {MEASURE, "xhgt, a longer list", MEASURES, 4, XHGT, 3, {1, 1000, -1}, 0, 14030},
    {MEASURE, "below -1", MEASURES, 4, HASC, 2, {-2, INT32_MIN}, 0, -200},
    {MEASURE, "an MVAR at 0", AT_0, 0, HASC, 1, {12345}, 0, 1234500},
    {MEASURE, "-1", MEASURES, 4, HASC, 2, {-1, 1000}, 2, 0},
    {MEASURE, "a list that is too short", MEASURES, 4, HASC, 1, {1, 1000}, 7, 0},
    {MEASURE, "another tag, no list", MEASURES, 4, TAG('s', 't', 'r', 's'), 0, {0}, 4, 0},
    {MEASURE, "a subtable past the count, no list", ONE_RECORD("0000 0001"), 4, HASC, 0, {0}, 3, 0},
    {MEASURE, "a row at the count, no list", MVAR_HEADER("000b", "0064") RECORDS ROWS_COUNTED("0001", "0001"), 4, HASC, 0, {0}, 3, 0},
    {MEASURE, "more words than regions, no list", MVAR_HEADER("000b", "0064") RECORDS ROWS("0003"), 4, HASC, 0, {0}, 5, 0},
    {MEASURE, "no records, no list", MVAR_HEADER("0000", "0064") RECORDS ROWS("0001"), 4, HASC, 0, {0}, 1, 0},
    {MEASURE, "no store, no list", MVAR_HEADER("000b", "0000") RECORDS ROWS("0001"), 4, HASC, 0, {0}, 1, 0},
    {MEASURE, "an offset past the end", MEASURES, 255, HASC, 2, {1, 1000}, 2, 0},
    {MEASURE, "an offset past 65536", MEASURES, 65540, HASC, 2, {1, 1000}, 2, 0},
};

/* Both forms of a delta that is read with a list. */
static void try_with(enum kind kind, const char *name, const struct bytes *font, uint32_t offset, uint32_t id,
                     const int32_t *scalars, size_t len, uint8_t number, int32_t expected)
{
    static const char *const names[][2] = {{"advance_delta_fixed_with", "advance_delta_with"},
                                           {"sb_delta_fixed_with", "sb_delta_with"},
                                           {"mvar_delta_fixed_with", "mvar_delta_with"}};
    uint16_t glyph = (uint16_t)id;
    int32_t value = 12345;
    float real = 123.5f;
    uint8_t found = 99, found_real = 99;
    switch (kind) {
    case ADVANCE:
        found = suolluvik_advance_delta_fixed_with(font->at, font->len, offset, glyph, scalars, len, &value);
        found_real = suolluvik_advance_delta_with(font->at, font->len, offset, glyph, scalars, len, &real);
        break;
    case BEARING:
        found = suolluvik_sb_delta_fixed_with(font->at, font->len, offset, glyph, scalars, len, &value);
        found_real = suolluvik_sb_delta_with(font->at, font->len, offset, glyph, scalars, len, &real);
        break;
    case MEASURE:
        found = suolluvik_mvar_delta_fixed_with(font->at, font->len, offset, id, scalars, len, &value);
        found_real = suolluvik_mvar_delta_with(font->at, font->len, offset, id, scalars, len, &real);
        break;
    }
    check(found == number && value == expected, names[kind][0], name);
    check(found_real == number && real == (float)expected / 65536.0f && !(expected == 0 && signbit(real)), names[kind][1], name);
}

static void try_readings(void)
{
    size_t i;
    for (i = 0; i < sizeof readings / sizeof *readings; i++) {
        const struct reading *r = &readings[i];
        struct bytes font = bytes(r->font);
        try_with(r->kind, r->name, &font, r->offset, r->id, r->scalars, r->len, r->number, r->value);
    }
}

/* Fills a list as a caller does; answers how many numbers it has, 0 where it is refused. */
static uint16_t filled(const struct bytes *font, enum kind kind, uint32_t offset, const int16_t *coords, size_t coords_len,
                       int32_t *scalars, size_t room)
{
    uint32_t store;
    uint16_t count;
    if (kind == MEASURE) {
        if (suolluvik_mvar_store_offset(font->at, font->len, offset, &store) != SUOLLUVIK_OK)
            return 0;
        suolluvik_fill_scalars(font->at + offset, font->len - offset, store, coords, coords_len, scalars, room, &count);
    } else {
        if (suolluvik_store_offset(font->at, font->len, offset, &store) != SUOLLUVIK_OK)
            return 0;
        suolluvik_fill_scalars(font->at, font->len, store, coords, coords_len, scalars, room, &count);
    }
    return count;
}

/* Each delta of above, with a filled list in the place of its coordinates, and with one that is longer. Where there is no list, it
 * is refused before the list counts. */
static void try_filled(void)
{
    size_t i;
    for (i = 0; i < sizeof deltas / sizeof *deltas; i++) {
        const struct delta *d = &deltas[i];
        struct bytes font = bytes(d->font);
        int32_t list[8] = {-1, -1, -1, -1, -1, -1, -1, -1};
        uint16_t count = filled(&font, d->kind, d->offset, d->coords, d->coords_len, list, 8);
        try_with(d->kind, d->name, &font, d->offset, d->id, list, count, d->number, d->value);
        try_with(d->kind, d->name, &font, d->offset, d->id, list, 8, d->number, d->value);
    }
}

/* All glyphs. */
static void try_all_glyphs(void)
{
    static const struct {
        const char *font;
        uint32_t xvar;
    } tables[] = {{BOTH, 4}, {BOTH, 90}, {CUT, 4}};
    static const int16_t places[][2] = {{8192, -4096}, {16384, 0}, {-1, -16384}, {0, 5}, {-8192, -1}};
    size_t table, place;
    uint32_t glyph;
    for (table = 0; table < 3; table++) {
        for (place = 0; place < 5; place++) {
            struct bytes font = bytes(tables[table].font);
            const int16_t *coords = places[place];
            uint32_t xvar = tables[table].xvar;
            int32_t list[2] = {K, K};
            uint16_t count = filled(&font, ADVANCE, xvar, coords, 2, list, 2);
            int same[4] = {1, 1, 1, 1};
            for (glyph = 0; glyph < 65536; glyph++) {
                uint16_t id = (uint16_t)glyph;
                int32_t fixed[4] = {1, 2, 3, 4};
                float real[4] = {1, 2, 3, 4};
                same[0] &= suolluvik_advance_delta_fixed(font.at, font.len, xvar, id, coords, 2, &fixed[0]) ==
                           suolluvik_advance_delta_fixed_with(font.at, font.len, xvar, id, list, count, &fixed[1]);
                same[1] &= suolluvik_advance_delta(font.at, font.len, xvar, id, coords, 2, &real[0]) ==
                           suolluvik_advance_delta_with(font.at, font.len, xvar, id, list, count, &real[1]);
                same[2] &= suolluvik_sb_delta_fixed(font.at, font.len, xvar, id, coords, 2, &fixed[2]) ==
                           suolluvik_sb_delta_fixed_with(font.at, font.len, xvar, id, list, count, &fixed[3]);
                same[3] &= suolluvik_sb_delta(font.at, font.len, xvar, id, coords, 2, &real[2]) ==
                           suolluvik_sb_delta_with(font.at, font.len, xvar, id, list, count, &real[3]);
                same[0] &= fixed[0] == fixed[1];
                same[1] &= real[0] == real[1];
                same[2] &= fixed[2] == fixed[3];
                same[3] &= real[2] == real[3];
            }
            check(count == 2, "fill_scalars", "all glyphs");
            check(same[0], "advance_delta_fixed_with", "all glyphs");
            check(same[1], "advance_delta_with", "all glyphs");
            check(same[2], "sb_delta_fixed_with", "all glyphs");
            check(same[3], "sb_delta_with", "all glyphs");
        }
    }
}

/* Axes and instances. */

/* A header: how many axes, of which size, how many instances, of which size. */
#define FVAR(axes, size, instances, instance_size) "00010000 0010 0002" axes size instances instance_size
#define WGHT "77676874 00640000 01900000 03840000 0000 0100"
#define SLNT "736c6e74 fff60000 00000000 00000000 0003 0101"
#define BELOW "62656c6f fff68000 fffcc000 ffff4000 8003 8102"
/* Document 01's listing; a second axis; a third one, all below 0; instances with a PostScript name id, at 700 and at 650; one
 * of 32768 that are counted; one that ends with what is given. */
#define LISTED FVAR("0001", "0014", "0000", "0008") WGHT
#define TWO FVAR("0002", "0014", "0001", "000c") WGHT SLNT "0102 0000 028a0000 fffb0000"
#define THREE FVAR("0003", "0014", "0000", "0010") WGHT SLNT BELOW
#define NAMED FVAR("0001", "0014", "0002", "000a") WGHT "0101 0000 02bc0000 0111 0102 0000 028a0000 0112"
#define MANY FVAR("0001", "0014", "8000", "000a") WGHT "0101 0000 02bc0000 0111"
#define ENDING(end) FVAR("0001", "0014", "0001", "000a") WGHT "0102 0000 028a0000" end
#define UNSIZED(size) FVAR("0001", "0014", "0001", size) WGHT "0102 0000 028a0000"
/* N2's axis and N3's, whose instance is at min. */
#define N2 FVAR("0001", "0014", "0001", "0008") "77676874 00000000 00000000 00000000 0000 0100 0102 0000 00050000"
#define N3 FVAR("0001", "0014", "0001", "0008") "77676874 80000000 00000000 00000000 0000 0100 0102 0000 80000000"
/* A1's map, at 4. */
#define AVAR "00000000 00010000 0000 0001 0004 c000c000 00000000 20001000 40004000"

#define WEIGHT TAG('w', 'g', 'h', 't')
#define SLANT TAG('s', 'l', 'n', 't')

static void try_counts(void)
{
    struct bytes fvar = bytes(NAMED);
    check(suolluvik_axis_count(fvar.at, fvar.len) == 1, "axis_count", "one");
    check(suolluvik_instance_count(fvar.at, fvar.len) == 2, "instance_count", "two");
    check(suolluvik_axis_count(fvar.at, 9) == 0, "axis_count", "cut");
    check(suolluvik_instance_count(fvar.at, 13) == 0, "instance_count", "cut");
    check(suolluvik_axis_count(fvar.at, 0) == 0, "axis_count", "an empty table");
    check(suolluvik_instance_count(fvar.at, 0) == 0, "instance_count", "an empty table");
}

static void try_axis(const char *name, const char *hex, uint16_t index, uint8_t number, uint32_t tag, int32_t min,
                     int32_t default_value, int32_t max, uint16_t flags, uint16_t name_id)
{
    struct bytes fvar = bytes(hex);
    uint32_t found_tag = 77;
    int32_t found_min = 77, found_default = 77, found_max = 77;
    uint16_t found_flags = 77, found_name = 77;
    uint8_t found = suolluvik_axis(fvar.at, fvar.len, index, &found_tag, &found_min, &found_default, &found_max, &found_flags,
                                   &found_name);
    check(found == number && found_tag == tag && found_min == min && found_default == default_value &&
              found_max == max && found_flags == flags && found_name == name_id,
          "axis", name);
}

static void try_tag(const char *name, const char *hex, uint32_t tag, uint8_t number, uint16_t index, int32_t min,
                    int32_t default_value, int32_t max, uint16_t flags, uint16_t name_id)
{
    struct bytes fvar = bytes(hex);
    int32_t found_min = 77, found_default = 77, found_max = 77;
    uint16_t found_index = 77, found_flags = 77, found_name = 77;
    uint8_t found = suolluvik_axis_by_tag(fvar.at, fvar.len, tag, &found_index, &found_min, &found_default, &found_max,
                                          &found_flags, &found_name);
    check(found == number && found_index == index && found_min == min && found_default == default_value &&
              found_max == max && found_flags == flags && found_name == name_id,
          "axis_by_tag", name);
}

static void try_axes(void)
{
    try_axis("document 01's listing", LISTED, 0, 0, 0x77676874, 6553600, 26214400, 58982400, 0, 256);
    try_axis("the second one", TWO, 1, 0, SLANT, -655360, 0, 0, 3, 257);
    try_axis("the third one", THREE, 2, 0, TAG('b', 'e', 'l', 'o'), -622592, -212992, -49152, 0x8003, 0x8102);
    try_axis("cut", FVAR("0001", "0014", "0000", "0008") "77676874 00640000 01900000 03840000 0000 01", 0, 2, 0, 0, 0,
             0, 0, 0);
    try_axis("past the count", LISTED, 1, 3, 0, 0, 0, 0, 0, 0);
    try_axis("past a count of 32768", FVAR("8000", "0000", "0000", "0008") WGHT, 32768, 3, 0, 0, 0, 0, 0, 0);
    try_tag("document 01's listing", LISTED, WEIGHT, 0, 0, 6553600, 26214400, 58982400, 0, 256);
    try_tag("the second one", TWO, SLANT, 0, 1, -655360, 0, 0, 3, 257);
    try_tag("the third one", THREE, TAG('b', 'e', 'l', 'o'), 0, 2, -622592, -212992, -49152, 0x8003, 0x8102);
    try_tag("another tag", TWO, TAG('w', 'd', 't', 'h'), 4, 0, 0, 0, 0, 0, 0);
    try_tag("cut", FVAR("0001", "0014", "0000", "0008") "77676874 00640000", WEIGHT, 4, 0, 0, 0, 0, 0, 0);
    check(suolluvik_fixed_to_f32(6553600) == 100.0f, "fixed_to_f32", "100");
    check(suolluvik_fixed_to_f32(-1) == -1.0f / 65536.0f, "fixed_to_f32", "the greatest below 0");
    check(suolluvik_fixed_to_f32(2147483647) == 32768.0f, "fixed_to_f32", "the largest, rounded");
}

static void try_instance(const char *name, const char *hex, uint16_t index, uint8_t number, uint16_t name_id,
                         uint8_t has_postscript_name, uint16_t postscript_name_id)
{
    struct bytes fvar = bytes(hex);
    uint16_t found_name = 77, found_id = 77;
    uint8_t found_has = 77;
    uint8_t found = suolluvik_instance(fvar.at, fvar.len, index, &found_name, &found_has, &found_id);
    check(found == number && found_name == name_id && found_has == has_postscript_name &&
              found_id == postscript_name_id,
          "instance", name);
}

/* The list has two elements more than it is said to have, and holds -77: what is expected stands in its first ones. */
static void try_floats(const char *name, const char *hex, uint16_t index, size_t out_len, uint8_t number,
                       uint16_t count, float first, float second)
{
    struct bytes fvar = bytes(hex);
    float out[4] = {-77, -77, -77, -77};
    uint16_t found_count = 77;
    uint8_t found = suolluvik_instance_floats(fvar.at, fvar.len, index, out, out_len, &found_count);
    check(found == number && found_count == count && out[0] == first && out[1] == second && out[2] == -77 &&
              out[3] == -77,
          "instance_floats", name);
}

static void try_instances(void)
{
    try_instance("with a PostScript name", NAMED, 0, 0, 0x101, 1, 0x111);
    try_instance("the second one", NAMED, 1, 0, 0x102, 1, 0x112);
    try_instance("W-203's 22 bytes", FVAR("0000", "0014", "0001", "0006") "0101 0000 0102", 0, 0, 0x101, 1, 0x102);
    try_instance("of two axes", FVAR("0002", "0014", "0002", "000e") WGHT SLNT "0102 0000 028a0000 fffb0000 0201 0103 0000 02bc0000 fff60000 0202", 1, 0, 0x103, 1, 0x202);
    try_instance("with a PostScript name id of 0", ENDING("0000"), 0, 0, 0x102, 1, 0);
    try_instance("with a PostScript name id of 65534", ENDING("fffe"), 0, 0, 0x102, 1, 0xfffe);
    try_instance("with 0xFFFF for none", ENDING("ffff"), 0, 0, 0x102, 0, 0);
    try_instance("cut behind its values", ENDING(""), 0, 0, 0x102, 0, 0);
    try_instance("cut in its PostScript name id", ENDING("01"), 0, 0, 0x102, 0, 0);
    try_instance("of a size with room for more", FVAR("0001", "0014", "0001", "000c") WGHT "0102 0000 028a0000 0111 0000", 0, 0, 0x102, 0, 0);
    try_instance("without a PostScript name", TWO, 0, 0, 0x102, 0, 0);
    try_instance("cut", FVAR("0001", "0014", "0001", "0008") WGHT "0102 0000 028a00", 0, 2, 0, 0, 0);
    try_instance("past the count", NAMED, 2, 3, 0, 0, 0);
    try_instance("past a count of 32768", MANY, 32768, 3, 0, 0, 0);
    try_instance("of size 0", UNSIZED("0000"), 0, 5, 0, 0, 0);
    try_instance("of size 1", UNSIZED("0001"), 0, 5, 0, 0, 0);
    try_floats("one axis, the list is just long enough", NAMED, 0, 1, 0, 1, 700, -77);
    try_floats("one axis, the list is longer", NAMED, 1, 2, 0, 1, 650, -77);
    try_floats("two axes", TWO, 0, 2, 0, 2, 650, -5);
    try_floats("cut", FVAR("0001", "0014", "0001", "0008") WGHT "0102 0000 028a00", 0, 2, 2, 0, -77, -77);
    try_floats("past the count", NAMED, 2, 2, 3, 0, -77, -77);
    try_floats("past a count of 32768", MANY, 32768, 2, 3, 0, -77, -77);
    try_floats("of size 1", UNSIZED("0001"), 0, 2, 5, 0, -77, -77);
    try_floats("a list that is too short", TWO, 0, 1, 7, 0, -77, -77);
    try_floats("an empty list", NAMED, 0, 0, 7, 0, -77, -77);
}

/* Coordinates. */

static void try_settings(const char *name, const char *hex, uint32_t avar, size_t tags_len, uint32_t tag0,
                         uint32_t tag1, size_t values_len, float value0, float value1, size_t out_len, uint8_t number,
                         uint16_t count, int16_t first, int16_t second)
{
    struct bytes fvar = bytes(hex), font = bytes(AVAR);
    uint32_t tags[2];
    float values[2];
    int16_t out[4] = {-77, -77, -77, -77};
    uint16_t found_count = 77;
    uint8_t found;
    tags[0] = tag0, tags[1] = tag1;
    values[0] = value0, values[1] = value1;
    found = suolluvik_normalized_coords(fvar.at, fvar.len, font.at, font.len, avar, tags, tags_len, values, values_len, out,
                                        out_len, &found_count);
    check(found == number && found_count == count && out[0] == first && out[1] == second && out[2] == -77 &&
              out[3] == -77,
          "normalized_coords", name);
}

static void try_instance_coords(const char *name, const char *hex, uint32_t avar, uint16_t index, size_t out_len,
                                uint8_t number, uint16_t count, int16_t first, int16_t second)
{
    struct bytes fvar = bytes(hex), font = bytes(AVAR);
    int16_t out[4] = {-77, -77, -77, -77};
    uint16_t found_count = 77;
    uint8_t found =
        suolluvik_instance_coords(fvar.at, fvar.len, font.at, font.len, avar, index, out, out_len, &found_count);
    check(found == number && found_count == count && out[0] == first && out[1] == second && out[2] == -77 &&
              out[3] == -77,
          "instance_coords", name);
}

static void try_coords(void)
{
    int16_t out[34];
    uint32_t tag = WEIGHT;
    float value = 650;
    uint16_t count = 77;
    struct bytes fvar = bytes(FVAR("0021", "0000", "0000", "0008") WGHT);
    int i, same;
    uint8_t number;

    try_settings("N1, 650", LISTED, 0, 1, WEIGHT, 0, 1, 650, 0, 1, 0, 1, 8192, -77);
    try_settings("N1, 300", LISTED, 0, 1, WEIGHT, 0, 1, 300, 0, 2, 0, 1, -5461, -77);
    try_settings("N1, 50", LISTED, 0, 1, WEIGHT, 0, 1, 50, 0, 2, 0, 1, -16384, -77);
    try_settings("N1, 400", LISTED, 0, 1, WEIGHT, 0, 1, 400, 0, 2, 0, 1, 0, -77);
    try_settings("N2", N2, 0, 1, WEIGHT, 0, 1, 5, 0, 2, 0, 1, 0, -77);
    try_settings("A1", LISTED, 4, 1, WEIGHT, 0, 1, 525, 0, 2, 0, 1, 2048, -77);
    try_settings("the last one wins", LISTED, 0, 2, WEIGHT, WEIGHT, 2, 300, 650, 2, 0, 1, 8192, -77);
    try_settings("two axes", TWO, 0, 2, SLANT, WEIGHT, 2, -5, 650, 2, 0, 2, 8192, -8192);
    try_settings("an axis without a setting", TWO, 0, 1, SLANT, 0, 1, -5, 0, 2, 0, 2, 0, -8192);
    try_settings("no settings", TWO, 0, 0, 0, 0, 0, 0, 0, 2, 0, 2, 0, 0);
    try_settings("an empty table", "", 0, 1, WEIGHT, 0, 1, 650, 0, 2, 0, 0, -77, -77);
    try_settings("N3", N3, 0, 1, WEIGHT, 0, 1, -32768, 0, 2, 5, 0, -77, -77);
    try_settings("more tags than values", LISTED, 0, 2, WEIGHT, WEIGHT, 1, 650, 650, 2, 6, 0, -77, -77);
    try_settings("more values than tags, and a list too short", LISTED, 0, 1, WEIGHT, 0, 2, 650, 650, 0, 6, 0, -77, -77);
    try_settings("a list that is too short", TWO, 0, 1, WEIGHT, 0, 1, 650, 0, 1, 7, 0, -77, -77);
    try_settings("a list that is too short, before N3", N3, 0, 1, WEIGHT, 0, 1, -32768, 0, 0, 7, 0, -77, -77);

    /* of 33 axes, all at one place, 32 count */
    for (i = 0; i < 34; i++)
        out[i] = -77;
    number = suolluvik_normalized_coords(fvar.at, fvar.len, fvar.at, 0, 0, &tag, 1, &value, 1, out, 34, &count);
    same = number == 0 && count == 32 && out[32] == -77 && out[33] == -77;
    for (i = 0; i < 32; i++)
        same = same && out[i] == 8192;
    check(same, "normalized_coords", "33 axes");
    count = 77;
    out[0] = -77;
    number = suolluvik_normalized_coords(fvar.at, fvar.len, fvar.at, 0, 0, &tag, 1, &value, 1, out, 31, &count);
    check(number == 7 && count == 0 && out[0] == -77, "normalized_coords", "33 axes, a list of 31");

    try_instance_coords("650", NAMED, 0, 1, 2, 0, 1, 8192, -77);
    try_instance_coords("700", NAMED, 0, 0, 1, 0, 1, 9831, -77);
    try_instance_coords("650, with A1's map", NAMED, 4, 1, 2, 0, 1, 4096, -77);
    try_instance_coords("two axes", TWO, 0, 0, 2, 0, 2, 8192, -8192);
    try_instance_coords("N2", N2, 0, 0, 2, 0, 1, 0, -77);
    try_instance_coords("cut", FVAR("0001", "0014", "0001", "0008") WGHT "0102 0000 028a00", 0, 0, 2, 2, 0, -77, -77);
    try_instance_coords("past the count", NAMED, 0, 2, 2, 3, 0, -77, -77);
    try_instance_coords("past a count of 32768", MANY, 0, 32768, 2, 3, 0, -77, -77);
    try_instance_coords("of size 1", UNSIZED("0001"), 0, 0, 2, 5, 0, -77, -77);
    try_instance_coords("N3", N3, 0, 0, 2, 5, 0, -77, -77);
    try_instance_coords("a list that is too short", TWO, 0, 0, 1, 7, 0, -77, -77);
    try_instance_coords("a list that is too short, before N3", N3, 0, 0, 0, 7, 0, -77, -77);
}

/* Measures. */

/* no two are the same, and none is 0 */
static const suolluvik_metrics unvaried = {800, 200, 90, 520, 400, 60, 700, 500, 550, 1200, -100, 300, 50};
/* the rows of MEASURES at 8192, each a half of its word: + 50, - 30, + 5, + 100, - 50, + 7, + 20, + 15, - 4, + 6, + 3 */
static const suolluvik_metrics varied = {850, 170, 95, 620, 350, 67, 720, 515, 550, 1200, -104, 306, 53};
static const suolluvik_metrics no_vertical = {850, 170, 95, 520, 400, 60, 720, 515, 550, 1200, -104, 306, 53};
/* and at -4096 on the second axis a quarter of its byte more */
static const suolluvik_metrics varied_twice = {850.5f, 170.75f, 96.25f, 622.5f,   352.75f, 70.25f, 720.25f,
                                               518.5f, 550,     1200,   -102.25f, 307.5f,  55.25f};

enum change { MATERIALIZE, MATERIALIZE_VERTICAL, SCALE, LINEAR_SCALE };

/* What is done to a record of len floats; the one behind the thirteen is no measure. */
static void try_measures(const char *name, enum change change, const char *hex, uint32_t mvar, int16_t coord,
                         size_t coords_len, uint16_t units_per_em, float scale, size_t len, uint8_t number,
                         suolluvik_metrics expected, float factor)
{
    static const char *const names[] = {"materialize_metrics", "materialize_metrics", "scale_metrics",
                                        "linear_scale_metrics"};
    struct bytes font = bytes(hex);
    int16_t coords[2];
    struct {
        suolluvik_metrics measures;
        float behind;
    } record;
    float found_floats[SUOLLUVIK_METRICS_FLOATS], expected_floats[SUOLLUVIK_METRICS_FLOATS];
    uint8_t found;
    size_t i;
    int same;
    coords[0] = coord, coords[1] = -4096;
    record.measures = unvaried;
    record.behind = -77;
    if (change == SCALE)
        found = suolluvik_scale_metrics(units_per_em, scale, &record.measures, len);
    else if (change == LINEAR_SCALE)
        found = suolluvik_linear_scale_metrics(scale, &record.measures, len);
    else
        found = suolluvik_materialize_metrics(font.at, font.len, mvar, coords, coords_len,
                                              change == MATERIALIZE_VERTICAL, &record.measures, len);
    memcpy(found_floats, &record.measures, sizeof found_floats);
    memcpy(expected_floats, &expected, sizeof expected_floats);
    same = found == number && record.behind == -77;
    for (i = 0; i < SUOLLUVIK_METRICS_FLOATS; i++)
        same = same && found_floats[i] == expected_floats[i] * factor;
    check(same, names[change], name);
}

static void try_all_measures(void)
{
    const enum change plain = MATERIALIZE, vertical = MATERIALIZE_VERTICAL;
    check(SUOLLUVIK_METRICS_FLOATS == 13, "suolluvik_metrics", "thirteen floats");
    try_measures("13, vertical", vertical, MEASURES, 4, 8192, 1, 0, 0, 13, 0, varied, 1);
    try_measures("13, not vertical", plain, MEASURES, 4, 8192, 1, 0, 0, 13, 0, no_vertical, 1);
    try_measures("13, two axes", vertical, MEASURES, 4, 8192, 2, 0, 0, 13, 0, varied_twice, 1);
    try_measures("12", vertical, MEASURES, 4, 8192, 1, 0, 0, 12, 7, unvaried, 1);
    try_measures("14", vertical, MEASURES, 4, 8192, 1, 0, 0, 14, 7, unvaried, 1);
    try_measures("no float", vertical, MEASURES, 4, 8192, 1, 0, 0, 0, 7, unvaried, 1);
    try_measures("at the default", vertical, MEASURES, 4, 0, 1, 0, 0, 13, 0, unvaried, 1);
    try_measures("no coordinates", vertical, MEASURES, 4, 8192, 0, 0, 0, 13, 0, unvaried, 1);
    try_measures("no coordinates, 14", vertical, MEASURES, 4, 8192, 0, 0, 0, 14, 7, unvaried, 1);
    try_measures("no MVAR", vertical, MEASURES, 0, 8192, 1, 0, 0, 13, 0, unvaried, 1);
    try_measures("an MVAR that does not open", vertical, MEASURES, 255, 8192, 1, 0, 0, 13, 0, unvaried, 1);
    try_measures("refused deltas", vertical, MVAR_HEADER("000b", "0064") RECORDS ROWS("0003"), 4, 8192, 1, 0, 0, 13, 0,
                 unvaried, 1);
    try_measures("16 over 2048", SCALE, "", 0, 0, 0, 2048, 16, 13, 0, unvaried, 0.0078125f);
    try_measures("16 over 2000", SCALE, "", 0, 0, 0, 2000, 16, 13, 0, unvaried, 16.0f / 2000.0f);
    try_measures("-12.5 over 40000", SCALE, "", 0, 0, 0, 40000, -12.5f, 13, 0, unvaried, -12.5f / 40000.0f);
    try_measures("no units per em", SCALE, "", 0, 0, 0, 0, 16, 13, 0, unvaried, 1);
    try_measures("12", SCALE, "", 0, 0, 0, 2048, 16, 12, 7, unvaried, 1);
    try_measures("14", SCALE, "", 0, 0, 0, 2048, 16, 14, 7, unvaried, 1);
    try_measures("by -3", LINEAR_SCALE, "", 0, 0, 0, 0, -3, 13, 0, unvaried, -3);
    try_measures("by 0.123", LINEAR_SCALE, "", 0, 0, 0, 0, 0.123f, 13, 0, unvaried, 0.123f);
    try_measures("12", LINEAR_SCALE, "", 0, 0, 0, 0, 2, 12, 7, unvaried, 1);
    try_measures("14", LINEAR_SCALE, "", 0, 0, 0, 0, 2, 14, 7, unvaried, 1);
}

/* Glyph metrics. */

/* H1 with a map of its own for bearings: at all coordinates the advances of its glyphs vary by 10, 11 and 12, and every
 * bearing by 12. */
#define GLYPHS HVAR("00000018", "00000010", "00000033") MAP H1_ROWS("0000", "0000") "0007 0001 02"
/* An MVAR at 4 that varies at all coordinates: hasc by 2, hdsc by 3; and one without records. */
#define ALWAYS(records) \
    MVAR_HEADER(records, "0064") RECORDS \
    "0001 0000000c 0001 00000010 0000 0001 000b 0000 0001 0000 01020304 05060708 090a0b"

enum { GLYF = SUOLLUVIK_VMTX_GLYF, VORG = SUOLLUVIK_VMTX_VORG, MADE = SUOLLUVIK_SYNTHESIZED };

/* One float is another, the sign of a zero included; any NaN is any other. */
static int same_float(float found, float expected)
{
    return isnan(expected) ? isnan(found) : found == expected && !signbit(found) == !signbit(expected);
}

static void try_widths(void)
{
    struct bytes font = bytes(GLYPHS), far = bytes("00000000 00010000 fffffffc");
    int16_t coord = 8192;
    check(same_float(suolluvik_advance_width(font.at, font.len, 4, 0, &coord, 0, 500, 2), 1020), "advance_width",
          "(500 + 10) * 2");
    check(same_float(suolluvik_advance_width(font.at, font.len, 0, 0, &coord, 1, 500, 2), 1000), "advance_width",
          "no HVAR: unvaried");
    check(same_float(suolluvik_advance_width(far.at, far.len, 4, 0, &coord, 1, 500, 1), 500), "advance_width",
          "a refused delta");
    check(same_float(suolluvik_lsb(font.at, font.len, 4, 0, &coord, 0, -20, 2), -16), "lsb", "(-20 + 12) * 2");
    check(same_float(suolluvik_lsb(font.at, font.len, 0, 0, &coord, 1, -32768, 0.5f), -16384), "lsb", "no HVAR");
    check(same_float(suolluvik_scale_glyph_metrics(1000, 2000), 2), "scale_glyph_metrics", "2000 over 1000");
    check(same_float(suolluvik_scale_glyph_metrics(2048, 16), 0.0078125f), "scale_glyph_metrics", "16 over 2048");
    check(same_float(suolluvik_scale_glyph_metrics(40000, -12.5f), -12.5f / 40000.0f), "scale_glyph_metrics",
          "-12.5 over 40000");
    check(same_float(suolluvik_scale_glyph_metrics(0, NAN), 1), "scale_glyph_metrics", "no units per em");
    check(same_float(suolluvik_scale_glyph_metrics(1000, -INFINITY), -INFINITY), "scale_glyph_metrics", "infinite");
}

static void try_height(const char *name, uint8_t vertical, uint32_t vvar, float synthesized, float scale,
                       uint8_t number, float expected)
{
    struct bytes font = bytes(GLYPHS);
    float value = 123.5f;
    uint8_t found = suolluvik_advance_height(font.at, font.len, vertical, vvar, synthesized, 1, NULL, 0, 500, scale,
                                             &value);
    check(found == number && same_float(value, expected), "advance_height", name);
}

static void try_top(const char *name, uint8_t vertical, uint32_t vvar, float scale, uint8_t number, float expected)
{
    struct bytes font = bytes(GLYPHS);
    float value = 123.5f;
    uint8_t found = suolluvik_tsb(font.at, font.len, vertical, vvar, 1, NULL, 0, -20, scale, &value);
    check(found == number && same_float(value, expected), "tsb", name);
}

/* The scale is -2.5. */
static void try_origin(const char *name, uint16_t units_per_em, uint8_t vertical, uint32_t vvar, float synthesized,
                       bool has_y, int16_t y, uint8_t number, float expected)
{
    struct bytes font = bytes(GLYPHS);
    float value = 123.5f;
    uint8_t found = suolluvik_vertical_origin(font.at, font.len, units_per_em, vertical, vvar, synthesized, 0, NULL, 0,
                                              1, has_y, y, -2.5f, &value);
    check(found == number && same_float(value, expected), "vertical_origin", name);
}

static void try_made(const char *name, const char *hex, uint8_t vertical, uint32_t mvar, size_t coords_len,
                     float advance, float origin, uint8_t number, float advance_at, float origin_at)
{
    struct bytes font = bytes(hex);
    int16_t coords[] = {8192, -4096};
    float found_advance = 123.5f, found_origin = 123.5f;
    uint8_t found = suolluvik_materialize_glyph_metrics(font.at, font.len, vertical, mvar, coords, coords_len, advance,
                                                        origin, &found_advance, &found_origin);
    check(found == number && same_float(found_advance, advance_at) && same_float(found_origin, origin_at),
          "materialize_glyph_metrics", name);
}

/* The metrics of a glyph at 8192 and -4096, by BOTH, at a scale of -0.5; y is -5. */
static void try_glyph(const char *name, uint16_t glyph, float width, float left, float height, float top, float origin)
{
    struct bytes font = bytes(BOTH);
    int16_t at[] = {8192, -4096};
    uint8_t vertical;
    float value = 123.5f;
    check(same_float(suolluvik_advance_width(font.at, font.len, 4, glyph, at, 2, 65534, -0.5f), width), "advance_width", name);
    check(same_float(suolluvik_lsb(font.at, font.len, 4, glyph, at, 2, -32768, -0.5f), left), "lsb", name);
    for (vertical = GLYF; vertical <= VORG; vertical++) {
        check(suolluvik_advance_height(font.at, font.len, vertical, 90, 0, glyph, at, 2, 40001, -0.5f, &value) == 0 && same_float(value, height), "advance_height", name);
        check(suolluvik_tsb(font.at, font.len, vertical, 90, glyph, at, 2, -300, -0.5f, &value) == 0 && same_float(value, top), "tsb", name);
        check(suolluvik_vertical_origin(font.at, font.len, 1000, vertical, 90, 0, glyph, at, 2, -300, true, -5, -0.5f, &value) == 0 && same_float(value, vertical == VORG ? 2.5f : origin), "vertical_origin", name);
    }
}

static void try_vertical(void)
{
    float advance = 123.5f, origin = 123.5f;
    check(GLYF == 0 && VORG == 1 && MADE == 2, "suolluvik_vertical", "numbers");

    try_height("glyf, by VVAR", GLYF, 4, 1000, 2, 0, 1022);
    try_height("VORG, by VVAR", VORG, 4, 1000, 2, 0, 1022);
    try_height("glyf, no VVAR", GLYF, 0, 1000, 2, 0, 1000);
    try_height("VORG, no VVAR", VORG, 0, 1000, 2, 0, 1000);
    try_height("synthesized", MADE, 4, -1000.5f, -2.5f, 0, 2501.25f);
    try_height("vertical case 3", 3, 4, 1000, 2, 3, 0);
    try_height("vertical case 255", 255, 4, 1000, 2, 3, 0);

    try_top("glyf, by VVAR", GLYF, 4, 2, 0, -16);
    try_top("VORG, by VVAR", VORG, 4, 2, 0, -16);
    try_top("glyf, no VVAR", GLYF, 0, 2, 0, -40);
    try_top("VORG, no VVAR", VORG, 0, 2, 0, -40);
    try_top("synthesized, scaled by -1", MADE, 4, -1, 0, -0.0f);
    try_top("synthesized, scaled by what is infinite", MADE, 4, INFINITY, 0, NAN);
    try_top("vertical case 3", 3, 4, 2, 3, 0);
    try_top("vertical case 255", 255, 4, 2, 3, 0);

    /* with glyf the bearing is scaled twice, as in swash */
    try_origin("glyf, yMax 0", 1000, GLYF, 0, 800, true, 0, 0, 6.25f);
    try_origin("glyf, yMax 10, by VVAR", 1000, GLYF, 4, 800, true, 10, 0, 56.25f);
    try_origin("glyf, no yMax", 40000, GLYF, 4, 800, false, 10, 0, -100000);
    try_origin("VORG, 880", 1000, VORG, 4, 800, true, 880, 0, -2200);
    try_origin("VORG, none: signed", 40000, VORG, 4, 800, false, 880, 0, 63840);
    try_origin("synthesized", 1000, MADE, 4, -800.5f, true, 7, 0, 2001.25f);
    try_origin("vertical case 3", 1000, 3, 4, 800, true, 10, 3, 0);
    try_origin("vertical case 255", 1000, 255, 4, 800, false, 10, 3, 0);

    try_made("hasc 50 and hdsc -30", MEASURES, MADE, 4, 1, 1000, 800, 0, 1020, 850);
    try_made("two axes, hasc 50.5 and hdsc -29.25", MEASURES, MADE, 4, 2, -1000.5f, -800.25f, 0, -979.25f, -749.75f);
    try_made("the deltas are added first", ALWAYS("000b"), MADE, 4, 1, 33554436, 0, 0, 33554440, 2);
    try_made("no coordinates", ALWAYS("000b"), MADE, 4, 0, 1000, 800, 0, 1000, 800);
    try_made("no MVAR", ALWAYS("000b"), MADE, 0, 1, 1000, 800, 0, 1000, 800);
    try_made("an MVAR that does not open", ALWAYS("0000"), MADE, 4, 1, -0.0f, -0.0f, 0, -0.0f, -0.0f);
    try_made("glyf", MEASURES, GLYF, 4, 1, 1000, 800, 0, 1000, 800);
    try_made("VORG", MEASURES, VORG, 4, 1, 1000, 800, 0, 1000, 800);
    try_made("vertical case 3", MEASURES, 3, 4, 1, 1000, 800, 3, 0, 0);
    try_made("vertical case 255", MEASURES, 255, 4, 1, 1000, 800, 3, 0, 0);

    try_glyph("glyph 0, two axes", 0, -32794.5f, 16382.5f, -20016.5f, 144.5f, -69.75f);
    try_glyph("glyph 256, two axes", 256, -32778.5f, 16385.25f, -20008.5f, 148.25f, -71.625f);

    suolluvik_synthesize(800, 200, &advance, &origin);
    check(advance == 1000 && origin == 800, "synthesize", "800 and 200");
    suolluvik_synthesize(-800.5f, -200.25f, &advance, &origin);
    check(advance == -1000.75f && origin == -800.5f, "synthesize", "-800.5 and -200.25");
}

/* What hmtx, vmtx and VORG have, and the adjusted advance and bearing. */

/* S1; an hmtx at 52 with three long records, of 500 and -20, 40000 and 5, 300 and 32767, and with two bearings behind them,
 * -32768 and 17; and a VORG at 68, by default 880, with the glyphs 1, 3 and 40000, at 76, 80 and 84. */
#define HMTX "01f4 ffec 9c40 0005 012c 7fff 8000 0011"
#define VORG_TABLE(count, records) "00010000 0370" count records
#define NUMBERS S1 "00" HMTX VORG_TABLE("0003", "0001 ff88 0003 02bc 9c40 8000")
#define UNSORTED S1 "00" HMTX VORG_TABLE("0003", "0005 ff88 0003 02bc 0001 8000")
#define NO_RECORDS S1 "00" HMTX VORG_TABLE("0000", "")
enum { WHOLE = 88 };

/* The font is cut to some bytes. */
static void try_xmtx_advance(const char *name, size_t len, uint32_t xmtx, uint16_t count, uint16_t glyph, uint8_t number,
                             uint16_t expected)
{
    struct bytes font = bytes(NUMBERS);
    uint16_t value = 12345;
    uint8_t found = suolluvik_xmtx_advance(font.at, len, xmtx, count, glyph, &value);
    check(found == number && value == expected, "xmtx_advance", name);
}

static void try_xmtx_sb(const char *name, size_t len, uint32_t xmtx, uint16_t count, uint16_t glyph, uint8_t number,
                        int16_t expected)
{
    struct bytes font = bytes(NUMBERS);
    int16_t value = 12345;
    uint8_t found = suolluvik_xmtx_sb(font.at, len, xmtx, count, glyph, &value);
    check(found == number && value == expected, "xmtx_sb", name);
}

static void try_xmtx(void)
{
    try_xmtx_advance("the first one", WHOLE, 52, 3, 0, 0, 500);
    try_xmtx_advance("above 32767", WHOLE, 52, 3, 1, 0, 40000);
    try_xmtx_advance("the last long record", WHOLE, 52, 3, 2, 0, 300);
    try_xmtx_advance("past the long records", WHOLE, 52, 3, 3, 0, 300);
    try_xmtx_advance("glyph 65535", WHOLE, 52, 3, 65535, 0, 300);
    try_xmtx_advance("glyph 256", WHOLE, 52, 3, 256, 0, 300);
    try_xmtx_advance("one long record", WHOLE, 52, 1, 2, 0, 500);
    try_xmtx_advance("256 long records", WHOLE, 52, 256, 1, 0, 40000);
    try_xmtx_advance("at the font's end", 62, 52, 3, 2, 0, 300);
    try_xmtx_advance("no long records", WHOLE, 52, 0, 0, 5, 0);
    try_xmtx_advance("no long records, no hmtx, no font", 0, 0, 0, 0, 5, 0);
    try_xmtx_advance("no hmtx", WHOLE, 0, 3, 0, 1, 0);
    try_xmtx_advance("no hmtx, no font", 0, 0, 3, 0, 1, 0);
    try_xmtx_advance("an empty font", 0, 52, 3, 0, 2, 0);
    try_xmtx_advance("cut", 61, 52, 3, 2, 2, 0);
    try_xmtx_advance("cut, past the long records", 61, 52, 3, 65535, 2, 0);
    try_xmtx_advance("a record past the end", WHOLE, 52, 65535, 65535, 2, 0);
    try_xmtx_advance("an offset past 65536", WHOLE, 65588, 3, 1, 2, 0);
    try_xmtx_advance("an offset far past the end", WHOLE, 0xffffffff, 3, 1, 2, 0);

    try_xmtx_sb("below 0", WHOLE, 52, 3, 0, 0, -20);
    try_xmtx_sb("the second one", WHOLE, 52, 3, 1, 0, 5);
    try_xmtx_sb("the last long record", WHOLE, 52, 3, 2, 0, 32767);
    try_xmtx_sb("the first one past the long records", WHOLE, 52, 3, 3, 0, -32768);
    try_xmtx_sb("the second one past them", WHOLE, 52, 3, 4, 0, 17);
    try_xmtx_sb("past the table", WHOLE, 52, 3, 5, 0, 1);
    try_xmtx_sb("256 long records", WHOLE, 52, 256, 1, 0, 5);
    try_xmtx_sb("at the font's end", 68, 52, 3, 4, 0, 17);
    try_xmtx_sb("no long records", WHOLE, 52, 0, 0, 5, 0);
    try_xmtx_sb("no long records, no hmtx, no font", 0, 0, 0, 0, 5, 0);
    try_xmtx_sb("no hmtx", WHOLE, 0, 3, 0, 1, 0);
    try_xmtx_sb("no hmtx, no font", 0, 0, 3, 0, 1, 0);
    try_xmtx_sb("an empty font", 0, 52, 3, 0, 2, 0);
    try_xmtx_sb("cut", 63, 52, 3, 2, 2, 0);
    try_xmtx_sb("cut, past the long records", 67, 52, 3, 4, 2, 0);
    try_xmtx_sb("glyph 256", WHOLE, 52, 3, 256, 2, 0);
    try_xmtx_sb("a record past the end", WHOLE, 52, 65535, 65535, 2, 0);
    try_xmtx_sb("an offset past 65536", WHOLE, 65588, 3, 1, 2, 0);
    try_xmtx_sb("an offset far past the end", WHOLE, 0xffffffff, 3, 1, 2, 0);
}

static void try_vorg(const char *name, const char *hex, size_t len, uint32_t vorg, uint16_t glyph, uint8_t number,
                     int16_t expected)
{
    struct bytes font = bytes(hex);
    int16_t value = 12345;
    uint8_t found = suolluvik_vorg_origin(font.at, len, vorg, glyph, &value);
    check(found == number && value == expected, "vorg_origin", name);
}

static void try_vorgs(void)
{
    try_vorg("the first record", NUMBERS, WHOLE, 68, 1, 0, -120);
    try_vorg("the middle one", NUMBERS, WHOLE, 68, 3, 0, 700);
    try_vorg("the last one", NUMBERS, WHOLE, 68, 40000, 0, -32768);
    try_vorg("before the first one", NUMBERS, WHOLE, 68, 0, 0, 880);
    try_vorg("between two", NUMBERS, WHOLE, 68, 2, 0, 880);
    try_vorg("behind the last one", NUMBERS, WHOLE, 68, 65535, 0, 880);
    try_vorg("glyph 257", NUMBERS, WHOLE, 68, 257, 0, 880);
    try_vorg("no records", NO_RECORDS, 76, 68, 1, 0, 880);
    try_vorg("not sorted", UNSORTED, WHOLE, 68, 5, 0, 880);
    try_vorg("not sorted, the middle one", UNSORTED, WHOLE, 68, 3, 0, 700);
    try_vorg("no VORG", NUMBERS, WHOLE, 0, 1, 1, 0);
    try_vorg("no VORG, no font", NUMBERS, 0, 0, 1, 1, 0);
    try_vorg("an empty font", NUMBERS, 0, 68, 1, 2, 0);
    try_vorg("cut in the default", NUMBERS, 73, 68, 1, 2, 0);
    try_vorg("cut in the count", NUMBERS, 75, 68, 1, 2, 0);
    try_vorg("cut in a record's glyph", NUMBERS, 81, 68, 1, 2, 0);
    try_vorg("cut in a record's origin", NUMBERS, 83, 68, 3, 2, 0);
    try_vorg("cut behind its record", NUMBERS, 83, 68, 1, 0, -120);
    try_vorg("cut before its record", NUMBERS, 84, 68, 40000, 2, 0);
    try_vorg("cut behind the walk, not found", NUMBERS, 84, 68, 0, 0, 880);
    try_vorg("an offset past 65536", NUMBERS, WHOLE, 65604, 1, 2, 0);
    try_vorg("an offset far past the end", NUMBERS, WHOLE, 0xffffffff, 1, 2, 0);
}

/* At the first ones of the coordinates 8192 and -4096. */
static void try_adjusted_advance(const char *name, const char *hex, uint32_t xmtx, uint16_t count, uint32_t xvar,
                                 uint16_t glyph, size_t coords_len, float scale, uint8_t number, float expected)
{
    struct bytes font = bytes(hex);
    int16_t coords[] = {8192, -4096};
    float value = 123.5f;
    uint8_t found = suolluvik_adjusted_advance(font.at, font.len, xmtx, count, xvar, glyph, coords, coords_len, scale,
                                               &value);
    check(found == number && same_float(value, expected), "adjusted_advance", name);
}

static void try_adjusted_sb(const char *name, const char *hex, uint32_t xmtx, uint16_t count, uint32_t xvar,
                            uint16_t glyph, size_t coords_len, float scale, uint8_t number, float expected)
{
    struct bytes font = bytes(hex);
    int16_t coords[] = {8192, -4096};
    float value = 123.5f;
    uint8_t found = suolluvik_adjusted_sb(font.at, font.len, xmtx, count, xvar, glyph, coords, coords_len, scale, &value);
    check(found == number && same_float(value, expected), "adjusted_sb", name);
}

/* BOTH, an hmtx at 176 and a vmtx at 186, each with two long records and a bearing behind them. GLYPHS and an hmtx at 60. */
#define TWO_WAYS BOTH "01f4 ffec 9c40 0005 8000" "03e8 001e ffff ff38 0007"
#define MAPPED GLYPHS HMTX

static void try_adjusted(void)
{
    try_adjusted_advance("S1 at 8192, (500 + 50) * 2", NUMBERS, 52, 3, 4, 0, 1, 2, 0, 1100);
    try_adjusted_advance("S1, no coordinates", NUMBERS, 52, 3, 4, 0, 0, 2, 0, 1000);
    try_adjusted_advance("no HVAR", NUMBERS, 52, 3, 0, 0, 1, 2, 0, 1000);
    try_adjusted_advance("a glyph past the item count", NUMBERS, 52, 3, 4, 1, 1, 2, 0, 80000);
    try_adjusted_advance("an HVAR past 65536", NUMBERS, 52, 3, 65540, 0, 1, 2, 0, 1000);
    try_adjusted_advance("an HVAR far past the end", NUMBERS, 52, 3, 0xffffffff, 65535, 1, 2, 0, 600);
    try_adjusted_advance("256 long records", NUMBERS, 52, 256, 4, 0, 1, 2, 0, 1100);
    try_adjusted_advance("at the font's end", S1 "00 01f4", 52, 3, 4, 0, 1, 2, 0, 1100);
    try_adjusted_advance("no coordinates, (300 + 12) * -0.5", MAPPED, 60, 3, 4, 65535, 0, -0.5f, 0, -156);
    try_adjusted_advance("two axes", TWO_WAYS, 176, 2, 4, 0, 2, -0.5f, 0, -277.5f);
    try_adjusted_advance("two axes, glyph 256", TWO_WAYS, 176, 2, 4, 256, 2, -0.5f, 0, -20011.5f);
    try_adjusted_advance("vmtx and VVAR", TWO_WAYS, 186, 2, 90, 0, 2, -0.5f, 0, -516);
    try_adjusted_advance("vmtx and VVAR, glyph 256", TWO_WAYS, 186, 2, 90, 256, 2, -0.5f, 0, -32775.5f);
    try_adjusted_advance("a NaN for the scale", NUMBERS, 52, 3, 4, 0, 1, NAN, 0, NAN);
    try_adjusted_advance("an infinite scale", NUMBERS, 52, 3, 4, 0, 1, -INFINITY, 0, -INFINITY);
    try_adjusted_advance("a scale of -0", NUMBERS, 52, 3, 4, 0, 1, -0.0f, 0, -0.0f);
    try_adjusted_advance("no long records", NUMBERS, 52, 0, 4, 0, 1, 2, 5, 0);
    try_adjusted_advance("no long records, no hmtx, no font", "", 0, 0, 4, 0, 1, 2, 5, 0);
    try_adjusted_advance("no hmtx", NUMBERS, 0, 3, 4, 0, 1, 2, 1, 0);
    try_adjusted_advance("no hmtx, no font, a NaN for the scale", "", 0, 3, 4, 0, 1, NAN, 1, 0);
    try_adjusted_advance("an empty font", "", 52, 3, 4, 0, 1, 2, 2, 0);
    try_adjusted_advance("cut", S1 "00 01f4 ffec 9c", 52, 3, 4, 1, 1, 2, 2, 0);
    try_adjusted_advance("an offset past 65536", NUMBERS, 65588, 3, 4, 0, 1, 2, 2, 0);
    try_adjusted_advance("an offset far past the end", NUMBERS, 0xffffffff, 3, 4, 0, 1, -2, 2, 0);

    try_adjusted_sb("no coordinates, (-20 + 12) * 2", MAPPED, 60, 3, 4, 0, 0, 2, 0, -16);
    try_adjusted_sb("past the long records, (-32768 + 12) * 2", MAPPED, 60, 3, 4, 3, 1, 2, 0, -65512);
    try_adjusted_sb("no HVAR", MAPPED, 60, 3, 0, 4, 1, 2, 0, 34);
    try_adjusted_sb("no map: S1", NUMBERS, 52, 3, 4, 0, 1, 2, 0, -40);
    try_adjusted_sb("an HVAR past 65536", MAPPED, 60, 3, 65540, 0, 1, 2, 0, -40);
    try_adjusted_sb("an HVAR far past the end", NUMBERS, 52, 3, 0xffffffff, 1, 1, 2, 0, 10);
    try_adjusted_sb("256 long records", MAPPED, 60, 256, 4, 0, 1, 2, 0, -16);
    try_adjusted_sb("at the font's end", GLYPHS "01f4 ffec", 60, 3, 4, 0, 1, 2, 0, -16);
    try_adjusted_sb("two axes", TWO_WAYS, 176, 2, 4, 0, 2, -0.5f, 0, 8.5f);
    try_adjusted_sb("two axes, past the long records", TWO_WAYS, 176, 2, 4, 2, 2, -0.5f, 0, 16385.25f);
    try_adjusted_sb("vmtx and VVAR", TWO_WAYS, 186, 2, 90, 0, 2, -0.5f, 0, -20.5f);
    try_adjusted_sb("vmtx and VVAR, past the long records", TWO_WAYS, 186, 2, 90, 2, 2, -0.5f, 0, -5.25f);
    try_adjusted_sb("a NaN for the scale", NUMBERS, 52, 3, 4, 0, 1, NAN, 0, NAN);
    try_adjusted_sb("an infinite scale", NUMBERS, 52, 3, 4, 0, 1, -INFINITY, 0, INFINITY);
    try_adjusted_sb("a scale of -0", NUMBERS, 52, 3, 4, 1, 1, -0.0f, 0, -0.0f);
    try_adjusted_sb("no long records", NUMBERS, 52, 0, 4, 0, 1, 2, 5, 0);
    try_adjusted_sb("no long records, no hmtx, no font", "", 0, 0, 4, 0, 1, 2, 5, 0);
    try_adjusted_sb("no hmtx", NUMBERS, 0, 3, 4, 0, 1, 2, 1, 0);
    try_adjusted_sb("no hmtx, no font, a NaN for the scale", "", 0, 3, 4, 0, 1, NAN, 1, 0);
    try_adjusted_sb("an empty font", "", 52, 3, 4, 0, 1, 2, 2, 0);
    try_adjusted_sb("cut", S1 "00 01f4 ffec 9c40 00", 52, 3, 4, 1, 1, 2, 2, 0);
    try_adjusted_sb("glyph 256", NUMBERS, 52, 3, 4, 256, 1, 2, 2, 0);
    try_adjusted_sb("an offset past 65536", NUMBERS, 65588, 3, 4, 0, 1, 2, 2, 0);
    try_adjusted_sb("an offset far past the end", NUMBERS, 0xffffffff, 3, 4, 0, 1, -2, 2, 0);
}

/* NULL with length 0 is an empty list, in the place of each list of each function. */

static void try_null_deltas(void)
{
    struct bytes h1 = bytes(H1), mvar = bytes(MEASURES);
    int16_t coord = 8192;
    int32_t value = 77;
    float real = 77;
    check(suolluvik_advance_delta_fixed(NULL, 0, 4, 0, &coord, 1, &value) == 2 && value == 0, "advance_delta_fixed", "no font");
    check(suolluvik_advance_delta_fixed(h1.at, h1.len, 4, 0, NULL, 0, &value) == 0 && value == 655360, "advance_delta_fixed", "NULL");
    check(suolluvik_advance_delta(NULL, 0, 4, 0, &coord, 1, &real) == 2 && real == 0, "advance_delta", "no font");
    check(suolluvik_advance_delta(h1.at, h1.len, 4, 0, NULL, 0, &real) == 0 && real == 10, "advance_delta", "NULL");
    value = 77, real = 77;
    check(suolluvik_sb_delta_fixed(NULL, 0, 4, 0, &coord, 1, &value) == 2 && value == 0, "sb_delta_fixed", "no font");
    check(suolluvik_sb_delta_fixed(h1.at, h1.len, 4, 0, NULL, 0, &value) == 0 && value == 655360, "sb_delta_fixed", "NULL");
    check(suolluvik_sb_delta(NULL, 0, 4, 0, &coord, 1, &real) == 2 && real == 0, "sb_delta", "no font");
    check(suolluvik_sb_delta(h1.at, h1.len, 4, 0, NULL, 0, &real) == 0 && real == 10, "sb_delta", "NULL");
    value = 77, real = 77;
    check(suolluvik_mvar_delta_fixed(NULL, 0, 4, HASC, &coord, 1, &value) == 2 && value == 0, "mvar_delta_fixed", "no font");
    check(suolluvik_mvar_delta(NULL, 0, 4, HASC, &coord, 1, &real) == 2 && real == 0, "mvar_delta", "no font");
    value = 77, real = 77;
    check(suolluvik_mvar_delta_fixed(mvar.at, mvar.len, 4, HASC, NULL, 0, &value) == 0 && value == 0, "mvar_delta_fixed", "NULL");
    check(suolluvik_mvar_delta(mvar.at, mvar.len, 4, HASC, NULL, 0, &real) == 0 && real == 0, "mvar_delta", "NULL");
}

static void try_null_lists(void)
{
    struct bytes s1 = bytes(S1), s5 = bytes(S5), h1 = bytes(H1), mvar = bytes(MEASURES);
    int16_t coord = 8192;
    int32_t scalars[] = {K, K}, value = 77;
    uint32_t store = 77;
    uint16_t count = 77;
    float real = 77;

    check(suolluvik_store_offset(NULL, 0, 4, &store) == 2 && store == 0, "store_offset", "NULL");
    store = 77;
    check(suolluvik_mvar_store_offset(NULL, 0, 0, &store) == 2 && store == 0, "mvar_store_offset", "NULL");

    check(suolluvik_fill_scalars(NULL, 0, 20, &coord, 1, scalars, 2, &count) == 2 && count == 0 && scalars[0] == K, "fill_scalars", "NULL for the font");
    check(suolluvik_fill_scalars(s1.at, s1.len, 20, NULL, 0, scalars, 2, &count) == 0 && count == 1 && scalars[0] == 0 && scalars[1] == K, "fill_scalars", "NULL for the coordinates");
    check(suolluvik_fill_scalars(s1.at, s1.len, 20, &coord, 1, NULL, 0, &count) == 7 && count == 0, "fill_scalars", "NULL for the list");
    count = 77;
    check(suolluvik_fill_scalars(s5.at, s5.len, 20, &coord, 1, NULL, 0, &count) == 0 && count == 0, "fill_scalars", "NULL for the list, no regions");

    scalars[0] = scalars[1] = 1;
    check(suolluvik_advance_delta_fixed_with(NULL, 0, 4, 0, scalars, 2, &value) == 2 && value == 0, "advance_delta_fixed_with", "NULL for the font");
    check(suolluvik_advance_delta_with(NULL, 0, 4, 0, scalars, 2, &real) == 2 && real == 0, "advance_delta_with", "NULL for the font");
    value = 77, real = 77;
    check(suolluvik_advance_delta_fixed_with(s1.at, s1.len, 4, 0, NULL, 0, &value) == 7 && value == 0, "advance_delta_fixed_with", "NULL for the list");
    check(suolluvik_advance_delta_with(s1.at, s1.len, 4, 0, NULL, 0, &real) == 7 && real == 0, "advance_delta_with", "NULL for the list");
    value = 77, real = 77;
    check(suolluvik_advance_delta_fixed_with(s5.at, s5.len, 4, 0, NULL, 0, &value) == 0 && value == 0, "advance_delta_fixed_with", "NULL for the list, no regions");
    check(suolluvik_advance_delta_with(s5.at, s5.len, 4, 0, NULL, 0, &real) == 0 && real == 0, "advance_delta_with", "NULL for the list, no regions");
    value = 77, real = 77;
    check(suolluvik_sb_delta_fixed_with(NULL, 0, 4, 0, scalars, 2, &value) == 2 && value == 0, "sb_delta_fixed_with", "NULL for the font");
    check(suolluvik_sb_delta_with(NULL, 0, 4, 0, scalars, 2, &real) == 2 && real == 0, "sb_delta_with", "NULL for the font");
    value = 77, real = 77;
    check(suolluvik_sb_delta_fixed_with(h1.at, h1.len, 4, 0, NULL, 0, &value) == 7 && value == 0, "sb_delta_fixed_with", "NULL for the list");
    check(suolluvik_sb_delta_with(h1.at, h1.len, 4, 0, NULL, 0, &real) == 7 && real == 0, "sb_delta_with", "NULL for the list");
    value = 77, real = 77;
    check(suolluvik_mvar_delta_fixed_with(NULL, 0, 4, HASC, scalars, 2, &value) == 2 && value == 0, "mvar_delta_fixed_with", "NULL for the font");
    check(suolluvik_mvar_delta_with(NULL, 0, 4, HASC, scalars, 2, &real) == 2 && real == 0, "mvar_delta_with", "NULL for the font");
    value = 77, real = 77;
    check(suolluvik_mvar_delta_fixed_with(mvar.at, mvar.len, 4, HASC, NULL, 0, &value) == 7 && value == 0, "mvar_delta_fixed_with", "NULL for the list");
    check(suolluvik_mvar_delta_with(mvar.at, mvar.len, 4, HASC, NULL, 0, &real) == 7 && real == 0, "mvar_delta_with", "NULL for the list");
}

static void try_null_axes(void)
{
    struct bytes two = bytes(TWO), avar = bytes(AVAR);
    uint32_t tag = 77;
    int32_t least = 77, middle = 77, most = 77;
    uint16_t index = 77, flags = 77, name_id = 77, id = 77, count = 77;
    uint8_t has = 77;
    int16_t out[2] = {-77, -77};
    uint32_t tags[] = {SLANT};
    float values[] = {-5}, floats[2] = {-77, -77};

    check(suolluvik_axis_count(NULL, 0) == 0, "axis_count", "NULL");
    check(suolluvik_instance_count(NULL, 0) == 0, "instance_count", "NULL");
    check(suolluvik_axis(NULL, 0, 0, &tag, &least, &middle, &most, &flags, &name_id) == 3 && tag == 0, "axis", "NULL");
    check(suolluvik_axis_by_tag(NULL, 0, WEIGHT, &index, &least, &middle, &most, &flags, &name_id) == 4 && index == 0, "axis_by_tag", "NULL");
    check(suolluvik_instance(NULL, 0, 0, &name_id, &has, &id) == 3 && has == 0, "instance", "NULL");

    check(suolluvik_instance_floats(NULL, 0, 0, floats, 2, &count) == 3 && count == 0 && floats[0] == -77, "instance_floats", "NULL for fvar");
    check(suolluvik_instance_floats(two.at, two.len, 0, NULL, 0, &count) == 7, "instance_floats", "NULL for out");

    count = 77;
    check(suolluvik_normalized_coords(NULL, 0, NULL, 0, 0, NULL, 0, NULL, 0, NULL, 0, &count) == 0 && count == 0, "normalized_coords", "NULL for all");
    check(suolluvik_normalized_coords(two.at, two.len, NULL, 0, 4, tags, 1, values, 1, out, 2, &count) == 0 && count == 2 && out[0] == 0 && out[1] == -8192, "normalized_coords", "NULL for the font");
    check(suolluvik_normalized_coords(two.at, two.len, avar.at, avar.len, 0, NULL, 0, NULL, 0, out, 2, &count) == 0 && out[1] == 0, "normalized_coords", "NULL for the settings");
    check(suolluvik_normalized_coords(two.at, two.len, avar.at, avar.len, 0, NULL, 0, values, 1, out, 2, &count) == 6, "normalized_coords", "NULL for the tags");
    check(suolluvik_normalized_coords(two.at, two.len, avar.at, avar.len, 0, tags, 1, NULL, 0, out, 2, &count) == 6, "normalized_coords", "NULL for the values");
    check(suolluvik_normalized_coords(two.at, two.len, avar.at, avar.len, 0, tags, 1, values, 1, NULL, 0, &count) == 7 && count == 0, "normalized_coords", "NULL for out");

    count = 77;
    check(suolluvik_instance_coords(NULL, 0, avar.at, avar.len, 0, 0, out, 2, &count) == 3 && count == 0, "instance_coords", "NULL for fvar");
    check(suolluvik_instance_coords(two.at, two.len, NULL, 0, 0, 0, out, 2, &count) == 0 && out[0] == 8192, "instance_coords", "NULL for the font");
    check(suolluvik_instance_coords(two.at, two.len, avar.at, avar.len, 0, 0, NULL, 0, &count) == 7, "instance_coords", "NULL for out");
}

static void try_null_metrics(void)
{
    struct bytes font = bytes(GLYPHS), mvar = bytes(MEASURES);
    suolluvik_metrics measures = unvaried;
    int16_t coord = 8192;
    float advance = 77, origin = 77, value = 77;

    check(suolluvik_materialize_metrics(NULL, 0, 4, &coord, 1, true, &measures, 13) == 0 && measures.ascent == 800, "materialize_metrics", "NULL for the font");
    check(suolluvik_materialize_metrics(mvar.at, mvar.len, 4, NULL, 0, true, &measures, 13) == 0 && measures.ascent == 800, "materialize_metrics", "NULL for the coordinates");
    check(suolluvik_materialize_metrics(mvar.at, mvar.len, 4, &coord, 1, true, NULL, 0) == 7, "materialize_metrics", "NULL for the measures");
    check(suolluvik_scale_metrics(2048, 16, NULL, 0) == 7, "scale_metrics", "NULL");
    check(suolluvik_linear_scale_metrics(2, NULL, 0) == 7, "linear_scale_metrics", "NULL");

    check(suolluvik_advance_width(NULL, 0, 4, 0, &coord, 1, 500, 2) == 1000, "advance_width", "NULL for the font");
    check(suolluvik_advance_width(font.at, font.len, 4, 0, NULL, 0, 500, 2) == 1020, "advance_width", "NULL for the coordinates");
    check(suolluvik_lsb(NULL, 0, 4, 0, &coord, 1, -20, 2) == -40, "lsb", "NULL for the font");
    check(suolluvik_lsb(font.at, font.len, 4, 0, NULL, 0, -20, 2) == -16, "lsb", "NULL for the coordinates");

    /* that NULL is taken for the coordinates here, try_vertical has */
    check(suolluvik_advance_height(NULL, 0, GLYF, 4, 0, 1, &coord, 1, 500, 2, &value) == 0 && value == 1000, "advance_height", "NULL for the font");
    check(suolluvik_tsb(NULL, 0, GLYF, 4, 1, &coord, 1, -20, 2, &value) == 0 && value == -40, "tsb", "NULL for the font");
    check(suolluvik_vertical_origin(NULL, 0, 1000, GLYF, 4, 0, 1, &coord, 1, 1, true, 10, 2, &value) == 0 && value == 24, "vertical_origin", "NULL for the font");

    check(suolluvik_materialize_glyph_metrics(NULL, 0, MADE, 4, &coord, 1, 1000, 800, &advance, &origin) == 0 && advance == 1000 && origin == 800, "materialize_glyph_metrics", "NULL for the font");
    advance = 77, origin = 77;
    check(suolluvik_materialize_glyph_metrics(mvar.at, mvar.len, MADE, 4, NULL, 0, 1000, 800, &advance, &origin) == 0 && advance == 1000 && origin == 800, "materialize_glyph_metrics", "NULL for the coordinates");
}

static void try_null_numbers(void)
{
    struct bytes font = bytes(MAPPED);
    int16_t coord = 8192, value = 77;
    uint16_t advance = 77;
    float real = 77;

    check(suolluvik_xmtx_advance(NULL, 0, 60, 3, 0, &advance) == 2 && advance == 0, "xmtx_advance", "NULL");
    check(suolluvik_xmtx_sb(NULL, 0, 60, 3, 0, &value) == 2 && value == 0, "xmtx_sb", "NULL");
    value = 77;
    check(suolluvik_vorg_origin(NULL, 0, 68, 1, &value) == 2 && value == 0, "vorg_origin", "NULL");
    check(suolluvik_adjusted_advance(NULL, 0, 60, 3, 4, 0, &coord, 1, 2, &real) == 2 && real == 0, "adjusted_advance", "NULL for the font");
    check(suolluvik_adjusted_advance(font.at, font.len, 60, 3, 4, 0, NULL, 0, 2, &real) == 0 && real == 1020, "adjusted_advance", "NULL for the coordinates");
    check(suolluvik_adjusted_sb(NULL, 0, 60, 3, 4, 0, &coord, 1, 2, &real) == 2 && real == 0, "adjusted_sb", "NULL for the font");
    check(suolluvik_adjusted_sb(font.at, font.len, 60, 3, 4, 0, NULL, 0, 2, &real) == 0 && real == -16, "adjusted_sb", "NULL for the coordinates");
}

static void try_names(void)
{
    static const int refusals[] = {SUOLLUVIK_OK,         SUOLLUVIK_ABSENT,  SUOLLUVIK_SHORT, SUOLLUVIK_INDEX, SUOLLUVIK_TAG,
                                   SUOLLUVIK_ARITHMETIC, SUOLLUVIK_LENGTHS, SUOLLUVIK_ROOM};
    int i;
    for (i = 0; i < 8; i++)
        check(refusals[i] == i, "suolluvik_refusal", "numbers");
    check(suolluvik_version() == SUOLLUVIK_VERSION, "version", "the header's");
}

int main(void)
{
    try_deltas();
    try_stores();
    try_fillings();
    try_readings();
    try_filled();
    try_all_glyphs();
    try_counts();
    try_axes();
    try_instances();
    try_coords();
    try_all_measures();
    try_widths();
    try_vertical();
    try_xmtx();
    try_vorgs();
    try_adjusted();
    try_null_deltas();
    try_null_lists();
    try_null_axes();
    try_null_metrics();
    try_null_numbers();
    try_names();
    printf("%d passed, %d failed\n", passed, failed);
    return failed != 0;
}
