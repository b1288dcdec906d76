/* Checks written from the rules, document 01 and, where it says so, 02. */
#include "calls.h"

#include <string.h>

static uint32_t delete_named(const char *text)
{
    return do_delete(text, strlen(text));
}

static uint32_t list_in(const char *text)
{
    return do_list(text, strlen(text), STORE_ROWS);
}

/* ---- the volume's layout, by document 01 */

static uint32_t crc32(const uint8_t *bytes, size_t length)
{
    uint32_t crc = 0xffffffffu;
    size_t i;
    int bit;
    for (i = 0; i < length; i++) {
        crc ^= bytes[i];
        for (bit = 0; bit < 8; bit++)
            crc = crc >> 1 ^ (crc & 1 ? 0xedb88320u : 0);
    }
    return ~crc;
}

static uint8_t *sector(size_t n)
{
    return at(&volume) + STORE_SECTOR * n;
}

static void put(uint8_t *to, int width, uint64_t x)
{
    for (; width > 0; width--, x >>= 8)
        *to++ = (uint8_t)x;
}

static uint32_t get32(const uint8_t *from)
{
    return from[0] | (uint32_t)from[1] << 8 | (uint32_t)from[2] << 16 | (uint32_t)from[3] << 24;
}

/* A header's own checksum, anew. */
static void seal(size_t header)
{
    put(sector(header) + 508, 4, crc32(sector(header), 508));
}

/* What a header lists of body sector k, anew. */
static void list_body(size_t header, size_t k)
{
    put(sector(header) + 64 + 4 * k, 4, crc32(sector(header + 1 + k), STORE_SECTOR));
    seal(header);
}

/* A file of one chunk in copy A. */
static void forge_file(size_t slot, const char *text, uint32_t id, size_t chunk)
{
    uint8_t *entry = sector(1 + slot / 8) + 64 * (slot % 8);
    memcpy(entry, text, strlen(text));
    put(entry + 40, 4, id);
    put(sector(9) + 4 * chunk, 2, slot + 1);
    put(sector(0) + 40, 4, id + 1);
    list_body(0, slot / 8);
    list_body(0, 8);
}

/* A fresh store of 16 chunks in 128 sectors: copy A alone is valid. */
static void fresh(void)
{
    all_allowed();
    lend(&volume, 128 * STORE_SECTOR);
    CHECK(do_format(4, 1) == STORE_ACCEPTED + 16);
}

/* The same with `a/1` in slot 0 and `b` in slot 9, ids 1 and 2. */
static void two_files(void)
{
    fresh();
    forge_file(0, "a/1", 1, 0);
    forge_file(9, "b", 2, 1);
}

static int row_is(size_t n, const char *text, uint32_t id, uint32_t chunks)
{
    const uint8_t *row = at(&rows) + STORE_ROW * n;
    size_t length = strlen(text), i;
    if (memcmp(row + STORE_ROW_NAME, text, length) != 0)
        return 0;
    for (i = length; i < STORE_NAME_MAX; i++)
        if (row[i] != 0)
            return 0;
    return get32(row + STORE_ROW_ID) == id && get32(row + STORE_ROW_CHUNKS) == chunks;
}

/* ---- the checks */

static void sizes_and_formats(void)
{
    static const struct { size_t bytes; uint32_t size, chunks; } t[] = {
        {128 * 512, 4, 16}, {128 * 512, 1, 64}, {128 * 512, 64, 1}, {65 * 512, 1, 1}, {576 * 512, 512, 1},
        {576 * 512 + 511, 512, 1}, {2200 * 512, 1, 2048}, {200 * 512 + 3, 5, 27},
    };
    size_t i;
    part = "sizes";
    all_allowed();
    for (i = 0; i < sizeof t / sizeof t[0]; i++) {
        lend(&volume, t[i].bytes);
        memset(at(&volume), (int)(i % 2 * 0xff), t[i].bytes);
        CHECK(do_mount() == STORE_E_UNINITIALIZED);
        CHECK(do_format(t[i].size, i) == STORE_ACCEPTED + t[i].chunks);
        CHECK(do_mount() == STORE_ACCEPTED + t[i].chunks);
        CHECK(list_in("") == STORE_ACCEPTED);
        CHECK(delete_named("a") == STORE_E_NOT_FOUND);
        /* over a store: the other copy, twice */
        CHECK(do_format(t[i].size, i) == STORE_ACCEPTED + t[i].chunks);
        CHECK(do_format(t[i].size, i) == STORE_ACCEPTED + t[i].chunks);
        CHECK(do_mount() == STORE_ACCEPTED + t[i].chunks);
    }
}

static void range(void)
{
    static const size_t small[] = {0, 1, 512, 63 * 512, 63 * 512 + 511};
    size_t i;
    part = "range";
    all_allowed();
    for (i = 0; i < sizeof small / sizeof small[0]; i++) {
        lend(&volume, small[i]);
        CHECK(do_mount() == STORE_E_RANGE);
        CHECK(do_format(1, 1) == STORE_E_RANGE);
        CHECK(delete_named("a") == STORE_E_RANGE);
        CHECK(list_in("") == STORE_E_RANGE);
        /* a name's fault comes before mount's 2, short rows before the name */
        CHECK(delete_named("") == STORE_E_NAME);
        CHECK(list_in("a") == STORE_E_NAME);
        CHECK(do_list("a", 1, STORE_ROWS - 1) == STORE_E_RANGE);
    }
    lend(&volume, 64 * STORE_SECTOR);
    CHECK(do_mount() == STORE_E_UNINITIALIZED);
    CHECK(do_format(1, 1) == STORE_E_RANGE); /* no chunk */
    lend(&volume, 575 * STORE_SECTOR);
    CHECK(do_format(512, 1) == STORE_E_RANGE);
    fresh();
    CHECK(do_format(0, 1) == STORE_E_RANGE);
    CHECK(do_format(513, 1) == STORE_E_RANGE);
    CHECK(do_format(UINT32_MAX, 1) == STORE_E_RANGE);
    CHECK(do_format(65, 1) == STORE_E_RANGE);
    CHECK(do_list("", 0, STORE_ROWS - 1) == STORE_E_RANGE);
    CHECK(do_list("", 0, 0) == STORE_E_RANGE);
    CHECK(do_list("", 0, STORE_ROWS) == STORE_ACCEPTED);
}

static void names(void)
{
    static const char *const bad[] = {"", "/", "a/", "/a", "a//b", "a b", "\xc3\xa9", "a\n", "a*",
                                      "aaaaaaaaaabbbbbbbbbbccccccccccdddddddddde"};
    static const char *const bad_dirs[] = {"/", "a", "a//", "/a/", "a b/", "aaaaaaaaaabbbbbbbbbbccccccccccdddddddddd/"};
    size_t i;
    part = "names";
    two_files();
    for (i = 0; i < sizeof bad / sizeof bad[0]; i++)
        CHECK(delete_named(bad[i]) == STORE_E_NAME);
    CHECK(do_delete("a\0b", 3) == STORE_E_NAME);
    CHECK(do_delete("b\0", 2) == STORE_E_NAME);
    for (i = 0; i < sizeof bad_dirs / sizeof bad_dirs[0]; i++)
        CHECK(list_in(bad_dirs[i]) == STORE_E_NAME);
    CHECK(delete_named("aaaaaaaaaabbbbbbbbbbccccccccccdddddddddd") == STORE_E_NOT_FOUND);
    CHECK(list_in("aaaaaaaaaabbbbbbbbbbccccccccccddddddddd/") == STORE_ACCEPTED);
    CHECK(delete_named("a") == STORE_E_NOT_FOUND); /* a prefix is no name */
}

static void files(void)
{
    part = "files";
    two_files();
    CHECK(do_mount() == STORE_ACCEPTED + 16);
    CHECK(do_list("", 0, STORE_ROWS + 100) == STORE_ACCEPTED + 2);
    CHECK(row_is(0, "a/1", 1, 1));
    CHECK(row_is(1, "b", 2, 1));
    CHECK(list_in("a/") == STORE_ACCEPTED + 1);
    CHECK(row_is(0, "a/1", 1, 1));
    CHECK(list_in("b/") == STORE_ACCEPTED);
    CHECK(delete_named("b") == STORE_ACCEPTED);
    CHECK(delete_named("b") == STORE_E_NOT_FOUND);
    CHECK(list_in("") == STORE_ACCEPTED + 1);
    CHECK(delete_named("a/1") == STORE_ACCEPTED);
    CHECK(list_in("") == STORE_ACCEPTED);
}

/* 64 files with names of 40 bytes and 32 chunks each: 2,048 chunks, all taken. */
static void full(void)
{
    char text[] = "aaaaaaaaaabbbbbbbbbbccccccccccddddddddxx";
    size_t i;
    part = "full";
    all_allowed();
    lend(&volume, (64 + 2048) * STORE_SECTOR);
    CHECK(do_format(1, 1) == STORE_ACCEPTED + 2048);
    for (i = 0; i < 64; i++) {
        text[38] = (char)('0' + i / 10);
        text[39] = (char)('0' + i % 10);
        forge_file(i, text, (uint32_t)i + 1, i);
    }
    for (i = 64; i < 2048; i++) {
        put(sector(9) + 4 * i, 2, i % 64 + 1);
        put(sector(9) + 4 * i + 2, 2, i / 64);
    }
    for (i = 8; i < 24; i++)
        list_body(0, i);
    CHECK(do_mount() == STORE_ACCEPTED + 2048);
    CHECK(list_in("") == STORE_ACCEPTED + 64);
    CHECK(row_is(63, text, 64, 32));
    medium.left = STORE_WRITES_MAX - 1; /* 16 table sectors, and copy B is absent, before the stop and after it */
    CHECK(delete_named(text) == STORE_E_MEDIA);
    medium.left = STORE_WRITES_MAX;
    CHECK(delete_named(text) == STORE_ACCEPTED);
    all_allowed();
    CHECK(list_in("") == STORE_ACCEPTED + 63);
    CHECK(delete_named(text) == STORE_E_NOT_FOUND);
    medium.left = STORE_WRITES_MAX - 1;
    CHECK(do_format(1, 2) == STORE_E_MEDIA);
    medium.left = STORE_WRITES_MAX;
    CHECK(do_format(1, 2) == STORE_ACCEPTED + 2048);
    all_allowed();
    CHECK(do_format(512, 1) == STORE_ACCEPTED + 4);
}

/* A format of two_files with n writes left, of the 11 that it makes: copy A and the data stay, and until the last
 * write they are what a mount finds. */
static void format_with(uint32_t n)
{
    medium.left = n;
    CHECK(do_format(8, 5) == (n < 11 ? (uint32_t)STORE_E_MEDIA : STORE_ACCEPTED + 8));
    CHECK(memcmp(sector(0), at(&before), 32 * STORE_SECTOR) == 0);
    CHECK(memcmp(sector(64), at(&before) + 64 * STORE_SECTOR, 64 * STORE_SECTOR) == 0);
    all_allowed();
    CHECK(do_mount() == STORE_ACCEPTED + (n < 11 ? 16 : 8));
    CHECK(list_in("") == STORE_ACCEPTED + (n < 11 ? 2 : 0));
    CHECK(n == 11 || (row_is(0, "a/1", 1, 1) && row_is(1, "b", 2, 1)));
}

/* A stop after n writes: the old store, until all are done. Copy B is absent, so a delete writes
 * its header, the 9 sectors of its body and the header again. */
static void stops(void)
{
    uint32_t n;
    part = "stops";
    for (n = 0; n <= 11; n++) {
        two_files();
        medium.left = n;
        CHECK(delete_named("a/1") == (n < 11 ? STORE_E_MEDIA : STORE_ACCEPTED));
        all_allowed();
        CHECK(do_mount() == STORE_ACCEPTED + 16);
        CHECK(list_in("") == STORE_ACCEPTED + (n < 11 ? 2 : 1));
        two_files();
        format_with(n);
    }
}

/* 02, S-7: a bench tool wrote one header to both places, beside other bodies. A counts, so a format writes B. */
static void one_header_twice(void)
{
    uint32_t n;
    part = "one header twice";
    for (n = 0; n <= 11; n++) {
        two_files();
        memcpy(sector(32), sector(0), STORE_SECTOR);
        format_with(n);
    }
}

static void unreadable(void)
{
    part = "unreadable";
    two_files();
    medium.unreadable = 0;
    CHECK(do_mount() == STORE_E_MEDIA);
    CHECK(do_format(4, 1) == STORE_E_MEDIA && same(&before, &volume));
    CHECK(delete_named("b") == STORE_E_MEDIA && same(&before, &volume));
    CHECK(delete_named("/") == STORE_E_NAME);
    CHECK(list_in("") == STORE_E_MEDIA);
    medium.unreadable = 32;
    CHECK(do_mount() == STORE_E_MEDIA);
    medium.unreadable = 2; /* the directory's second sector, with slot 9: a/1 is found before it */
    CHECK(do_mount() == STORE_ACCEPTED + 16);
    CHECK(list_in("") == STORE_E_MEDIA);
    CHECK(row_is(0, "a/1", 1, 1) && rows_as_lent_from(STORE_ROW));
    CHECK(delete_named("b") == STORE_E_MEDIA && same(&before, &volume));
    medium.unreadable = 9; /* the table */
    CHECK(list_in("") == STORE_E_MEDIA);
    CHECK(rows_as_lent_from(0));
    medium.unreadable = 64; /* data: none of these calls reads it */
    CHECK(list_in("") == STORE_ACCEPTED + 2);
    CHECK(delete_named("b") == STORE_ACCEPTED);
    fresh();
    medium.unreadable = 1; /* a format may write what cannot be read */
    CHECK(do_format(4, 2) == STORE_ACCEPTED + 16);
    CHECK(do_format(4, 2) == STORE_ACCEPTED + 16);
}

static void damaged_and_foreign(void)
{
    part = "damaged and foreign";
    all_allowed();
    lend(&volume, 128 * STORE_SECTOR);
    CHECK(do_mount() == STORE_E_UNINITIALIZED);
    CHECK(delete_named("a") == STORE_E_UNINITIALIZED);
    CHECK(list_in("") == STORE_E_UNINITIALIZED);
    two_files();
    sector(0)[100] ^= 1; /* the only header fails its checksum */
    CHECK(do_mount() == STORE_E_CORRUPT);
    CHECK(delete_named("b") == STORE_E_CORRUPT && same(&before, &volume));
    CHECK(list_in("") == STORE_E_CORRUPT && rows_as_lent_from(0));
    CHECK(do_format(4, 1) == STORE_ACCEPTED + 16);
    two_files();
    sector(0)[16] = 2; /* version 2 */
    seal(0);
    CHECK(do_mount() == STORE_E_FOREIGN);
    CHECK(do_format(4, 1) == STORE_E_FOREIGN);
    CHECK(delete_named("b") == STORE_E_FOREIGN);
    CHECK(list_in("") == STORE_E_FOREIGN);
    two_files();
    memcpy(sector(32), sector(0), STORE_SECTOR);
    put(sector(32) + 52, 4, 5); /* copy B: 16 chunks of 5 sectors do not fit */
    seal(32);
    CHECK(do_mount() == STORE_E_FOREIGN);
    two_files();
    sector(2)[64 + 50] = 1; /* the directory's second sector fails its checksum: the first row stays */
    CHECK(do_mount() == STORE_ACCEPTED + 16);
    CHECK(list_in("") == STORE_E_CORRUPT);
    CHECK(row_is(0, "a/1", 1, 1) && rows_as_lent_from(STORE_ROW));
    CHECK(delete_named("b") == STORE_E_CORRUPT && same(&before, &volume));
    two_files();
    put(sector(2) + 64 + 40, 4, 0); /* an entry with id 0, its checksum listed */
    list_body(0, 1);
    CHECK(list_in("") == STORE_E_CORRUPT);
    CHECK(delete_named("b") == STORE_E_CORRUPT);
    two_files();
    put(sector(9) + 8, 2, 0x7f); /* a link of slot 126, its checksum listed */
    list_body(0, 8);
    CHECK(list_in("") == STORE_E_CORRUPT && rows_as_lent_from(0));
}

static void spent(void)
{
    part = "spent";
    two_files();
    put(sector(0) + 32, 8, UINT64_MAX); /* the last generation */
    seal(0);
    CHECK(do_mount() == STORE_ACCEPTED + 16);
    CHECK(list_in("") == STORE_ACCEPTED + 2);
    CHECK(delete_named("b") == STORE_E_SPENT);
    CHECK(delete_named("c") == STORE_E_NOT_FOUND);
    CHECK(do_format(4, 1) == STORE_E_SPENT);
    CHECK(do_format(65, 1) == STORE_E_RANGE); /* 0 chunks come first */
    put(sector(0) + 32, 8, UINT64_MAX - 1);
    seal(0);
    CHECK(delete_named("b") == STORE_ACCEPTED);
    CHECK(delete_named("a/1") == STORE_E_SPENT);
}

void rules(void)
{
    CHECK(crc32((const uint8_t *)"123456789", 9) == 0xcbf43926u);
    sizes_and_formats();
    range();
    names();
    files();
    full();
    stops();
    one_header_twice();
    unreadable();
    damaged_and_foreign();
    spent();
    check_every_refusal();
}
