/* What the Rust answered for the same bytes: README.md says how recorded.txt is made. */
#include "calls.h"

#include <inttypes.h>
#include <stdio.h>
#include <stdlib.h>
#include <string.h>

enum { LINE = 1024 };

static struct lent kept;

/* FNV-1a of 64 bits. Not a CRC-32: that of a volume does not change with what stands in a sector
 * that ends in its own CRC-32. */
static uint64_t sum(const struct lent *l)
{
    uint64_t h = UINT64_C(0xcbf29ce484222325);
    size_t i;
    for (i = 0; i < l->length; i++)
        h = (h ^ at(l)[i]) * UINT64_C(0x100000001b3);
    return h;
}

static size_t unhex(const char *text, uint8_t *to)
{
    size_t n = 0;
    unsigned byte;
    if (strcmp(text, "-") != 0)
        for (; sscanf(text + 2 * n, "%2x", &byte) == 1; n++)
            to[n] = (uint8_t)byte;
    return n;
}

static const char *after_colon(const char *line)
{
    const char *p = strstr(line, " : ");
    return p == NULL ? "" : p + 3;
}

/* One line; 1 where it is a call, -1 where it has no form. */
static int replay(const char *line)
{
    static char word[16], text[LINE];
    static uint8_t bytes[LINE];
    uint32_t code, want, size;
    uint64_t seed, volume_sum, rows_sum = 0;
    size_t offset, length, n, rows_length = 0;
    unsigned byte;
    if (sscanf(line, "volume %zu", &length) == 1) {
        lend(&volume, length);
        return 0;
    }
    if (sscanf(line, "at %zu %1000s", &offset, text) == 2) {
        n = unhex(text, bytes);
        if (offset + n > volume.length)
            return -1;
        memcpy(at(&volume) + offset, bytes, n);
        return 0;
    }
    if (sscanf(line, "fill %zu %zu %u", &offset, &length, &byte) == 3) {
        if (offset + length > volume.length)
            return -1;
        memset(at(&volume) + offset, (int)byte, length);
        return 0;
    }
    if (strcmp(line, "keep\n") == 0) {
        copy_to(&kept, &volume);
        return 0;
    }
    if (strcmp(line, "back\n") == 0) {
        copy_to(&volume, &kept);
        return 0;
    }
    if (sscanf(line, "%15s %" SCNu32 " %" SCNu64 " %" SCNu64, word, &medium.left, &medium.unreadable, &medium.entropy) != 4)
        return -1;
    if (strcmp(word, "mount") == 0) {
        code = do_mount();
    } else if (strcmp(word, "format") == 0) {
        if (sscanf(line, "%*s %*s %*s %*s %" SCNu32 " %" SCNu64, &size, &seed) != 2)
            return -1;
        code = do_format(size, seed);
    } else if (strcmp(word, "delete") == 0) {
        if (sscanf(line, "%*s %*s %*s %*s %1000s", text) != 1)
            return -1;
        n = unhex(text, bytes);
        code = do_delete(bytes, n);
    } else if (strcmp(word, "list") == 0) {
        if (sscanf(line, "%*s %*s %*s %*s %1000s %zu", text, &rows_length) != 2)
            return -1;
        n = unhex(text, bytes);
        code = do_list(bytes, n, rows_length);
    } else {
        return -1;
    }
    n = (size_t)sscanf(after_colon(line), "%" SCNu32 " %" SCNx64 " %" SCNx64, &want, &volume_sum, &rows_sum);
    if (n != (strcmp(word, "list") == 0 ? 3u : 2u))
        return -1;
    CHECK(code == want);
    CHECK(sum(&volume) == volume_sum);
    CHECK(n == 2 || sum(&rows) == rows_sum);
    return 1;
}

long recorded(const char *path)
{
    static char line[LINE], where[64];
    FILE *f = fopen(path, "r");
    long calls = 0, lines = 0, all = -1, before_line;
    int r;
    if (f == NULL) {
        printf("%s: cannot be read\n", path);
        exit(2);
    }
    part = where;
    while (fgets(line, LINE, f) != NULL) {
        snprintf(where, sizeof where, "recorded.txt:%ld", ++lines);
        if (sscanf(line, "end %ld", &all) == 1)
            break;
        before_line = failures;
        r = replay(line);
        CHECK(r >= 0);
        calls += r > 0;
        if (failures != before_line)
            printf("  %s", line);
    }
    CHECK(calls == all && calls >= 300);
    fclose(f);
    free(kept.block);
    return calls;
}
