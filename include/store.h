/*
 * store.h - a store of append-only files in one volume of 512-byte sectors.
 *
 * Four calls for firmware: mount, format, delete, list. The functions are
 * compiled from proved code (crates/firmware); this header is kept by hand.
 * Link target/staticlib/libfirmware.a (made by `tools/archive firmware`).
 *
 * What the archive asks of the program that links it. tests/firmware reads it
 * off the machine code, and fails where more is asked than stands here:
 *   - memcpy and memset, and nothing else: no heap, no global state, no I/O;
 *     19 KB of code and constants.
 *   - x86-64 with SSE2, called as the System V ABI has it. An interrupt handler
 *     that uses xmm registers saves them.
 *   - The red zone. A call may keep data in the 128 bytes below the stack
 *     pointer, and no flag of your build changes that. An interrupt handler
 *     must not run on the stack of the code that makes a call, unless its
 *     entry first steps over those 128 bytes: give handlers a stack of their
 *     own, or make the calls with interrupts off.
 *   - Stack, at most, for any input, without what memcpy and memset use: mount
 *     3,136 bytes, format 992, delete 5,280, list 3,504.
 *
 * The whole volume is in memory. A medium that is not has to be read into an
 * array before a call and its changed sectors written back after it. What is
 * said of a power cut holds then only if they are written in the order of the
 * call's own writes, which the call does not tell; with 1, 2, 3, .. for
 * `writes_left` on copies of the volume it shows one after the other.
 *
 * A call takes the whole volume as bytes, the three numbers of the medium and
 * its own arguments. It keeps nothing between calls. Each byte array is a
 * pointer and a length in bytes. Pointers must not be NULL, also where the
 * length is 0, and an array that a call writes must not overlap another.
 * Everything else is checked by the call: any bytes, any numbers, any names.
 *
 * Every call returns one number:
 *   1 to 12          refused; see enum store_refusal
 *   256 + n          accepted, with the answer n
 */
#ifndef STORE_H
#define STORE_H

#include <stddef.h>
#include <stdint.h>

#ifdef __cplusplus
extern "C" {
#endif

/* Bytes in a sector. A volume is its whole sectors; bytes past the last whole
 * sector are never read or written. A store needs 64 sectors for itself. */
#define STORE_SECTOR 512u

/* Bytes in a row of store_list, and the bytes that it must be lent: 64 rows. */
#define STORE_ROW 48u
#define STORE_ROWS 3072u

/* Where the fields of a row stand. */
#define STORE_ROW_NAME 0u    /* 40 bytes: the name, then zeros */
#define STORE_ROW_ID 40u     /* file id, 32 bits, little-endian */
#define STORE_ROW_CHUNKS 44u /* chunks of the file, 32 bits, little-endian */

/* Longest name or directory, in bytes. */
#define STORE_NAME_MAX 40u

/* An accepted call returns this number plus its answer. */
#define STORE_ACCEPTED 256u

/* Sector writes that a call makes at most, for any volume and arguments: T + 10,
 * where T is the chunks / 128, rounded up, so 11 to 26. With as many left no
 * call is refused for want of one; more change nothing. */
#define STORE_WRITES_MAX 26u

/* For `unreadable`: every sector can be read. */
#define STORE_ALL_READABLE UINT64_MAX

/* For `writes_left`: no write is refused. */
#define STORE_ALL_WRITES UINT32_MAX

/* Why a call was refused. The calls below do not give the numbers marked (-);
 * they belong to calls that C does not have. */
enum store_refusal {
    STORE_E_NAME = 1,          /* the name or directory breaks its rule */
    STORE_E_RANGE = 2,         /* a number or length out of range: chunk size
                                  not 1 to 512; volume under 64 sectors, or
                                  without room for one chunk; rows under
                                  STORE_ROWS */
    STORE_E_HANDLE = 3,        /* (-) a handle that no call gave */
    STORE_E_MEDIA = 4,         /* a sector read or write was refused */
    STORE_E_UNINITIALIZED = 5, /* no store: neither header has the magic */
    STORE_E_FOREIGN = 6,       /* a header is sealed, but not of this format */
    STORE_E_CORRUPT = 7,       /* a checksum, entry or link fails, or no header
                                  is valid and one is damaged */
    STORE_E_EXISTS = 8,        /* (-) the name is taken */
    STORE_E_NOT_FOUND = 9,     /* no file has the name */
    STORE_E_FULL = 10,         /* (-) no slot or chunk is free */
    STORE_E_STALE = 11,        /* (-) a handle that is no longer current */
    STORE_E_SPENT = 12         /* the generation is 2^64 - 1: none is left */
};

/*
 * The numbers of the medium, in every call:
 *   writes_left   sector writes that the medium still takes. A write past them
 *                 is refused (STORE_E_MEDIA) and changes nothing; the writes
 *                 before it stand. n here is a power cut after n writes.
 *   unreadable    one sector that cannot be read, or any number that is no
 *                 sector of the volume. It can be written.
 *   entropy       mixed into the store id by store_format.
 *
 * A name has 1 to 40 bytes of A-Z a-z 0-9 . _ - and '/', and no empty segment:
 * not at its start, its end or between two '/'. A directory is empty (all
 * files) or a name followed by '/', 40 bytes with it. Lengths are given: no
 * zero byte ends a name.
 */

/* Tests that the volume holds a store. Writes nothing. Where the newer of the
 * two headers is damaged, the older one is taken and the answer does not tell:
 * the files are then those of before the last change of directory or table.
 * Accepted: 256 + its data chunks (1 to 2,048).
 * Refused: 2, 4, 5, 6, 7. */
uint32_t store_mount(const uint8_t *volume, size_t volume_length,
                     uint32_t writes_left, uint64_t unreadable,
                     uint64_t entropy);

/* Makes a new, empty store with chunks of `size` sectors (1 to 512), in place
 * of any store there; `seed` and `entropy` make its id. At most T + 10 sector
 * writes, with the T of the new store. The old store goes with the last of them:
 * cut before it, or refused, a format leaves the store that a mount found before,
 * if it found one.
 * Accepted: 256 + its data chunks (1 to 2,048).
 * Refused: 2, 4, 6, 12. */
uint32_t store_format(uint8_t *volume, size_t volume_length,
                      uint32_t writes_left, uint64_t unreadable,
                      uint64_t entropy, uint32_t size, uint64_t seed);

/* Mounts, and deletes the file of that name. At most T + 10 sector writes.
 * Accepted: 256.
 * Refused: 1 before any other, then mount's numbers, then 4, 7, 9, 12. */
uint32_t store_delete(uint8_t *volume, size_t volume_length,
                      uint32_t writes_left, uint64_t unreadable,
                      uint64_t entropy,
                      const uint8_t *name, size_t name_length);

/* Mounts, and writes one row of STORE_ROW bytes for each file whose name
 * begins with `directory`, in the order of the store's slots. Bytes of `rows`
 * past the last row stay as they were. Writes nothing to the volume.
 * Accepted: 256 + the number of rows (0 to 64).
 * Refused: 2 if rows_length is under STORE_ROWS, then 1, then mount's numbers,
 * then 4, 7. Rows made before a refusal by 4 or 7 stay in `rows`. */
uint32_t store_list(const uint8_t *volume, size_t volume_length,
                    uint32_t writes_left, uint64_t unreadable,
                    uint64_t entropy,
                    const uint8_t *directory, size_t directory_length,
                    uint8_t *rows, size_t rows_length);

#ifdef __cplusplus
}
#endif

#endif /* STORE_H */
