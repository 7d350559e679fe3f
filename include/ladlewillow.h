/*
 * The save data of a cartridge whose flash chip is wear-levelled: format, open, read, write and commit, over an image of the
 * whole chip that the caller holds in memory.
 *
 * A chip is 128 KiB, 512 KiB or 1 MiB long. The image is its bytes as they lie on the chip; what is read and written is the
 * save, which is shorter (lw_len) and whose blocks lie anywhere in the image. lw_open finds out where they lie and gives a
 * mapping; each later call takes the mapping that the call before gave, and gives the one to go on with.
 *
 * The usual order: lw_open; then lw_read and lw_write as often as wanted; then lw_commit. A write changes the image at once,
 * but only a commit records it: an image that was written to and not committed may be refused by lw_open, or open without
 * what was written.
 *
 * Who owns what. Every byte is the caller's. Image, bytes and buffer are lent for the time of a call and nothing of them is
 * kept; mappings, answers and outcomes are passed by value. There is no state between calls, nothing is allocated, and
 * nothing is to be freed. A mapping may be copied and thrown away at will.
 *
 * Every call takes any length, any mapping and any place: what does not make sense is refused with a number (lw_len, which
 * has none to give, is 0), and a refusal stores nothing. These alone are the caller's to keep:
 *   - a pointer with its count is that many readable bytes (and writable ones, where it is not const); a pointer is not
 *     NULL, even with the count 0;
 *   - image and buffer, or image and bytes, of one call do not overlap;
 *   - no other thread stores into image or bytes during a call, nor looks at image or buffer while a call may store into it;
 *   - the mapping is the image's latest: the one that the last accepted open, write or commit of this image gave, with no
 *     format and nobody else's store since. A stale mapping is not found out if it fits.
 *
 * Linking: `make lib`, then cc prog.c -Iinclude target/staticlib/libffi.a
 */
#ifndef LADLEWILLOW_H
#define LADLEWILLOW_H

#include <stddef.h>
#include <stdint.h>

#ifdef __cplusplus
extern "C" {
#endif

/*
 * What a mapping holds of one block: the number of the physical block of the image that it lies in, a count, and a condition.
 * The count is the map's own, as open finds it: a journal entry gives a block another physical block and the count that this
 * one had, raised by one, and a write raises it where it puts a free block in use whose count is 0. A free block is not in use
 * and reads as 0xFF; a changed one was visited by a write since the last commit.
 */
typedef struct { uint8_t physical, count, condition; } lw_block;   /* condition: 0 free, 1 clean, 2 changed */

/*
 * A mapping: the length of the image that it belongs to; a record for each block of the save, and for the reserved block, which
 * comes after them; and the tickets (check bytes) of their sectors, eight to a block. Records past these and their tickets, and
 * on a 1 MiB chip all tickets, are ignored and come back as they went in, but for a condition byte above 2, which no call but
 * lw_len takes. A caller has no need to look inside, and should build none of its own.
 */
typedef struct { size_t len; lw_block blocks[256]; uint8_t tickets[2048]; } lw_mapping;

/*
 * How a call ended, and the place that it names (0 where the table says none).
 *
 *   number  given exactly when                                             place
 *    0      done                                                           none
 *    1      the image's length is not one of the three (open, format)      none
 *    2      the map's sum is wrong (open)                                  none
 *    3      a physical number is 0, past the chip or repeated (open)       first such block
 *    4      the two copies in a journal slot differ (open)                 slot
 *    5      a journal entry does not fit the map that it comes to (open)   slot
 *    6      the reserved block is in use (open)                            that block
 *    7      a ticket of a block in use is wrong (open, not on 1 MiB)       8 * block + sector
 *    8      the mapping does not fit the image: another length, physical   none
 *           numbers that are not each used once, a reserved block that is
 *           in use, or a condition byte above 2 in any of the 256 records
 *           (read, write, commit)
 *    9      the range does not lie in the save (read, write)               none
 *   10      a count above 127 on a 1 MiB chip, of a free block too         first such block
 *           (commit)
 *
 * Where more than one is true, open gives the one that its steps come to first (they go 1, 2, 3, then 4 and 5 slot by slot,
 * then 6, then 7); read and write try 8 before 9, commit 8 before 10.
 */
typedef struct { uint8_t number; size_t place; } lw_answer;

/* An answer, and the mapping to go on with. */
typedef struct { lw_answer answer; lw_mapping mapping; } lw_outcome;

/* The 16-bit sum (CRC-16 as Modbus has it) of n bytes; 0xFFFF of none. */
uint16_t   lw_crc16(const uint8_t *bytes, size_t n);

/*
 * Formats the image of n bytes: its first block is made anew, so that all blocks of the save are free; the rest is not stored
 * to. Answers 0, or 1 with the image as it was.
 */
lw_answer  lw_format(uint8_t *image, size_t n);

/*
 * Opens the image of n bytes; stores nothing. Answers 0 with the mapping to go on with, in which no block is changed, or 1 to 7
 * with the blank mapping (length 0, all bytes zero), which lw_read, lw_write and lw_commit refuse with 8 and whose lw_len is 0.
 */
lw_outcome lw_open(const uint8_t *image, size_t n);

/*
 * The bytes of the save that the mapping belongs to; 0 for a length that is not one of the three, as the blank mapping's.
 * Looks at the length alone: whether the mapping fits is not asked.
 */
size_t     lw_len(lw_mapping m);

/*
 * Reads count bytes of the save from place on into buf. Answers 0, or 8 or 9 with buf as it was. The mapping comes back as it
 * went in, either way. Tickets are not checked again.
 */
lw_outcome lw_read(const uint8_t *image, size_t n, lw_mapping m, size_t place, uint8_t *buf, size_t count);

/*
 * Writes count bytes into the save from place on, at once, in the image. Answers 0 with the mapping to go on with, or 8 or 9
 * with image and mapping as they were. A free block that it comes to is filled with 0xFF first. Even an empty write visits a
 * sector if place is not a multiple of 512: the sector's block is in use and changed afterwards.
 */
lw_outcome lw_write(uint8_t *image, size_t n, lw_mapping m, size_t place, const uint8_t *bytes, size_t count);

/*
 * Records what was written: new tickets for changed blocks (128 and 512 KiB), and in the first block of the image the map from
 * the mapping, its sum, and an erased journal. The map's header and padding stay, and no other block is stored to. Answers 0
 * with the mapping to go on with, in which no block is changed, or 8 or 10 with image and mapping as they were.
 */
lw_outcome lw_commit(uint8_t *image, size_t n, lw_mapping m);

#ifdef __cplusplus
}
#endif

#endif
