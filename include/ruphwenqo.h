/*
 * lower: from a frame declaration, written as a record, to the lines of its C++ parser.
 * lower_all: the same for every packet and struct of the record, in one call.
 *
 * Link the static library that `host/library` writes, target/staticlib/liblowering.a. It needs no library but C's, no heap
 * and no start-up code. The functions keep no state, so that several threads may call them at once.
 */
#ifndef RUPHWENQO_H
#define RUPHWENQO_H

#include <stddef.h>
#include <stdint.h>

#ifdef __cplusplus
extern "C" {
#endif

/* The longest record that is read, and a buffer that holds the lines of every record: none needs more, which is proved. */
#define RUPHWENQO_RECORD_MAX 16384
#define RUPHWENQO_LINES_ROOM 65536

/* A buffer that holds what lower_all gives for every record: 32 sections of at most 8,192 bytes, each behind a target line of at most
 * 43. None needs more, which is proved. */
#define RUPHWENQO_ALL_ROOM 263520

/*
 * Lowers the record_len bytes at record into the out_len bytes at out.
 *
 * The number is the answer times 2^32 plus the length.
 *   answer 0       the lines, with a newline behind each, are the first `length` bytes of out; the bytes behind them are unchanged.
 *                  There is no 0 byte at the end. A length of 0 is an accepted record that has no lines. Two bit fields of closed enums
 *                  compile only with the head line `raw=numbered`: docs/RECORD.md, 'raw'. Counts and element sizes of 32 bits or more
 *                  want the head line `products=divide`, or a frame can take its parser past its end: docs/RECORD.md, 'products'.
 *   answer 1 to 17 the first refusal that the record meets; the length is 0 and no byte of out is changed. They are tested in the order
 *                  1, 2, 16, 3 to 8, 17, 9, each over the whole record, then 10 to 14 field by field, 15 last:
 *
 *    1  the record is empty or longer than 16,384 bytes
 *    2  a line breaks the record form
 *    3  more than 32 declarations, or one with more than 64 fields
 *    4  two declarations have one name
 *    5  a type or parent is not an earlier declaration, a parent is no packet or struct, or a fixed enum's type is no enum
 *    6  a width, count, padding or mod number is outside its range
 *    7  a static size, a total size, or the sum of a declaration's static field sizes exceeds 2^31 - 1 bits
 *    8  an array's elements have a static size that is not a positive whole number of bytes, or an optional scalar or enum has
 *       a width that is no multiple of 8
 *    9  the target is no packet or struct of the record
 *   10  a field that is optional or no bit field, or the end, comes while a chunk is open and unchecked lines are pending
 *   11  a typedef of a non-enum, a payload or a body, without a condition, comes while a chunk is open and nothing is pending
 *   12  a chunk reaches an octet boundary with more than 64 bits
 *   13  an optional field is neither scalar nor typedef
 *   14  a later field is not static, where a trailing size is needed. With the head line `trailing=padded` an array with a padding
 *       counts as static: docs/RECORD.md, 'trailing'
 *   15  the lines are longer than out_len bytes
 *   16  a name of the record is a keyword of C++17, as `register` or `xor`: docs/RECORD.md lists the 84 words
 *   17  a line `bits` is not its declaration's own size, without its parents and its payload: docs/RECORD.md, 'bits'
 *
 * The two ranges must not overlap, and must stay as they are during the call. Neither pointer may be null, also where its length is 0.
 */
uint64_t lower(const uint8_t *record, size_t record_len, uint8_t *out, size_t out_len);

/*
 * Lowers every packet and struct of the record, whichever of them its head asks for. The number, the buffer and what must hold of the
 * two ranges are as of lower.
 *   answer 0       the first `length` bytes of out are the sections of the packets and structs, in file order, joined: a line
 *                  `// target=NAME`, and behind it the lines that lower gives for that target, which may be none. Enums, checksums and
 *                  custom fields have no section.
 *   answer 1 to 9, 16, 17
 *                  as of lower, in the same order, before any target is lowered. The head's target must be a packet or struct (9).
 *   answer 10 to 14, 19
 *                  of the first packet or struct, in file order, that is refused: 10 to 14 as of lower, then
 *   19  the lines behind its target line have more than 8,192 bytes
 *   answer 15      no target is refused, and all sections together, with their target lines, are longer than out_len bytes; never
 *                  with RUPHWENQO_ALL_ROOM bytes. 18 is not used.
 */
uint64_t lower_all(const uint8_t *record, size_t record_len, uint8_t *out, size_t out_len);

/* 0, or the number of the refusal. */
static inline uint32_t ruphwenqo_answer(uint64_t number)
{
    return (uint32_t)(number >> 32);
}

/* How many bytes the lines have. */
static inline size_t ruphwenqo_length(uint64_t number)
{
    return (size_t)(number & 0xffffffffu);
}

#ifdef __cplusplus
}
#endif

#endif
