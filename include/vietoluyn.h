/* Vietoluyn from C: hides words from a conjunction of linear constraints modulo 2^p.
 *
 * Link with target/staticlib/libhide.a, which `outside/build.sh library` proves and builds.
 *
 * A sheet in bytes, all numbers big-endian: four bytes with the count of bytes that follow; version (1), width p
 * (1 to 32), number of words n (1 to 16), number of constraints m (at most 64), one byte each; then m constraints. A
 * constraint is a kind byte (0 equal, 1 different, 2 at most, 3 below), the left term and the right term; a term is n
 * coefficients and a constant, four bytes each, all below 2^p. The whole is VIETOLUYN_SHEET_SIZE(n, m) bytes. At most 32
 * constraints are equalities, and at most 32 are not.
 */
#ifndef VIETOLUYN_H
#define VIETOLUYN_H

#include <stddef.h>
#include <stdint.h>

#ifdef __cplusplus
extern "C" {
#endif

/* The size of a sheet of n words and m constraints. */
#define VIETOLUYN_SHEET_SIZE(n, m) (8 + (size_t)(m) * (1 + 8 * ((size_t)(n) + 1)))

/* The length that the sheet buffer must have for an input of n words, whatever its constraints, and for any input. */
#define VIETOLUYN_ROOM(n) VIETOLUYN_SHEET_SIZE(n, 48)
#define VIETOLUYN_ROOM_ANY VIETOLUYN_ROOM(16)

/* Why a call is refused. The lowest number that applies is given. */
enum vietoluyn_refusal {
    VIETOLUYN_ACCEPTED = 0,
    VIETOLUYN_COUNT = 1,         /* fewer than 8 bytes, or the count differs from the bytes after it */
    VIETOLUYN_VERSION = 2,       /* version is not 1 */
    VIETOLUYN_WIDTH = 3,         /* p is 0 or above 32 */
    VIETOLUYN_WORDS = 4,         /* n is 0 or above 16 */
    VIETOLUYN_SIZE = 5,          /* m above 64, or the size differs from the formula */
    VIETOLUYN_KIND = 6,          /* a kind above 3 */
    VIETOLUYN_NUMBER = 7,        /* a number that is 2^p or more */
    VIETOLUYN_TOO_MANY = 8,      /* more than 32 equalities, or more than 32 others */
    VIETOLUYN_LIST = 9,          /* a listed number that is n or more, or listed twice */
    VIETOLUYN_SHEET_BUFFER = 10, /* sheet buffer shorter than VIETOLUYN_ROOM(n) */
    VIETOLUYN_FATE_BUFFER = 11   /* fate buffer shorter than the list */
};

/* What became of a listed word. */
enum vietoluyn_fate {
    VIETOLUYN_LEFT = 0,   /* it may still occur in the answer */
    VIETOLUYN_ABSENT = 1, /* hidden: no constraint had it */
    VIETOLUYN_LAYER1 = 2, /* hidden by an equality */
    VIETOLUYN_LAYER2 = 3  /* hidden because some value always remains */
};

/* A refusal's number, with zeros; or 0, the answer's length in bytes, and the number of walks over the list. */
struct vietoluyn_answer {
    uint64_t refused;
    uint64_t length;
    uint64_t walks;
};

/* Hides the listed words. The list is a string of bytes, each a word's number from 0. An accepted call writes the answer,
 * a sheet of the same p and n, to the front of `out`, and one fate per listed word, in list order, to the front of
 * `fates`; bytes beyond these stay. The answer holds exactly when some values of the words whose fate is not 0 make the
 * input hold. A refused call changes neither buffer.
 *
 * Each pointer must be good for its length, `out` and `fates` may overlap nothing else, and no pointer may be NULL, even
 * for a length of 0.
 */
struct vietoluyn_answer vietoluyn_hide(const uint8_t *sheet, size_t sheet_length, const uint8_t *list, size_t list_length,
                                       uint8_t *out, size_t out_length, uint8_t *fates, size_t fates_length);

/* Tidies equalities alone, for benchmarks. `rows` is a block of 544 numbers, 32 rows of 17: the coefficients of sixteen
 * words and a constant, whose sum the row says is 0. The first `eqs` rows become the reduced Howell form, or the one row
 * 1 = 0 where they have no solution; returns how many rows there are then. Answers 255 and changes nothing unless
 * `rows_length` is 544, `eqs` at most 32, p 1 to 32 and the numbers below 2^p.
 */
uint64_t vietoluyn_tidy(uint32_t *rows, size_t rows_length, uint64_t eqs, uint32_t p);

#ifdef __cplusplus
}
#endif

#endif
