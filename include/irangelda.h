/*
 * Irangelda: a gate in front of a graphics chip.
 *
 * A program hands the driver a batch of register writes. irangelda_read looks at every word of it, and changes the register state
 * only if the whole batch is permitted. irangelda_write gives a state back as a batch, and irangelda_size says beforehand how many
 * words that batch has; irangelda_list gives the state as text, and irangelda_read_listing gives the state of such a text.
 * irangelda_which_grant says which grant admits the address in a register.
 *
 * Every buffer is bytes and every length is in bytes. A word is 32 bits, its lowest byte first. No alignment is needed.
 *
 *   batch    words, cut into packets. Changed by no call.
 *   grants   0 to 64 grants of five words each: role (1 target, 2 first scaler, 3 second scaler), start, length, reach, memory.
 *            Start + length is at most 2^32 and reach at least 1. Reach is all that the chip may touch from an address on, under
 *            every register value that the gate permits; docs/DRIVER.md says how large that is. Memory says which of the chip's two
 *            memories these addresses are in: 0 or 1 for the target, as bits 21:20 of 01.00.51 number them, and 0 for a scaler.
 *            Changed by no call.
 *   state    101 values, then 101 marks: 808 bytes. A mark is 0 or 1, and an unmarked value is 0. All bytes 0 is the empty state.
 *            Changed by irangelda_read and irangelda_read_listing alone, and only if they answer reason 0.
 *   out      the writer's words or the lister's text, from the first byte on. Bytes past the end of what is written stay as they
 *            were.
 *   listing  a text such as the lister makes, without a 0 byte at the end. Changed by no call.
 *
 * A word buffer (batch, grants, state, and the writer's out) has a length that is a multiple of 4. No buffer may be longer than
 * 65,536 bytes. A call that is handed another length answers reason 13.
 *
 * The buffers of one call must not overlap. A pointer may be null if its length is 0, and only then; else all the bytes must be
 * there, for the whole call, and no one else may write them meanwhile: hand over a private copy, not memory that the program can
 * still reach.
 *
 * A refusal (any reason but 0) leaves every byte of every buffer as it was.
 *
 * A change of programs: the words of irangelda_write lead from the empty state to a program's state. On a chip that other programs
 * have used since it was reset, they leave exactly that state only if the program has written every register that was written
 * there, by anyone; a register that it has not written keeps the other's value, which may be the address of the other's memory. So
 * start each program from a state that marks every cell, with addresses of its own (docs/DRIVER.md shows one), or reset the chip
 * between programs. The words go in whole, on an idle chip, before the program's next batch; nobody else writes these registers.
 * Before a grant is taken away, a program with such a full state gets its turn, or the chip is reset: it may still hold the address.
 *
 * The calls keep nothing from one to the next. They need no heap, no locks and no more than 4 KiB of stack, and may run at the same
 * time as long as no buffer that one of them changes is lent to another.
 *
 * The archive is compiled as ordinary programs for x86-64 are: at a call the stack pointer is a multiple of 16, as the calling
 * convention asks, and the code may use the SSE registers and the 128 bytes below the stack pointer. Code that runs where this is
 * not given, as in a kernel, has to see to all three around a call.
 *
 * Code that has uint8_t, uint32_t, uint64_t and size_t from elsewhere (a kernel, from its own types header) defines
 * IRANGELDA_OWN_TYPES before it includes this file, which then includes nothing.
 */
#ifndef IRANGELDA_H
#define IRANGELDA_H

#ifndef IRANGELDA_OWN_TYPES
#include <stddef.h>
#include <stdint.h>
#endif

#ifdef __cplusplus
extern "C" {
#endif

/* Sizes, in bytes unless they say otherwise. */
#define IRANGELDA_CELLS 101u                 /* registers; the state has a value and a mark for each */
#define IRANGELDA_STATE_BYTES 808u           /* 202 words */
#define IRANGELDA_GRANT_BYTES 20u            /* one grant */
#define IRANGELDA_GRANTS_MAX 64u             /* grants in a list, at most */
#define IRANGELDA_GRANTS_BYTES_MAX 1280u
#define IRANGELDA_NO_GRANT 64u               /* irangelda_which_grant's place where there is none: grants are numbered 0 to 63 */
#define IRANGELDA_WRITE_WORDS_ENOUGH 184u    /* room that always suffices for irangelda_write, in words */
#define IRANGELDA_WRITE_BYTES_ENOUGH 736u    /* the same in bytes */
#define IRANGELDA_LIST_BYTES_ENOUGH 2568u    /* room that always suffices for irangelda_list */
#define IRANGELDA_BUFFER_BYTES_MAX 65536u    /* any buffer, at most */

/* The role of a grant. */
#define IRANGELDA_ROLE_TARGET 1u
#define IRANGELDA_ROLE_FIRST_SCALER 2u
#define IRANGELDA_ROLE_SECOND_SCALER 3u

/* The memory of a grant: the local frame buffer, or the dynamic one in system memory, which only a target may lie in. */
#define IRANGELDA_MEMORY_LOCAL 0u
#define IRANGELDA_MEMORY_DYNAMIC 1u

/*
 * The answer of each call is one number, place * 256 + reason. Places in a batch are counted in words, from 0; places in a listing
 * in bytes, from 0.
 *
 * Where several reasons would fit, the order is 13, 1, 2; then the reader goes through the words from the front and takes the
 * lowest number at the first bad word, with 10 and then 14 last; the writer gives what the size gives, 12 among it, before 11. The
 * listing reader gives 13, 1 or 19, in this order, and the query 13, 1 or 2.
 */
enum irangelda_reason {
    /* Done. Place: the length of the batch in words (read), words needed (size), words written (write), bytes written (list), the
       length of the listing in bytes (read a listing), the number of the grant or 64 (which grant). */
    IRANGELDA_OK = 0,
    /* Read, size, write, list, which grant: the state is not 202 words, or a mark is neither 0 nor 1, or an unmarked value is not
       0. Read a listing: the state is not 202 words; what they are does not matter. Place: 0. */
    IRANGELDA_BAD_STATE = 1,
    /* Read, size, write, which grant: the list is not 0 to 64 whole grants, or a grant has another role, ends past 2^32, has reach 0
       or is in another memory than its role may be. Place: 0. */
    IRANGELDA_BAD_GRANTS = 2,
    /* Read: the offset in a header is neither 043Ch nor a video register. Place: the header. */
    IRANGELDA_BAD_OFFSET = 3,
    /* Read: the count in a header is outside its range, or the run leaves the video registers. Place: the header. */
    IRANGELDA_BAD_COUNT = 4,
    /* Read: the setting of a 3D packet is not allowed. Place: the setting. */
    IRANGELDA_BAD_SETTING = 5,
    /* Read: a parameter names no register. Place: the parameter. */
    IRANGELDA_NO_REGISTER = 6,
    /* Read: a bit that must be clear is set. Place: the word. */
    IRANGELDA_BIT_SET = 7,
    /* Read: the value is not one that the register may hold. Place: the word. */
    IRANGELDA_BAD_VALUE = 8,
    /* Read: the word holds an address that no grant covers, with its reach, in whichever memory. Place: the word. */
    IRANGELDA_NOT_GRANTED = 9,
    /* Read: the batch ends inside a packet, and no word before its end is bad. Place: the length of the batch in words. */
    IRANGELDA_ENDS_INSIDE = 10,
    /* Write, list: out is too short. For write: it has fewer words than irangelda_size tells. Place: 0. */
    IRANGELDA_NO_ROOM = 11,
    /* Size, write: a marked cell holds a value that the reader would refuse under these grants, or a 3D value of 2^24 or more; or
       the target's address, cell 1, is not granted in the memory that cell 2 names. Place: the lowest such cell, 0 to 100. */
    IRANGELDA_NOT_WRITABLE = 12,
    /* All calls: a buffer is longer than 65,536 bytes, or a word buffer is not a multiple of 4 long. Place: 0. */
    IRANGELDA_BAD_BUFFER = 13,
    /* Read: every word is fine, but the batch writes 01.00.50 or 01.00.51 and would leave a target address, cell 1, that no grant
       covers, with its reach, in the memory that cell 2 then names: bits 21:20, of which 2 and 3 name none; 0 if it is unmarked.
       Place: the length of the batch in words. */
    IRANGELDA_BAD_PAIR = 14,
    /* Read a listing: the bytes are not the listing of any state, or of one with a 3D value of 2^24 or more. Place: the first byte
       with which no listing goes on; the length of the listing if it is cut short, and so has no such byte. */
    IRANGELDA_NOT_A_LISTING = 19,
    /* Given by no call of this header: by the engine that takes a batch word by word, which has no call in C (docs/DRIVER.md), for a
       word that is fed after 2^32 - 1 that were taken. Place: 2^32 - 1. */
    IRANGELDA_ENGINE_FULL = 23
};

/* The reason and the place of an answer. */
#define IRANGELDA_REASON(answer) ((enum irangelda_reason)((answer) & 255u))
#define IRANGELDA_PLACE(answer) ((uint32_t)((answer) >> 8))

/*
 * Reads a batch. Reason 0: every packet is permitted under the grants, and its writes have been applied to the state, one after
 * another; if it wrote the target's address or its location and the state then has such an address, that address is granted in the
 * memory that the location then names. That is judged behind the last word: what the chip holds between two words is not looked at
 * (docs/ASSUMED.md). Any other reason: the state is as it was.
 *
 *   batch, batch_len    looked at. 0 bytes is the empty batch, which is permitted and changes nothing.
 *   grants, grants_len  looked at. 0 bytes is no grants.
 *   state, state_len    looked at and changed: 808 bytes.
 */
uint64_t irangelda_read(const uint8_t *batch, size_t batch_len,
                        const uint8_t *grants, size_t grants_len,
                        uint8_t *state, size_t state_len);

/*
 * Says how many words irangelda_write needs for a state. Reason 0: the place is their number, 0 to 184; with an out of place * 4
 * bytes, or of more, irangelda_write then gives the same answer, and the words, as long as state and grants stay as they are. Any
 * other reason is irangelda_write's, at the same place, whatever the room. No buffer is changed.
 *
 *   state, state_len    looked at: 808 bytes.
 *   grants, grants_len  looked at. 0 bytes is no grants.
 */
uint64_t irangelda_size(const uint8_t *state, size_t state_len,
                        const uint8_t *grants, size_t grants_len);

/*
 * Writes a state as a batch that takes the empty state to it and that irangelda_read accepts under the same grants. Reason 0: the
 * words stand in out, in its first place * 4 bytes. Any other reason: out is as it was. It is irangelda_size's reason, if that is
 * not 0; else it is 11, and out has fewer words than irangelda_size tells. Only 13 for the length of out goes before both.
 *
 *   state, state_len    looked at: 808 bytes.
 *   grants, grants_len  looked at. 0 bytes is no grants.
 *   out, out_len        gets the words. 736 bytes always suffice; the empty state needs none.
 */
uint64_t irangelda_write(const uint8_t *state, size_t state_len,
                         const uint8_t *grants, size_t grants_len,
                         uint8_t *out, size_t out_len);

/*
 * Lists a state as text: a line `cells=` with the number of marked cells in decimal, then for each of them, in order, a line like
 * `reg=01.00.50 val=00001000` (type, sub-type and sub-address of a 3D register) or `reg=23f0 val=00001000` (offset of a video
 * register). Each line ends with 0Ah; there is no 0 byte at the end. Reason 0: the text stands in out. Any other reason: out is as
 * it was.
 *
 *   state, state_len    looked at: 808 bytes.
 *   out, out_len        gets the text. Any length up to 65,536, not only multiples of 4; 2,568 bytes always suffice.
 */
uint64_t irangelda_list(const uint8_t *state, size_t state_len,
                        uint8_t *out, size_t out_len);

/*
 * Reads a listing back: what irangelda_list wrote of a state, to the byte, gives that state, if its 3D values are below 2^24, as
 * all are that a batch can write. Nothing else is taken: the count is the true one without leading zeros, the lines are in the order
 * of the cells, hex digits are in lower case, and the first two of the eight digits of a 3D value are 0. Reason 0: the state is that
 * of the listing. Any other reason: the state is as it was.
 *
 * The values are taken as they stand. No bit that must be clear, no rule for a value and no grant is looked at: irangelda_write
 * looks at all of them, and only the words that it gives may go to the chip.
 *
 *   listing, listing_len    looked at. Any length up to 65,536, not only multiples of 4.
 *   state, state_len        changed: 808 bytes. What they were before does not matter.
 */
uint64_t irangelda_read_listing(const uint8_t *listing, size_t listing_len,
                                uint8_t *state, size_t state_len);

/*
 * Says which grant admits the address in a cell of a state: the lowest-numbered one of the cell's role that covers the address with its
 * reach; for the target only grants in the memory that cell 2 names are looked at (bits 21:20 of its value; 0 if it is unmarked; 2 and 3
 * name none). Grants are numbered from 0, as the list has them, whatever their roles and memories are and whether they cover anything.
 * Reason 0: the place is the number of that grant; or it is 64, IRANGELDA_NO_GRANT, if there is no such cell, the cell is unmarked, its
 * register holds no address, or no grant admits it. The cells with an address are 1 (target), 89, 90 and 93 (first scaler), 96, 97 and
 * 100 (second scaler). Nothing else is looked at, no other bit of the value: the answer says nothing about whether a batch may write it.
 *
 *   state, state_len    looked at: 808 bytes.
 *   grants, grants_len  looked at. 0 bytes is no grants.
 *   cell                any number.
 */
uint64_t irangelda_which_grant(const uint8_t *state, size_t state_len,
                               const uint8_t *grants, size_t grants_len,
                               uint32_t cell);

#ifdef __cplusplus
}
#endif

#endif
