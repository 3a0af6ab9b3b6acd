/* muntesulca.h: the functions of the static library (crate ffi_c; tools/build ffi writes target/staticlib/libffi.a, x86-64).
 *
 * Numbers and bytes alone. A slice is a pointer and its length; no call keeps a pointer, slices of one call must not overlap, and a
 * pointer is never null, also where the length is 0. No function allocates, prints or stops the program, and each answers for every
 * input. What a number of a refusal means: 1 scheme not valid, 2 more than 128 entries, 3 state unfit, 4 root not a multiple of 4096,
 * 5 top table past the end of RAM, 6 none of R, W, X, or W without R, 7 no room for the child tables, 8 bytes not laid out as they
 * must be, 10 satp's mode is neither Bare nor Sv39. A refusal changes nothing.
 *
 * Bytes that calls take, as a trace bundle has them, little-endian:
 *   scheme   6: offset, level count, four widths; Sv32 is 12, 2, 10, 10, 0, 0 and Sv39 is 12, 3, 9, 9, 9, 0
 *   config   6: u16 entries, ways, policy (0 Lru, 1 Mru, 2 Fifo, 3 Lfu, 4 Clock, 5 Random), hit latency, miss penalty
 *   map     20: rule (0 relative, 1 absolute), kind (0 identity, 1 offset), flags (2 R, 4 W, 8 X, 10h U, 20h G), zero, i32 MiB,
 *               u32 root, u32 start, u32 end of the window
 *   record   8: u32 address, access (0 fetch, 1 load, 2 store), privilege (0 U, 1 S, 3 M), operation (0 translate, 1 flush,
 *               2 flush address), zero; what an operation does not use is 0
 *
 * Bundles, records and maps have addresses of 32 bits and none of them Sv39: they answer 1 for it. Under Sv39 use muntesulca_translate,
 * muntesulca_flush and muntesulca_flush_vaddr, and muntesulca_walk, whose addresses have 64.
 *
 * A state is its image, 3,416 bytes that the host keeps and may read:
 *     0  the config; 6 switches (1 enabled, 2 force, 4 TLB on); 7 zero; 8 the scheme; 14 the TLB's offset; 15 zero
 *    16  u64 satp; 24 u32 age counter; 28 u64 entries in use, u64 sets, u64 count of the page classes
 *    52  u64 hits, misses, evictions, page faults; 84 the four page classes; 88 the 128 hands
 *   216  the 128 entries, 25 bytes each: u64 vpn, u64 ppn, u32 age, u16 asid, class, flags (valid, r, w, x, u, global, accessed,
 *        dirty, from bit 0), reference bit
 * The host may write satp and the switches between calls. What else it writes must leave the state fit, or calls answer 3. Under a
 * scheme of 32 bits the upper half of satp is not looked at.
 */
#ifndef MUNTESULCA_H
#define MUNTESULCA_H

#include <stddef.h>
#include <stdint.h>

#ifdef __cplusplus
extern "C" {
#endif

#define MUNTESULCA_STATE 3416

/* Room that the text of n records needs. */
#define MUNTESULCA_TEXT(n) (25 * (size_t)(n) + 113)

/* Runs a trace bundle: its text at the start of out, its RAM at the start of ram. The bytes of the text, or SIZE_MAX and nothing written
 * where a buffer is too short. */
size_t muntesulca_run(const uint8_t *file, size_t file_len, uint8_t *ram, size_t ram_len, uint8_t *out, size_t out_len);

/* The same, and the image of the state that the run leaves at the start of state. */
size_t muntesulca_run_state(const uint8_t *file, size_t file_len, uint8_t *ram, size_t ram_len, uint8_t *out, size_t out_len,
                            uint8_t *state, size_t state_len);

/* Runs up to 3,000 records on a state and RAM, which are updated; their lines and the tallies at the start of out, or `refused 8`,
 * `refused 3` or `refused 1` (the state's scheme is Sv39) alone. The bytes of the text, or SIZE_MAX and nothing written where out is too
 * short. */
size_t muntesulca_records(uint8_t *image, size_t image_len, const uint8_t *records, size_t records_len, uint8_t *ram, size_t ram_len,
                          uint8_t *out, size_t out_len);

/* The same without text: 0, or the refusal's number. */
uint32_t muntesulca_events(uint8_t *image, size_t image_len, const uint8_t *records, size_t records_len, uint8_t *ram, size_t ram_len);

/* A new state, off and with an empty cache, under Sv32, at the start of image. 0, the refusal's number, or 255 where image is shorter
 * than MUNTESULCA_STATE. */
uint32_t muntesulca_new(const uint8_t *config, size_t config_len, uint8_t *image, size_t image_len);

/* Another scheme; the cache's entries stay. 0, or the refusal's number. */
uint32_t muntesulca_set_scheme(uint8_t *image, size_t image_len, const uint8_t *scheme, size_t scheme_len);

/* Another cache, empty, and the tallies 0. 0, or the refusal's number. */
uint32_t muntesulca_reconfigure(uint8_t *image, size_t image_len, const uint8_t *config, size_t config_len);

/* Drops what is cached: all of it, or each entry that covers an address. 0, or the refusal's number. */
uint32_t muntesulca_flush(uint8_t *image, size_t image_len);
uint32_t muntesulca_flush_vaddr(uint8_t *image, size_t image_len, uint64_t vaddr);

/* One access, of any scheme; kind and mode are a record's access and privilege. told gets u32 cause (0: none), u64 address (0 on a
 * fault), u32 words asked for, u32 stall. 0, the refusal's number, or 255 where told is shorter than 20 bytes. */
uint32_t muntesulca_translate(uint8_t *image, size_t image_len, uint64_t vaddr, uint8_t kind, uint8_t mode, uint8_t *ram,
                              size_t ram_len, uint8_t *told, size_t told_len);

/* Installs a map into RAM. 0, or the refusal's number. */
uint32_t muntesulca_install(const uint8_t *scheme, size_t scheme_len, const uint8_t *map, size_t map_len, uint8_t *ram, size_t ram_len);

/* One access by a plain walk, with no cache, from the table in frame root_ppn: told gets u32 cause (0: none), u64 address (0 on a fault),
 * u32 words asked for. 0, the refusal's number, or 255 where told is shorter than 16 bytes. */
uint32_t muntesulca_walk(const uint8_t *scheme, size_t scheme_len, uint64_t root_ppn, uint64_t vaddr, uint8_t kind, uint8_t mode,
                         uint8_t *ram, size_t ram_len, uint8_t *told, size_t told_len);

/* Where the top table lies in a RAM of that size, a multiple of 4096; what is none is the refusal's number. */
uint64_t muntesulca_root_pa(const uint8_t *scheme, size_t scheme_len, uint64_t ram_size);

/* satp for the address of a root and an ASID: of a scheme of 32 bits, which takes nine bits of the ASID, and of Sv39. */
uint32_t muntesulca_make_satp(uint32_t root, uint16_t asid);
uint64_t muntesulca_make_satp39(uint64_t root, uint16_t asid);

/* The bytes of an offset in MiB, mod 2^32. */
uint32_t muntesulca_delta_bytes(int32_t mib);

#ifdef __cplusplus
}
#endif

#endif
