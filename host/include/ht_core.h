/* The C calls of the proved 802.11n (HT) signal core, for C11 and C++11; the library is for x86-64. docs/C-API.md of the
 * sources has the full account of every call; this file has what is needed at hand.
 *
 * Results. Every call returns one int64_t: the answer, or a refusal's number negated. Only ht_reader_step is never
 * negative: its number stands beside a state. A refused call has changed nothing in lent memory.
 *
 * Memory. No call asks anything of its numbers. A slice is a pointer and its length in elements; it must name memory that
 * the caller may lend for the call, and two slices of one call must not overlap. Nothing is kept between calls.
 *
 * Floats. The proofs are of the default environment: rounding to nearest, exceptions masked. Another rounding, or subnormal
 * numbers taken as zero, changes no answer, which is tested and not proved. Among points that are read a signalling NaN
 * raises "invalid operation" and a subnormal number "denormal operand": who has unmasked them masks both around
 * ht_reader_step, ht_reader_place and ht_read_frame. */
#ifndef HT_CORE_H
#define HT_CORE_H

#include <stddef.h>
#include <stdint.h>

#ifdef __cplusplus
#define HT_CALL extern "C"
#define HT_CAST(type, value) static_cast<type>(value)
#else
#define HT_CALL extern
#define HT_CAST(type, value) ((type)(value))
#endif

/* ---- The library's set of calls ---- */

/* The number of the set of calls that this file declares. It rises whenever a call is changed or added. */
#define HT_CORE_ABI 1

/* The number of the library's set of calls. */
HT_CALL int64_t ht_abi(void);

/* Whether the library that is linked has the calls of this file: to be asked before any other call. */
static inline int ht_library_fits(void) { return ht_abi() == HT_CORE_ABI; }

/* ---- Refusals ---- */

enum ht_refusal {
    HT_WIDTH = 1,
    HT_MCS = 2,
    HT_FORMAT = 3,
    HT_LENGTH = 4,
    HT_SEED = 5,
    HT_SOURCE = 6,
    HT_PLACE = 7,
    HT_ROOM = 8,
    HT_POINT = 9,
    HT_CODE = 10,
    HT_FRAME = 11,
    HT_CLOSED = 12,
    HT_SIGCRC = 13,
    HT_SIGFORM = 14
};

/* The refusals in words: REFUSAL(name, words) for each. */
#define HT_REFUSALS(REFUSAL) \
    REFUSAL(WIDTH, "the width is not 20 or 40") \
    REFUSAL(MCS, "the MCS is over 31") \
    REFUSAL(FORMAT, "the format is over 1 (0 is mixed, 1 green field)") \
    REFUSAL(LENGTH, "the length is 0 or over 65,535") \
    REFUSAL(SEED, "the seed is 0 or over 127") \
    REFUSAL(SOURCE, "the signal slice to read is not 6 bytes; the payload slice is shorter than length") \
    REFUSAL(PLACE, \
            "the symbol, the stream or the subcarrier is not in the frame; " \
            "subcarriers are -32 to 31 at 20 MHz and -64 to 63 at 40") \
    REFUSAL(ROOM, \
            "the slice to write is too short: 6 bytes, a symbol's floats, or two floats; " \
            "reader: fewer floats than a symbol's, or than the frame's where it is read whole, " \
            "or fewer payload bytes than length") \
    REFUSAL(POINT, "reader: a point or a pilot is not one that the rules give at its place") \
    REFUSAL(CODE, "reader: no data bits whatever give these coded bits after the earlier ones") \
    REFUSAL(FRAME, "reader: a service, tail or pad bit is wrong, or the seed would be 0") \
    REFUSAL(CLOSED, "reader: the state is finished, ended or out of range, refused settings included") \
    REFUSAL(SIGCRC, "bits 34 to 41 are not the CRC of bits 0 to 33") \
    REFUSAL(SIGFORM, \
            "the CRC is right and another bit is not as ht_sig_write writes it, " \
            "an MCS over 31 and a length of 0 included")

/* Of a call's result: whether it is a refusal, and the refusal's number, or 0 where it is none. Not for ht_reader_step. */
static inline int ht_is_refusal(int64_t result) { return result < 0; }
static inline int ht_refusal_number(int64_t result) { return result < 0 ? -HT_CAST(int, result) : 0; }

/* A refusal's name, as "MCS". */
static inline const char *ht_refusal_name(int number) {
    switch (number) {
    case 0: return "ACCEPTED";
#define HT_REFUSAL(name, words) \
    case HT_##name: return #name;
        HT_REFUSALS(HT_REFUSAL)
#undef HT_REFUSAL
    default: return "UNKNOWN";
    }
}

/* A refusal in words, as "the MCS is over 31". */
static inline const char *ht_refusal_text(int number) {
    switch (number) {
    case 0: return "not refused";
#define HT_REFUSAL(name, words) \
    case HT_##name: return words;
        HT_REFUSALS(HT_REFUSAL)
#undef HT_REFUSAL
    default: return "no refusal of these calls has this number";
    }
}

/* ---- Settings ---- */

enum ht_format { HT_MIXED = 0, HT_GREEN_FIELD = 1 };

/* The settings of a frame by name. A flag is off at 0 and on at any other number. The reader's calls leave the seed out: they
 * find it. Begin with ht_settings_make and set what is to differ: later sets of calls may have more fields. */
struct ht_settings {
    uint32_t width; /* 20 or 40, in MHz */
    uint32_t mcs;
    uint32_t format; /* HT_MIXED or HT_GREEN_FIELD */
    uint32_t length; /* bytes of payload */
    uint32_t seed;   /* 1 to 127 */
    uint32_t smoothing;
    uint32_t not_sounding;
    uint32_t aggregation;
    uint32_t short_guard;
};

/* Mixed format, smoothing and not sounding on, aggregation and short guard off. */
static inline struct ht_settings ht_settings_make(uint32_t width, uint32_t mcs, uint32_t length, uint32_t seed) {
    struct ht_settings s;
    s.width = width;
    s.mcs = mcs;
    s.format = HT_MIXED;
    s.length = length;
    s.seed = seed;
    s.smoothing = 1;
    s.not_sounding = 1;
    s.aggregation = 0;
    s.short_guard = 0;
    return s;
}

/* Each call below that takes settings has a second form, NAME_of, which takes them as a struct. */

/* ---- Symbol count and HT-SIG ---- */

/* The number of data symbols. Refusals in order: 1 to 5. */
HT_CALL int64_t ht_symbol_count(uint32_t width, uint32_t mcs, uint32_t format, uint32_t length, uint32_t seed,
                                uint32_t smoothing, uint32_t not_sounding, uint32_t aggregation, uint32_t short_guard);

static inline int64_t ht_symbol_count_of(const struct ht_settings *s) {
    return ht_symbol_count(s->width, s->mcs, s->format, s->length, s->seed,
                           s->smoothing, s->not_sounding, s->aggregation, s->short_guard);
}

/* The six HT-SIG bytes at the start of out; returns 0. Refusals in order: 1 to 5, 8. */
HT_CALL int64_t ht_sig_write(uint32_t width, uint32_t mcs, uint32_t format, uint32_t length, uint32_t seed,
                             uint32_t smoothing, uint32_t not_sounding, uint32_t aggregation, uint32_t short_guard,
                             uint8_t *out, size_t out_len);

static inline int64_t ht_sig_write_of(const struct ht_settings *s, uint8_t *out, size_t out_len) {
    return ht_sig_write(s->width, s->mcs, s->format, s->length, s->seed,
                        s->smoothing, s->not_sounding, s->aggregation, s->short_guard,
                        out, out_len);
}

/* What six HT-SIG bytes say, as one number, which ht_settings_from_sig takes apart. Refusals in order: 6, 13, 14. */
HT_CALL int64_t ht_sig_read(const uint8_t *sig, size_t sig_len);

/* The settings that an accepted ht_sig_read tells, with the format and the seed, which HT-SIG does not carry. */
static inline struct ht_settings ht_settings_from_sig(int64_t told, uint32_t format, uint32_t seed) {
    struct ht_settings s = ht_settings_make((told >> 7 & 1) != 0 ? 40u : 20u, HT_CAST(uint32_t, told & 127),
                                            HT_CAST(uint32_t, told >> 8 & 65535), seed);
    s.format = format;
    s.smoothing = HT_CAST(uint32_t, told >> 24 & 1);
    s.not_sounding = HT_CAST(uint32_t, told >> 25 & 1);
    s.aggregation = HT_CAST(uint32_t, told >> 26 & 1);
    s.short_guard = HT_CAST(uint32_t, told >> 27 & 1);
    return s;
}

/* ---- Points ---- */

/* The most floats that one symbol has: four streams at 40 MHz. */
#define HT_MAX_FLOATS 912

/* The points of data symbol `symbol` (from 0, in any order of calls) at the start of out; returns the number of floats: stream
 * by stream, subcarriers rising, first level then second. Refusals in order: 1 to 8. */
HT_CALL int64_t ht_points(uint32_t width, uint32_t mcs, uint32_t format, uint32_t length, uint32_t seed,
                          uint32_t smoothing, uint32_t not_sounding, uint32_t aggregation, uint32_t short_guard,
                          const uint8_t *payload, size_t payload_len, uint32_t symbol, float *out, size_t out_len);

static inline int64_t ht_points_of(const struct ht_settings *s, const uint8_t *payload, size_t payload_len,
                                   uint32_t symbol, float *out, size_t out_len) {
    return ht_points(s->width, s->mcs, s->format, s->length, s->seed,
                     s->smoothing, s->not_sounding, s->aggregation, s->short_guard,
                     payload, payload_len, symbol, out, out_len);
}

/* What a subcarrier carries, and what ht_carrier has written then. */
enum ht_carrier_kind {
    HT_SILENT = 0, /* nothing */
    HT_PILOT = 1,  /* out[0]: the pilot's sign */
    HT_DATA = 2    /* out[0], out[1]: the point's levels, before the upper half of a 40 MHz channel is turned */
};

/* What one subcarrier, -32 to 31 or -64 to 63, of one stream (from 0) carries in data symbol `symbol`: an ht_carrier_kind.
 * Refusals in order: 1 to 7, then 8 for fewer than two floats, whatever the answer would be. */
HT_CALL int64_t ht_carrier(uint32_t width, uint32_t mcs, uint32_t format, uint32_t length, uint32_t seed,
                           uint32_t smoothing, uint32_t not_sounding, uint32_t aggregation, uint32_t short_guard,
                           const uint8_t *payload, size_t payload_len, uint32_t symbol, uint32_t stream, int32_t subcarrier,
                           float *out, size_t out_len);

static inline int64_t ht_carrier_of(const struct ht_settings *s, const uint8_t *payload, size_t payload_len,
                                    uint32_t symbol, uint32_t stream, int32_t subcarrier, float *out, size_t out_len) {
    return ht_carrier(s->width, s->mcs, s->format, s->length, s->seed,
                      s->smoothing, s->not_sounding, s->aggregation, s->short_guard,
                      payload, payload_len, symbol, stream, subcarrier, out, out_len);
}

/* ---- The strict reader ---- */

/* The state before symbol 0. Each step is handed the state that the call before it returned. Refusals in order: 1 to 4. */
HT_CALL int64_t ht_reader_start(uint32_t width, uint32_t mcs, uint32_t format, uint32_t length,
                                uint32_t smoothing, uint32_t not_sounding, uint32_t aggregation, uint32_t short_guard);

static inline int64_t ht_reader_start_of(const struct ht_settings *s) {
    return ht_reader_start(s->width, s->mcs, s->format, s->length,
                           s->smoothing, s->not_sounding, s->aggregation, s->short_guard);
}

/* The symbol that is read next, and whether none is: the frame is finished, or a refusal 9, 10 or 11 has ended it. */
static inline uint32_t ht_state_symbol(uint64_t state) { return HT_CAST(uint32_t, state & 65535); }
static inline int ht_state_ended(uint64_t state) { return (state >> 48 & 1) != 0; }

/* Reads one symbol: points as ht_points writes them, and at every step a slice for the whole payload, which gets the bytes
 * that the symbol completes. The result has three parts, below. Refusals in order: 12, 8, 9, 10, 11, as the number. */
HT_CALL int64_t ht_reader_step(uint32_t width, uint32_t mcs, uint32_t format, uint32_t length,
                               uint32_t smoothing, uint32_t not_sounding, uint32_t aggregation, uint32_t short_guard,
                               uint64_t state, const float *points, size_t points_len, uint8_t *payload, size_t payload_len);

static inline int64_t ht_reader_step_of(const struct ht_settings *s, uint64_t state, const float *points, size_t points_len,
                                        uint8_t *payload, size_t payload_len) {
    return ht_reader_step(s->width, s->mcs, s->format, s->length,
                          s->smoothing, s->not_sounding, s->aggregation, s->short_guard,
                          state, points, points_len, payload, payload_len);
}

/* A step's result: 0 or the refusal's number, the seed of an accepted symbol 0 (else 0), and the state after the step. */
static inline int ht_step_number(int64_t step) { return HT_CAST(int, step & 31); }
static inline uint32_t ht_step_seed(int64_t step) { return HT_CAST(uint32_t, step >> 5 & 127); }
static inline uint64_t ht_step_state(int64_t step) { return HT_CAST(uint64_t, step >> 12); }

/* The same three as macros. */
#define HT_STEP_NUMBER(step) ((uint32_t)((step) & 31))
#define HT_STEP_SEED(step) ((uint32_t)((step) >> 5 & 127))
#define HT_STEP_STATE(step) ((uint64_t)(step) >> 12)

/* The place of the first point for which a step from this state gives 9, or HT_NO_PLACE where every point passes.
 * Refusals in order: 12, 8 (floats only). */
HT_CALL int64_t ht_reader_place(uint32_t width, uint32_t mcs, uint32_t format, uint32_t length,
                                uint32_t smoothing, uint32_t not_sounding, uint32_t aggregation, uint32_t short_guard,
                                uint64_t state, const float *points, size_t points_len);

static inline int64_t ht_reader_place_of(const struct ht_settings *s, uint64_t state, const float *points, size_t points_len) {
    return ht_reader_place(s->width, s->mcs, s->format, s->length,
                           s->smoothing, s->not_sounding, s->aggregation, s->short_guard,
                           state, points, points_len);
}

#define HT_NO_PLACE 65535
static inline uint32_t ht_place_stream(int64_t place) { return HT_CAST(uint32_t, place >> 8); }
static inline int32_t ht_place_subcarrier(int64_t place) { return HT_CAST(int32_t, place & 255) - 128; }

/* ---- A whole frame ---- */

/* Reads the points of all symbols, one after the other, each as ht_points writes it: the payload at the start of payload;
 * returns the seed. Refusals in order: 1 to 4, 8 for the whole frame, then 9, 10, 11 of the first symbol that is refused,
 * and no byte is written then; ht_reader_step tells which symbol. Takes about 80 KB of stack. */
HT_CALL int64_t ht_read_frame(uint32_t width, uint32_t mcs, uint32_t format, uint32_t length,
                              uint32_t smoothing, uint32_t not_sounding, uint32_t aggregation, uint32_t short_guard,
                              const float *points, size_t points_len, uint8_t *payload, size_t payload_len);

static inline int64_t ht_read_frame_of(const struct ht_settings *s, const float *points, size_t points_len,
                                       uint8_t *payload, size_t payload_len) {
    return ht_read_frame(s->width, s->mcs, s->format, s->length,
                         s->smoothing, s->not_sounding, s->aggregation, s->short_guard,
                         points, points_len, payload, payload_len);
}

#undef HT_CALL
#undef HT_CAST

#endif
