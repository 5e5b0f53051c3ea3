/* Calls the core from C through the header: the first line of document 01's listing, there and back; then the points
 * and the subcarriers of its second line's frame; then a frame of two symbols, written and read back by steps and by one
 * call; then what the header adds to the calls; then frames of every MCS under other floating-point environments. */
#include <ht_core.h>

#include <stdio.h>
#include <string.h>
#include <xmmintrin.h>

static int failures;

static void expect(int64_t got, int64_t want, const char *what) {
    if (got != want) {
        printf("%s: got %lld, want %lld\n", what, (long long)got, (long long)want);
        failures++;
    }
}

/* By bits: a level is a whole number, and its zero has a clear sign bit. */
static void expect_level(float got, float want, const char *what) {
    if (memcmp(&got, &want, sizeof got) != 0) {
        printf("%s: got %g, want %g\n", what, (double)got, (double)want);
        failures++;
    }
}

static void check_signal(void) {
    static const uint8_t want[8] = {0x8F, 0x64, 0x00, 0x07, 0x54, 0x00, 0xAA, 0xAA};
    uint8_t sig[8];
    memset(sig, 0xAA, sizeof sig);
    expect(ht_symbol_count(40, 15, 0, 100, 1, 1, 1, 0, 0), 1, "count");
    expect(ht_symbol_count(20, 32, 0, 1, 1, 1, 1, 0, 0), -HT_MCS, "MCS 32");
    expect(ht_sig_write(40, 15, 0, 100, 1, 1, 1, 0, 0, sig, 5), -HT_ROOM, "room for 5");
    expect(sig[0], 0xAA, "nothing written");
    expect(ht_sig_write(40, 15, 0, 100, 1, 1, 1, 0, 0, sig, sizeof sig), 0, "write");
    expect(memcmp(sig, want, sizeof sig), 0, "bytes");
    expect(ht_sig_read(sig, 6), 15 + (1 << 7) + (100 << 8) + (1 << 24) + (1 << 25), "read");
    expect(ht_sig_read(sig, 7), -HT_SOURCE, "seven bytes");
    sig[0] ^= 1;
    expect(ht_sig_read(sig, 6), -HT_SIGCRC, "damaged");
}

/* MCS 0 at 20 MHz, mixed, length 1, seed 127: two symbols of 112 floats. */
static int64_t points(size_t payload_len, uint32_t symbol, float *out, size_t out_len) {
    static const uint8_t payload[1] = {0x00};
    return ht_points(20, 0, 0, 1, 127, 1, 1, 0, 0, payload, payload_len, symbol, out, out_len);
}

static int64_t carrier(uint32_t symbol, uint32_t stream, int32_t subcarrier, float *out, size_t out_len) {
    static const uint8_t payload[1] = {0x00};
    return ht_carrier(20, 0, 0, 1, 127, 1, 1, 0, 0, payload, sizeof payload, symbol, stream, subcarrier, out, out_len);
}

static void check_points(void) {
    static const size_t pilot_place[4] = {7, 21, 34, 48};
    static const float pilots[2][4] = {{1, 1, 1, -1}, {-1, -1, 1, -1}};
    static const float begin[7] = {-1, 1, 1, -1, -1, -1, -1};
    float out[114], before[114];
    memset(out, 0xAA, sizeof out);
    memcpy(before, out, sizeof out);

    expect(points(0, 0, out, 112), -HT_SOURCE, "no payload");
    expect(points(1, 2, out, 112), -HT_PLACE, "the symbol equal to the count");
    expect(points(1, UINT32_MAX, out, 112), -HT_PLACE, "the highest symbol number");
    expect(points(1, 0, out, 111), -HT_ROOM, "one float too few");
    expect(points(1, 0, out, 0), -HT_ROOM, "no float");
    expect(memcmp(out, before, sizeof out), 0, "no float written");

    for (uint32_t n = 0; n < 2; n++) {
        expect(points(1, n, out, 114), 112, "points");
        for (size_t q = 0; q < 4; q++) {
            expect_level(out[2 * pilot_place[q]], pilots[n][q], "pilot");
            expect_level(out[2 * pilot_place[q] + 1], 0, "pilot, second level");
        }
        expect(memcmp(out + 112, before + 112, 2 * sizeof(float)), 0, "floats past the points");
    }
    expect(points(1, 0, out, 112), 112, "points, exact room");
    for (size_t f = 0; f < 7; f++) {
        expect_level(out[2 * f], begin[f], "first level");
        expect_level(out[2 * f + 1], 0, "second level");
    }
}

static void check_carrier(void) {
    static const int32_t pilot_subcarrier[4] = {-21, -7, 7, 21};
    static const float pilots[2][4] = {{1, 1, 1, -1}, {-1, -1, 1, -1}};
    float out[2] = {9, 9};

    expect(carrier(0, 0, 32, out, 2), -HT_PLACE, "subcarrier 32");
    expect(carrier(0, 0, -33, out, 2), -HT_PLACE, "subcarrier -33");
    expect(carrier(0, 1, 0, out, 2), -HT_PLACE, "the stream equal to their number");
    expect(carrier(2, 0, 0, out, 2), -HT_PLACE, "a subcarrier of the symbol equal to the count");
    expect(carrier(0, 0, 0, out, 1), -HT_ROOM, "one float for a silent subcarrier");
    expect(carrier(0, 0, 7, out, 1), -HT_ROOM, "one float for a pilot");
    expect(carrier(0, 0, -32, out, 2), HT_SILENT, "subcarrier -32");
    expect(carrier(0, 0, 0, out, 2), HT_SILENT, "subcarrier 0");
    expect_level(out[0], 9, "silent, first float");
    expect_level(out[1], 9, "silent, second float");

    for (uint32_t n = 0; n < 2; n++)
        for (size_t q = 0; q < 4; q++) {
            out[0] = 9;
            expect(carrier(n, 0, pilot_subcarrier[q], out, 2), HT_PILOT, "a pilot subcarrier");
            expect_level(out[0], pilots[n][q], "pilot sign");
            expect_level(out[1], 9, "pilot, second float");
        }
    expect(carrier(0, 0, -28, out, 2), HT_DATA, "a data subcarrier");
    expect_level(out[0], -1, "data, first level");
    expect_level(out[1], 0, "data, second level");
}

/* MCS 16 at 40 MHz, green field, length 20: two symbols of three streams, 684 floats each. */
static int64_t start(uint32_t mcs) { return ht_reader_start(40, mcs, 1, 20, 1, 1, 0, 0); }

static int64_t step(int64_t state, const float *points, size_t points_len, uint8_t *payload, size_t payload_len) {
    return ht_reader_step(40, 16, 1, 20, 1, 1, 0, 0, (uint64_t)state, points, points_len, payload, payload_len);
}

static int64_t place(int64_t state, const float *points, size_t points_len) {
    return ht_reader_place(40, 16, 1, 20, 1, 1, 0, 0, (uint64_t)state, points, points_len);
}

static void expect_step(int64_t got, int64_t number, int64_t seed, int64_t state, const char *what) {
    expect(ht_step_number(got), number, what);
    expect(ht_step_seed(got), seed, what);
    expect((int64_t)ht_step_state(got), state, what);
    expect(HT_STEP_NUMBER(got), number, what);
    expect(HT_STEP_SEED(got), seed, what);
    expect((int64_t)HT_STEP_STATE(got), state, what);
}

static void check_reader(void) {
    static const int64_t ended = (int64_t)1 << 48;
    static const int64_t no_state = (int64_t)1 << 49;
    static float symbol[2][684];
    uint8_t sent[20], read[24], before[24];
    int64_t state = 0, got;
    for (size_t j = 0; j < sizeof sent; j++)
        sent[j] = (uint8_t)(37 * j + 11);
    memset(read, 0xAA, sizeof read);
    memcpy(before, read, sizeof read);
    expect(ht_symbol_count(40, 16, 1, 20, 93, 1, 1, 0, 0), 2, "symbols to read");
    for (uint32_t n = 0; n < 2; n++)
        expect(ht_points(40, 16, 1, 20, 93, 1, 1, 0, 0, sent, sizeof sent, n, symbol[n], 684), 684, "points to read");

    expect(start(32), -HT_MCS, "a reader of MCS 32");
    expect(start(16), 0, "start");

    /* Refused steps, and what they give back. */
    expect_step(step(0, symbol[0], 683, read, 20), HT_ROOM, 0, 0, "one float too few to read");
    expect_step(step(0, symbol[0], 684, read, 19), HT_ROOM, 0, 0, "one byte too few for the payload");
    expect_step(step(no_state, symbol[0], 684, read, 20), HT_CLOSED, 0, ended, "a state of 2^49");
    expect_step(step(no_state + ended + 5, symbol[0], 684, read, 20), HT_CLOSED, 0, ended + 5, "a state of 2^49 and more");
    expect_step(step(ended, symbol[0], 684, read, 20), HT_CLOSED, 0, ended, "an ended state");
    expect_step(step(64 << 16, symbol[0], 684, read, 20), HT_CLOSED, 0, 64 << 16, "a history of 64");
    expect_step(step(0, symbol[1], 684, read, 20), HT_POINT, 0, ended, "symbol 1 before symbol 0");
    expect(place(no_state, symbol[0], 684), -HT_CLOSED, "the place of a state of 2^49");
    expect(place(0, symbol[0], 683), -HT_ROOM, "the place with one float too few");
    expect(place(0, symbol[0], 684), HT_NO_PLACE, "no place");
    /* Stream 1, subcarrier 2, its first level: a zero with a sign. */
    expect_level(symbol[0][2 * (114 + 57)], 0, "a zero above 0 at 40 MHz");
    symbol[0][2 * (114 + 57)] = -0.0f;
    expect_step(step(0, symbol[0], 684, read, 20), HT_POINT, 0, ended, "a negative zero");
    expect(place(0, symbol[0], 684), 1 * 256 + (2 + 128), "its place");
    symbol[0][2 * (114 + 57)] = 0.0f;
    expect(memcmp(read, before, sizeof read), 0, "no byte read");

    /* The frame, symbol by symbol: 162 data bits in each, so 146 payload bits, or 18 bytes and two bits, in the first. */
    got = step(state, symbol[0], 684, read, sizeof read);
    expect(ht_step_number(got), 0, "symbol 0");
    expect(ht_step_seed(got), 93, "the seed");
    state = (int64_t)ht_step_state(got);
    expect(state & 0xFFFF, 1, "the symbol that comes next");
    expect(state >> 40, sent[18] & 3, "the part of a byte");
    expect(memcmp(read, sent, 18), 0, "the bytes of symbol 0");
    expect(memcmp(read + 18, before + 18, sizeof read - 18), 0, "the bytes after them");
    got = step(state, symbol[1], 684, read, sizeof read);
    expect(ht_step_number(got), 0, "symbol 1");
    expect(ht_step_seed(got), 0, "no seed with symbol 1");
    state = (int64_t)ht_step_state(got);
    expect(state & 0xFFFF, 2, "all symbols are read");
    expect(state & ended, ended, "the reader is finished");
    expect(memcmp(read, sent, sizeof sent), 0, "the payload");
    expect(memcmp(read + 20, before + 20, 4), 0, "the bytes past it");
    expect_step(step(state, symbol[1], 684, read, sizeof read), HT_CLOSED, 0, state, "one step more");
}

/* The same settings, but for seed 57 and the two symbols one after the other. */
enum { SYMBOL = 684, FRAME = 2 * SYMBOL };

static void write_symbol(const uint8_t *payload, uint32_t n, float *frame) {
    expect(ht_points(40, 16, 1, 20, 57, 1, 1, 0, 0, payload, 20, n, frame + n * SYMBOL, SYMBOL), SYMBOL, "a frame's points");
}

static int64_t read_frame(uint32_t mcs, const float *points, size_t points_len, uint8_t *payload, size_t payload_len) {
    return ht_read_frame(40, mcs, 1, 20, 1, 1, 0, 0, points, points_len, payload, payload_len);
}

static void check_read_frame(void) {
    static float frame[FRAME + 1];
    uint8_t sent[20], read[24], before[24];
    for (size_t j = 0; j < sizeof sent; j++)
        sent[j] = (uint8_t)(91 * j + 5);
    memset(read, 0xAA, sizeof read);
    memcpy(before, read, sizeof read);
    write_symbol(sent, 0, frame);
    write_symbol(sent, 1, frame);
    frame[FRAME] = 9;

    /* Refused frames: the settings, then 8, then the symbols. Where symbol 1 is refused, symbol 0 has 18 whole bytes. */
    frame[SYMBOL] = 2;
    expect(read_frame(32, frame, 0, read, 0), -HT_MCS, "a frame of MCS 32");
    expect(read_frame(16, frame, FRAME - 1, read, 20), -HT_ROOM, "a frame with one float too few");
    expect(read_frame(16, frame, FRAME, read, 19), -HT_ROOM, "a frame with one byte too few");
    expect(read_frame(16, frame, FRAME, read, 20), -HT_POINT, "a frame with no level in symbol 1");
    /* Data bit 159 of 162 in symbol 0 is another: no data bits give this symbol 1 after that symbol 0. */
    sent[17] ^= 0x80;
    write_symbol(sent, 1, frame);
    sent[17] ^= 0x80;
    expect(read_frame(16, frame, FRAME, read, 20), -HT_CODE, "a frame of two frames' symbols");
    write_symbol(sent, 1, frame);
    /* A frame of 19 bytes has its tail where this one has its last byte. */
    expect(ht_read_frame(40, 16, 1, 19, 1, 1, 0, 0, frame, FRAME, read, 20), -HT_FRAME, "a frame of another length");
    expect(memcmp(read, before, sizeof read), 0, "no byte of a refused frame");

    expect(read_frame(16, frame, FRAME + 1, read, sizeof read), 57, "a frame by one call");
    expect(memcmp(read, sent, sizeof sent), 0, "its payload");
    expect(memcmp(read + 20, before + 20, 4), 0, "the bytes past the payload");
    memset(read, 0xAA, sizeof read);
    expect(read_frame(16, frame, FRAME, read, 20), 57, "a frame, exact room");
    expect(memcmp(read, sent, sizeof sent), 0, "its payload, exact room");
}

/* What the header adds to the calls: names and words, parts of numbers, and the forms that take a struct of settings. */
static void expect_text(const char *got, const char *want, const char *what) {
    if (strcmp(got, want) != 0) {
        printf("%s: got '%s', want '%s'\n", what, got, want);
        failures++;
    }
}

static void check_refusal_names(void) {
    static const char *const names[] = {"ACCEPTED", "WIDTH", "MCS",  "FORMAT", "LENGTH", "SEED",   "SOURCE", "PLACE",
                                        "ROOM",     "POINT", "CODE", "FRAME",  "CLOSED", "SIGCRC", "SIGFORM"};
    static const int numbers[] = {0,       HT_WIDTH, HT_MCS,  HT_FORMAT, HT_LENGTH, HT_SEED,   HT_SOURCE, HT_PLACE,
                                  HT_ROOM, HT_POINT, HT_CODE, HT_FRAME,  HT_CLOSED, HT_SIGCRC, HT_SIGFORM};
    for (int n = 0; n < 15; n++) {
        expect(numbers[n], n, "a refusal's number");
        expect_text(ht_refusal_name(n), names[n], "a refusal's name");
        expect(ht_is_refusal(-n), n != 0, "whether a result is a refusal");
        expect(ht_refusal_number(-n), n, "the refusal of a result");
    }
    expect(ht_is_refusal(20166), 0, "whether a count is a refusal");
    expect(ht_refusal_number(20166), 0, "the refusal of a count");
    expect_text(ht_refusal_text(0), "not refused", "no refusal in words");
    expect_text(ht_refusal_text(HT_MCS), "the MCS is over 31", "a refusal in words");
    expect_text(ht_refusal_text(HT_SIGCRC), "bits 34 to 41 are not the CRC of bits 0 to 33", "another refusal in words");
    for (int n = -1; n <= 15; n += 16) {
        expect_text(ht_refusal_name(n), "UNKNOWN", "no refusal's number, its name");
        expect_text(ht_refusal_text(n), "no refusal of these calls has this number", "no refusal's number, in words");
    }
}

static void expect_settings(struct ht_settings got, const uint32_t want[9], const char *what) {
    expect(got.width, want[0], what);
    expect(got.mcs, want[1], what);
    expect(got.format, want[2], what);
    expect(got.length, want[3], what);
    expect(got.seed, want[4], what);
    expect(got.smoothing, want[5], what);
    expect(got.not_sounding, want[6], what);
    expect(got.aggregation, want[7], what);
    expect(got.short_guard, want[8], what);
}

static void check_parts(void) {
    static const uint32_t made[9] = {40, 15, HT_MIXED, 100, 93, 1, 1, 0, 0};
    static const uint32_t told[5][9] = {{20, 0, HT_MIXED, 1, 1, 0, 0, 0, 0},
                                        {40, 31, HT_GREEN_FIELD, 65535, 127, 1, 0, 0, 0},
                                        {20, 31, HT_MIXED, 256, 2, 0, 1, 0, 0},
                                        {40, 1, HT_GREEN_FIELD, 255, 3, 0, 0, 1, 0},
                                        {20, 16, HT_MIXED, 32768, 4, 0, 0, 0, 1}};
    const int64_t state = ((int64_t)1 << 48) + ((int64_t)127 << 32) + (63 << 16) + 20166;
    const int64_t step = 31 + 32 * 127 + 4096 * state;
    uint8_t sig[6];
    expect(ht_abi(), HT_CORE_ABI, "the library's set of calls");
    expect(ht_library_fits(), 1, "whether the library fits");
    expect(HT_MIXED, 0, "mixed format");
    expect(HT_GREEN_FIELD, 1, "green field");
    expect_settings(ht_settings_make(40, 15, 100, 93), made, "settings made");
    expect(ht_settings_from_sig(255, HT_MIXED, 1).mcs, 127, "the highest MCS that HT-SIG has room for");
    for (size_t i = 0; i < 5; i++) {
        const uint32_t *t = told[i];
        expect(ht_sig_write(t[0], t[1], t[2], t[3], t[4], t[5], t[6], t[7], t[8], sig, sizeof sig), 0, "HT-SIG to tell");
        expect_settings(ht_settings_from_sig(ht_sig_read(sig, sizeof sig), t[2], t[4]), t, "settings told by HT-SIG");
    }
    expect(ht_step_number(step), 31, "a step's number");
    expect(ht_step_seed(step), 127, "a step's seed");
    expect((int64_t)ht_step_state(step), state, "a step's state");
    expect(ht_state_symbol((uint64_t)state), 20166, "a state's symbol");
    expect(ht_state_ended((uint64_t)state), 1, "a state that is ended");
    expect(ht_state_ended(((uint64_t)1 << 48) - 1), 0, "a state that is not");
    expect(ht_place_stream(3 * 256 + 70), 3, "a place's stream");
    expect(ht_place_subcarrier(3 * 256 + 70), -58, "a place's subcarrier");
    expect(ht_place_subcarrier(186), 58, "a place's highest subcarrier");
}

/* Each form with a struct against its call: frames of one flag each, whose HT-SIG shows which; then settings with one bad number
 * less from row to row; then another width, format, seed and length. */
static void check_forms_with_settings(void) {
    static const struct row {
        struct ht_settings s;
        int64_t count;
    } rows[] = {
        {{40, 16, 1, 20, 93, 1, 0, 0, 0}, 2},          {{40, 16, 1, 20, 93, 0, 1, 0, 0}, 2},
        {{40, 16, 1, 20, 93, 0, 0, 1, 0}, 2},          {{40, 16, 1, 20, 93, 0, 0, 0, 1}, 2},
        {{41, 32, 2, 0, 128, 0, 0, 0, 0}, -HT_WIDTH},  {{40, 32, 2, 0, 128, 0, 0, 0, 0}, -HT_MCS},
        {{40, 16, 2, 0, 128, 0, 0, 0, 0}, -HT_FORMAT}, {{40, 16, 1, 0, 128, 0, 0, 0, 0}, -HT_LENGTH},
        {{40, 16, 1, 20, 128, 0, 0, 0, 0}, -HT_SEED},  {{20, 16, 1, 20, 93, 0, 0, 0, 0}, 3},
        {{40, 16, 0, 20, 57, 0, 0, 0, 0}, 2},          {{40, 16, 1, 19, 1, 0, 0, 0, 0}, 2},
    };
    static const uint8_t payload[20] = {1, 2, 3, 4, 5};
    static float want[FRAME], got[FRAME];
    uint8_t want_bytes[24], got_bytes[24];
    for (size_t i = 0; i < sizeof rows / sizeof *rows; i++) {
        const struct ht_settings s = rows[i].s;
        uint64_t state = 0;
        int64_t floats;
        memset(want, 0, sizeof want);
        memset(got, 0, sizeof got);
        memset(want_bytes, 0xAA, sizeof want_bytes);
        memset(got_bytes, 0xAA, sizeof got_bytes);

        expect(ht_symbol_count_of(&s), rows[i].count, "ht_symbol_count_of");
        expect(ht_symbol_count(s.width, s.mcs, s.format, s.length, s.seed, s.smoothing, s.not_sounding, s.aggregation, s.short_guard),
               rows[i].count, "ht_symbol_count");

        expect(ht_sig_write_of(&s, got_bytes, 8),
               ht_sig_write(s.width, s.mcs, s.format, s.length, s.seed, s.smoothing, s.not_sounding, s.aggregation, s.short_guard,
                            want_bytes, 8),
               "ht_sig_write_of");
        expect(memcmp(got_bytes, want_bytes, sizeof want_bytes), 0, "ht_sig_write_of, bytes");

        floats = ht_points(s.width, s.mcs, s.format, s.length, s.seed, s.smoothing, s.not_sounding, s.aggregation, s.short_guard,
                           payload, sizeof payload, 1, want, SYMBOL);
        expect(ht_points_of(&s, payload, sizeof payload, 1, got, SYMBOL), floats, "ht_points_of");
        expect(memcmp(got, want, sizeof want), 0, "ht_points_of, floats");

        for (int32_t k = -64; k < 64; k++) {
            expect(ht_carrier_of(&s, payload, sizeof payload, 0, 2, k, got, 2),
                   ht_carrier(s.width, s.mcs, s.format, s.length, s.seed, s.smoothing, s.not_sounding, s.aggregation, s.short_guard,
                              payload, sizeof payload, 0, 2, k, want, 2),
                   "ht_carrier_of");
            expect(memcmp(got, want, sizeof want), 0, "ht_carrier_of, floats");
        }

        expect(ht_reader_start_of(&s),
               ht_reader_start(s.width, s.mcs, s.format, s.length, s.smoothing, s.not_sounding, s.aggregation, s.short_guard),
               "ht_reader_start_of");
        for (uint32_t n = 0; n < 2 && floats > 0; n++)
            expect(ht_points_of(&s, payload, sizeof payload, n, want + n * (size_t)floats, (size_t)floats), floats, "points to read");
        for (uint32_t n = 0; n < 2; n++) {
            const float *symbol = want + (floats > 0 ? n * (size_t)floats : 0);
            int64_t place = ht_reader_place(s.width, s.mcs, s.format, s.length, s.smoothing, s.not_sounding, s.aggregation,
                                            s.short_guard, state, symbol, SYMBOL);
            int64_t step = ht_reader_step(s.width, s.mcs, s.format, s.length, s.smoothing, s.not_sounding, s.aggregation,
                                          s.short_guard, state, symbol, SYMBOL, want_bytes, sizeof want_bytes);
            expect(ht_reader_place_of(&s, state, symbol, SYMBOL), place, "ht_reader_place_of");
            expect(ht_reader_step_of(&s, state, symbol, SYMBOL, got_bytes, sizeof got_bytes), step, "ht_reader_step_of");
            expect(memcmp(got_bytes, want_bytes, sizeof want_bytes), 0, "ht_reader_step_of, bytes");
            expect(floats > 0 ? ht_step_number(step) : 0, 0, "a step of settings that are accepted");
            state = ht_step_state(step);
        }
        memset(want_bytes, 0xAA, sizeof want_bytes);
        memset(got_bytes, 0xAA, sizeof got_bytes);
        expect(ht_read_frame_of(&s, want, FRAME, got_bytes, sizeof got_bytes),
               ht_read_frame(s.width, s.mcs, s.format, s.length, s.smoothing, s.not_sounding, s.aggregation, s.short_guard,
                             want, FRAME, want_bytes, sizeof want_bytes),
               "ht_read_frame_of");
        expect(memcmp(got_bytes, want_bytes, sizeof want_bytes), 0, "ht_read_frame_of, bytes");
    }
}

/* The floating-point environment of an x86-64 program: MXCSR. The proofs are of the default one, which rounds to nearest. */
static const struct environment {
    unsigned bits;
    const char *name;
} environments[] = {
    {0x0000, "rounding to nearest"},
    {0x2000, "rounding downwards"},
    {0x4000, "rounding upwards"},
    {0x6000, "rounding towards zero"},
    {0x8040, "subnormal numbers as zero"},
    {0xA040, "rounding downwards, subnormal numbers as zero"},
};

/* Whether a program is in that environment: what 0 - 0 is, and whether the smallest number is 0. */
static void expect_environment(const struct environment *e) {
    static const uint32_t smallest_bits = 1;
    volatile float zero = 0, difference, smallest;
    uint32_t bits;
    float got;
    memcpy(&got, &smallest_bits, sizeof got);
    smallest = got;
    difference = zero - zero;
    got = difference;
    memcpy(&bits, &got, sizeof bits);
    expect(bits, (e->bits & 0x6000) == 0x2000 ? 0x80000000 : 0, e->name);
    expect(smallest == 0, (e->bits & 0x0040) != 0, e->name);
}

enum { FRAME_BYTES = 40, FRAME_FLOATS = 2400 };

/* What the calls answer for one frame: its points, what the subcarriers of symbol 0 carry, the payload that is read back,
 * and the answers where a zero among the points is another float. */
struct answers {
    int64_t symbols, seed, negative_zero, smallest, carries[4][128];
    float points[FRAME_FLOATS], carried[4][128][2];
    uint8_t payload[FRAME_BYTES];
};

static int64_t read_changed(uint32_t width, uint32_t mcs, const struct answers *a, size_t floats, size_t at, uint32_t bits) {
    static float points[FRAME_FLOATS];
    uint8_t payload[FRAME_BYTES];
    memcpy(points, a->points, sizeof points);
    memcpy(points + at, &bits, sizeof bits);
    return ht_read_frame(width, mcs, 0, FRAME_BYTES, 1, 1, 0, 0, points, floats, payload, FRAME_BYTES);
}

static void answer(uint32_t width, uint32_t mcs, struct answers *a) {
    static const float zero = 0;
    static const uint32_t bytes = FRAME_BYTES;
    uint8_t sent[FRAME_BYTES];
    size_t floats = 0, at = 0;
    int32_t half = width == 40 ? 64 : 32;
    memset(a, 0, sizeof *a);
    for (size_t j = 0; j < sizeof sent; j++)
        sent[j] = (uint8_t)(37 * j + mcs);
    a->symbols = ht_symbol_count(width, mcs, 0, bytes, 77, 1, 1, 0, 0);
    for (uint32_t n = 0; n < a->symbols; n++)
        floats += (size_t)ht_points(width, mcs, 0, bytes, 77, 1, 1, 0, 0, sent, bytes, n, a->points + floats, FRAME_FLOATS - floats);
    for (uint32_t i = 0; i <= mcs / 8; i++)
        for (int32_t k = -half; k < half; k++)
            a->carries[i][k + half] =
                ht_carrier(width, mcs, 0, bytes, 77, 1, 1, 0, 0, sent, bytes, 0, i, k, a->carried[i][k + half], 2);
    a->seed = ht_read_frame(width, mcs, 0, bytes, 1, 1, 0, 0, a->points, floats, a->payload, bytes);
    expect(a->seed, 77, "a frame's seed");
    expect(memcmp(a->payload, sent, sizeof sent), 0, "a frame's payload");
    /* Each symbol has pilots, and a pilot a zero. */
    while (at < floats && memcmp(a->points + at, &zero, sizeof zero) != 0)
        at++;
    a->negative_zero = read_changed(width, mcs, a, floats, at, 0x80000000);
    a->smallest = read_changed(width, mcs, a, floats, at, 1);
    expect(a->negative_zero, -HT_POINT, "a negative zero in a frame");
    expect(a->smallest, -HT_POINT, "a subnormal number in a frame");
}

/* Frames of every MCS and width: the same bits whatever the environment. At 40 MHz points above 0 are turned, zeros among them. */
static void check_environments(void) {
    static struct answers want, got;
    unsigned usual = _mm_getcsr();
    for (uint32_t width = 20; width <= 40; width += 20)
        for (uint32_t mcs = 0; mcs < 32; mcs++) {
            answer(width, mcs, &want);
            for (size_t e = 0; e < sizeof environments / sizeof *environments; e++) {
                _mm_setcsr(usual | environments[e].bits);
                expect_environment(&environments[e]);
                answer(width, mcs, &got);
                _mm_setcsr(usual);
                expect(memcmp(&got, &want, sizeof want), 0, environments[e].name);
            }
        }
}

int main(void) {
    check_signal();
    check_points();
    check_carrier();
    check_reader();
    check_read_frame();
    check_refusal_names();
    check_parts();
    check_forms_with_settings();
    check_environments();
    if (failures == 0)
        printf("C calls: ok\n");
    return failures != 0;
}
