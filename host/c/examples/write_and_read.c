/* Writes a frame's points to a file, and reads seed and payload back from it:
 *
 *     write_and_read FILE [TEXT]
 *
 * The file has the points as GNU Radio's file source takes them and numpy's fromfile(FILE, dtype="<c8"): little-endian complex64, which
 * is pairs of 32-bit floats (first level, second level), symbol after symbol, each stream by stream, subcarriers rising. Neither the
 * settings nor the seed are in it: the reader knows the settings, and finds the seed. */
#include <ht_core.h>

#include <stdio.h>
#include <stdlib.h>
#include <string.h>

static void stop(const char *what) {
    fprintf(stderr, "write_and_read: %s\n", what);
    exit(1);
}

/* The result of a call, which must not be a refusal. */
static size_t accepted(const char *call, int64_t result) {
    if (ht_is_refusal(result)) {
        int number = ht_refusal_number(result);
        fprintf(stderr, "write_and_read: %s: refusal %d %s: %s\n", call, number, ht_refusal_name(number), ht_refusal_text(number));
        exit(1);
    }
    return (size_t)result;
}

/* The floats are written as they stand in memory: x86-64 is little-endian. Returns their number. */
static size_t write_points(const struct ht_settings *s, const uint8_t *payload, FILE *file) {
    float symbol[HT_MAX_FLOATS];
    size_t symbols = accepted("ht_symbol_count", ht_symbol_count_of(s)), written = 0;
    printf("symbols %zu\n", symbols);
    for (uint32_t n = 0; n < symbols; n++) {
        size_t floats = accepted("ht_points", ht_points_of(s, payload, s->length, n, symbol, HT_MAX_FLOATS));
        if (fwrite(symbol, sizeof *symbol, floats, file) != floats)
            stop("the file cannot be written");
        written += floats;
    }
    return written;
}

static void read_points(const struct ht_settings *s, size_t floats, FILE *file) {
    float *points = malloc(floats * sizeof *points);
    uint8_t *payload = malloc(s->length);
    if (points == NULL || payload == NULL)
        stop("no memory");
    if (fread(points, sizeof *points, floats, file) != floats)
        stop("the file cannot be read");
    printf("seed %zu\n", accepted("ht_read_frame", ht_read_frame_of(s, points, floats, payload, s->length)));
    printf("payload %.*s\n", (int)s->length, (const char *)payload);
    free(points);
    free(payload);
}

int main(int argc, char **argv) {
    const char *text = argc > 2 ? argv[2] : "from a file and back";
    struct ht_settings s;
    uint8_t sig[6];
    int64_t told;
    FILE *file;
    size_t floats;
    if (argc < 2 || strlen(text) > UINT32_MAX)
        stop("usage: write_and_read FILE [TEXT]");
    if (!ht_library_fits())
        stop("the library has another set of calls than ht_core.h");

    s = ht_settings_make(40, 31, (uint32_t)strlen(text), 93);
    accepted("ht_sig_write", ht_sig_write_of(&s, sig, sizeof sig));
    printf("HT-SIG %02X%02X%02X%02X%02X%02X\n", sig[0], sig[1], sig[2], sig[3], sig[4], sig[5]);

    file = fopen(argv[1], "wb+");
    if (file == NULL)
        stop("the file cannot be opened");
    floats = write_points(&s, (const uint8_t *)text, file);
    rewind(file);

    /* A reader has the settings from HT-SIG, which says neither the format nor the seed; reading asks for no seed. */
    told = ht_sig_read(sig, sizeof sig);
    accepted("ht_sig_read", told);
    s = ht_settings_from_sig(told, HT_MIXED, 0);
    read_points(&s, floats, file);
    if (fclose(file) != 0)
        stop("the file cannot be closed");
    return 0;
}
