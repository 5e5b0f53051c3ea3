// The header from C++: a frame written and read back through the forms that take settings, and what the header adds to the calls.
#include <ht_core.h>

#include <cstdint>
#include <cstdio>
#include <string>
#include <vector>

static int failures;

template <typename Got, typename Want> static void expect(const Got &got, const Want &want, const char *what) {
    if (!(got == want)) {
        std::printf("%s: not as it has to be\n", what);
        failures++;
    }
}

static void check_names_and_parts() {
    expect(ht_library_fits() != 0, true, "whether the library fits");
    expect(std::string(ht_refusal_name(HT_ROOM)), "ROOM", "a refusal's name");
    expect(std::string(ht_refusal_text(HT_WIDTH)), "the width is not 20 or 40", "a refusal in words");
    expect(ht_is_refusal(-HT_WIDTH) != 0, true, "a refusal");
    expect(ht_refusal_number(-HT_WIDTH) == HT_WIDTH, true, "which refusal");
    const std::int64_t step = 9 + 32 * 93 + 4096 * (std::int64_t{1} << 48);
    expect(ht_step_number(step) == HT_POINT, true, "a step's number");
    expect(ht_step_seed(step), 93u, "a step's seed");
    expect(ht_state_ended(ht_step_state(step)) != 0, true, "a state that is ended");
    expect(ht_state_symbol(7), 7u, "a state's symbol");
    expect(ht_place_stream(256 + 130), 1u, "a place's stream");
    expect(ht_place_subcarrier(256 + 130), 2, "a place's subcarrier");
}

static void check_frame() {
    const std::vector<std::uint8_t> payload{'C', '+', '+'};
    ht_settings s = ht_settings_make(20, 24, static_cast<std::uint32_t>(payload.size()), 93);
    s.format = HT_GREEN_FIELD;
    s.short_guard = 1;

    std::vector<std::uint8_t> sig(6);
    expect(ht_sig_write_of(&s, sig.data(), sig.size()), 0, "HT-SIG written");
    const ht_settings told = ht_settings_from_sig(ht_sig_read(sig.data(), sig.size()), HT_GREEN_FIELD, 93);
    expect(told.width, 20u, "the width told");
    expect(told.mcs, 24u, "the MCS told");
    expect(told.length, 3u, "the length told");
    expect(told.smoothing + 2 * told.not_sounding + 4 * told.aggregation + 8 * told.short_guard, 1u + 2u + 8u, "the flags told");

    std::vector<float> points;
    std::uint64_t state = static_cast<std::uint64_t>(ht_reader_start_of(&told));
    std::vector<std::uint8_t> read(payload.size());
    const std::int64_t count = ht_symbol_count_of(&s);
    expect(count > 0, true, "the count");
    for (std::uint32_t n = 0; n < count; n++) {
        std::vector<float> symbol(HT_MAX_FLOATS);
        const std::int64_t floats = ht_points_of(&s, payload.data(), payload.size(), n, symbol.data(), symbol.size());
        expect(floats, 448, "a symbol's floats");
        symbol.resize(448);
        float carried[2];
        expect(ht_carrier_of(&s, payload.data(), payload.size(), n, 3, -28, carried, 2) == HT_DATA, true, "a data subcarrier");
        expect(carried[0], symbol[3 * 112], "its first level");
        expect(ht_reader_place_of(&told, state, symbol.data(), symbol.size()), HT_NO_PLACE, "no place");
        const std::int64_t step = ht_reader_step_of(&told, state, symbol.data(), symbol.size(), read.data(), read.size());
        expect(ht_step_number(step), 0, "a step");
        expect(ht_step_seed(step), n == 0 ? 93u : 0u, "the seed");
        state = ht_step_state(step);
        points.insert(points.end(), symbol.begin(), symbol.end());
    }
    expect(ht_state_ended(state) != 0, true, "the end of the frame");
    expect(read, payload, "the payload by steps");
    read.assign(payload.size(), 0);
    expect(ht_read_frame_of(&told, points.data(), points.size(), read.data(), read.size()), 93, "the seed by one call");
    expect(read, payload, "the payload by one call");
}

int main() {
    check_names_and_parts();
    check_frame();
    if (failures == 0)
        std::printf("C++ calls: ok\n");
    return failures != 0;
}
