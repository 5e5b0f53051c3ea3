//! Settings: what the constructors and setters give, the numbers of widths and formats, and the settings of an HT-SIG.

mod common;

use common::{typed_settings, widths_and_mcs, Draw, GOOD};
use ht_core::{sig_bytes, sig_read, symbol_count, Format, OpenSettings, Refusal, Settings, Width};

/// The nine numbers in the order of the C calls.
fn numbers(s: Settings) -> [u32; 9] {
    let flags = [s.smoothing, s.not_sounding, s.aggregation, s.short_guard];
    let [a, b, c, d] = flags;
    [s.width, s.mcs, s.format, s.length, s.seed, a, b, c, d]
}

#[test]
fn the_rest_is_as_in_the_listing() {
    let s = Settings::new(Width::Mhz40, 15, 100, 93);
    assert_eq!(numbers(s), [40, 15, 0, 100, 93, 1, 1, 0, 0]);
    let open = OpenSettings::new(Width::Mhz40, 15, 100);
    assert_eq!(open, OpenSettings::from(s));
    assert_eq!(open.with_seed(93), s);
}

#[test]
fn each_setter_sets_its_number_and_no_other() {
    let setters: [fn(Settings, u32) -> Settings; 9] = [
        |s, n| s.width(n),
        |s, n| s.mcs(n),
        |s, n| s.format(n),
        |s, n| s.length(n),
        |s, n| s.seed(n),
        |s, n| s.smoothing(n),
        |s, n| s.not_sounding(n),
        |s, n| s.aggregation(n),
        |s, n| s.short_guard(n),
    ];
    let mut all = GOOD;
    for (index, set) in setters.iter().enumerate() {
        let number = 1_000_000 + index as u32;
        let mut want = numbers(GOOD);
        want[index] = number;
        assert_eq!(numbers(set(GOOD, number)), want);
        all = set(all, number);
    }
    assert_eq!(
        numbers(all),
        std::array::from_fn(|index| 1_000_000 + index as u32)
    );
}

/// The same setters of settings without a seed give the same as leaving the seed out.
#[test]
fn open_settings_have_the_same_setters() {
    type Set<S> = fn(S, u32) -> S;
    let setters: [(Set<Settings>, Set<OpenSettings>); 8] = [
        (|s, n| s.width(n), |s, n| s.width(n)),
        (|s, n| s.mcs(n), |s, n| s.mcs(n)),
        (|s, n| s.format(n), |s, n| s.format(n)),
        (|s, n| s.length(n), |s, n| s.length(n)),
        (|s, n| s.smoothing(n), |s, n| s.smoothing(n)),
        (|s, n| s.not_sounding(n), |s, n| s.not_sounding(n)),
        (|s, n| s.aggregation(n), |s, n| s.aggregation(n)),
        (|s, n| s.short_guard(n), |s, n| s.short_guard(n)),
    ];
    for (index, (closed, open)) in setters.iter().enumerate() {
        let number = 7_000 + index as u32;
        let changed = open(GOOD.into(), number);
        assert_ne!(changed, OpenSettings::from(GOOD));
        assert_eq!(changed, OpenSettings::from(closed(GOOD, number)));
        assert_eq!(changed.with_seed(GOOD.seed), closed(GOOD, number));
    }
    assert_eq!(
        OpenSettings::from(GOOD.seed(77)),
        OpenSettings::from(GOOD.seed(5))
    );
}

#[test]
fn typed_values_are_their_numbers() {
    let s = GOOD.width(Width::Mhz40).format(Format::GreenField);
    assert_eq!((s.width, s.format), (40, 1));
    let flags = s
        .smoothing(false)
        .not_sounding(true)
        .aggregation(true)
        .short_guard(false);
    assert_eq!(numbers(flags)[5..], [0, 1, 1, 0]);
}

/// A number is a width, or a format, exactly where the core does not refuse it as one.
#[test]
fn widths_and_formats_of_numbers() {
    let wrapped = [8, 16, 31].map(|bit| 1u32 << bit);
    let near = (0..300).chain(
        wrapped
            .into_iter()
            .flat_map(|w| (0..41).map(move |n| w + n)),
    );
    let mut found = [0; 2];
    for number in near.chain([u32::MAX]) {
        let width = Width::try_from(number);
        match symbol_count(GOOD.width(number)) {
            Err(refusal) => assert_eq!((width, refusal), (Err(Refusal::Width), Refusal::Width)),
            Ok(_) => {
                assert_eq!(u32::from(width.unwrap()), number);
                assert_eq!(width.unwrap().mhz(), number);
                found[0] += 1;
            }
        }
        let format = Format::try_from(number);
        match symbol_count(GOOD.format(number)) {
            Err(refusal) => assert_eq!((format, refusal), (Err(Refusal::Format), Refusal::Format)),
            Ok(_) => {
                assert_eq!(u32::from(format.unwrap()), number);
                assert_eq!(format.unwrap().number(), number);
                found[1] += 1;
            }
        }
    }
    assert_eq!(found, [2, 2]);
}

/// What HT-SIG says, with the format and the seed that it does not say, are the settings that it was written from.
#[test]
fn the_settings_of_an_ht_sig() {
    let mut draw = Draw::new(111);
    let mut flags = [0; 16];
    for (width, mcs) in widths_and_mcs() {
        for _ in 0..8 {
            let any = 1 + draw.below(65_535) as u32;
            let length = draw.of(&[1, 2, 255, 256, 65_535, any]);
            let s = typed_settings(width, mcs, length, &mut draw);
            let fields = sig_read(&sig_bytes(s).unwrap()).unwrap();
            let format = Format::try_from(s.format).unwrap();
            assert_eq!(fields.settings(format, s.seed), s);
            assert_eq!(fields.open_settings(format), OpenSettings::from(s));
            let on = [s.smoothing, s.not_sounding, s.aggregation, s.short_guard];
            flags[on.iter().fold(0, |mask, bit| 2 * mask + *bit as usize)] += 1;
        }
    }
    assert!(flags.iter().all(|count| *count > 0), "{flags:?}");
}
