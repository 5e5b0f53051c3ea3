//! The text of the module that every crate has: what the definitions give, as lists of numbers, and when two such lists agree.

pub const GIVEN: &str = r#"-- What the definitions give, as lists of numbers, and when two such lists agree.
use Rattle.std.specs.Prelude.{Bool, cond, List, [], ◌∷◌, ◌++◌, ℕ, ℤ, length, get_or, Float, Err, Ok, Result}
use Rattle.std.specs.Float.{binary32}
use Rattle.std.specs.Float.Ieee.{to_bits}
use Rattle.laws.specs.Claim.{Claim, ◌is◌, ◌and◌}
use Rattle.laws.specs.Integers.{counted}
use Rattle.chain.specs.declared.plan.Plan.{Plan}
use Rattle.chain.specs.Scrambler.{state_at, scrambler_bit, seed_of}
use Rattle.chain.specs.DataBits.{payload_bit, data_bit}
use Rattle.chain.specs.Parser.{encoder_of, index_of, stream_of, bit_of}
use Rattle.chain.specs.Interleaver.{place, source, source_form}
use Rattle.chain.specs.Labels.{coded_bit, stream_bit, label_bit}
use Rattle.settings.specs.declared.settings.RawSettings.{RawSettings}
use Rattle.settings.specs.declared.settings.Refusal.{Refusal}
use Rattle.settings.specs.declared.settings.Settings.{Settings}
use Rattle.settings.specs.Settings.{number_of, check_of, plan_for}
use Rattle.symbols.specs.Symbols.{count_of}
use Rattle.sig_words.specs.declared.words.SigFields.{SigFields}
use Rattle.signal.specs.HtSig.{written_of, written_number, written_into, read_of}
use Rattle.mapper.specs.declared.point.Point.{Point}
use Rattle.mapper.specs.Levels.{level_of}
use Rattle.subcarriers.specs.declared.layout.Use.{Use}
use Rattle.subcarriers.specs.declared.layout.Use.TheVariants.{Silent as Unused, Pilot as PilotAt, Data as DataAt}
use Rattle.subcarriers.specs.Subcarriers.{use_of, subcarrier_at}
use Rattle.pilots.specs.Pilots.{pilot_sign}
use Rattle.frame.specs.Points.{input_of, labels_of, point_float, points_of}
use Rattle.query.specs.declared.query.Carried.{Carried}
use Rattle.query.specs.declared.query.Carried.TheVariants.{Silent, Pilot, Data}
use Rattle.query.specs.Query.{query_of, carried_point}

-- two lists number by number; lists of unequal lengths do not agree
abbrev pub agree : (given expected : List ℕ) → Claim
agree [] [] = 0 is 0
agree [] (y ∷ ys) = 0 is 1
agree (x ∷ xs) [] = 0 is 1
agree (x ∷ xs) (y ∷ ys) = (x is y) and agree xs ys

-- at each number of a list
abbrev pub at_each : (ℕ → ℕ) → List ℕ → List ℕ
at_each f [] = []
at_each f (x ∷ xs) = f x ∷ at_each f xs

-- a pair of numbers at each
abbrev pub pairs_at : (f g : ℕ → ℕ) → List ℕ → List ℕ
pairs_at f g [] = []
pairs_at f g (x ∷ xs) = f x ∷ (g x ∷ pairs_at f g xs)

abbrev pub bits : Float → ℕ
bits x = to_bits binary32 x

abbrev pub flag : Bool → ℕ
flag b = cond b 1 0

-- ---- a frame, from its data bits to its points

abbrev pub plain_at : Settings → (payload ds : List ℕ) → List ℕ
plain_at s payload ds = at_each (data_bit (payload_bit payload) s.length) ds

abbrev pub inputs_at : Settings → (payload ds : List ℕ) → List ℕ
inputs_at s payload ds = at_each (input_of s payload) ds

abbrev pub coded_at : Settings → (payload : List ℕ) (n j : ℕ) (ys : List ℕ) → List ℕ
coded_at s payload n j ys = at_each (coded_bit (plan_for s) (input_of s payload) n j) ys

abbrev pub stream_bits_at : Settings → (payload : List ℕ) (n i : ℕ) (ks : List ℕ) → List ℕ
stream_bits_at s payload n i ks = at_each (stream_bit (plan_for s) (input_of s payload) n i) ks

abbrev pub label_bits_at : Settings → (payload : List ℕ) (n i : ℕ) (rs : List ℕ) → List ℕ
label_bits_at s payload n i rs = at_each (label_bit (plan_for s) (input_of s payload) n i) rs

abbrev pub halves_at : Settings → (payload : List ℕ) (n i : ℕ) (ms : List ℕ) → List ℕ
halves_at s payload n i ms = at_each (labels_of s payload n i) ms

abbrev pub floats_at : Settings → (payload : List ℕ) (n : ℕ) (gs : List ℕ) → List ℕ
floats_at s payload n gs = at_each (λ g. bits (point_float s payload n g)) gs

-- ---- the answers of the calls: the refusal's number, or 0 and what is given

abbrev pub points_answered : Result ℕ Refusal → List ℕ
points_answered (Ok count) = 0 ∷ (count ∷ [])
points_answered (Err r) = number_of r ∷ []

abbrev pub points_at : RawSettings → (bytes symbol room : ℕ) → List ℕ
points_at a bytes symbol room = points_answered (points_of (check_of a) bytes symbol room)

abbrev pub kind_of : Carried → ℕ
kind_of Silent = 0
kind_of (Pilot sign) = 1
kind_of (Data p) = 2

abbrev pub question_answered : Result Carried Refusal → List ℕ
question_answered (Ok c) = 0 ∷ (kind_of c ∷ (bits (carried_point c).first ∷ (bits (carried_point c).second ∷ [])))
question_answered (Err r) = number_of r ∷ []

abbrev pub question_at : RawSettings → (payload : List ℕ) (symbol stream : ℕ) (z : ℤ) → List ℕ
question_at a payload symbol stream z = question_answered (query_of (check_of a) payload symbol stream z)

abbrev pub count_answered : Result ℕ Refusal → List ℕ
count_answered (Ok n) = 0 ∷ (n ∷ [])
count_answered (Err r) = number_of r ∷ []

abbrev pub count_at : RawSettings → List ℕ
count_at a = count_answered (count_of (check_of a))

abbrev pub signal_written_at : RawSettings → (lent : List ℕ) → List ℕ
signal_written_at a lent = written_number (written_of (check_of a) (length lent)) ∷ written_into (check_of a) lent

abbrev pub field_numbers : SigFields → List ℕ
field_numbers g =
    g.width ∷ (g.mcs ∷ (g.length ∷ (flag g.smoothing ∷ (flag g.not_sounding ∷ (flag g.aggregation ∷ (flag g.short_guard ∷ []))))))

abbrev pub signal_read : Result SigFields Refusal → List ℕ
signal_read (Ok g) = 0 ∷ field_numbers g
signal_read (Err r) = number_of r ∷ []

abbrev pub signal_read_at : (sig : List ℕ) → List ℕ
signal_read_at sig = signal_read (read_of sig)

-- ---- a plan's numbers

abbrev pub plan_numbers : Plan → List ℕ
plan_numbers p =
    p.width ∷ (p.streams ∷ (p.bits ∷ (p.kept ∷ (p.encoders ∷ (p.carriers ∷ (p.block ∷ (p.coded ∷ (p.dbps ∷ []))))))))

abbrev pub plan_at : Settings → List ℕ
plan_at s = plan_numbers (plan_for s)

-- ---- tables

abbrev pub scrambler_bits_at : (seed : ℕ) (ds : List ℕ) → List ℕ
scrambler_bits_at seed ds = at_each (scrambler_bit seed) ds

abbrev pub states_at : (seed : ℕ) (ds : List ℕ) → List ℕ
states_at seed ds = at_each (state_at seed) ds

abbrev pub seed_at : (outputs : List ℕ) → List ℕ
seed_at outputs = seed_of (λ d. get_or outputs d 0) ∷ []

abbrev pub parsed_at : (s streams encoders i : ℕ) (ks : List ℕ) → List ℕ
parsed_at s streams encoders i ks = pairs_at (encoder_of s encoders) (index_of s streams encoders i) ks

abbrev pub unparsed_at : (s streams encoders j : ℕ) (ys : List ℕ) → List ℕ
unparsed_at s streams encoders j ys = pairs_at (stream_of s streams) (bit_of s streams encoders j) ys

abbrev pub places_at : (width bits stream : ℕ) (ks : List ℕ) → List ℕ
places_at width bits stream ks = at_each (place width bits stream) ks

abbrev pub sources_at : (width bits stream : ℕ) (rs : List ℕ) → List ℕ
sources_at width bits stream rs = at_each (source width bits stream) rs

abbrev pub source_forms_at : (width bits stream : ℕ) (rs : List ℕ) → List ℕ
source_forms_at width bits stream rs = at_each (source_form width bits stream) rs

abbrev pub levels_at : (s : ℕ) (labels : List ℕ) → List ℕ
levels_at s labels = at_each (λ label. counted (level_of s label)) labels

-- 0 and 0, 1 and the pilot's place, 2 and the carrier's number
abbrev pub use_numbers : Use → List ℕ
use_numbers Unused = 0 ∷ (0 ∷ [])
use_numbers (PilotAt q) = 1 ∷ (q ∷ [])
use_numbers (DataAt c) = 2 ∷ (c ∷ [])

abbrev pub uses_at : (width : ℕ) (zs : List ℤ) → List ℕ
uses_at width [] = []
uses_at width (z ∷ zs) = use_numbers (use_of width z) ++ uses_at width zs

abbrev pub subcarriers_at : (width : ℕ) (fs : List ℕ) → List ℕ
subcarriers_at width fs = at_each (λ f. counted (subcarrier_at width f)) fs

abbrev pub pilots_at : (width streams format n i : ℕ) (qs : List ℕ) → List ℕ
pilots_at width streams format n i qs = at_each (λ q. counted (pilot_sign width streams format n i q)) qs
"#;

/// The same for the reader.
pub const READER_GIVEN: &str = r#"-- What the reader's definitions give, as lists of numbers.
use Rattle.std.specs.Prelude.{List, [], ◌∷◌, ℕ, ℤ, ◌+◌, ◌*◌, get_or, Float, Err, None, Ok, Option, Result, Some}
use Rattle.std.specs.Float.{binary32}
use Rattle.std.specs.Float.Ieee.{of_bits}
use Rattle.laws.specs.Integers.{counted}
use Rattle.chain.specs.Decoder.{coded_after, forced_input, coded_in}
use Rattle.settings.specs.declared.settings.Refusal.{Refusal}
use Rattle.settings.specs.declared.settings.Settings.{Settings}
use Rattle.settings.specs.Settings.{number_of, plan_for}
use Rattle.detector.specs.Detected.{shown_bit}
use Rattle.reader_state.specs.declared.state.OpenSettings.{OpenSettings}
use Rattle.reader_state.specs.declared.state.Reader.{Reader}
use Rattle.reader_state.specs.State.{start_of, start_number, history_of}
use Rattle.acceptance.specs.declared.accept.Stepped.{Stepped}
use Rattle.acceptance.specs.Accepted.{bytes_into, step_into_by, by_frame}
use Rattle.reader.specs.Step.{heard_input, by_code, step_of, step_number, step_seed, step_stream, step_subcarrier}
use Rattle.reader_place.specs.Place.{place_of}
use Rattle.CRATE.specs.Given.{at_each, flag}

abbrev pub floats_in : List ℕ → List Float
floats_in [] = []
floats_in (b ∷ bs) = of_bits binary32 b ∷ floats_in bs

-- label bits in a list, stream by stream
abbrev pub labels_in : Settings → (labels : List ℕ) (i r : ℕ) → ℕ
labels_in s labels i r = get_or labels (i * (plan_for s).block + r) 0

abbrev pub state_numbers : Reader → List ℕ
state_numbers st =
    st.symbol ∷ (flag st.ended ∷ (get_or st.histories 0 0 ∷ (get_or st.histories 1 0 ∷ (st.scrambler ∷ (st.part ∷ [])))))

abbrev pub start_at : OpenSettings → List ℕ
start_at o = start_number (start_of o).answer ∷ state_numbers (start_of o).state

-- the answer's number, seed and place, and the state
abbrev pub stepped_numbers : Stepped → List ℕ
stepped_numbers r =
    step_number r.answer ∷ (step_seed r.answer ∷ (step_stream r.answer ∷ (counted (step_subcarrier r.answer) ∷ state_numbers r.state)))

-- the whole step
abbrev pub step_at : Reader → (points : List ℕ) (bytes : ℕ) → List ℕ
step_at st points bytes = stepped_numbers (step_of st (floats_in points) bytes)

-- the place of the first point that is none
abbrev pub place_numbers : Result (Option (ℕ × ℤ)) Refusal → List ℕ
place_numbers (Ok None) = 0 ∷ []
place_numbers (Ok (Some (i, z))) = 9 ∷ (i ∷ (counted z ∷ []))
place_numbers (Err r) = number_of r ∷ []

abbrev pub first_wrong_at : Reader → (points : List ℕ) → List ℕ
first_wrong_at st points = place_numbers (place_of st (floats_in points))

-- label bits that the points show, coded bits among label bits, and the inputs that they force
abbrev pub shown_at : Settings → (points : List ℕ) (i : ℕ) (rs : List ℕ) → List ℕ
shown_at s points i rs = at_each (shown_bit (plan_for s) (floats_in points) i) rs

abbrev pub coded_in_at : Settings → (labels : List ℕ) (j : ℕ) (ys : List ℕ) → List ℕ
coded_in_at s labels j ys = at_each (coded_in (plan_for s) (labels_in s labels) j) ys

abbrev pub heard_at : Settings → Reader → (labels ds : List ℕ) → List ℕ
heard_at s st labels ds = at_each (heard_input s st (labels_in s labels)) ds

-- the first coded bit of each group, as the forced inputs give it: what the test for refusal 10 compares
abbrev pub first_coded_at : Settings → Reader → (labels : List ℕ) (j : ℕ) (groups : List ℕ) → List ℕ
first_coded_at s st labels j groups =
    let kept = (plan_for s).kept in
    let c = coded_in (plan_for s) (labels_in s labels) j in
    at_each (λ g. coded_after (history_of st j) (forced_input (history_of st j) c kept) kept (kept * g)) groups

-- the step from a symbol's label bits on, and the lent payload afterwards
abbrev pub code_at : Settings → Reader → (labels : List ℕ) → List ℕ
code_at s st labels = stepped_numbers (by_code s st (labels_in s labels))

abbrev pub code_bytes_at : Settings → Reader → (labels lent : List ℕ) → List ℕ
code_bytes_at s st labels lent =
    step_into_by (by_code s st (labels_in s labels)).answer (bytes_into s st (heard_input s st (labels_in s labels)) lent) lent

-- the same from a symbol's inputs on, with the histories after them
abbrev pub inputs_in : (inputs : List ℕ) (d : ℕ) → ℕ
inputs_in inputs d = get_or inputs d 0

abbrev pub frame_at : Settings → Reader → (inputs histories : List ℕ) → List ℕ
frame_at s st inputs histories = stepped_numbers (by_frame s st (inputs_in inputs) histories)

abbrev pub frame_bytes_at : Settings → Reader → (inputs histories lent : List ℕ) → List ℕ
frame_bytes_at s st inputs histories lent =
    step_into_by (by_frame s st (inputs_in inputs) histories).answer (bytes_into s st (inputs_in inputs) lent) lent
"#;
