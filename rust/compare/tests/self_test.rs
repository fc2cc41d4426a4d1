//! The comparison fails when it should.

use compare::engine::{Fault, Inputs, Subject, compare};
use compare::plan::{Plan, Run, oracle_runs, rule_runs, run_all};
use compare::subjects::cards::{self, Reader, Writer, Writing};
use compare::subjects::legends::paintings::{self, Painting, Paintings};
use compare::subjects::legends::{Asked, Job, Kinds, builders};
use compare::subjects::patterns::Block;
use compare::subjects::stored::{self, Stored, Use, Uses, Wholes};
use compare::subjects::{hex, lookups, patterns, ramps};

/// One bit of one word of either side's answers, in each comparison.
fn each_fault_is_caught(runs: Vec<Run>) {
    for run in runs {
        let plan = Plan::least(1);
        assert!(run.go(&plan, None).is_ok(), "{}", run.name);
        for word in [0, 1, 2, 3, 100, 1000] {
            for fault in [Fault::Theirs { word }, Fault::Ours { word }] {
                assert!(run.go(&plan, Some(fault)).is_err(), "{}: {fault:?} was not caught", run.name);
            }
        }
    }
}

#[test]
#[cfg_attr(no_oracle, ignore = "the reference's text is absent")]
fn every_fault_is_caught() {
    each_fault_is_caught(oracle_runs());
}

#[test]
fn every_fault_against_the_rules_is_caught() {
    each_fault_is_caught(rule_runs());
}

/// A run that is too small for what its comparisons want among their inputs does not pass.
#[test]
fn what_is_not_drawn_is_seen() {
    for run in rule_runs() {
        let none = Plan { legends: 0, ..Plan::least(1) };
        let compared = run.go(&none, None).expect("nothing is compared").compared;
        assert!(!compared.missing().is_empty() && compared.missing().len() == compared.drawn.len(), "{}", run.name);
        assert!(!run_all(vec![run], &none, "").0);
    }
}

/// A subject whose reference is wrong where a condition holds: the smallest input that meets it is to be found.
struct Wrong<S, C>(S, C);

impl<S: Subject, C: Fn(&S::Input) -> bool + Sync> Subject for Wrong<S, C> {
    type Input = S::Input;
    fn ours(&self, input: &S::Input, words: &mut Vec<u64>) {
        self.0.ours(input, words);
    }
    fn theirs(&self, input: &S::Input, words: &mut Vec<u64>) {
        self.0.theirs(input, words);
        if (self.1)(input) {
            words[0] ^= 1;
        }
    }
    fn smaller(&self, input: &S::Input) -> Vec<S::Input> {
        self.0.smaller(input)
    }
}

fn smallest<S: Subject>(subject: S, wrong: impl Fn(&S::Input) -> bool + Sync, inputs: Inputs<S::Input>) -> String {
    compare(&Wrong(subject, wrong), &inputs, None).expect_err("the fault is caught").input
}

#[test]
#[cfg_attr(no_oracle, ignore = "the reference's text is absent")]
fn the_smallest_input_is_found() {
    let text = smallest(hex::Hex, |text| text.contains('F'), hex::random(1, 1000));
    assert_eq!(text, "\"F\"");
    let text = smallest(hex::Hex, |text| text.len() == 7 && text.ends_with('a'), hex::random(1, 1000));
    assert_eq!(text, "\"#00000a\"");
    let list = smallest(ramps::ListRamps, |list| list.len() > 5, ramps::random(1, 1000));
    assert_eq!(list, "[0, 0, 0, 0, 0, 0]");
    let third = |block: &Block| block.floats().any(|x| x == 1.0 / 3.0);
    let fraction = smallest(lookups::Plain::default(), third, patterns::around(vec![0.5, 1.0 / 3.0]));
    assert_eq!(fraction, format!("{:?} (bits {:#010x})", 1f32 / 3.0, (1f32 / 3.0).to_bits()));
}

#[test]
#[cfg_attr(no_oracle, ignore = "the reference's text is absent")]
fn the_smallest_painting_is_found() {
    let wrong = |painting: &Painting<f32>| painting.raster.iter().any(|x| x.is_nan());
    let found = smallest(Paintings::default(), wrong, paintings::random(1, 1000));
    assert!(found.contains("raster: [NaN], nodata: None"), "{found}");
    let many = |asked: &Asked| matches!(&asked.job, Job::EqualBands { count, .. } if *count >= 5);
    let found = smallest(builders::Builders, many, builders::random(Kinds::EqualBands, 1, 1000));
    assert!(found.contains("EqualBands { count: 5,") && found.contains("start: 0.0, end: 0.0"), "{found}");
}

/// A subject of ours that follows another rule: it is given another input than the reference is.
struct Changed<S: Subject>(S, fn(&mut S::Input));

impl<S: Subject> Subject for Changed<S> {
    type Input = S::Input;
    fn ours(&self, input: &S::Input, words: &mut Vec<u64>) {
        let mut other = input.clone();
        (self.1)(&mut other);
        self.0.ours(&other, words);
    }
    fn theirs(&self, input: &S::Input, words: &mut Vec<u64>) {
        self.0.theirs(input, words);
    }
    fn smaller(&self, input: &S::Input) -> Vec<S::Input> {
        self.0.smaller(input)
    }
}

fn zero_is_never_nodata(painting: &mut Painting<f32>) {
    painting.asked.config.zero_is_nodata = false;
}

fn nodata_is_not_looked_at(painting: &mut Painting<f32>) {
    painting.nodata = None;
}

fn low_is_high(painting: &mut Painting<f32>) {
    painting.asked.config.low = painting.asked.config.high;
}

fn absent_high_is_nodata(painting: &mut Painting<f32>) {
    let config = &mut painting.asked.config;
    config.high = config.high.or(Some(config.nodata_color));
}

fn a_band_has_its_end(painting: &mut Painting<f32>) {
    if let Job::BandsAsGiven { bands } = &mut painting.asked.job {
        bands.iter_mut().for_each(|band| band.1 = band.1.next_up());
    }
}

fn the_first_band_wins_in_lanes(painting: &mut Painting<f32>) {
    if let (Job::BandsAsGiven { bands }, Some(_)) = (&mut painting.asked.job, painting.lanes) {
        bands.reverse();
    }
}

fn lanes_are_painted_plainly(painting: &mut Painting<f32>) {
    painting.lanes = None;
}

fn the_last_sample_is_the_one_before(painting: &mut Painting<f32>) {
    if let [.., before, last] = &mut painting.raster[..] {
        *last = *before;
    }
}

/// One rule of a painting changed on our side: each change is caught, and no change is none.
#[test]
#[cfg_attr(no_oracle, ignore = "the reference's text is absent")]
fn a_changed_rule_of_painting_is_caught() {
    let caught = |change: fn(&mut Painting<f32>)| {
        compare(&Changed(Paintings::<f32>::default(), change), &paintings::random(1, 4000), None).is_err()
    };
    assert!(!caught(|_| ()));
    assert!(caught(zero_is_never_nodata));
    assert!(caught(nodata_is_not_looked_at));
    assert!(caught(low_is_high));
    assert!(caught(absent_high_is_nodata));
    assert!(caught(a_band_has_its_end));
    assert!(caught(the_first_band_wins_in_lanes));
    assert!(caught(lanes_are_painted_plainly));
    assert!(caught(the_last_sample_is_the_one_before));
}

fn of_equal_keys_the_first_stays(asked: &mut Asked) {
    if let Job::Values { values, colors: oracle::Colors::List(words) } = &mut asked.job {
        values.reverse();
        words.reverse();
    }
}

fn a_range_may_be_empty(asked: &mut Asked) {
    if let Job::ManualRanges { ranges, .. } = &mut asked.job {
        ranges.iter_mut().filter(|range| range.0 == range.1).for_each(|range| range.1 = range.1.next_up());
    }
}

fn a_ramp_is_read_from_its_end(asked: &mut Asked) {
    if let Job::EqualBands { colors: oracle::Colors::Preset(_, reversed), .. } = &mut asked.job {
        *reversed = !*reversed;
    }
}

/// The same for builders.
#[test]
#[cfg_attr(no_oracle, ignore = "the reference's text is absent")]
fn a_changed_rule_of_building_is_caught() {
    let caught = |kinds, change: fn(&mut Asked)| {
        compare(&Changed(builders::Builders, change), &builders::random(kinds, 1, 4000), None).is_err()
    };
    for kinds in [Kinds::Values, Kinds::ManualRanges, Kinds::EqualBands] {
        assert!(!caught(kinds, |_| ()));
    }
    assert!(caught(Kinds::Values, of_equal_keys_the_first_stays));
    assert!(caught(Kinds::ManualRanges, a_range_may_be_empty));
    assert!(caught(Kinds::EqualBands, a_ramp_is_read_from_its_end));
}

fn of_stored_keys_the_last_counts(input: &mut Use<f32>) {
    input.stored.categories.reverse();
}

fn stored_keys_are_in_order(input: &mut Use<f32>) {
    input.stored.categories.sort_by_key(|category| category.0);
}

fn another_band_counts(input: &mut Use<f32>) {
    if input.stored.bands.len() < 64 {
        input.stored.bands.push((-1e38, 1e38, 5));
    }
}

fn another_key_counts(input: &mut Use<f32>) {
    if input.stored.categories.len() < 256 {
        let next = input.stored.record().categoric.keys[input.stored.categories.len()];
        input.stored.categories.push((next, 5));
    }
}

fn another_word_of_the_table_counts(input: &mut Use<f32>) {
    if (1..513).contains(&input.stored.table.len()) {
        input.stored.table.push(5);
    }
}

fn the_output_may_be_longer(input: &mut Use<f32>) {
    input.places = input.places.min(input.raster.len());
}

fn five_lanes_are_four(input: &mut Use<f32>) {
    input.lanes = input.lanes.map(|lanes| if lanes == 5 { 4 } else { lanes });
}

fn scratch_may_be_shorter(input: &mut Use<f32>) {
    input.spare = input.spare.max(16);
}

fn a_flag_of_2_is_1(input: &mut Use<f32>) {
    input.given = input.given.min(1);
}

/// One rule changed on our side, against the rules.
#[test]
fn a_changed_rule_of_stored_records_is_caught() {
    let caught = |change: fn(&mut Use<f32>)| {
        compare(&Changed(Uses::<f32>::default(), change), &stored::random(1, 4000), None).is_err()
    };
    assert!(!caught(|_| ()));
    assert!(caught(of_stored_keys_the_last_counts));
    assert!(caught(another_band_counts));
    assert!(caught(another_key_counts));
    assert!(caught(another_word_of_the_table_counts));
    assert!(caught(the_output_may_be_longer));
    assert!(caught(five_lanes_are_four));
    assert!(caught(scratch_may_be_shorter));
    assert!(caught(a_flag_of_2_is_1));
    // The first entry with a key counts, so a stable order changes nothing.
    assert!(!caught(stored_keys_are_in_order));
    let wholes =
        |change: fn(&mut Stored)| compare(&Changed(Wholes, change), &stored::random_records(1, 4000), None).is_err();
    assert!(!wholes(|_| ()));
    assert!(wholes(|stored| stored.categories.truncate(stored.categories.len().saturating_sub(1))));
    assert!(wholes(|stored| stored.bands.truncate(stored.bands.len().saturating_sub(1))));
}

fn a_title_loses_its_end(input: &mut Writing) {
    input.title.pop();
}

fn bytes_of_another_title(input: &mut Writing) {
    input.title.reverse();
}

fn a_buffer_has_room(input: &mut Writing) {
    input.room += 1;
}

fn one_category_less(input: &mut Writing) {
    input.stored.categories.pop();
}

fn one_band_less(input: &mut Writing) {
    input.stored.bands.pop();
}

fn no_high_color(input: &mut Writing) {
    input.stored.flags[1] = 0;
}

fn a_range_is_never_backwards(input: &mut Writing) {
    let (start, end) = &mut input.stored.bounds;
    if start > end {
        std::mem::swap(start, end);
    }
}

fn any_version(card: &mut Vec<u8>) {
    if card.len() > 4 {
        (card[3], card[4]) = (1, 0);
    }
}

fn other_flags_are_dropped(card: &mut Vec<u8>) {
    let at = card.get(6).map_or(0, |&length| 11 + usize::from(length));
    if let Some(flags) = card.get_mut(at) {
        *flags &= 7;
    }
}

fn a_byte_more_is_not_seen(card: &mut Vec<u8>) {
    if compare::cards::read(&card[..card.len().saturating_sub(1)]).is_ok() {
        card.pop();
    }
}

fn a_missing_byte_is_zero(card: &mut Vec<u8>) {
    card.push(0);
}

/// One rule of the writer or of the reader of cards changed on our side, against the rules.
#[test]
fn a_changed_rule_of_cards_is_caught() {
    let written =
        |change: fn(&mut Writing)| compare(&Changed(Writer, change), &cards::random_writings(1, 4000), None).is_err();
    assert!(!written(|_| ()));
    assert!(written(a_title_loses_its_end));
    assert!(written(bytes_of_another_title));
    assert!(written(a_buffer_has_room));
    assert!(written(one_category_less));
    assert!(written(one_band_less));
    assert!(written(no_high_color));
    assert!(written(a_range_is_never_backwards));
    let read =
        |change: fn(&mut Vec<u8>)| compare(&Changed(Reader, change), &cards::random_readings(1, 4000), None).is_err();
    assert!(!read(|_| ()));
    assert!(read(any_version));
    assert!(read(other_flags_are_dropped));
    assert!(read(a_byte_more_is_not_seen));
    assert!(read(a_missing_byte_is_zero));
}
