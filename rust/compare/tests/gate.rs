//! The comparison as the gate runs it. LEGEND_SEED gives another seed. Where the reference's text is absent, the tests
//! that need it are ignored, unless LEGEND_ORACLE is `required`.

use compare::plan::{Plan, oracle_runs, rule_runs, run_all};
use std::collections::HashSet;
use std::env;

fn plan() -> Plan {
    Plan::gate(env::var("LEGEND_SEED").ok().and_then(|seed| seed.parse().ok()).unwrap_or(1))
}

#[test]
#[cfg_attr(no_oracle, ignore = "the reference's text is absent")]
fn no_difference() {
    let (same, cases) = run_all(oracle_runs(), &plan(), "");
    assert!(same, "see DIFFERENCE or NOT DRAWN above");
    assert!(cases >= 100_000, "{cases} cases are too few");
}

/// What the reference cannot hold, against docs/RULES.md read a second time.
#[test]
fn no_difference_from_the_rules() {
    let (same, cases) = run_all(rule_runs(), &plan(), "");
    assert!(same, "see DIFFERENCE or NOT DRAWN above");
    assert!(cases >= 50_000, "{cases} cases are too few");
}

/// No two comparisons draw the same numbers.
#[test]
fn each_comparison_has_its_own_seed() {
    let runs: Vec<_> = oracle_runs().into_iter().chain(rule_runs()).collect();
    let seeds: HashSet<u64> = runs.iter().flat_map(|run| [1, 2].map(|seed| run.seed(seed))).collect();
    assert_eq!(seeds.len(), 2 * runs.len());
}

/// LEGEND_ORACLE=required: a gate that has the text does not pass by ignoring what needs it.
#[test]
fn the_reference_is_here_where_it_is_required() {
    match env::var("LEGEND_ORACLE").as_deref() {
        Ok("required") if !oracle::PRESENT => panic!("the reference's text is absent (LEGEND_ORACLE_SRC)"),
        Ok("required") | Err(_) => (),
        Ok(other) => panic!("LEGEND_ORACLE is {other:?}: it is `required`, or not set"),
    }
}

/// The crate's palettes have the reference's names, in its order.
#[test]
#[cfg_attr(no_oracle, ignore = "the reference's text is absent")]
fn palette_names() {
    let ours = legend::Palette::ALL.map(|palette| format!("{palette:?}").to_lowercase());
    let theirs: Vec<_> = oracle::palette_names().iter().map(|name| name.replace('_', "").to_lowercase()).collect();
    assert_eq!(ours.to_vec(), theirs);
}
