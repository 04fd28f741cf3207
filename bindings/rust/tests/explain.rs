//! Explanations called from Rust: every reason, and what is told beside what `filter` does.
use hookbarley::{explain, filter, Pair, Rule};

/// Limit 40, inner 5, threshold 2, as in crates/filter/specs/ExplainLaws.antt (`every_reason`).
fn named(simple: bool, edge: bool, samples: [u8; 8]) -> Rule {
    explain(&samples, simple, edge, 40, 5, 2).rule
}

#[test]
fn every_reason() {
    assert_eq!(named(true, true, [90, 90, 90, 90, 110, 110, 110, 111]), Rule::EdgeFailed);
    assert_eq!(named(false, true, [90, 90, 90, 90, 110, 110, 110, 111]), Rule::EdgeFailed);
    let rough = [
        ([80, 90, 90, 90, 90, 90, 90, 80], Pair::P3P2),
        ([80, 80, 90, 90, 90, 90, 80, 80], Pair::P2P1),
        ([80, 80, 80, 90, 90, 80, 80, 80], Pair::P1P0),
        ([90, 90, 90, 90, 90, 90, 90, 80], Pair::Q3Q2),
        ([90, 90, 90, 90, 90, 90, 80, 80], Pair::Q2Q1),
        ([90, 90, 90, 90, 90, 80, 80, 80], Pair::Q1Q0),
    ];
    for (samples, pair) in rough {
        assert_eq!(named(false, true, samples), Rule::Rough(pair));
        assert_eq!(named(false, false, samples), Rule::Rough(pair));
    }
    assert_eq!(named(true, true, [80, 90, 90, 90, 90, 90, 90, 80]), Rule::Simple);
    assert_eq!(named(false, true, [90, 90, 90, 93, 96, 96, 96, 96]), Rule::HighVariance);
    assert_eq!(named(false, true, [90, 90, 90, 90, 96, 96, 96, 96]), Rule::MacroblockEdge);
    assert_eq!(named(false, false, [90, 90, 90, 90, 96, 96, 96, 96]), Rule::InnerEdge);
}

#[test]
fn the_step_is_told_before_clipping() {
    let x = explain(&[0, 0, 0, 20, 1, 1, 0, 0], true, false, 255, 0, 0);
    assert_eq!((x.rule, x.steps), (Rule::Simple, [0, 0, 0, -7, 7, 0, 0, 0]));
    // 5 would be taken off a sample of 0
    let x = explain(&[0, 0, 40, 0, 0, 0, 0, 0], true, false, 255, 0, 0);
    assert_eq!((x.steps[3], x.steps[4], x.after[3], x.after[4]), (5, -5, 5, 0));
}

#[test]
fn what_is_told_is_what_filter_does() {
    let mut state = 1u32;
    let mut draw = move || { state = state.wrapping_mul(1664525).wrapping_add(1013904223); (state >> 24) as u8 };
    for _ in 0..20000 {
        let (base, spread) = (draw(), draw() % 64 + 1);
        let samples: [u8; 8] = std::array::from_fn(|_| base.saturating_add(draw() % spread));
        let (simple, edge, limit, inner, threshold) = (draw() % 4 == 0, draw() % 2 == 0, draw(), draw() % 64, draw() % 4);
        let x = explain(&samples, simple, edge, limit, inner, threshold);
        let mut after = samples;
        filter(&mut after, simple, edge, limit, inner, threshold);
        assert_eq!((x.before, x.after), (samples, after));
        for k in 0..8 {
            assert_eq!(x.after[k] as i32, (samples[k] as i32 + x.steps[k]).clamp(0, 255));
        }
    }
}
