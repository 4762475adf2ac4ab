//! The original's calls beside those of the second implementation: what differs.
use std::fmt::Debug;

use crate::audit::{audit, Figures};
use crate::calls::{AuditCall, Call};
use crate::layout::layout;
use crate::tx_schematic::TxLayout;
use crate::{patiently, Outcome};

/// Equal as numbers: +0 equals -0, NaN equals NaN.
fn same(a: f64, b: f64) -> bool {
    a == b || a.is_nan() && b.is_nan()
}

fn floats(name: &str, original: &[f64], judge: &[f64], wrong: &mut Vec<String>) {
    if original.len() != judge.len() {
        wrong.push(format!("{name}: the original has {} numbers, the judge {}", original.len(), judge.len()));
    } else if let Some(i) = (0..judge.len()).find(|&i| !same(original[i], judge[i])) {
        wrong.push(format!("{name}[{i}]: original {:?}, judge {:?}", original[i], judge[i]));
    }
}

fn equal<T: PartialEq + Debug>(name: &str, original: &T, judge: &T, wrong: &mut Vec<String>) {
    if original != judge {
        wrong.push(format!("{name}: original {original:?}, judge {judge:?}"));
    }
}

/// What the original answers; the wrong answers of one that panics or takes too long.
fn asked<T: Send + 'static>(work: impl FnOnce() -> Result<T, u32> + Send + 'static) -> Result<Result<T, u32>, Vec<String>> {
    match patiently(work) {
        Outcome::Done(answer) => Ok(answer),
        Outcome::Panicked => Err(vec!["the original panics".to_string()]),
        Outcome::TooLong => Err(vec!["the original takes too long".to_string()]),
    }
}

/// Both results where neither call is refused; else what is wrong, if anything, is noted.
fn drawn<'a, T, U>(
    got: &'a Result<Result<T, u32>, Vec<String>>,
    want: &'a Result<U, u32>,
    wrong: &mut Vec<String>,
) -> Option<(&'a T, &'a U)> {
    match (got, want) {
        (Ok(Ok(got)), Ok(want)) => return Some((got, want)),
        (Ok(Err(a)), Err(b)) if a == b => {}
        (Ok(a), b) => wrong.push(format!("answers {:?} and {:?}", a.as_ref().err(), b.as_ref().err())),
        (Err(told), _) => wrong.extend(told.iter().cloned()),
    }
    None
}

pub fn layout_wrong(call: &Call, want: &Result<TxLayout, u32>, _: u64) -> Vec<String> {
    let c = call.clone();
    let (got, mut wrong) = (asked(move || layout(&c.net, &c.options, &c.mesh, &c.lent)), Vec::new());
    let Some((got, want)) = drawn(&got, want, &mut wrong) else {
        return wrong;
    };
    floats("unit", &[got.unit], &[want.unit], &mut wrong);
    floats("bounds", &got.bounds, &want.bounds, &mut wrong);
    floats("positions", &got.positions, &want.positions, &mut wrong);
    floats("bars", &got.busbars, &want.busbars, &mut wrong);
    floats("boxes", &got.boxes, &want.boxes, &mut wrong);
    floats("scales", &got.scale, &want.scale, &mut wrong);
    equal("roles", &got.role, &want.role, &mut wrong);
    floats("pieces", &got.segments, &want.segments, &mut wrong);
    equal("branches", &got.segment_edge, &want.segment_edge, &mut wrong);
    wrong
}

pub fn audit_wrong(call: &AuditCall, want: &Result<Figures, u32>, _: u64) -> Vec<String> {
    let c = call.clone();
    let (got, mut wrong) = (asked(move || audit(&c.net, &c.drawing, &c.room)), Vec::new());
    let Some((got, want)) = drawn(&got, want, &mut wrong) else {
        return wrong;
    };
    equal("overlaps", &got.overlaps, &want.overlaps, &mut wrong);
    equal("through", &got.through, &want.through, &mut wrong);
    floats("displacement", &got.displacement, &want.displacement, &mut wrong);
    floats("spacing", &got.spacing, &want.spacing, &mut wrong);
    floats("lengths", &got.lengths, &want.lengths, &mut wrong);
    wrong
}
