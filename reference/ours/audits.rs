//! An audit call of ours beside the oracle's.
use crate::audit::Figures;
use crate::calls::AuditCall;
use crate::judge::audit;
use crate::layouts::MANY;
use crate::library;
use crate::lists::Lent;
use crate::random::Random;

/// Which work list is one too short, if any.
fn short(call: &AuditCall, salt: u64) -> Option<usize> {
    let mut r = Random::new(salt, 0x0DD);
    let i = r.below(6);
    (!call.net.sub.is_empty() && r.one_in(50)).then_some(i)
}

/// The oracle's answer; it knows nothing of work lists, so refusal 7 for a short one is put in its place here.
pub fn expected(call: &AuditCall, salt: u64) -> Result<Figures, u32> {
    if short(call, salt).is_some() {
        call.net.shape()?;
        call.net.near()?;
        return Err(7);
    }
    audit(&call.net, &call.drawing, &call.room)
}

/// What is wrong with our answer and lists, against the oracle's answer.
pub fn wrong(call: &AuditCall, want: &Result<Figures, u32>, salt: u64) -> Vec<String> {
    let (net, d) = (&call.net, &call.drawing);
    let n = net.sub.len();
    let mut r = Random::new(salt, 0x0DE);
    let needed = [2 * n, library::index_length(n), n, n, 2 * n, 2 * n];
    let mut lengths = needed.map(|length| length + r.below(3));
    if let Some(i) = short(call, salt) {
        lengths[i] = needed[i] - 1;
    }
    let mut displacement = Lent::<f64>::of(call.room.displacement.min(MANY));
    let mut spacing = Lent::<f64>::of(call.room.spacing.min(MANY));
    let mut relative = Lent::<f64>::of(call.room.lengths);
    let (mut stations, mut index) = (Lent::<u32>::of(lengths[0]), Lent::<u32>::of(lengths[1]));
    let (mut spare, mut keys) = (Lent::<u32>::of(lengths[2]), Lent::<u64>::of(lengths[3]));
    let (mut points, mut path) = (Lent::<f64>::of(lengths[4]), Lent::<f64>::of(lengths[5]));
    let got = library::audit(
        &mut displacement.0,
        &mut spacing.0,
        &mut relative.0,
        &mut stations.0,
        &mut index.0,
        &mut spare.0,
        &mut keys.0,
        &mut points.0,
        &mut path.0,
        &net.sub,
        &net.kv,
        &net.from,
        &net.to,
        &net.xy,
        &d.boxes,
        &d.roles,
        &d.pieces,
        &d.branches,
    );
    let number = want.as_ref().err().copied().unwrap_or(0);
    if got.number != number {
        return vec![format!("answer {}, oracle {number}", got.number)];
    }
    let none = Figures { overlaps: 0, through: 0, displacement: Vec::new(), spacing: Vec::new(), lengths: Vec::new() };
    let f = want.as_ref().unwrap_or(&none);
    let mut wrong = Vec::new();
    for (name, ours, theirs) in [
        ("stations", got.stations, f.displacement.len()),
        ("overlaps", got.overlaps, f.overlaps),
        ("through", got.through, f.through),
        ("relative", got.relative, f.lengths.len()),
    ] {
        if ours != theirs {
            wrong.push(format!("{name} {ours}, oracle {theirs}"));
        }
    }
    displacement.holds("displacement", &f.displacement, &mut wrong);
    spacing.holds("spacing", &f.spacing, &mut wrong);
    relative.holds("relative", &f.lengths, &mut wrong);
    let cleared = !matches!(number, 1..=7 | 15);
    stations.work("stations", cleared, &mut wrong);
    index.work("index", cleared, &mut wrong);
    spare.work("spare", cleared, &mut wrong);
    keys.work("keys", cleared, &mut wrong);
    points.work("points", cleared, &mut wrong);
    path.work("path", cleared, &mut wrong);
    wrong
}
