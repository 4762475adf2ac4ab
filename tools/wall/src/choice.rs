//! The best of several drawings of one network: other meshes, box sizes and rounds of spacing than asked for, each measured by
//! what on it may be misread.
use crate::args::Settings;
use crate::colours::Colours;
use crate::drawing::{self, Drawing, Threads};
use crate::fault::Fault;
use crate::lead;
use crate::mesh::Weave;
use crate::network::Network;
use crate::sheet::{self, Measure};
use tansygate::TxLayoutOptions;

/// Sizes of boxes that are tried, as parts of the one asked for.
const SIZES: [f64; 3] = [1.0, 0.85, 0.7];

/// Rounds of spacing that are tried beside those asked for.
const ROUNDS: usize = 3;

/// Networks with more branches are drawn in fewer ways, so that a sheet takes seconds.
const MANY: usize = 1_500;

/// A drawing, and the settings that it was made with.
pub struct Chosen {
    pub drawing: Drawing,
    pub settings: Settings,
}

/// A way to draw: the options, and the mesh that lines are led through.
struct Way {
    options: TxLayoutOptions,
    weave: Weave,
}

/// The settings with the largest fill in the place of `largest`.
pub fn sized(network: &Network, settings: &Settings) -> Result<Settings, Fault> {
    let mut sized = settings.clone();
    if settings.largest {
        sized.options.fill = drawing::largest_fill(network, &settings.options)?;
    }
    Ok(sized)
}

/// The drawing as asked where that is wished for, else the best; every fill is the largest where that is asked for.
pub fn drawn(network: &Network, settings: &Settings, colours: &Colours) -> Result<Chosen, Fault> {
    let settings = &sized(network, settings)?;
    let ways = ways(network, settings);
    let count = ways.len();
    let mut threads = Threads::default();
    let mut tried = Vec::new();
    for way in ways {
        let drawing = match drawing::audited(network, &way.options, way.weave, &mut threads) {
            Ok(drawing) if settings.as_asked => return Ok(chosen(settings, way, drawing, 1)),
            Ok(drawing) => drawing,
            // What is refused as it is asked for is refused; another way is passed over.
            Err(fault) if tried.is_empty() => return Err(fault),
            Err(_) => continue,
        };
        let rough = if count > 1 { sheet::roughly(network, &drawing, settings, colours) } else { 0 };
        tried.push((rough, way, drawing));
    }
    let mut best: Option<(Option<Measure>, Way, Drawing)> = None;
    let finalists = finalists(network, tried);
    let alone = finalists.len() == 1;
    for (_, way, mut drawing) in finalists {
        if way.options.route_iterations > 0 {
            lead_clear(network, settings, &mut drawing)?;
        }
        let measure = (!alone).then(|| sheet::measured(network, &drawing, settings, colours));
        if best.as_ref().is_none_or(|(least, ..)| measure < *least) {
            best = Some((measure, way, drawing));
        }
    }
    let (_, way, drawing) = best.ok_or_else(|| Fault::Usage("expected a way to draw".to_string()))?;
    Ok(chosen(settings, way, drawing, count))
}

/// Leads the lines of a drawing clear, unless the library can't audit it so.
fn lead_clear(network: &Network, settings: &Settings, drawing: &mut Drawing) -> Result<(), Fault> {
    let layout = &mut drawing.layout;
    let before = (layout.segments.clone(), layout.segment_edge.clone());
    lead::improve(network, layout, sheet::scale(settings, layout.bounds, layout.unit));
    drawing.led = drawing.audit(network).is_ok();
    if !drawing.led {
        (drawing.layout.segments, drawing.layout.segment_edge) = before;
        drawing.audit(network)?;
    }
    Ok(())
}

/// Of each size of boxes the drawing with the least that lines would have to be led off, in the order of the sizes; of a
/// large network the best of all.
fn finalists(network: &Network, tried: Vec<(usize, Way, Drawing)>) -> Vec<(usize, Way, Drawing)> {
    let mut list: Vec<(usize, Way, Drawing)> = Vec::new();
    for one in tried {
        match list.iter_mut().find(|kept| kept.1.options.fill == one.1.options.fill) {
            Some(kept) if one.0 < kept.0 => *kept = one,
            Some(_) => {}
            None => list.push(one),
        }
    }
    if network.branches.len() > MANY {
        list.truncate(1);
    }
    list
}

fn chosen(settings: &Settings, way: Way, drawing: Drawing, count: usize) -> Chosen {
    let mesh = way.weave.words();
    let of = match count {
        _ if settings.as_asked => "as asked".to_string(),
        1 => "lines led clear".to_string(),
        n => format!("the best of {n}, lines led clear"),
    };
    let said = format!("{mesh}, {of}");
    Chosen { drawing, settings: Settings { options: way.options, drawn: said, ..settings.clone() } }
}

/// The ways in their order; the first is as asked.
fn ways(network: &Network, settings: &Settings) -> Vec<Way> {
    let asked = &settings.options;
    let sizes = if settings.kept.fill { &SIZES[..1] } else { &SIZES };
    let mut rounds = vec![asked.route_iterations];
    if !settings.kept.iterations && network.branches.len() <= MANY {
        rounds.push(ROUNDS);
    }
    let weaves = if asked.route_iterations == 0 { &Weave::ALL[..1] } else { &Weave::ALL[..] };
    let mut list = Vec::new();
    for size in sizes {
        for &route_iterations in &rounds {
            for &weave in weaves {
                let options = TxLayoutOptions { fill: asked.fill * size, route_iterations, ..asked.clone() };
                list.push(Way { options, weave });
            }
        }
    }
    let most = if settings.as_asked {
        1
    } else if network.branches.len() > MANY {
        weaves.len()
    } else {
        list.len()
    };
    list.truncate(most);
    list
}
