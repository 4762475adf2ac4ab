//! A network drawn and audited by the library, or its refusal with the row to blame.
use crate::fault::Fault;
use crate::mesh::{delaunay, Weave};
use crate::network::Network;
use crate::number::thousands;
use tansygate::{
    tx_layout_quality, tx_schematic_largest_fill, tx_schematic_layout, Mesh, MeshBuf, Refusal, TxLayout, TxLayoutInput,
    TxLayoutOptions, TxLayoutQuality,
};

/// The most buses and branches of a network.
const MOST: (usize, usize) = (4_096, 8_192);

/// The largest coordinate.
const FARTHEST: f64 = 1e12;

/// What may be changed where no fill serves.
const NO_FILL: &str = "at every fill a box finds no free place, or boxes are too small for their distance from (0, 0): \
    a larger --search tries more places for each box, a smaller --buffer keeps less free beside it, substations on one \
    point can be moved apart, and a map far from (0, 0) nearer to it; --fill with a number asks for no free places";

pub struct Drawing {
    pub layout: TxLayout,
    pub quality: TxLayoutQuality,
    /// Whether its lines and open branches are led clear of what they may be misread with.
    pub led: bool,
}

impl Drawing {
    /// Whether the drawing has a piece of each branch.
    pub fn drawn(&self) -> Vec<bool> {
        let mut drawn = vec![false; self.layout.role.len()];
        for &branch in &self.layout.segment_edge {
            drawn[branch as usize] = true;
        }
        drawn
    }

    /// Audits the drawing again, as it is now.
    pub fn audit(&mut self, network: &Network) -> Result<(), Fault> {
        let quality = tx_layout_quality(&network.input(), &self.layout);
        self.quality = quality.map_err(|refusal| explained(network, refusal))?;
        Ok(())
    }

    /// Whether the audit found overlapping boxes or lines through boxes.
    pub fn flawed(&self) -> bool {
        self.quality.overlapping_pairs > 0 || self.quality.lines_through_boxes > 0
    }
}

/// The drawing: where lines are routed, boxes are placed first, and the mesh is over their middles.
pub fn laid_out(network: &Network, options: &TxLayoutOptions) -> Result<TxLayout, Fault> {
    layout(&network.input(), options).map_err(|refusal| explained(network, refusal))
}

/// The largest fill at which every box finds a free place.
pub fn largest_fill(network: &Network, options: &TxLayoutOptions) -> Result<f64, Fault> {
    let largest = tx_schematic_largest_fill(&network.input(), options);
    largest.map(|largest| largest.fill()).map_err(|refusal| explained(network, refusal))
}

/// The drawing through a mesh of a kind, and its audit.
pub fn audited(
    network: &Network,
    options: &TxLayoutOptions,
    weave: Weave,
    threads: &mut Threads,
) -> Result<Drawing, Fault> {
    let input = network.input();
    let mut both = || {
        let layout = woven(&input, options, weave, threads)?;
        let quality = tx_layout_quality(&input, &layout)?;
        Ok(Drawing { layout, quality, led: false })
    };
    both().map_err(|refusal| explained(network, refusal))
}

/// A drawing with straight lines and the mesh over its boxes, which other drawings of its box sizes have too.
#[derive(Default)]
pub struct Threads(Option<(TxLayoutOptions, TxLayout, MeshBuf)>);

impl Threads {
    /// The straight drawing and the mesh for these options.
    fn of(&mut self, input: &TxLayoutInput, options: &TxLayoutOptions) -> Result<(&TxLayout, &MeshBuf), Refusal> {
        let straight = TxLayoutOptions { route_iterations: 0, ..options.clone() };
        let kept = self.0.take().filter(|(of, ..)| *of == straight);
        let kept = match kept {
            Some(kept) => kept,
            None => {
                let placed = tx_schematic_layout(input, &straight, Mesh::default())?;
                let mesh = delaunay(&placed.mesh_points(input));
                (straight, placed, mesh)
            }
        };
        let (_, placed, mesh) = self.0.insert(kept);
        Ok((placed, mesh))
    }
}

fn woven(
    input: &TxLayoutInput,
    options: &TxLayoutOptions,
    weave: Weave,
    threads: &mut Threads,
) -> Result<TxLayout, Refusal> {
    let (placed, mesh) = threads.of(input, options)?;
    if options.route_iterations == 0 {
        return Ok(placed.clone());
    }
    let mesh = weave.of(mesh, &placed.mesh_points(input));
    tx_schematic_layout(input, options, mesh.lend())
}

fn layout(input: &TxLayoutInput, options: &TxLayoutOptions) -> Result<TxLayout, Refusal> {
    woven(input, options, Weave::Whole, &mut Threads::default())
}

fn explained(network: &Network, refusal: Refusal) -> Fault {
    let blamed = match refusal {
        Refusal::TooMany => too_many(network),
        Refusal::StationNumber => station_number(network),
        Refusal::Voltage => stray_voltage(network),
        Refusal::TooFar => too_far(network),
        Refusal::IllSized => farthest(network),
        Refusal::NoFill => Some(NO_FILL.to_string()),
        _ => None,
    };
    let words = match blamed {
        Some(row) => format!("{}; {row}", refusal.words()),
        None => refusal.words().to_string(),
    };
    Fault::Refused { number: refusal.number(), words }
}

fn too_many(network: &Network) -> Option<String> {
    let (buses, branches) = (network.buses.len(), network.branches.len());
    if buses > MOST.0 {
        return Some(format!(
            "there are {} buses, the first too many is {}",
            thousands(buses),
            network.bus_row(MOST.0)
        ));
    }
    Some(format!("there are {} branches, the first too many is {}", thousands(branches), network.branch_row(MOST.1)))
}

fn station_number(network: &Network) -> Option<String> {
    let n = network.buses.len();
    let bus = network.buses.iter().position(|b| b.station as usize >= n)?;
    let station = network.buses[bus].station;
    Some(format!("{} has substation {station}, and there are {}", network.bus_row(bus), counted(n, "bus", "buses")))
}

fn stray_voltage(network: &Network) -> Option<String> {
    let bus = network.buses.iter().position(|b| !(b.kv.is_finite() && b.kv > 0.0))?;
    let kv = network.buses[bus].kv;
    Some(format!("{} has kv {kv:?}; 0 for an unknown voltage is not taken", network.bus_row(bus)))
}

fn counted(n: usize, one: &str, more: &str) -> String {
    format!("{} {}", thousands(n), if n == 1 { one } else { more })
}

fn size(at: &Option<[f64; 2]>) -> f64 {
    at.map_or(0.0, |[x, y]| x.abs().max(y.abs()))
}

fn too_far(network: &Network) -> Option<String> {
    let bus = network.buses.iter().position(|b| size(&b.at) > FARTHEST)?;
    let [x, y] = network.buses[bus].at?;
    Some(format!("{} is at ({x:e}, {y:e})", network.bus_row(bus)))
}

/// The bus that lies farthest from (0, 0): a network far away for its size can be moved or its farthest bus mended.
fn farthest(network: &Network) -> Option<String> {
    let mut list: Vec<usize> = (0..network.buses.len()).collect();
    list.sort_by(|&a, &b| size(&network.buses[b].at).total_cmp(&size(&network.buses[a].at)));
    let bus = *list.first()?;
    let [x, y] = network.buses[bus].at?;
    Some(format!("the farthest from (0, 0) is {}, at ({x:e}, {y:e})", network.bus_row(bus)))
}
