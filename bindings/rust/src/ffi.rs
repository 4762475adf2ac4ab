//! The static library's calls (include/tansygate.h), each list lent with its own length: the only unsafe code.

#[repr(C)]
#[derive(Clone, Copy)]
pub struct Options {
    pub fill: f64,
    pub tier_radius: f64,
    pub tier_count_1: u32,
    pub tier_count_2: u32,
    pub tier_scale_1: f64,
    pub tier_scale_2: f64,
    pub search: i32,
    pub route_iterations: u32,
    pub bar_gap: f64,
    pub pad: f64,
    pub min_bar: f64,
    pub buffer: f64,
}

#[repr(C)]
#[derive(Clone, Copy)]
pub struct Plotted {
    pub number: u32,
    pub pieces: usize,
    pub unit: f64,
    pub bounds: [f64; 4],
}

#[repr(C)]
#[derive(Clone, Copy)]
pub struct Filled {
    pub number: u32,
    pub sixty_fourths: u32,
    pub pieces: usize,
    pub unit: f64,
    pub bounds: [f64; 4],
}

#[repr(C)]
#[derive(Clone, Copy)]
pub struct Audited {
    pub number: u32,
    pub stations: usize,
    pub overlaps: usize,
    pub through: usize,
    pub relative: usize,
}

macro_rules! call {
    ($name:ident = $symbol:ident($($lent:ident: $o:ty),*; $($value:ident: $v:ty),*; $($list:ident: $i:ty),*) -> $answer:ty) => {
        #[allow(clippy::too_many_arguments)]
        pub fn $name($($lent: &mut [$o],)* $($value: $v,)* $($list: &[$i],)*) -> $answer {
            extern "C" {
                fn $symbol($(_: *mut $o, _: usize,)* $(_: $v,)* $(_: *const $i, _: usize,)*) -> $answer;
            }
            // SAFETY: the types and their order are those of include/tansygate.h. Each list is lent with its own
            // length for the time of the call, those written by `&mut`, so that no two overlap, and a slice's
            // pointer is never null. The functions keep nothing.
            unsafe { $symbol($($lent.as_mut_ptr(), $lent.len(),)* $($value,)* $($list.as_ptr(), $list.len(),)*) }
        }
    };
}

call!(layout = tansygate_plot(
    positions: f64, bars: f64, boxes: f64, scales: f64, roles: u8, pieces: f64, branches: u32,
    stations: u32, buses: u32, ends: u32, sorted: u32, spare: u32, keys: u64,
    places: f64, blocks: f64, frames: f64, path: f64,
    crossing_numbers: u32, crossing_places: f64, crossing_ways: f64;
    options: Options;
    sub: u32, kv: u64, from: i64, to: i64, service: u8, xy: f64, corners: u32, twins: u32
) -> Plotted);

call!(largest_fill = tansygate_largest_fill(
    positions: f64, bars: f64, boxes: f64, scales: f64, roles: u8, pieces: f64, branches: u32,
    stations: u32, buses: u32, ends: u32, sorted: u32, spare: u32, keys: u64,
    places: f64, blocks: f64, frames: f64, path: f64,
    crossing_numbers: u32, crossing_places: f64, crossing_ways: f64;
    options: Options;
    sub: u32, kv: u64, from: i64, to: i64, service: u8, xy: f64, corners: u32, twins: u32
) -> Filled);

call!(audit = tansygate_audit(
    displacement: f64, spacing: f64, relative: f64,
    stations: u32, index: u32, spare: u32, keys: u64, points: f64, path: f64;;
    sub: u32, kv: u64, from: i64, to: i64, xy: f64, boxes: f64, roles: u8, pieces: f64, branches: u32
) -> Audited);

/// The needed length of a list that boxes are entered in by cell, for n buses (docs/WORK.md).
pub fn index_length(n: usize) -> usize {
    5 * n
}
