//! The calls that are timed: scenes, curves over patches, cells and nodes, scenes
//! again under a turned camera, one of joints on sight lines, and windows in tiles.

use crate::plant::{Level, Maker};
use crate::scenes;
use crate::walls::double_wall;
use outside::call::{Call, View};
use outside::scene::Scene;
use outside::tile::Tile;

/// A call to time, once for each tile of its window; with `gate` its gate alone.
pub struct Job {
    pub name: String,
    /// On the first tile. All are of one size, so that its lengths are theirs too.
    pub call: Call,
    pub tiles: Vec<Tile>,
    pub gate: bool,
}

fn job(name: impl Into<String>, call: Call) -> Job {
    Job {
        name: name.into(),
        tiles: vec![call.tile],
        call,
        gate: false,
    }
}

pub fn jobs() -> Vec<Job> {
    let tunnel = scenes::tunnel();
    let wall = double_wall(&scenes::WIDE);
    let mut jobs = whole_scenes(&tunnel);
    jobs.extend(curves(&tunnel));
    jobs.extend(turned(&tunnel));
    jobs.push(job(
        "double wall of 768 panels, joints on sight lines",
        scenes::call(&wall, scenes::WIDE),
    ));
    jobs.extend(in_tiles(&tunnel));
    jobs
}

fn balanced(levels: &[Level]) -> Call {
    scenes::call(&Maker::balanced(levels), scenes::WIDE)
}

fn chain(levels: &[Level]) -> Call {
    scenes::call(&Maker::chain(levels), scenes::WIDE)
}

fn whole_scenes(tunnel: &Scene) -> Vec<Job> {
    let mut jobs = vec![
        job("tunnel of 960 panels", scenes::call(tunnel, scenes::WIDE)),
        job("1,024 large quads", balanced(&scenes::quads(1_024))),
        job("1,000 small patches", balanced(&scenes::small(1_000))),
    ];
    jobs.extend([512, 1_024].map(|count| {
        let levels = scenes::covering(count);
        job(format!("covering quads: {count}"), balanced(&levels))
    }));
    jobs.push(job(
        "1,024 covering quads, a chain",
        chain(&scenes::covering(1_024)),
    ));
    jobs.extend([512, 1_024].map(|count| {
        let levels = scenes::stairs(count);
        job(format!("quads in stairs: {count}"), balanced(&levels))
    }));
    jobs
}

/// Over patches, over cells, and over nodes for the gate.
fn curves(tunnel: &Scene) -> Vec<Job> {
    let counts = [64, 128, 256, 512, 1_024];
    let mut jobs = Vec::from(counts.map(|count| {
        let levels = scenes::small(count);
        job(format!("small patches: {count}"), balanced(&levels))
    }));
    jobs.extend([16, 32, 64, 128, 256].map(|width| {
        let view = scenes::window(width);
        let name = format!("tunnel, cells: {}×{}", view.width, view.height);
        job(name, scenes::call(tunnel, view))
    }));
    jobs.extend(counts.map(|count| {
        let name = format!("gate, chain of nodes: {count}");
        Job {
            gate: true,
            ..job(name, chain(&scenes::quads(count)))
        }
    }));
    jobs
}

/// Rolled, so that the edges that lay along the rows no longer do.
fn turned(tunnel: &Scene) -> [Job; 2] {
    let quads = Maker::balanced(&scenes::quads(1_024));
    [
        job(
            "tunnel of 960 panels, camera rolled and pitched",
            scenes::call(tunnel, scenes::turned(scenes::ROLLED_AND_PITCHED)),
        ),
        job(
            "1,024 large quads, camera rolled",
            scenes::call(&quads, scenes::turned(scenes::ROLLED)),
        ),
    ]
}

/// The portal display's window in as few tiles as it takes; and one tile's window
/// in upright ones, of which each has few of the patches.
fn in_tiles(tunnel: &Scene) -> Vec<Job> {
    let quads = Maker::balanced(&scenes::quads(1_024));
    let small = Maker::balanced(&scenes::small(1_000));
    let portal = [
        ("tunnel of 960 panels", tunnel),
        ("1,024 large quads", &quads),
    ];
    let mut jobs = Vec::from(portal.map(|(name, scene)| {
        let name = format!("{name}, 1,024×512 in 16 tiles");
        tiled(name, scene, scenes::window(1_024), [256, 128])
    }));
    for (name, scene) in [("tunnel", tunnel), ("1,000 small patches", &small)] {
        jobs.extend([1, 8].map(|count| {
            let name = format!("{name}, upright tiles: {count}");
            tiled(name, scene, scenes::WIDE, [256 / count, 128])
        }));
    }
    jobs
}

/// A window cut into tiles of a size that divides it.
fn tiled(name: String, scene: &Scene, view: View, [width, height]: [u16; 2]) -> Job {
    let tops = (0..view.height).step_by(usize::from(height));
    let lefts = || (0..view.width).step_by(usize::from(width));
    let row = |top| lefts().map(move |left| Tile::of([left, top, width, height]));
    let first = Tile::of([0, 0, width, height]);
    Job {
        tiles: tops.flat_map(row).collect(),
        ..job(name, Call::of_tile(scene.write(), view, first))
    }
}
