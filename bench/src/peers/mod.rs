//! The peers: the whole call four times over, with one gate.

mod boxes;
mod camera;
mod finish;
mod gate;
mod map;
mod order;
mod painter;
mod plane;
mod rays;
mod reach;
mod segments;
mod shapes;
mod tables;
mod zbuffer;

use outside::call::{Call, Lent, Library};
use tables::Tables;

type Paint = fn(&Tables, &Call, &mut Lent);

pub struct Peer {
    pub name: &'static str,
    paint: Paint,
}

pub const PEERS: [Peer; 4] = [
    Peer {
        name: "rays",
        paint: rays::paint,
    },
    Peer {
        name: "z-buffer",
        paint: zbuffer::paint,
    },
    Peer {
        name: "painter",
        paint: painter::paint,
    },
    Peer {
        name: "segments",
        paint: segments::paint,
    },
];

/// Is the window's last cell the tile's own last one? A tile that the gate let pass
/// does not reach beyond.
fn ends_window(call: &Call) -> bool {
    let (view, tile) = (&call.view, &call.tile);
    tile.left + tile.width == view.width && tile.top + tile.height == view.height
}

impl Library for Peer {
    fn survey(&self, call: &Call, lent: &mut Lent) -> u32 {
        match gate::judge(call) {
            Err(number) => number,
            Ok(tables) => {
                (self.paint)(&tables, call, lent);
                lent.counter += u32::from(ends_window(call));
                0
            }
        }
    }

    fn gate(&self, call: &Call) -> u32 {
        gate::judge(call).err().unwrap_or(0)
    }

    fn row_lit(&self, lit: &[u64], row: usize) -> u32 {
        map::row_lit(lit, row)
    }

    fn row_first_unlit(&self, lit: &[u64], width: u16, row: usize) -> u32 {
        map::row_first_unlit(lit, width, row)
    }
}
