//! The library through its C interface: the station in units, or in metres by
//! calls of their own; and the calls on a map's row.

use outside::call::{Call, Lent, Library};
use outside::double::Double;
use outside::station::Station;

/// The two calls of one form of station.
macro_rules! declared {
    ($survey:ident, $gate:ident, $part:ty) => {
        #[link(name = "survey", kind = "static")]
        extern "C" {
            fn $survey(
                scene: *const u8,
                scene_len: usize,
                eye_x: $part,
                eye_y: $part,
                eye_z: $part,
                right_x: i16,
                right_y: i16,
                right_z: i16,
                forward_x: i16,
                forward_y: i16,
                forward_z: i16,
                up_x: i16,
                up_y: i16,
                up_z: i16,
                width: u16,
                height: u16,
                lens: u16,
                left: u16,
                top: u16,
                tile_width: u16,
                tile_height: u16,
                picture: *mut u16,
                picture_len: usize,
                counts: *mut u32,
                counts_len: usize,
                patch_counts: *mut u32,
                patch_counts_len: usize,
                unlit: *mut u16,
                unlit_len: usize,
                lit: *mut u64,
                lit_len: usize,
                counter: *mut u32,
            ) -> u32;

            fn $gate(
                scene: *const u8,
                scene_len: usize,
                eye_x: $part,
                eye_y: $part,
                eye_z: $part,
                right_x: i16,
                right_y: i16,
                right_z: i16,
                forward_x: i16,
                forward_y: i16,
                forward_z: i16,
                up_x: i16,
                up_y: i16,
                up_z: i16,
                width: u16,
                height: u16,
                lens: u16,
                left: u16,
                top: u16,
                tile_width: u16,
                tile_height: u16,
                picture_len: usize,
                counts_len: usize,
                patch_counts_len: usize,
                unlit_len: usize,
                lit_len: usize,
                counter: u32,
            ) -> u32;
        }
    };
}

declared!(ring_survey, ring_gate, i16);
declared!(ring_survey_metres, ring_gate_metres, f64);

#[link(name = "survey", kind = "static")]
extern "C" {
    fn ring_row_lit(lit: *const u64, lit_len: usize, row: usize) -> u32;
    fn ring_row_first_unlit(lit: *const u64, lit_len: usize, width: u16, row: usize) -> u32;
}

/// Puts scene, station, camera, window and tile, and after them what else is told.
macro_rules! put {
    ($name:ident, $call:expr, $eye:expr, $($other:expr),* $(,)?) => {{
        let (scene, view, tile, eye) = (&$call.scene, &$call.view, &$call.tile, $eye);
        let [right, forward, up] = view.axes.vectors();
        $name(
            scene.as_ptr(),
            scene.len(),
            eye[0],
            eye[1],
            eye[2],
            right[0],
            right[1],
            right[2],
            forward[0],
            forward[1],
            forward[2],
            up[0],
            up[1],
            up[2],
            view.width,
            view.height,
            view.lens,
            tile.left,
            tile.top,
            tile.width,
            tile.height,
            $($other),*
        )
    }};
}

macro_rules! survey {
    ($name:ident, $call:expr, $eye:expr, $lent:expr) => {
        put!(
            $name,
            $call,
            $eye,
            $lent.picture.as_mut_ptr(),
            $lent.picture.len(),
            $lent.counts.as_mut_ptr(),
            $lent.counts.len(),
            $lent.patch_counts.as_mut_ptr(),
            $lent.patch_counts.len(),
            $lent.unlit.as_mut_ptr(),
            $lent.unlit.len(),
            $lent.lit.as_mut_ptr(),
            $lent.lit.len(),
            &mut $lent.counter,
        )
    };
}

macro_rules! gate {
    ($name:ident, $call:expr, $eye:expr) => {
        put!(
            $name,
            $call,
            $eye,
            $call.picture_len,
            $call.counts_len,
            $call.patch_counts_len,
            $call.unlit_len,
            $call.lit_len,
            $call.counter,
        )
    };
}

pub struct Linked;

impl Library for Linked {
    fn survey(&self, call: &Call, lent: &mut Lent) -> u32 {
        // Every pointer is lent with the length of its own allocation; that of an
        // empty table is not null.
        unsafe {
            match call.view.station {
                Station::Units(eye) => survey!(ring_survey, call, eye, lent),
                Station::Metres(eye) => {
                    survey!(ring_survey_metres, call, eye.map(Double::value), lent)
                }
            }
        }
    }

    fn gate(&self, call: &Call) -> u32 {
        // Only the scene is lent; the other lengths are plain numbers.
        unsafe {
            match call.view.station {
                Station::Units(eye) => gate!(ring_gate, call, eye),
                Station::Metres(eye) => gate!(ring_gate_metres, call, eye.map(Double::value)),
            }
        }
    }

    // The map is lent with its own length, whatever row is asked.
    fn row_lit(&self, lit: &[u64], row: usize) -> u32 {
        unsafe { ring_row_lit(lit.as_ptr(), lit.len(), row) }
    }

    fn row_first_unlit(&self, lit: &[u64], width: u16, row: usize) -> u32 {
        unsafe { ring_row_first_unlit(lit.as_ptr(), lit.len(), width, row) }
    }
}
