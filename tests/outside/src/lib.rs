//! An outside check of the lining survey, in exact whole numbers.
//!
//! The model: `vector`, `axes`, `double`, `station`, `tile`, `scene`, `gate`,
//! `fitting`, `ray`, `map`, `survey`, `whole`, `bill`, `stations`; beside it `walk`;
//! and of one row `row`, `worst`.
//! The cases: `random`, `polygon`, `soup`, `works`, `hinge`, `boards`, `tree`,
//! `loose`, `mount`, `view`, `generate`, `harmed`, `damage`, `stored`, `header`,
//! `outer`, `lengths`, `pairs`; of two cuttings `cut`, `panels`, `planner`, `along`,
//! `cuttings`, and `cover`; of stations in metres `doubles`, `gauge`, `forms`,
//! `far`; of maps `bare_maps`; of tiles `tiles`, `tile_harm`, and of whole windows
//! `windows`.
//! Cases with what is due known beforehand: `trial`, `turned`, `booking`,
//! `joints`, `stretches`, `rings`, `metres`, `metres_order`, `map_stations`,
//! `map_rows`, `tile_stations`, `tile_ends`, `window_stations`, and from files
//! `block`, `keys`, `cases`, `call_cases`, `map_cases`, `tile_cases`.
//! Rows by two programs: `program`, `row_programs`, `row_cases`, `row_stations`,
//! `row_trials`, `row_spans`, `row_tally`, `row_compare`, and what shows that
//! these can fail: `row_check`, `row_fault`, `wrong_looks`, `wrong_rows`,
//! `wrong_row_maps`, `wrong_makers`.
//! The comparison: `compare`, `map_compare`, `window_compare`, `differential`,
//! `gauging`, `tally`, `station_tally`, `map_tally`, `window_tally`, `beside`; and what
//! shows that it can fail: `fault`, `faults`, `wrong_gate`, `wrong_lengths`,
//! `wrong_questions`, `wrong_station`, `wrong_tiles`, `wrong_tile_gates`,
//! `wrong_paint`, `wrong_joints`, `wrong_camera`, `wrong_booking`,
//! `wrong_cuttings`, `wrong_buffers`, `wrong_map`, `wrong_map_rows`,
//! `station_check`, `map_check`, `tile_check`, `altered`; and the model against itself:
//! `consistency`, `steps`, `cuttings_check`, `double_check`.

pub mod along;
pub mod altered;
pub mod axes;
pub mod bare_maps;
pub mod beside;
pub mod bill;
pub mod block;
pub mod boards;
pub mod booking;
pub mod call;
pub mod call_cases;
pub mod cases;
pub mod compare;
pub mod consistency;
pub mod cover;
pub mod cut;
pub mod cuttings;
pub mod cuttings_check;
pub mod damage;
pub mod differential;
pub mod double;
pub mod double_check;
pub mod doubles;
pub mod far;
pub mod fault;
pub mod faults;
pub mod fitting;
pub mod forms;
pub mod gate;
pub mod gauge;
pub mod gauging;
pub mod generate;
pub mod harmed;
pub mod header;
pub mod hinge;
pub mod joints;
pub mod keys;
pub mod lengths;
pub mod loose;
pub mod map;
pub mod map_cases;
pub mod map_check;
pub mod map_compare;
pub mod map_rows;
pub mod map_stations;
pub mod map_tally;
pub mod metres;
pub mod metres_order;
pub mod mount;
pub mod outer;
pub mod pairs;
pub mod panels;
pub mod planner;
pub mod polygon;
pub mod program;
pub mod random;
pub mod ray;
pub mod rings;
pub mod row;
pub mod row_cases;
pub mod row_check;
pub mod row_compare;
pub mod row_fault;
pub mod row_programs;
pub mod row_spans;
pub mod row_stations;
pub mod row_tally;
pub mod row_trials;
pub mod scene;
pub mod soup;
pub mod station;
pub mod station_check;
pub mod station_tally;
pub mod stations;
pub mod steps;
pub mod stored;
pub mod stretches;
pub mod survey;
pub mod tally;
pub mod tile;
pub mod tile_cases;
pub mod tile_check;
pub mod tile_ends;
pub mod tile_harm;
pub mod tile_stations;
pub mod tiles;
pub mod tree;
pub mod trial;
pub mod turned;
pub mod vector;
pub mod view;
pub mod walk;
pub mod whole;
pub mod window_compare;
pub mod window_stations;
pub mod window_tally;
pub mod windows;
pub mod works;
pub mod worst;
pub mod wrong_booking;
pub mod wrong_buffers;
pub mod wrong_camera;
pub mod wrong_cuttings;
pub mod wrong_gate;
pub mod wrong_joints;
pub mod wrong_lengths;
pub mod wrong_looks;
pub mod wrong_makers;
pub mod wrong_map;
pub mod wrong_map_rows;
pub mod wrong_paint;
pub mod wrong_questions;
pub mod wrong_row_maps;
pub mod wrong_rows;
pub mod wrong_station;
pub mod wrong_tile_gates;
pub mod wrong_tiles;
