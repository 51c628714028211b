//! The scene's bytes: "Every field has its least significant byte first."

use std::ops::Range;

use crate::vector::Point;

/// "65,535 means none".
pub const NONE: u16 = 65_535;
pub const HEADER: usize = 32;
/// Bytes of a node, a patch and a corner.
pub const SIZES: [usize; 3] = [26, 6, 6];

#[derive(Clone, Debug, PartialEq, Eq)]
pub struct Node {
    pub points: [Point; 3],
    pub positive: u16,
    pub negative: u16,
    pub first: u16,
    pub count: u16,
}

/// A patch as stored: panel, first corner, corner count.
#[derive(Clone, Debug, PartialEq, Eq)]
pub struct Record {
    pub panel: u16,
    pub first: u16,
    pub count: u16,
}

/// A patch with its corners at hand. "Two patches are the same when panel and
/// corners in order agree".
#[derive(Clone, Debug, PartialEq, Eq, PartialOrd, Ord)]
pub struct Patch {
    pub panel: u16,
    pub corners: Vec<Point>,
}

#[derive(Clone, Debug, Default, PartialEq, Eq)]
pub struct Scene {
    pub nodes: Vec<Node>,
    pub records: Vec<Record>,
    pub corners: Vec<Point>,
}

pub fn u16_at(bytes: &[u8], at: usize) -> u16 {
    u16::from_le_bytes([bytes[at], bytes[at + 1]])
}

pub fn u32_at(bytes: &[u8], at: usize) -> u32 {
    u32::from_le_bytes([bytes[at], bytes[at + 1], bytes[at + 2], bytes[at + 3]])
}

pub fn point_at(bytes: &[u8], at: usize) -> Point {
    [0, 2, 4].map(|k| u16_at(bytes, at + k) as i16)
}

/// The header's pair k of offset and length: nodes, patches, corners.
pub fn pair_at(bytes: &[u8], k: usize) -> (u32, u32) {
    (u32_at(bytes, 8 + 8 * k), u32_at(bytes, 12 + 8 * k))
}

/// How many patches the header tells of, at most 1,024: the length of a patch
/// table lent before anyone has judged the scene. It fits every scene that
/// questions 1 and 2 let pass; of any other question 11 is never asked.
pub fn patches_told(bytes: &[u8]) -> usize {
    match bytes.len() < HEADER {
        true => 0,
        false => (pair_at(bytes, 1).1 as usize / SIZES[1]).min(1_024),
    }
}

impl Scene {
    /// Reads bytes that questions 1 and 2 let pass.
    pub fn read(bytes: &[u8]) -> Scene {
        let section = |k: usize| {
            let (offset, length) = pair_at(bytes, k);
            bytes[offset as usize..][..length as usize].chunks_exact(SIZES[k])
        };
        Scene {
            nodes: section(0).map(read_node).collect(),
            records: section(1).map(read_record).collect(),
            corners: section(2).map(|c| point_at(c, 0)).collect(),
        }
    }

    pub fn write(&self) -> Vec<u8> {
        let lengths = [self.nodes.len(), self.records.len(), self.corners.len()];
        let lengths = [0, 1, 2].map(|k| (lengths[k] * SIZES[k]) as u32);
        let mut bytes = Vec::new();
        push(&mut bytes, &[1, 0]);
        bytes.extend((HEADER as u32 + lengths.iter().sum::<u32>()).to_le_bytes());
        let mut offset = HEADER as u32;
        for length in lengths {
            bytes.extend(offset.to_le_bytes());
            bytes.extend(length.to_le_bytes());
            offset += length;
        }
        for node in &self.nodes {
            push(&mut bytes, &node.points.concat().map_u16());
            let rest = [node.positive, node.negative, node.first, node.count];
            push(&mut bytes, &rest);
        }
        for record in &self.records {
            push(&mut bytes, &[record.panel, record.first, record.count]);
        }
        for corner in &self.corners {
            push(&mut bytes, &corner.to_vec().map_u16());
        }
        bytes
    }

    /// The numbers of the patches in node k's run.
    pub fn run_of(&self, k: usize) -> Range<usize> {
        let first = usize::from(self.nodes[k].first);
        first..first + usize::from(self.nodes[k].count)
    }

    /// The patches of node k's run; a run outside the tables gives none.
    pub fn patches_of(&self, k: usize) -> Vec<Patch> {
        let run = self.records.get(self.run_of(k)).unwrap_or(&[]);
        run.iter().map(|record| self.in_hand(record)).collect()
    }

    fn in_hand(&self, record: &Record) -> Patch {
        let first = usize::from(record.first);
        let last = first + usize::from(record.count);
        Patch {
            panel: record.panel,
            corners: self.corners.get(first..last).unwrap_or(&[]).to_vec(),
        }
    }

    /// All patches, as stored.
    pub fn patches(&self) -> Vec<Patch> {
        self.records.iter().map(|r| self.in_hand(r)).collect()
    }

    /// For each node the node that names it, and the side: 1 or −1.
    pub fn parents(&self) -> Vec<Option<(usize, i128)>> {
        let mut parents = vec![None; self.nodes.len()];
        for (k, node) in self.nodes.iter().enumerate() {
            for (child, sign) in [(node.positive, 1), (node.negative, -1)] {
                let child = usize::from(child);
                if child > k && child < parents.len() {
                    parents[child] = Some((k, sign));
                }
            }
        }
        parents
    }
}

fn read_node(b: &[u8]) -> Node {
    Node {
        points: [0, 6, 12].map(|at| point_at(b, at)),
        positive: u16_at(b, 18),
        negative: u16_at(b, 20),
        first: u16_at(b, 22),
        count: u16_at(b, 24),
    }
}

fn read_record(b: &[u8]) -> Record {
    Record {
        panel: u16_at(b, 0),
        first: u16_at(b, 2),
        count: u16_at(b, 4),
    }
}

fn push(bytes: &mut Vec<u8>, numbers: &[u16]) {
    for number in numbers {
        bytes.extend(number.to_le_bytes());
    }
}

/// Two's complement.
trait AsBits {
    fn map_u16(&self) -> Vec<u16>;
}

impl AsBits for Vec<i16> {
    fn map_u16(&self) -> Vec<u16> {
        self.iter().map(|&n| n as u16).collect()
    }
}
