//! The ridge's map ("The tie at the ridge"), for tests that change something in it.

use plain::depot_map::{Ban, DepotMap, Node};
use plain::fields::Steps;
use plain::maps::{MapPlan, PlannedLine};
use plain::outcome::Refusal;

/// From node 0 to node 3 the ways 0, 1 and 0, 2, 3 are equally long.
pub fn ridge(bans: &[(u32, u32)]) -> MapPlan {
    let nodes = [(0, 0), (1000, 0), (1000, 1000), (2000, 0)];
    let lines = [
        (0, 1, 10_000, (200, 0), (-200, 0)),
        (1, 3, 10_000, (200, 0), (-200, 0)),
        (1, 2, 5_000, (0, 200), (0, -200)),
        (2, 3, 5_000, (141, -141), (-200, 7)),
    ];
    let node = |(longitude, latitude)| Node {
        longitude,
        latitude,
    };
    let steps = |(east, north)| Steps { east, north };
    let line = |(start, end, length, out, back)| PlannedLine {
        start,
        end,
        length,
        frc: 3,
        fow: 3,
        out: steps(out),
        back: steps(back),
    };
    MapPlan {
        nodes: nodes.map(node).to_vec(),
        lines: lines.map(line).to_vec(),
        bans: bans
            .iter()
            .map(|&(line, next)| Ban { line, next })
            .collect(),
    }
}

pub fn refusal_of(map_bytes: &[u8]) -> Option<Refusal> {
    DepotMap::decode(map_bytes).err()
}
