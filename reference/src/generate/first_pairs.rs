//! Scatters with offending channel-and-lane pairs, one or several, and which of them is the first: "c outer, i inner", 11
//! over all before 12.

use super::accepted::{scatter_dwords, Kind};
use super::address_faults::address_of;
use super::near_misses::{base_instruction, base_scene, prefix, suffix};
use super::random::Random;
use super::region_words::Meant;
use super::scene::{Guarded, Scene};
use super::slip_one::{offsets_start, turn_lanes_on};
use crate::assemble::{raw, Draft, Slot};
use crate::refusal::Detail;

/// Where a lane's address lies, before its channels are added.
#[derive(Clone, Copy, Debug, PartialEq, Eq)]
enum Lane {
    /// Every channel stays in the window.
    Inside,
    /// No multiple of 4, inside or outside.
    Odd,
    /// Every channel is outside.
    Outside,
    /// Channels from this one on are past the window's end.
    PastFrom(u64),
    /// Channels below this one are below the window's start.
    BelowUntil(u64),
}

impl Lane {
    fn is_outside(self, channel: u64) -> bool {
        match self {
            Lane::Inside | Lane::Odd => false,
            Lane::Outside => true,
            Lane::PastFrom(first) => channel >= first,
            Lane::BelowUntil(end) => channel < end,
        }
    }

    /// The address.
    fn target(self, random: &mut Random, guarded: &Guarded, highest: u64) -> u64 {
        let end = guarded.first.wrapping_add(4 * guarded.dwords);
        match self {
            Lane::Inside => {
                let dword = random.edge(guarded.dwords - 1 - highest);
                guarded.first.wrapping_add(4 * dword)
            }
            Lane::Odd => {
                let even = random.pick(&[Lane::Inside, Lane::Inside, Lane::Outside]);
                let target = even.target(random, guarded, highest);
                target.wrapping_add(random.range(1, 3))
            }
            Lane::Outside => match random.below(3) {
                0 => end,
                1 => guarded.first.wrapping_sub(16),
                _ => end.wrapping_add((1 << random.range(14, 63)) + 0x4000),
            },
            Lane::PastFrom(first) => end.wrapping_sub(4 * first),
            Lane::BelowUntil(end) => guarded.first.wrapping_sub(4 * end),
        }
    }
}

/// One lane that is on offends, by one of its channels or by all.
pub fn one_lane(random: &mut Random) -> Meant {
    offending(random, |random, lanes| {
        let at = random.below(lanes.len() as u64) as usize;
        lanes[at] = any_lane(random);
    })
}

/// Several lanes offend: any of them, or two of which the later one stands first by its channel or by its number.
pub fn several_lanes(random: &mut Random) -> Meant {
    let shape = random.below(3);
    offending(random, |random, lanes| {
        if shape < 2 && lanes.len() > 1 {
            let later = random.range(1, lanes.len() as u64 - 1);
            let earlier = random.below(later);
            lanes[earlier as usize] = Lane::PastFrom(random.range(1, 3));
            lanes[later as usize] = match shape {
                0 if random.chance(50) => Lane::Outside,
                0 => Lane::BelowUntil(random.range(1, 3)),
                _ => Lane::Odd,
            };
            return;
        }
        let share = random.pick(&[20, 40, 80]);
        let odd = random.chance(35);
        for lane in lanes.iter_mut() {
            let it = any_lane(random);
            if random.chance(share) && (odd || it != Lane::Odd) {
                *lane = it;
            }
        }
    })
}

fn any_lane(random: &mut Random) -> Lane {
    match random.below(6) {
        0 => Lane::Odd,
        1 => Lane::Outside,
        2 | 3 => Lane::PastFrom(random.range(1, 3)),
        _ => Lane::BelowUntil(random.range(1, 3)),
    }
}

/// A scatter whose lanes that are on are as they are made from lanes inside, one pair at least offending.
fn offending(random: &mut Random, make: impl Fn(&mut Random, &mut [Lane])) -> Meant {
    let mut scene = loop {
        let scene = base_scene(random);
        // So many that each lane can be inside with all its channels.
        if scene.guarded.unwrap().dwords >= 4 {
            break scene;
        }
    };
    let mut draft = base_instruction(random, &scene, Kind::Scatter);
    let channels = choose_channels(random, &scene, &mut draft);
    let size = 1 << (draft.get(Slot::Exec).unwrap()[0] & 7);
    let always_on = random.below(size);
    let on = turn_lanes_on(random, &mut scene, &mut draft, |lane| {
        (lane == always_on).then_some(true)
    });
    let on: Vec<u64> = (0..size).filter(|lane| (on >> lane) & 1 == 1).collect();

    let (lanes, number, channel, lane) = loop {
        let mut lanes = vec![Lane::Inside; on.len()];
        make(random, &mut lanes);
        if let Some((number, channel, lane)) = first(&lanes, &on, &channels) {
            break (lanes, number, channel, lane);
        }
    };

    let guarded = scene.guarded.unwrap();
    let address = address_of(&scene, &draft);
    let start = offsets_start(&scene, &draft);
    let highest = *channels.last().unwrap();
    for lane in 0..size {
        // Lanes that are off may be anything.
        let it = match on.iter().position(|it| *it == lane) {
            Some(k) => lanes[k],
            None if random.chance(50) => any_lane(random),
            None => Lane::Inside,
        };
        let offset = it.target(random, &guarded, highest).wrapping_sub(address);
        let at = start + 8 * lane as usize;
        scene.case.registers[at..at + 8].copy_from_slice(&offset.to_le_bytes());
    }

    let mut kernel = prefix(random, &scene);
    kernel.extend(draft.bytes());
    kernel.extend(suffix(random, &scene));
    scene.case.kernel = kernel;
    let name = format!("Scatter: first offending pair {channel}, {lane}");
    (scene, name, number, Detail::Pair { channel, lane })
}

/// The number and the first pair: of the lanes that are on, each with its first channel at fault, the one with the lowest
/// channel and then the lowest lane. An address's remainder by 4 does not depend on the channel.
fn first(lanes: &[Lane], on: &[u64], channels: &[u64]) -> Option<(u8, u64, u64)> {
    if let Some(odd) = lanes.iter().position(|lane| *lane == Lane::Odd) {
        return Some((11, channels[0], on[odd]));
    }
    let of_lane = |(lane, number): (&Lane, &u64)| {
        let channel = channels.iter().find(|channel| lane.is_outside(**channel))?;
        Some((*channel, *number))
    };
    let (channel, lane) = lanes.iter().zip(on).filter_map(of_lane).min()?;
    Some((12, channel, lane))
}

/// Give the scatter any channels for which the whole work area has data.
fn choose_channels(random: &mut Random, scene: &Scene, draft: &mut Draft) -> Vec<u64> {
    let whole = (scene.work / 4) as u16;
    let dwords = scene.variables(|v| v.type_code == 0 && v.start == 0 && v.count == whole);
    draft.set_operand(2, &raw(dwords[0], 0));
    let exec_code = draft.get(Slot::Exec).unwrap()[0] & 7;
    let exec_size = 1 << exec_code;
    let channels = loop {
        let any = random.range(1, 15) as u8;
        if scatter_dwords(scene.register(), exec_size, any.count_ones()) <= scene.work / 4 {
            break any;
        }
    };
    draft.set(Slot::Channels, &[channels]);
    (0..4).filter(|c| (channels >> c) & 1 == 1).collect()
}
