//! Faults of a scatter's addresses: tainted, not a multiple of 4, outside the window.

use super::fault::*;
use super::scene::Scene;
use crate::assemble::{immediate_uq, Draft, Part, Slot};

/// 10, 11 and 12 of a scatter. All lanes are on: the near misses see to that.
pub fn scatter_addresses(faults: &mut Faults) {
    // At most 16, should another fault have spoilt the size.
    let lanes = |draft: &Draft| (1u64 << (draft.get(Slot::Exec).unwrap()[0] & 7)).clamp(2, 16);
    // The register byte where a lane's element offset starts.
    let element = |scene: &Scene, draft: &Draft, lane: u64| {
        let offset = word_of(draft.get(Slot::Operand(1, Part::Offset)).unwrap());
        let start = scene.guarded.unwrap().offsets_start;
        start + usize::from(offset) % 72 / 8 * 8 + 8 * lane as usize
    };
    let put = |scene: &mut Scene, at: usize, value: u64| {
        scene.case.registers[at..at + 8].copy_from_slice(&value.to_le_bytes());
    };
    let get = |scene: &Scene, at: usize| {
        let mut bytes = [0; 8];
        bytes.copy_from_slice(&scene.case.registers[at..at + 8]);
        u64::from_le_bytes(bytes)
    };
    let general = Some((0, Form::General));
    let immediate = Some((0, Form::Immediate));
    let low = vec![
        Touch::Slot(Slot::Operand(0, Part::Tag)),
        Touch::Slot(Slot::Operand(0, Part::Low)),
        Touch::Slot(Slot::Operand(0, Part::High)),
        Touch::Slot(Slot::Operand(0, Part::Type)),
    ];
    let column = vec![
        Touch::Taint,
        Touch::Slot(Slot::Operand(0, Part::Index)),
        Touch::Slot(Slot::Operand(0, Part::Row)),
        Touch::Slot(Slot::Operand(0, Part::Column)),
    ];

    faults.run(
        "tainted element offset",
        10,
        RANK_10,
        None,
        vec![Touch::Taint],
        move |random, scene, draft| {
            let lane = random.below(lanes(draft));
            let byte = element(scene, draft, lane) + random.below(8) as usize;
            scene.case.register_taint[byte] = random.pick(&[1, 2, 0x80, 0xff]);
        },
    );
    faults.run(
        "tainted address",
        10,
        RANK_10,
        general,
        column,
        |random, scene, draft| {
            let element = draft.get(Slot::Operand(0, Part::Column)).unwrap()[0];
            let start = scene.guarded.unwrap().addresses_start + 8 * usize::from(element % 4);
            let byte = start + random.below(8) as usize;
            scene.case.register_taint[byte] = random.pick(&[1, 2, 0x80, 0xff]);
        },
    );
    faults.run(
        "unaligned element offset",
        11,
        RANK_11,
        None,
        vec![Touch::OddLane],
        move |random, scene, draft| {
            let lane = 2 * random.below(lanes(draft) / 2) + 1;
            let at = element(scene, draft, lane);
            let value = get(scene, at).wrapping_add(random.range(1, 3));
            put(scene, at, value);
        },
    );
    faults.run(
        "unaligned address",
        11,
        RANK_11,
        immediate,
        low.clone(),
        |random, scene, draft| {
            let address = scene.guarded.unwrap().address;
            let wrong = address.wrapping_add(random.range(1, 3));
            draft.set_operand(0, &immediate_uq(wrong));
        },
    );
    for (name, which) in [
        ("element offset just below the window", 0),
        ("element offset just past the window", 1),
        ("element offset far from the window", 2),
        ("highest channel past the window", 3),
    ] {
        faults.run(
            name,
            12,
            RANK_12,
            None,
            vec![Touch::EvenLane],
            move |random, scene, draft| {
                let lane = 2 * random.below(lanes(draft) / 2);
                let at = element(scene, draft, lane);
                let guarded = scene.guarded.unwrap();
                // The address that this scatter adds, and its lowest and highest channel.
                let address = address_of(scene, draft);
                let channels = draft.get(Slot::Channels).unwrap()[0];
                let lowest = u64::from(channels.trailing_zeros() % 4);
                let highest = u64::from(7 - channels.leading_zeros() % 8);
                let end = guarded.first.wrapping_add(4 * guarded.dwords);
                let to = match which {
                    0 => guarded.first.wrapping_sub(4).wrapping_sub(4 * lowest),
                    1 => end.wrapping_sub(4 * lowest),
                    2 => guarded
                        .first
                        .wrapping_add((1 << random.range(14, 63)) + 0x4000),
                    _ => end.wrapping_sub(4 * highest),
                };
                put(scene, at, to.wrapping_sub(address));
            },
        );
    }
    faults.run(
        "address past the window",
        12,
        RANK_12,
        immediate,
        low,
        |random, scene, draft| {
            let guarded = scene.guarded.unwrap();
            let away = 4 * guarded.dwords + 4 * random.edge(1 << 40);
            draft.set_operand(0, &immediate_uq(guarded.address.wrapping_add(away)));
        },
    );
}

/// The Address of a good scatter: the immediate, or the element of the guarded area.
pub fn address_of(scene: &Scene, draft: &Draft) -> u64 {
    let guarded = scene.guarded.unwrap();
    match draft.get(Slot::Operand(0, Part::Column)) {
        Some(column) => {
            let at = guarded.addresses_start + 8 * usize::from(column[0] % 4);
            let mut bytes = [0; 8];
            bytes.copy_from_slice(&scene.case.registers[at..at + 8]);
            u64::from_le_bytes(bytes)
        }
        None => guarded.address,
    }
}
