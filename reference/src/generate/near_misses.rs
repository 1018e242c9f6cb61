//! Near misses: one thing wrong in an otherwise good case, or one thing exactly at its limit.

use super::accepted::Kind;
use super::fault::{Fault, Form};
use super::faults::faults_of;
use super::first_pairs::one_lane;
use super::largest_kernel::{self, refused_at_its_end};
use super::limits::{limits, Limit};
use super::lines::{file_of, lines_of};
use super::predicate_counts::{self, one_count};
use super::random::Random;
use super::region_words::{self, one_field};
use super::register_sizes::{self, one_edge};
use super::scene::{scene_of, Scene, Size};
use super::table_faults::{table_faults, TableFault};
use super::{Generated, Mode};
use crate::assemble::{general, immediate, immediate_uq, Draft, Part, Slot, SCALAR_REGION};
use crate::refusal::Detail;
use crate::register_size::RegisterSize;

pub const KINDS: [Kind; 4] = [Kind::Shl, Kind::Gather, Kind::Scatter, Kind::Send];

/// Cutting an instruction short counts as forty ways, ten for each kind.
const CUTS: usize = 40;

/// Refusing the largest kernel at its last byte counts as twenty-five ways, so that one case of a hundred does it.
const LAST_BYTES: usize = 5 * largest_kernel::WAYS;

/// One offending lane of a scatter counts as thirty ways.
const ONE_LANE: usize = 30;

/// Every way of being wrong by one thing.
pub struct Ways {
    /// The faults of each kind of instruction, in the order of `KINDS`.
    pub faults: Vec<Vec<Fault>>,
    pub tables: Vec<TableFault>,
    pub limits: Vec<Limit>,
}

impl Ways {
    pub fn all() -> Ways {
        Ways {
            faults: KINDS.iter().map(|kind| faults_of(*kind)).collect(),
            tables: table_faults(),
            limits: limits(),
        }
    }

    /// How many ways there are.
    pub fn count(&self) -> usize {
        let faults: usize = self.faults.iter().map(Vec::len).sum();
        let others = CUTS + LAST_BYTES + ONE_LANE + region_words::WAYS + predicate_counts::WAYS;
        let others = others + register_sizes::WAYS;
        faults + others + self.tables.len() + self.limits.len()
    }

    /// The near miss of a running number; all ways come in turn.
    pub fn near_miss(&self, random: &mut Random, number: u64) -> Generated {
        let round = number / self.count() as u64;
        let mut way = (number % self.count() as u64) as usize;
        for (kind, faults) in KINDS.iter().zip(&self.faults) {
            if way < faults.len() {
                return one_fault(random, *kind, &faults[way]);
            }
            way -= faults.len();
        }
        if way < CUTS {
            return cut_short(random, KINDS[way % 4]);
        }
        way -= CUTS;
        if way < LAST_BYTES {
            let (scene, name, number) = refused_at_its_end(random, way % largest_kernel::WAYS);
            return near(random, &scene, &name, number, Some(Detail::None));
        }
        way -= LAST_BYTES;
        if way < ONE_LANE {
            let (scene, name, number, detail) = one_lane(random);
            return near(random, &scene, &name, number, Some(detail));
        }
        way -= ONE_LANE;
        if way < region_words::WAYS {
            let (scene, name, number, detail) = one_field(random, way, round);
            return near(random, &scene, &name, number, Some(detail));
        }
        way -= region_words::WAYS;
        if way < predicate_counts::WAYS {
            let (scene, name, number, detail) = one_count(random, way, round);
            return near(random, &scene, &name, number, Some(detail));
        }
        way -= predicate_counts::WAYS;
        if way < register_sizes::WAYS {
            let (scene, name, number, detail) = one_edge(random, way);
            return near(random, &scene, &name, number, Some(detail));
        }
        way -= register_sizes::WAYS;
        if way < self.tables.len() {
            let fault = &self.tables[way];
            let mut scene = base_scene(random);
            scene.case.kernel = prefix(random, &scene);
            (fault.apply)(random, &mut scene.case);
            return near(random, &scene, fault.name, fault.number, Some(Detail::None));
        }
        way -= self.tables.len();
        let limit = &self.limits[way];
        let scene = (limit.make)(random);
        // Of 11 the pair is not said.
        let detail = (limit.number != 11).then_some(Detail::None);
        near(random, &scene, limit.name, limit.number, detail)
    }
}

fn near(
    random: &mut Random,
    scene: &Scene,
    name: &str,
    number: u8,
    detail: Option<Detail>,
) -> Generated {
    let lines = lines_of(random, &scene.case);
    Generated {
        mode: Mode::NearMiss,
        name: name.to_string(),
        intended: Some(number),
        carried: detail,
        file: file_of(random, &lines),
    }
}

/// A scene on which each of the four instructions can be good.
pub fn base_scene(random: &mut Random) -> Scene {
    let register_size = random.pick(&[RegisterSize::OF_32, RegisterSize::OF_64]);
    base_scene_of(random, register_size)
}

/// The same with registers of a size.
pub fn base_scene_of(random: &mut Random, register_size: RegisterSize) -> Scene {
    loop {
        let scene = scene_of(random, register_size, Size::Usual, true);
        if scene.guarded.is_some() && !scene.case.surfaces.is_empty() {
            return scene;
        }
    }
}

/// Up to three accepted instructions that leave the guarded area alone.
pub fn prefix(random: &mut Random, scene: &Scene) -> Vec<u8> {
    let mut kernel = Vec::new();
    for _ in 0..random.pick(&[0, 0, 1, 1, 2, 3]) {
        let draft = match scene.gather(random) {
            Some(gather) if random.chance(50) => gather,
            _ => scene.shl(random),
        };
        kernel.extend(draft.bytes());
    }
    kernel
}

/// A good instruction of a kind. A scatter has all its lanes on.
pub fn base_instruction(random: &mut Random, scene: &Scene, kind: Kind) -> Draft {
    loop {
        if let Some(mut draft) = scene.instruction(random, kind) {
            if kind == Kind::Scatter {
                let exec = draft.get(Slot::Exec).unwrap()[0];
                draft.set(Slot::Exec, &[exec | 0x80]);
                draft.set(Slot::Pred, &[0, 0]);
            }
            return draft;
        }
    }
}

/// Give an operand the form that a fault needs, still good.
pub fn give_form(
    random: &mut Random,
    scene: &Scene,
    draft: &mut Draft,
    kind: Kind,
    needs: Option<(usize, Form)>,
) {
    let Some((operand, form)) = needs else {
        return;
    };
    let is_general = draft.get(Slot::Operand(operand, Part::Region)).is_some();
    if is_general == (form == Form::General) {
        return;
    }
    let exec_size = 1 << (draft.get(Slot::Exec).unwrap()[0] & 7);
    let guarded = scene.guarded.unwrap();
    let other = match (kind, form) {
        (Kind::Shl, Form::General) => scene.general_source(random, exec_size),
        (Kind::Shl, Form::Immediate) => scene.immediate_source(random),
        (Kind::Scatter, Form::General) => {
            general(guarded.addresses, 0, random.below(4) as u8, SCALAR_REGION)
        }
        (Kind::Scatter, Form::Immediate) => immediate_uq(guarded.address),
        (_, Form::General) => scene.general_scalar(random, 0),
        (_, Form::Immediate) => immediate(0, random.next() as u32),
    };
    draft.set_operand(operand, &other);
}

/// What may follow a refused instruction: nothing, another one, or any bytes.
pub fn suffix(random: &mut Random, scene: &Scene) -> Vec<u8> {
    match random.below(3) {
        0 => Vec::new(),
        1 => scene.shl(random).bytes(),
        _ => {
            let count = random.below(12);
            random.bytes(count)
        }
    }
}

fn one_fault(random: &mut Random, kind: Kind, fault: &Fault) -> Generated {
    let mut scene = base_scene(random);
    let mut kernel = prefix(random, &scene);
    let mut draft = base_instruction(random, &scene, kind);
    give_form(random, &scene, &mut draft, kind, fault.needs);
    (fault.apply)(random, &mut scene, &mut draft);
    kernel.extend(draft.bytes());
    kernel.extend(suffix(random, &scene));
    scene.case.kernel = kernel;
    let name = format!("{kind:?}: {}", fault.name);
    near(random, &scene, &name, fault.number, fault.detail())
}

/// 1: an instruction without its last bytes.
fn cut_short(random: &mut Random, kind: Kind) -> Generated {
    let mut scene = base_scene(random);
    let mut kernel = prefix(random, &scene);
    let bytes = base_instruction(random, &scene, kind).bytes();
    let length = random.range(1, bytes.len() as u64 - 1) as usize;
    kernel.extend(&bytes[..length]);
    scene.case.kernel = kernel;
    let name = format!("{kind:?}: cut after {length} bytes");
    near(random, &scene, &name, 1, Some(Detail::None))
}
