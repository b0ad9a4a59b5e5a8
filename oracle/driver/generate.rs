//! The kinds of inputs.

use std::ops::Range;

use crate::answer::Program;
use crate::short_images::Set;
use crate::{image_inputs, long, passes, programs, short, short_images, slowest_inputs};

/// Seeds and their inputs.
type Inputs = Box<dyn Iterator<Item = (u64, Vec<u8>)>>;

#[derive(Clone, Copy)]
pub enum Kind {
    /// Programs at random.
    Programs,
    /// Every short program.
    Short,
    /// Long ones at random, with branches about as far as they may lead.
    Long,
    /// The passes called alone, at random.
    Passes,
    /// Programs without rules at random, with starting values.
    Meaning,
    /// Images at random.
    Images,
    /// Every short image.
    ShortImages,
    /// Images for the slowest call, at random.
    Slowest,
    /// Every short one.
    ShortSlowest,
}

impl Kind {
    pub fn of(name: &str) -> Option<Kind> {
        const KINDS: [Kind; 9] = [
            Kind::Programs,
            Kind::Short,
            Kind::Long,
            Kind::Passes,
            Kind::Meaning,
            Kind::Images,
            Kind::ShortImages,
            Kind::Slowest,
            Kind::ShortSlowest,
        ];
        KINDS.into_iter().find(|kind| kind.name() == name)
    }

    pub fn name(self) -> &'static str {
        match self {
            Kind::Programs => "programs",
            Kind::Short => "short",
            Kind::Long => "long",
            Kind::Passes => "passes",
            Kind::Meaning => "meaning",
            Kind::Images => "images",
            Kind::ShortImages => "short-images",
            Kind::Slowest => "slowest",
            Kind::ShortSlowest => "short-slowest",
        }
    }

    pub fn program(self) -> Program {
        match self {
            Kind::Programs | Kind::Short | Kind::Long => Program::Listing,
            Kind::Passes => Program::Passes,
            Kind::Meaning => Program::Meaning,
            Kind::Images | Kind::ShortImages => Program::Images,
            Kind::Slowest | Kind::ShortSlowest => Program::Slowest,
        }
    }

    /// Where an image of this seed is from, in words; of the others, their kind.
    pub fn origin(self, seed: u64) -> &'static str {
        match self {
            Kind::Images => image_inputs::origin(seed),
            Kind::Slowest => slowest_inputs::origin(seed),
            Kind::ShortImages | Kind::ShortSlowest => short_images::origin(seed),
            _ => self.name(),
        }
    }

    /// The inputs of the seeds from `from` to below `to`. Of the short ones there are only so many.
    pub fn inputs(self, from: u64, to: u64) -> Inputs {
        let seeds = from..to;
        match self {
            Kind::Programs => Box::new(seeds.map(|seed| (seed, programs::input(seed)))),
            Kind::Long => Box::new(seeds.map(|seed| (seed, long::input(seed)))),
            Kind::Passes => Box::new(seeds.map(|seed| (seed, passes::input(seed)))),
            Kind::Meaning => Box::new(seeds.map(|seed| (seed, programs::valued(seed)))),
            Kind::Images => Box::new(seeds.map(|seed| (seed, image_inputs::input(seed)))),
            Kind::Slowest => Box::new(seeds.map(|seed| (seed, slowest_inputs::input(seed)))),
            Kind::ShortImages => short_ones(seeds, short_images::FOR_IMAGES),
            Kind::ShortSlowest => short_ones(seeds, short_images::FOR_SLOWEST),
            Kind::Short => Box::new(seeds.zip(short::inputs().into_iter().skip(from as usize))),
        }
    }
}

fn short_ones(seeds: Range<u64>, sets: &'static [Set]) -> Inputs {
    Box::new(seeds.map_while(|seed| Some((seed, short_images::input(seed, sets)?))))
}
