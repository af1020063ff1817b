//! A small world that draws tick blocks: a cart near a place, sighted more or
//! less often, with outliers, collisions and odd words. It drives the plain tick
//! beside, so that inputs can be aimed at thresholds (`aims.rs`).

use crate::aims::{self, Scene, Seeding, Words, ESTIMATE, FRESH, NEXT};
use crate::block::Block;
use crate::draw::Draw;
use crate::plain::{Controller, Gate};

/// Cosine and sine of some headings.
const TURNS: [(f32, f32); 6] = [
    (1.0, 0.0),
    (0.6, 0.8),
    (0.8, -0.6),
    (0.0, 1.0),
    (-0.28, 0.96),
    (-1.0, -0.0),
];

/// What stays the same for a while.
struct Stretch {
    left: usize,
    mode: u32,
    command: [f32; 13],
    /// How many ticks in 100 have a sighting, an outlying one, an odd word.
    sightings: usize,
    outliers: usize,
    odd: usize,
    fast: bool,
    stop: bool,
    /// Nothing that could end in recovery.
    calm: bool,
    turn: (f32, f32),
    matrices: [f32; 45],
}

fn command(draw: &mut Draw) -> [f32; 13] {
    let mut fields = std::array::from_fn(|_| match draw.below(8) {
        0 => 0.0,
        1 => -0.0,
        _ => draw.within(3.0),
    });
    if draw.chance(8) {
        fields[draw.below(13)] = f32::NAN;
    }
    fields
}

fn stretch(draw: &mut Draw) -> Stretch {
    let mut matrices = [0.0; 45];
    for (i, m) in matrices.iter_mut().enumerate() {
        let size = match i {
            0..=8 => 0.5,
            9..=20 => 35.0,
            21..=32 => 1.0,
            _ => 0.05,
        };
        *m = match draw.below(10) {
            0 => 0.0,
            1 => -0.0,
            _ => draw.within(size),
        };
    }
    Stretch {
        left: 20 + draw.below(150),
        mode: [0, 1, 2, 2, 2, 2, 3, 3, 3, 3][draw.below(10)],
        command: command(draw),
        sightings: [100, 100, 90, 90, 60, 20, 3, 0][draw.below(8)],
        outliers: [0, 0, 3, 10, 30, 95][draw.below(6)],
        odd: [0, 0, 0, 3, 15][draw.below(5)],
        fast: draw.chance(30),
        stop: draw.chance(30),
        calm: false,
        turn: TURNS[draw.below(TURNS.len())],
        matrices,
    }
}

pub struct World {
    draw: Draw,
    k: u32,
    next: u32,
    place: [f32; 3],
    now: Stretch,
    /// The controller as the blocks so far leave it.
    plain: Controller,
    seeding: Seeding,
    /// What the held sample is to meet.
    scene: Option<Scene>,
    /// How many times more often inputs are aimed than usual.
    aims: usize,
}

impl World {
    pub fn new(seed: u64, k: u32) -> World {
        let mut draw = Draw::new(seed);
        let now = stretch(&mut draw);
        World {
            draw,
            k,
            next: 0,
            place: [0.5, -0.25, 1.0],
            now,
            plain: Controller::new(k),
            seeding: Seeding::AsDrawn,
            scene: None,
            aims: 1,
        }
    }

    /// For short passes: seeded at once, and aimed more often.
    pub fn dense(seed: u64, k: u32) -> World {
        let mut world = World::new(seed, k);
        world.now.sightings = 100;
        world.now.outliers = 0;
        world.now.left = 25 + (seed % 30) as usize;
        world.aims = 3;
        world
    }

    pub fn block(&mut self) -> Block {
        let mut draw = Draw::new(self.draw.bits());
        let block = self.drawn(&mut draw);
        self.next += 1;
        self.plain.tick(&block);
        block
    }

    fn near_place(&mut self, draw: &mut Draw, size: f32) -> [f32; 3] {
        self.place.map(|x| x + draw.within(size))
    }

    /// A state beside the place and this velocity.
    fn state(&mut self, draw: &mut Draw, size: f32, v: [f32; 3]) -> [f32; 6] {
        let p = self.near_place(draw, size);
        let v = v.map(|x| x + draw.within(10.0 * size));
        [p[0], p[1], p[2], v[0], v[1], v[2]]
    }

    /// The next stretch. Where the cameras are active it is sometimes blind, and
    /// calm, until they no longer are.
    fn turn_page(&mut self, draw: &mut Draw) {
        self.now = stretch(draw);
        if draw.chance(30) {
            self.place = [draw.within(4.0), draw.within(4.0), draw.within(6.0)];
        }
        let rare = if self.k < 8 { 4 } else { 10 };
        if self.plain.active() && draw.chance(rare) {
            self.now.left = 2048 / self.k as usize + 1 + draw.below(40);
            self.now.mode = 2 + draw.below(2) as u32;
            self.now.sightings = 0;
            self.now.odd = 0;
            self.now.calm = true;
        } else if matches!(self.plain.gate, Gate::Seeding { .. }) && draw.chance(50) {
            self.now.sightings = 100;
            self.now.outliers = 0;
        }
    }

    /// Changes of mode and command, now and then.
    fn change_mind(&mut self, draw: &mut Draw) {
        if draw.chance(2) {
            self.now.mode = draw.below(4) as u32;
        }
        if !self.plain.active() && self.plain.held.is_some() && draw.chance(10) {
            self.now.mode = 5 - self.now.mode.max(2);
        }
        if draw.chance(5 * self.aims) {
            let i = draw.below(13);
            let c = &mut self.now.command[i];
            *c = match draw.below(5) {
                0 => -*c,
                1 if draw.chance(30) => f32::NAN,
                2 => 0.0,
                _ => draw.within(3.0),
            };
        }
        if draw.chance(4) {
            // The same command as floats, with another word.
            for c in self.now.command.iter_mut().filter(|c| **c == 0.0) {
                *c = -*c;
            }
        }
    }

    /// Places, velocities and samples beside one another.
    fn motion(&mut self, words: &mut Words, draw: &mut Draw) {
        let speed = if self.now.fast { 4.0 } else { 0.3 };
        let velocity = [
            draw.within(speed),
            draw.within(speed),
            draw.within(2.0 * speed),
        ];
        let predicted = self.state(draw, 0.02, velocity);
        let mut sighting = self.near_place(draw, 0.02);
        if draw.chance(self.now.outliers) {
            sighting[1] += match draw.below(3) {
                0 => 0.6 + draw.within(0.2),
                1 => 0.65,
                _ => draw.within(3.0),
            };
        }
        let wheels: [f32; 4] = std::array::from_fn(|_| match self.now.fast {
            true => draw.within(70.0),
            false => draw.within(49.0),
        });
        let estimate = self.state(draw, 0.01, velocity);
        let mut next = self.state(draw, 0.02, velocity);
        let fresh = self.state(draw, 0.02, velocity);
        if draw.chance(15) {
            // Beside the estimate, so that anti-jitter matters.
            let near: [f32; 3] = std::array::from_fn(|i| estimate[i] + draw.within(0.002));
            next[..3].copy_from_slice(&near);
        }
        words.put(4, &sighting);
        words.put(7, &wheels);
        words.put(11, &[draw.within(3.0)]);
        words.put(12, &predicted);
        words.put(ESTIMATE, &estimate);
        words.put(FRESH, &fresh);
        words.put(NEXT, &next);
    }

    fn others(&mut self, words: &mut Words, draw: &mut Draw) {
        words.put(24, &self.now.command);
        words.put(43, &[draw.within(3.0), draw.within(3.0), draw.within(3.0)]);
        words.put(52, &[draw.within(3.0), draw.within(3.0), draw.within(3.0)]);
        words.put(55, &[self.now.turn.0, self.now.turn.1]);
        words.put(57, &self.now.matrices);
        words.put(102, &[draw.within(4.0), draw.within(4.0), draw.within(1.0)]);
        words.0[0] = 1;
        words.0[1] = self.next;
        words.0[2] = draw.chance(self.now.sightings) as u32
            + 2 * draw.chance(2) as u32
            + 4 * (self.now.stop || draw.chance(2)) as u32
            + 8 * (draw.below(150) == 0) as u32
            + 16 * draw.chance(6) as u32;
        words.0[3] = self.now.mode;
        words.0[105] = self.k;
    }

    /// What the state asks for: the sample held is met by its scene, a gate by its
    /// radius, a seeding by its deviation, recovery by wheels at rest.
    fn aimed(&mut self, words: &mut Words, draw: &mut Draw) {
        match self.plain.gate {
            Gate::Seeding { n, .. } => {
                if n == 0 {
                    self.seeding = aims::seeding(draw);
                }
                aims::seed(words, self.seeding, n);
            }
            Gate::Tracking { t } => {
                if self.now.sightings > 0 && draw.chance(5 * self.aims) {
                    aims::gate(words, t, draw);
                    words.0[2] |= 1;
                }
            }
        }
        if self.plain.recovering {
            aims::rest(words, draw);
        }
        let met = self.scene.take().filter(|_| self.plain.held.is_some());
        if self.now.calm {
            // The cameras are to run out with a sample held.
        } else if let Some(scene) = met {
            self.meet(words, scene, draw);
        } else if draw.chance(12 * self.aims) {
            // Held in this tick, met in the next.
            let scene = aims::scene(draw);
            words.put(NEXT, &scene.sample);
            words.put(ESTIMATE, &scene.sample);
            self.scene = Some(scene);
        } else if draw.chance(4 * self.aims) {
            aims::divergence(words, draw);
        }
    }

    /// The scene's estimate beside its sample, unturned, mostly without friction.
    fn meet(&mut self, words: &mut Words, scene: Scene, draw: &mut Draw) {
        words.put(ESTIMATE, &scene.estimate);
        words.put(FRESH, &scene.sample);
        let beside = scene.estimate.map(|x| x + draw.within(0.1));
        words.put(NEXT, &beside);
        words.put(55, &[1.0, 0.0]);
        if draw.chance(70) {
            words.put(102, &[0.0; 3]);
        }
        words.0[2] = words.0[2] & !4 | 4 * scene.stop as u32;
    }

    fn drawn(&mut self, draw: &mut Draw) -> Block {
        if self.now.left == 0 {
            self.turn_page(draw);
        }
        self.now.left -= 1;
        self.change_mind(draw);
        let mut words = Words([0; 128]);
        self.motion(&mut words, draw);
        self.others(&mut words, draw);
        self.aimed(&mut words, draw);
        if draw.chance(self.now.odd) {
            for _ in 0..1 + draw.below(3) {
                let at = 4 + draw.below(101);
                words.0[at] = match draw.below(5) {
                    0 => (draw.bits() >> 32) as u32,
                    1 => [0x7f80_0001, 0xffc0_0000, 0x7fc0_0000, 0xff80_0001][draw.below(4)],
                    2 => draw.within(1e4).to_bits(),
                    3 => draw.subnormal().to_bits(),
                    _ => draw.special().to_bits(),
                };
            }
        }
        let mut block = Block { words: words.0 };
        block.words[127] = block.check();
        block
    }
}

/// The refusals of a block, in the order of their tests.
const ORDER: [u32; 8] = [5, 6, 7, 8, 1, 4, 9, 10];

/// Changes the block so that the test of this refusal fails.
fn spoil(block: &mut Block, refusal: u32, draw: &mut Draw) {
    match refusal {
        1 => block.words[105] = [0, 65, 256, 0xffff_ffff][draw.below(4)],
        4 => block.words[3] = [4, 5, 256, 0xffff_ffff][draw.below(4)],
        7 => block.words[0] = [0, 2, 257, 0x0100_0000][draw.below(4)],
        8 => match draw.below(5) {
            0 => block.words[2] |= 32,
            1 => block.words[2] |= 32 << draw.below(27),
            2 => block.words[106] = 1 << draw.below(32),
            3 => block.words[126] = 1 << draw.below(32),
            _ => block.words[106 + draw.below(21)] = 1 << draw.below(32),
        },
        9 => block.words[105] = (block.k() % 64 + draw.below(63) as u32) % 64 + 1,
        10 if draw.chance(50) => block.words[1] = block.words[1].wrapping_sub(1),
        10 => block.words[1] = block.words[1].wrapping_add(1),
        _ => {}
    }
}

/// The block's bytes, changed so that it is refused with this number; now and
/// then other tests that come later would fail too.
pub fn broken(mut block: Block, refusal: u32, draw: &mut Draw) -> Vec<u8> {
    let later = ORDER.iter().skip_while(|r| **r != refusal).skip(1);
    for r in later {
        // A k that is none is no other drive's.
        if draw.chance(30) && (refusal, *r) != (1, 9) {
            spoil(&mut block, *r, draw);
        }
    }
    spoil(&mut block, refusal, draw);
    block.words[127] = block.check();
    if refusal == 6 {
        block.words[127] ^= 1 << draw.below(32);
    }
    let mut bytes = block.bytes();
    if refusal == 5 {
        bytes.truncate(1 + draw.below(511));
    }
    bytes
}
