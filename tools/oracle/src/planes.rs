//! Vectors of the planes: `gaussian_blur_f32`, `hessian_response`, the threshold, `init_saddle_clusters` and the centres.

use crate::limits;
use crate::original::detector::{centers, clusters, response_threshold};
use crate::original::image_util::{GrayImagef32, blurred_across, gaussian_blur_f32, hessian_response, kernel};
use crate::out::{Digest, File, Frame, Numbers, SEED};

pub fn files() -> Vec<File> {
    vec![blur(), response(), threshold(), refusals(), clusters_of_planes(), center(), refusals_of_clusters()]
}

/// A plane of floats with its sides.
#[derive(Clone)]
pub struct Plane {
    pub width: usize,
    pub height: usize,
    pub samples: Vec<f32>,
}

impl Plane {
    pub fn new(width: usize, height: usize, mut sample: impl FnMut() -> f32) -> Plane {
        Plane { width, height, samples: (0..width * height).map(|_| sample()).collect() }
    }

    pub fn image(&self) -> GrayImagef32 {
        GrayImagef32::from_raw(self.width as u32, self.height as u32, self.samples.clone()).unwrap()
    }

    /// A frame that starts with its kind and the sides.
    fn frame(&self, kind: u8) -> Frame {
        let side = |side: usize| u8::try_from(side).unwrap();
        Frame::new().u8(kind).u8(side(self.width)).u8(side(self.height))
    }
}

/// A sample to be blurred: from 0.0 to 1.0, now and then a limit or a value that is easily lost.
pub fn unit(numbers: &mut Numbers) -> f32 {
    const ODD: [f32; 8] = [0.0, 1.0, -0.0, 1.0e-45, 1.0e-38, 0.999_999_94, 0.5, 5.0e-8];
    match numbers.below(4) {
        0 => ODD[numbers.below(ODD.len())],
        1 => numbers.below(256) as f32 / 255.0,
        _ => numbers.unit(),
    }
}

fn blur() -> File {
    let mut file = File::new("vectors_picture/data/blur");
    let mut numbers = Numbers::from(SEED + 15);
    for height in [1, 2, 3, 5, 6, 7, 8, 9] {
        for width in [1, 2, 3, 5, 6, 7, 8, 9] {
            let plane = Plane::new(width, height, || unit(&mut numbers));
            file.push(blurred(&plane, 1.5));
        }
    }
    for sigma in [0.1, 0.5, 0.7, 1.0, 1.2, 2.0, 2.5, 3.0, 3.5] {
        for (width, height) in [(1, 1), (2, 7), (7, 2), (16, 5), (5, 16)] {
            let plane = Plane::new(width, height, || unit(&mut numbers));
            file.push(blurred(&plane, sigma));
        }
    }
    for sigma in [1.5, 0.5, 3.5] {
        file.push(digest_of_blur(63, 47, sigma, numbers.next()));
    }
    file
}

/// The plane with the weights of sigma, across and then down.
fn blurred(plane: &Plane, sigma: f32) -> Frame {
    let weights = kernel(sigma);
    let across = blurred_across(&plane.image(), sigma);
    let out = gaussian_blur_f32(&plane.image(), sigma);
    let frame = plane.frame(1).u8(weights.len() as u8).f32s(&weights);
    frame.f32s(&plane.samples).f32s(across.as_raw()).f32s(out.as_raw())
}

fn digest_of_blur(width: usize, height: usize, sigma: f32, seed: u64) -> Frame {
    let mut numbers = Numbers::from(seed);
    let plane = Plane::new(width, height, || numbers.unit());
    let weights = kernel(sigma);
    let mut digest = Digest::new();
    digest.f32s(blurred_across(&plane.image(), sigma).as_raw());
    digest.f32s(gaussian_blur_f32(&plane.image(), sigma).as_raw());
    plane.frame(2).u8(weights.len() as u8).f32s(&weights).u64(seed).u64(digest.0)
}

/// A sample of magnitude up to 65,536, of either sign: small and large, zeros of both signs, subnormals.
pub fn wide(numbers: &mut Numbers) -> f32 {
    const ODD: [f32; 10] = [0.0, -0.0, 1.0e-45, -1.0e-45, 1.0e-39, 65_536.0, -65_536.0, 1.0, -1.0, 3.0e-20];
    let sign = if numbers.below(2) == 0 { 1.0 } else { -1.0 };
    match numbers.below(5) {
        0 => ODD[numbers.below(ODD.len())],
        1 => sign * 65_536.0 * numbers.unit(),
        2 => sign * numbers.unit() * 1.0e-38,
        _ => sign * numbers.unit(),
    }
}

fn response() -> File {
    let mut file = File::new("vectors_picture/data/response");
    let mut numbers = Numbers::from(SEED + 9);
    for height in [1, 2, 3, 4, 5, 8] {
        for width in [1, 2, 3, 4, 5, 8, 17] {
            for kind in 0..2 {
                let sample = || if kind == 0 { unit(&mut numbers) } else { wide(&mut numbers) };
                let plane = Plane::new(width, height, sample);
                file.push(plane.frame(3).f32s(&plane.samples).f32s(hessian_response(&plane.image()).as_raw()));
            }
        }
    }
    for (width, height) in [(63, 47), (3, 64), (64, 3)] {
        let seed = numbers.next();
        let mut samples = Numbers::from(seed);
        let plane = Plane::new(width, height, || samples.unit());
        let mut digest = Digest::new();
        digest.f32s(hessian_response(&plane.image()).as_raw());
        file.push(plane.frame(4).u64(seed).u64(digest.0));
    }
    file
}

/// The original's threshold, a zero of either sign as +0.0 (document 01).
pub fn lowest(plane: &Plane) -> f32 {
    response_threshold(&plane.image()) + 0.0
}

fn threshold() -> File {
    let mut file = File::new("vectors_picture/data/threshold");
    let mut numbers = Numbers::from(SEED + 5);
    let mut push = |plane: Plane| {
        file.push(plane.frame(5).f32(lowest(&plane)).f32s(&plane.samples));
    };
    for value in [0.0, -0.0, 1.0, -1.0, 65_536.0, -65_536.0, 1.0e-45, -1.0e-45, -1.4e-44, -1.0e-38, 1.0e-38, 0.05, -20.0] {
        push(Plane::new(1, 1, || value));
        push(Plane::new(3, 2, || value));
    }
    for samples in [[0.0, -0.0], [-0.0, 0.0], [1.0, -0.0], [-1.0e-45, 0.0]] {
        push(Plane { width: 2, height: 1, samples: samples.to_vec() });
    }
    for place in 0..17 {
        let mut plane = Plane::new(17, 1, || numbers.unit());
        plane.samples[place] = -numbers.unit();
        push(plane);
    }
    for (width, height) in [(1, 9), (4, 4), (7, 3), (16, 8), (13, 11)] {
        for _ in 0..4 {
            push(Plane::new(width, height, || wide(&mut numbers)));
        }
        push(Plane::new(width, height, || numbers.unit() + 0.25));
    }
    file
}

/// What the original's clusters say: a row of sums and count for each, and the plane afterwards.
pub fn walked(plane: &Plane, threshold: f32) -> (Vec<[usize; 3]>, Vec<f32>) {
    let mut after = plane.samples.clone();
    let rows = clusters(plane.image(), threshold).into_iter().map(|cluster| {
        let (mut sum_x, mut sum_y) = (0, 0);
        for &(x, y) in &cluster {
            sum_x += x as usize;
            sum_y += y as usize;
            after[y as usize * plane.width + x as usize] = f32::MAX;
        }
        [sum_x, sum_y, cluster.len()]
    });
    (rows.collect(), after)
}

/// A frame with room for as many numbers of rows as there are, and `more` (which may be negative).
fn clustered(plane: &Plane, threshold: f32, more: isize) -> Frame {
    let (rows, after) = walked(plane, threshold);
    let room = (3 * rows.len() as isize + more).max(0) as usize;
    let frame = plane.frame(1).f32(threshold).u16(room).u16(rows.len());
    let frame = rows.iter().flatten().fold(frame, |frame, &number| frame.u16(number));
    frame.f32s(&plane.samples).f32s(&after)
}

/// A plane from a picture: `#` is -1, anything else 0.
pub fn drawn(picture: &str) -> Plane {
    let lines: Vec<&str> = picture.split('/').collect();
    let samples = lines.concat().chars().map(|mark| if mark == '#' { -1.0 } else { 0.0 }).collect();
    Plane { width: lines[0].len(), height: lines.len(), samples }
}

/// Spirals, combs, plateaus along the border, clusters that meet at a corner only, clusters that hang on the border alone.
pub const PICTURES: [&str; 14] = [
    "#",
    "##/##",
    "...../.###./.###./.###./.....",
    "#####/#####/#####",
    "#...#/.#.#./..#../.#.#./#...#",
    "#####/#...#/#...#/#...#/#####",
    "##.##/#...#/..#../#...#/##.##",
    "..#../.###./#####/.###./..#..",
    "#########/#......../#.#######/#.#.....#/#.#.###.#/#.#...#.#/#.#####.#/#.......#/#########",
    ".........../.#########./.#........./.#.#######./.#.#.....#./.#.#.###.#./.#.#.#...#./.#.#.#####./.#.#......./.#.########/...........",
    "#.#.#.#.#.#/#.#.#.#.#.#/#.#.#.#.#.#/#.#.#.#.#.#/###########",
    ".........../.#.#.#.#.#./.#.#.#.#.#./.#########./.#.#.#.#.#./.#.#.#.#.#./...........",
    "#.#.#.#.#/.#.#.#.#./#.#.#.#.#/.#.#.#.#./#.#.#.#.#/.#.#.#.#./#.#.#.#.#",
    "####......../...#....####/...####.#..#/......#.#..#/......####.#/...........#",
];

fn clusters_of_planes() -> File {
    let mut file = File::new("vectors_picture/data/clusters");
    let mut numbers = Numbers::from(SEED + 4);
    for picture in PICTURES {
        let plane = drawn(picture);
        file.push(clustered(&plane, -0.5, 2));
        file.push(clustered(&plane, -0.5, -1));
        file.push(clustered(&plane, -1.0, 3));
        file.push(clustered(&plane, 0.0, 0));
    }
    file.push(clustered(&drawn("...../..#../....."), f32::MAX, 1));
    for (width, height) in [(1, 1), (1, 8), (8, 1), (2, 2), (2, 5), (5, 2), (3, 3), (3, 7), (9, 4), (10, 10)] {
        for threshold in [-0.5, 0.0, 0.3, -0.05] {
            let plane = Plane::new(width, height, || numbers.unit() * 2.0 - 1.0);
            let more = numbers.below(7) as isize - 3;
            file.push(clustered(&plane, threshold, more));
        }
        let plane = Plane::new(width, height, || wide(&mut numbers));
        file.push(clustered(&plane, lowest(&plane), 0));
    }
    for (width, height) in [(4, 3), (3, 4), (5, 3), (4, 4)] {
        file.push(digest_of_patterns(width, height));
    }
    file
}

/// A digest over every plane of these sides whose samples are -1 (where the number of the plane has a one) or 0.
fn digest_of_patterns(width: usize, height: usize) -> Frame {
    let mut digest = Digest::new();
    for pattern in 0..1u32 << (width * height) {
        let mut place = 0;
        let plane = Plane::new(width, height, || {
            place += 1;
            if pattern >> (place - 1) & 1 == 1 { -1.0 } else { 0.0 }
        });
        let (rows, after) = walked(&plane, -0.5);
        digest.u16(rows.len());
        rows.iter().flatten().for_each(|&number| digest.u16(number));
        digest.f32s(&after);
    }
    Plane { width, height, samples: Vec::new() }.frame(2).u64(digest.0)
}

fn center() -> File {
    let mut file = File::new("vectors_picture/data/center");
    let mut numbers = Numbers::from(SEED + 24);
    let mut push = |cluster: Vec<(u32, u32)>| {
        let sum = |side: fn(&(u32, u32)) -> u32| cluster.iter().map(|point| side(point) as u64).sum::<u64>();
        let (sum_x, sum_y) = (sum(|point| point.0), sum(|point| point.1));
        assert!(sum_x < 1 << 24 && sum_y < 1 << 24);
        let (x, y) = centers(std::slice::from_ref(&cluster))[0];
        file.push(Frame::new().u8(3).u64(sum_x).u64(sum_y).u64(cluster.len() as u64).u8(0).f32(x).f32(y));
    };
    for count in (1..=40).chain([100, 255, 1_000, 4_096]) {
        let most = 4_096;
        push((0..count).map(|_| (numbers.below(most) as u32, numbers.below(most) as u32)).collect());
        push((0..count).map(|_| (4_095, numbers.below(3) as u32)).collect());
    }
    // The largest sums: 2^24 - 1 is 4,097 times 4,095.
    push(vec![(4_095, 4_095); 4_097]);
    push([vec![(4_095, 4_095); 4_096], vec![(4_094, 4_093)]].concat());
    for row in limits::centers() {
        let frame = Frame::new().u8(3).u64(row.sum_x).u64(row.sum_y).u64(row.count);
        file.push(frame.u8(row.refusal).f32(row.x).f32(row.y));
    }
    file
}

fn lent(frame: Frame, list: &limits::Lent) -> Frame {
    frame.u32(list.count).f32(list.fill).u32(list.place).f32(list.other)
}

/// The limits of document 01 for blur, response and threshold, each a call of one entry and the number that it answers.
fn refusals() -> File {
    let mut file = File::new("vectors_picture/data/refusals");
    for row in limits::planes().iter().filter(|row| row.entry < 3) {
        let frame = Frame::new().u8(6).u8(row.entry).u64(row.width).u64(row.height).u8(row.refusal);
        file.push(lent(lent(frame, &row.plane), &row.weights).u32(row.temp).u32(row.out));
    }
    file
}

/// The limits of document 01 for the clusters.
fn refusals_of_clusters() -> File {
    let mut file = File::new("vectors_picture/data/cluster_refusals");
    for row in limits::planes().iter().filter(|row| row.entry == 3) {
        let frame = Frame::new().u8(4).u64(row.width).u64(row.height).u8(row.refusal);
        file.push(lent(frame, &row.plane).f32(row.threshold).u32(row.worklist));
    }
    file
}
