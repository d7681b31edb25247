//! Blur, response, threshold, clusters, centres, and all of them one after the other.

use crate::tally::{Job, Tally, job, parts};
use muosleap::image_util::{self, Saddles, worklist_len};
use muosleap::{Cluster, Refusal, Shape, c};
use muosleap_compare::{Numbers, SEED, pictures};
use oracle::original::detector::{centers, clusters};
use oracle::original::image_util::{blurred_across, gaussian_blur_f32, hessian_response, kernel};
use oracle::planes::{PICTURES, Plane, drawn, lowest, unit, walked, wide};

/// Sides of larger planes.
const LARGE: [(usize, usize); 9] =
    [(64, 48), (127, 33), (320, 240), (640, 480), (641, 479), (4_096, 5), (7, 4_096), (1_280, 960), (1_920, 1_080)];

/// Sigmas for every number of weights from 3 to 15.
const SIGMAS: [f32; 14] = [0.1, 0.3, 0.5, 0.7, 0.8, 1.0, 1.2, 1.5, 1.7, 2.0, 2.3, 2.6, 3.0, 3.5];

pub fn jobs() -> Vec<Job> {
    [
        job("kernel: the weights of 3,500 sigmas", weights),
        parts("gaussian_blur_f32: every size to 24 x 24, sigma 1.5", 24, |k, tally| small_blurs(k as usize + 1, tally)),
        parts("gaussian_blur_f32: 14 sigmas, sides about their windows", 14, |k, tally| windows(SIGMAS[k as usize], tally)),
        parts("gaussian_blur_f32: sizes to 1920 x 1080", 9, |k, tally| large_blurs(LARGE[k as usize], tally)),
        parts("hessian_response: every size to 24 x 24", 24, |k, tally| small_responses(k as usize + 1, tally)),
        parts("hessian_response: sizes to 1920 x 1080", 9, |k, tally| large_responses(LARGE[k as usize], tally)),
        job("response_threshold: every size to 24 x 24, zeros of both signs", thresholds),
        parts("response_threshold: sizes to 1920 x 1080", 9, |k, tally| large_thresholds(LARGE[k as usize], tally)),
        job("init_saddle_clusters: every plane of two values to 4 x 4", patterns),
        job("init_saddle_clusters: spirals, combs, borders", shapes),
        parts("init_saddle_clusters: random planes to 40 x 40", 8, random_clusters),
        parts("init_saddle_clusters: sizes to 1920 x 1080", 9, |k, tally| large_clusters(LARGE[k as usize], tally)),
        parts("centres: of random clusters", 4, random_centers),
        parts("picture to centres: sheets with noise, sizes to 1920 x 1080", 9, |k, tally| chain(LARGE[k as usize], tally)),
    ]
    .concat()
}

fn shape(plane: &Plane) -> Shape {
    Shape { width: plane.width, height: plane.height }
}

fn sides(plane: &Plane) -> String {
    format!("{} x {}", plane.width, plane.height)
}

fn weights(tally: &mut Tally) {
    for k in 1..=3_500 {
        let sigma = k as f32 / 1_000.0;
        let (ours, original) = (image_util::kernel(sigma), kernel(sigma));
        tally.same(ours.len(), original.len(), || format!("sigma {sigma}"));
        tally.same_bits(&ours, &original, || format!("sigma {sigma}"));
    }
}

/// Both planes that the blur writes, into buffers that hold NaN before.
fn blur(plane: &Plane, sigma: f32, tally: &mut Tally) {
    let (mut temp, mut out) = (vec![f32::NAN; plane.samples.len()], vec![f32::NAN; plane.samples.len()]);
    image_util::gaussian_blur_f32(&plane.samples, shape(plane), &kernel(sigma), &mut temp, &mut out).unwrap();
    let image = plane.image();
    tally.same_bits(&temp, blurred_across(&image, sigma).as_raw(), || format!("across, sigma {sigma}, {}", sides(plane)));
    tally.same_bits(&out, gaussian_blur_f32(&image, sigma).as_raw(), || format!("sigma {sigma}, {}", sides(plane)));
}

/// A plane of random samples, one of easily lost values, one of two values.
fn unit_planes(width: usize, height: usize, numbers: &mut Numbers) -> [Plane; 3] {
    [
        Plane::new(width, height, || numbers.unit()),
        Plane::new(width, height, || unit(numbers)),
        Plane::new(width, height, || numbers.below(2) as f32),
    ]
}

fn small_blurs(width: usize, tally: &mut Tally) {
    let mut numbers = Numbers::from(SEED + 1_000 + width as u64);
    for height in 1..=24 {
        for _ in 0..4 {
            unit_planes(width, height, &mut numbers).iter().for_each(|plane| blur(plane, 1.5, tally));
        }
    }
}

fn windows(sigma: f32, tally: &mut Tally) {
    let mut numbers = Numbers::from(SEED + 1_100 + (sigma * 10.0) as u64);
    for width in [1, 2, 3, 4, 6, 7, 8, 13, 14, 15, 16, 17, 33, 50] {
        for height in [1, 2, 3, 5, 7, 8, 14, 15, 16, 31] {
            unit_planes(width, height, &mut numbers).iter().for_each(|plane| blur(plane, sigma, tally));
        }
    }
}

fn large_blurs((width, height): (usize, usize), tally: &mut Tally) {
    let mut numbers = Numbers::from(SEED + 1_200 + width as u64);
    for plane in unit_planes(width, height, &mut numbers) {
        blur(&plane, 1.5, tally);
        blur(&plane, SIGMAS[numbers.below(SIGMAS.len())], tally);
    }
}

fn response(plane: &Plane, tally: &mut Tally) {
    let mut out = vec![f32::NAN; plane.samples.len()];
    image_util::hessian_response(&plane.samples, shape(plane), &mut out).unwrap();
    tally.same_bits(&out, hessian_response(&plane.image()).as_raw(), || sides(plane));
}

/// Samples of magnitude up to 65,536, and the planes of the blur's samples.
fn wide_planes(width: usize, height: usize, numbers: &mut Numbers) -> Vec<Plane> {
    let mut planes = vec![Plane::new(width, height, || wide(numbers))];
    planes.push(Plane::new(width, height, || if numbers.below(2) == 0 { 65_536.0 } else { -65_536.0 }));
    planes.push(Plane::new(width, height, || numbers.unit() * 2.0 - 1.0));
    planes.extend(unit_planes(width, height, numbers));
    planes
}

fn small_responses(width: usize, tally: &mut Tally) {
    let mut numbers = Numbers::from(SEED + 1_300 + width as u64);
    for height in 1..=24 {
        for _ in 0..4 {
            wide_planes(width, height, &mut numbers).iter().for_each(|plane| response(plane, tally));
        }
    }
}

fn large_responses((width, height): (usize, usize), tally: &mut Tally) {
    let mut numbers = Numbers::from(SEED + 1_400 + width as u64);
    wide_planes(width, height, &mut numbers).iter().for_each(|plane| response(plane, tally));
}

/// A zero threshold is +0.0, whichever sign the original's has: `lowest` sees to that.
fn threshold(plane: &Plane, tally: &mut Tally) {
    let ours = image_util::response_threshold(&plane.samples, shape(plane)).unwrap();
    tally
        .same_bits(&[ours], &[lowest(plane)], || format!("{}, {:?}", sides(plane), &plane.samples[..plane.samples.len().min(8)]));
}

fn thresholds(tally: &mut Tally) {
    let mut numbers = Numbers::from(SEED + 1_500);
    for (width, height) in (1..=24).flat_map(|width| (1..=24).map(move |height| (width, height))) {
        wide_planes(width, height, &mut numbers).iter().for_each(|plane| threshold(plane, tally));
        for zero in [0.0f32, -0.0] {
            let mut plane = Plane::new(width, height, || [0.0, -0.0, 1.0e-45, 1.0][numbers.below(4)]);
            plane.samples[numbers.below(width * height)] = zero;
            threshold(&plane, tally);
        }
        // One lowest sample at each place in turn.
        for place in 0..width * height {
            let mut plane = Plane::new(width, height, || numbers.unit());
            plane.samples[place] = [-1.0e-45, -3.0e-44, -0.5, -65_536.0, 0.0][numbers.below(5)];
            threshold(&plane, tally);
        }
    }
}

fn large_thresholds((width, height): (usize, usize), tally: &mut Tally) {
    let mut numbers = Numbers::from(SEED + 1_600 + width as u64);
    for mut plane in wide_planes(width, height, &mut numbers) {
        threshold(&plane, tally);
        let place = numbers.below(width * height);
        plane.samples[place] = -65_535.5;
        threshold(&plane, tally);
    }
}

/// Total, rows and plane afterwards, with room for as many rows as there are and `more` numbers, which may be negative. What is
/// left of the rows stays.
fn walk(plane: &Plane, threshold: f32, more: isize, tally: &mut Tally) {
    let (rows, after) = walked(plane, threshold);
    let mut expected = vec![u64::MAX - 7; (3 * rows.len() as isize + more).max(0) as usize];
    let whole = (expected.len() / 3).min(rows.len());
    for (k, &number) in rows[..whole].as_flattened().iter().enumerate() {
        expected[k] = number as u64;
    }
    let mut ours = vec![u64::MAX - 7; expected.len()];
    let mut h_mat = plane.samples.clone();
    let mut worklist = vec![0; worklist_len(shape(plane))];
    let mut total = 0;
    let answer = c::init_saddle_clusters(&mut h_mat, plane.width, plane.height, threshold, &mut worklist, &mut ours, &mut total);
    let input = || format!("{}, threshold {threshold:e}, room {}", sides(plane), expected.len());
    tally.same((answer, total), (0, rows.len()), input);
    tally.same(&ours, &expected, input);
    tally.same_bits(&h_mat, &after, input);
}

fn patterns(tally: &mut Tally) {
    for (width, height) in (1..=4).flat_map(|width| (1..=4).map(move |height| (width, height))) {
        for pattern in 0..1u32 << (width * height) {
            let mut place = 0;
            let plane = Plane::new(width, height, || {
                place += 1;
                if pattern >> (place - 1) & 1 == 1 { -1.0 } else { 0.0 }
            });
            walk(&plane, -0.5, 0, tally);
        }
    }
}

fn shapes(tally: &mut Tally) {
    for picture in PICTURES {
        for threshold in [-0.5, -1.0, 0.0, -0.0, f32::MAX, -f32::MAX, 1.0e-45, -1.0e-45] {
            (-4..=4).for_each(|more| walk(&drawn(picture), threshold, more, tally));
        }
    }
    for side in [33, 64, 100] {
        // A comb, stripes that hang together, and rings.
        let even = |number: usize| number & 1 == 0;
        let comb = |x: usize, y: usize| even(x) || y == side / 2;
        let snake = |x: usize, y: usize| even(y) || x == if even(y / 2) { side - 1 } else { 0 };
        let rings = |x: usize, y: usize| even(x.min(y).min(side - 1 - x).min(side - 1 - y));
        let all = |_, _| true;
        let kinds: [&dyn Fn(usize, usize) -> bool; 4] = [&comb, &snake, &rings, &all];
        for kind in kinds {
            let mut place = 0;
            let plane = Plane::new(side, side, || {
                place += 1;
                if kind((place - 1) % side, (place - 1) / side) { -1.0 } else { 1.0 }
            });
            walk(&plane, 0.0, 5, tally);
        }
    }
}

fn random_clusters(part: u64, tally: &mut Tally) {
    let mut numbers = Numbers::from(SEED + 1_700 + part);
    for _ in 0..3_000 {
        let (width, height) = (1 + numbers.below(40), 1 + numbers.below(40));
        let plane = Plane::new(width, height, || numbers.unit() * 2.0 - 1.0);
        let more = numbers.below(9) as isize - 4;
        walk(&plane, numbers.unit() * 2.4 - 1.2, more, tally);
        let plane = Plane::new(width, height, || wide(&mut numbers));
        walk(&plane, plane.samples[numbers.below(width * height)], more, tally);
    }
}

fn large_clusters((width, height): (usize, usize), tally: &mut Tally) {
    let mut numbers = Numbers::from(SEED + 1_800 + width as u64);
    let plane = Plane::new(width, height, || numbers.unit());
    // Few below, half below, about where one cluster spans the plane, all.
    for threshold in [0.001, 0.05, 0.5, 0.59, 0.61, 2.0] {
        walk(&plane, threshold, 3, tally);
    }
}

/// A centre on both sides. Where a sum is 2^24 or more, the original's has been rounded on the way, and ours is refused.
fn center(cluster: &[(u32, u32)], tally: &mut Tally) {
    let sum = |side: fn(&(u32, u32)) -> u32| cluster.iter().map(|point| side(point) as u64).sum::<u64>();
    let ours = Cluster { sum_x: sum(|point| point.0), sum_y: sum(|point| point.1), count: cluster.len() as u64 };
    let input = || format!("{ours:?}");
    if ours.sum_x >= 1 << 24 || ours.sum_y >= 1 << 24 {
        tally.same(ours.center(), Err(Refusal::Count), input);
    } else {
        let (x, y) = centers(&[cluster.to_vec()])[0];
        let ours = ours.center().unwrap();
        tally.same_bits(&[ours.x, ours.y], &[x, y], input);
    }
}

fn random_centers(part: u64, tally: &mut Tally) {
    let mut numbers = Numbers::from(SEED + 1_900 + part);
    for _ in 0..50_000 {
        let (most, count) = ([4_096, 50][numbers.below(2)], [8, 60, 300][numbers.below(3)]);
        let from = numbers.below(4_096 - most + 1);
        let points = 0..1 + numbers.below(count);
        let cluster: Vec<(u32, u32)> =
            points.map(|_| ((from + numbers.below(most)) as u32, (from + numbers.below(most)) as u32)).collect();
        center(&cluster, tally);
    }
    // About the largest sums.
    for count in 4_090..4_103 {
        (4_090..4_096).for_each(|x| center(&vec![(x, x - 3); count], tally));
    }
}

/// A sheet's picture through blur, response, threshold, clusters and centres on both sides.
fn chain((width, height): (usize, usize), tally: &mut Tally) {
    let mut numbers = Numbers::from(SEED + 2_000 + width as u64);
    let mut saddles = Saddles::new(Shape { width, height });
    for noise in [0, 1, 6, 20, 40] {
        let (sheet, _) = pictures::sheet(Shape { width, height }, noise, &mut numbers);
        let samples = image_util::to_unit(&sheet);
        let ours: Vec<Cluster> = saddles.find(&samples, &image_util::kernel(1.5)).unwrap().collect();
        let plane = Plane { width, height, samples };
        let blurred = gaussian_blur_f32(&plane.image(), 1.5);
        tally.same_bits(saddles.blurred(), blurred.as_raw(), || format!("noise {noise}, {}", sides(&plane)));
        let response = Plane { width, height, samples: hessian_response(&blurred).into_raw() };
        let threshold = lowest(&response);
        let (rows, after) = walked(&response, threshold);
        let rows: Vec<Cluster> = rows.iter().map(|row| row.map(|number| number as u64).into()).collect();
        tally.same_bits(saddles.response(), &after, || format!("noise {noise}, {}", sides(&plane)));
        tally.same(ours, rows, || format!("noise {noise}, {}", sides(&plane)));
        clusters(response.image(), threshold).iter().for_each(|cluster| center(cluster, tally));
    }
}
