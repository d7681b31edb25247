//! Blur, response, threshold, clusters, and all four.

use crate::measure::{Times, both, timed};
use muosleap::image_util::{
    gaussian_blur_f32, hessian_response, init_saddle_clusters, kernel, response_threshold, to_unit, worklist_len,
};
use muosleap::{Cluster, Point, Shape};
use muosleap_compare::{Numbers, SEED, pictures};
use oracle::original::detector as original;
use oracle::original::image_util::{self, GrayImagef32};
use std::time::Duration;

/// Sigma of the original's blur: seven weights.
const SIGMA: f32 = 1.5;

/// A picture and the buffers that our side is lent.
pub struct Planes {
    shape: Shape,
    weights: Vec<f32>,
    img: Vec<f32>,
    temp: Vec<f32>,
    blurred: Vec<f32>,
    response: Vec<f32>,
    work: Vec<f32>,
    worklist: Vec<u32>,
    rows: Vec<[u64; 3]>,
}

impl Planes {
    /// A sheet of tags with noise, and every buffer written once.
    pub fn new(width: usize, height: usize) -> Planes {
        let shape = Shape { width, height };
        let img = to_unit(&pictures::sheet(shape, 6, &mut Numbers::from(SEED + 6_000)).0);
        let plane = vec![1.0; shape.len()];
        let (worklist, rows) = (vec![1; worklist_len(shape)], vec![[1; 3]; 65_536]);
        let (temp, blurred, response, work) = (plane.clone(), plane.clone(), plane.clone(), plane);
        let mut planes = Planes { shape, weights: kernel(SIGMA), img, temp, blurred, response, work, worklist, rows };
        planes.ours();
        planes
    }

    fn image(&self, samples: &[f32]) -> GrayImagef32 {
        GrayImagef32::from_raw(self.shape.width as u32, self.shape.height as u32, samples.to_vec()).unwrap()
    }

    /// Picture to clusters. The response is kept, and a copy of it clustered.
    fn ours(&mut self) -> usize {
        gaussian_blur_f32(&self.img, self.shape, &self.weights, &mut self.temp, &mut self.blurred).unwrap();
        hessian_response(&self.blurred, self.shape, &mut self.response).unwrap();
        let threshold = response_threshold(&self.response, self.shape).unwrap();
        self.work.copy_from_slice(&self.response);
        init_saddle_clusters(&mut self.work, self.shape, threshold, &mut self.worklist, &mut self.rows).unwrap()
    }

    /// The entries one by one.
    pub fn entries(&mut self) -> Vec<(String, Times)> {
        vec![
            ("`gaussian_blur_f32`, 7 weights".into(), self.blur()),
            ("`hessian_response`".into(), self.responses()),
            ("`response_threshold`".into(), self.threshold()),
            ("`init_saddle_clusters`".into(), self.clusters()),
            ("`cluster_center`, all of the picture's".into(), self.centers()),
            ("**blur, response, threshold, clusters**".into(), self.chain()),
        ]
    }

    fn blur(&mut self) -> Times {
        let img = self.image(&self.img);
        let Planes { shape, weights, img: samples, temp, blurred, .. } = self;
        assert_eq!(image_util::gaussian_blur_f32(&img, SIGMA).as_raw(), blurred);
        both(
            1,
            || timed(|| image_util::gaussian_blur_f32(&img, SIGMA)),
            || timed(|| gaussian_blur_f32(samples, *shape, weights, temp, blurred)),
        )
    }

    fn responses(&mut self) -> Times {
        let blurred = self.image(&self.blurred);
        let Planes { shape, blurred: samples, response, .. } = self;
        assert_eq!(image_util::hessian_response(&blurred).as_raw(), response);
        both(1, || timed(|| image_util::hessian_response(&blurred)), || timed(|| hessian_response(samples, *shape, response)))
    }

    fn threshold(&mut self) -> Times {
        let image = self.image(&self.response);
        let Planes { shape, response, .. } = self;
        assert_eq!(response_threshold(response, *shape), Ok(original::response_threshold(&image)));
        both(1, || timed(|| original::response_threshold(&image)), || timed(|| response_threshold(response, *shape)))
    }

    fn clusters(&mut self) -> Times {
        let image = self.image(&self.response);
        let Planes { shape, response, work, worklist, rows, .. } = self;
        let threshold = response_threshold(response, *shape).unwrap();
        work.copy_from_slice(response);
        let total = init_saddle_clusters(work, *shape, threshold, worklist, rows).unwrap();
        assert_eq!(original::clusters(image.clone(), threshold).len(), total);
        let theirs = || {
            let copy = image.clone();
            timed(|| original::clusters(copy, threshold))
        };
        let ours = || {
            work.copy_from_slice(response);
            timed(|| init_saddle_clusters(work, *shape, threshold, worklist, rows))
        };
        both(1, theirs, ours)
    }

    fn centers(&mut self) -> Times {
        let total = self.ours();
        let threshold = response_threshold(&self.response, self.shape).unwrap();
        let clusters = original::clusters(self.image(&self.response), threshold);
        let ours = || -> Vec<Point> { self.rows[..total].iter().map(|&row| Cluster::from(row).center().unwrap()).collect() };
        let points: Vec<(f32, f32)> = ours().iter().map(|point| (point.x, point.y)).collect();
        assert_eq!(original::centers(&clusters), points);
        both(1, || timed(|| original::centers(&clusters)), || timed(ours))
    }

    /// Picture to clusters on both sides. Ours puts the response into the blur's plane between, as the original's allocator does.
    pub fn chain(&mut self) -> Times {
        let img = self.image(&self.img);
        let theirs = || -> Duration {
            timed(|| {
                let response = image_util::hessian_response(&image_util::gaussian_blur_f32(&img, SIGMA));
                let threshold = original::response_threshold(&response);
                original::clusters(response, threshold)
            })
        };
        let Planes { shape, weights, img, temp, blurred, worklist, rows, .. } = self;
        let ours = || {
            timed(|| {
                gaussian_blur_f32(img, *shape, weights, temp, blurred)?;
                hessian_response(blurred, *shape, temp)?;
                let threshold = response_threshold(temp, *shape)?;
                init_saddle_clusters(temp, *shape, threshold, worklist, rows)
            })
        };
        both(1, theirs, ours)
    }
}
