//! Planes of f32 samples: blur, response, threshold, clusters, centres.
//!
//! [`Saddles`] runs them one after the other in buffers that it keeps from picture to picture.

use crate::refusal::accepted;
use crate::{Picture, Point, Refusal, Shape, c};

/// The weights of the original's Gaussian blur, worked out as it does. Sigma 1.5, which it uses, gives seven; above 3.5 the blur
/// refuses them, since there are more than 15.
///
/// ```
/// let weights = muosleap::image_util::kernel(1.5);
/// assert_eq!(weights.len(), 7);
/// assert_eq!(weights[0], weights[6]);
/// ```
pub fn kernel(sigma: f32) -> Vec<f32> {
    let radius = (sigma * 2.0).ceil() as i32;
    let bell = |x: f32| (-(x * x) / (2.0 * sigma * sigma)).exp();
    let values: Vec<f32> = (-radius..=radius).map(|x| bell(x as f32)).collect();
    let sum: f32 = values.iter().sum();
    values.into_iter().map(|value| value / sum).collect()
}

/// The pixels of an 8-bit picture as floats from 0.0 to 1.0, one line right after the other, without filler. Refusal 1 is not tested
/// here: of a picture that would be refused these are the pixels that its bytes have.
///
/// ```
/// use muosleap::{Picture, image_util::to_unit};
///
/// let picture = Picture { bytes: [0, 51, 99, 255, 0], width: 2, height: 2, stride: 3 };
/// assert_eq!(to_unit(&picture), [0.0, 0.2, 1.0, 0.0]);
/// ```
pub fn to_unit(picture: &Picture<impl AsRef<[u8]>>) -> Vec<f32> {
    let mut samples = Vec::with_capacity(picture.lines().map(<[u8]>::len).sum());
    picture.lines().for_each(|line| samples.extend(line.iter().map(|&pixel| pixel as f32 / 255.0)));
    samples
}

/// Blurs `img`, of samples from 0.0 to 1.0: across into `temp`, then down into `out`. Refusals 1, 2, 3.
///
/// ```
/// use muosleap::{Refusal, Shape, image_util::gaussian_blur_f32};
///
/// let shape = Shape { width: 3, height: 1 };
/// let (mut temp, mut out) = ([0.0; 3], [0.0; 3]);
/// gaussian_blur_f32(&[0.0, 1.0, 0.0], shape, &[0.25, 0.5, 0.25], &mut temp, &mut out)?;
/// assert_eq!(temp, [0.25, 0.5, 0.25]);
/// assert_eq!(out, [0.25, 0.5, 0.25]);
/// let refused = gaussian_blur_f32(&[0.0, 1.5, 0.0], shape, &[0.25, 0.5, 0.25], &mut temp, &mut out);
/// assert_eq!(refused, Err(Refusal::SampleRange));
/// # Ok::<(), Refusal>(())
/// ```
pub fn gaussian_blur_f32(img: &[f32], shape: Shape, weights: &[f32], temp: &mut [f32], out: &mut [f32]) -> Result<(), Refusal> {
    accepted(c::gaussian_blur_f32(img, shape.width, shape.height, weights, temp, out))
}

/// The response of a blurred picture into `out`: below 0 at saddle points. Refusals 1, 3.
///
/// ```
/// use muosleap::{Shape, image_util::hessian_response};
///
/// let img = [0.0, -1.0, 0.0, 1.0, 0.0, 1.0, 0.0, -1.0, 0.0];
/// let mut out = [9.0; 9];
/// hessian_response(&img, Shape { width: 3, height: 3 }, &mut out)?;
/// assert_eq!(out, [0.0, 0.0, 0.0, 0.0, -4.0, 0.0, 0.0, 0.0, 0.0]);
/// # Ok::<(), muosleap::Refusal>(())
/// ```
pub fn hessian_response(img: &[f32], shape: Shape, out: &mut [f32]) -> Result<(), Refusal> {
    accepted(c::hessian_response(img, shape.width, shape.height, out))
}

/// The threshold of the clusters: the lowest response times 0.05. Refusals 1, 3.
pub fn response_threshold(response: &[f32], shape: Shape) -> Result<f32, Refusal> {
    let mut threshold = 0.0;
    accepted(c::response_threshold(response, shape.width, shape.height, &mut threshold))?;
    Ok(threshold)
}

/// A cluster of samples below the threshold.
#[derive(Clone, Copy, PartialEq, Eq, Debug)]
pub struct Cluster {
    /// Sum of the columns of its samples.
    pub sum_x: u64,
    /// Sum of the rows of its samples.
    pub sum_y: u64,
    /// How many samples it has.
    pub count: u64,
}

impl Cluster {
    /// Its centre. Refusal 15 where a sum or the count is too large, 2^24 or more, to be divided exactly, or the count is 0.
    ///
    /// ```
    /// use muosleap::{Cluster, Point, Refusal};
    ///
    /// assert_eq!(Cluster { sum_x: 3, sum_y: 4, count: 2 }.center(), Ok(Point { x: 1.5, y: 2.0 }));
    /// assert_eq!(Cluster { sum_x: 3, sum_y: 4, count: 0 }.center(), Err(Refusal::Count));
    /// ```
    pub fn center(&self) -> Result<Point, Refusal> {
        let mut center = [0.0; 2];
        accepted(c::cluster_center(self.sum_x, self.sum_y, self.count, &mut center))?;
        Ok(Point { x: center[0], y: center[1] })
    }
}

/// A row of the cluster walk as a cluster.
impl From<[u64; 3]> for Cluster {
    fn from([sum_x, sum_y, count]: [u64; 3]) -> Cluster {
        Cluster { sum_x, sum_y, count }
    }
}

/// How long a worklist the cluster walk needs.
pub const fn worklist_len(shape: Shape) -> usize {
    shape.len().saturating_mul(3).saturating_add(1)
}

/// Finds the clusters of a response, which are connected sets of samples below the threshold. Answers how many there are; as many
/// rows as fit are written, and clustered samples of `h_mat` hold the largest f32 afterwards. Refusals 1, 3, 4, 5.
///
/// ```
/// use muosleap::{Refusal, Shape, image_util::{init_saddle_clusters, worklist_len}};
///
/// let shape = Shape { width: 5, height: 3 };
/// let mut response = [0.0; 15];
/// response[5..10].copy_from_slice(&[-2.0, -2.0, 0.0, -2.0, 0.0]);
/// let mut worklist = vec![0; worklist_len(shape)];
/// let mut rows = [[0; 3]; 4];
/// let total = init_saddle_clusters(&mut response, shape, -1.0, &mut worklist, &mut rows)?;
/// assert_eq!(rows[..total], [[1, 2, 2], [3, 1, 1]]);
/// # Ok::<(), Refusal>(())
/// ```
pub fn init_saddle_clusters(
    h_mat: &mut [f32],
    shape: Shape,
    threshold: f32,
    worklist: &mut [u32],
    rows: &mut [[u64; 3]],
) -> Result<usize, Refusal> {
    let mut total = 0;
    let rows = rows.as_flattened_mut();
    accepted(c::init_saddle_clusters(h_mat, shape.width, shape.height, threshold, worklist, rows, &mut total))?;
    Ok(total)
}

/// From picture to clusters, with the buffers for one picture size. They are made once and kept: [`Saddles::find`] takes no memory,
/// however many pictures there are and whatever they show.
///
/// ```
/// use muosleap::{Shape, image_util::{Saddles, kernel}};
///
/// // Four squares that meet in one point, between the pixels 15 and 16.
/// let shape = Shape { width: 32, height: 32 };
/// let picture: Vec<f32> = (0..32 * 32).map(|i| ((i % 32 < 16) == (i / 32 < 16)) as u8 as f32).collect();
/// let mut saddles = Saddles::new(shape);
/// let mut clusters = saddles.find(&picture, &kernel(1.5))?;
/// assert_eq!(clusters.len(), 1);
/// let center = clusters.next().unwrap().center()?;
/// assert_eq!((center.x, center.y), (15.5, 15.5));
/// # Ok::<(), muosleap::Refusal>(())
/// ```
pub struct Saddles {
    shape: Shape,
    blurred: Vec<f32>,
    /// Also the blur's plane between, which is free again when the response is worked out.
    response: Vec<f32>,
    worklist: Vec<u32>,
    rows: Vec<[u64; 3]>,
}

impl Saddles {
    /// Buffers for pictures of these sides.
    pub fn new(shape: Shape) -> Saddles {
        // Larger pictures are refused, so they need no buffers.
        let held = if shape.width.max(shape.height) <= 4_096 { shape } else { Shape { width: 0, height: 0 } };
        let plane = vec![0.0; held.len()];
        // Each cluster has a sample of its own with no other cluster's beside it, so there is at most one for every two samples.
        let rows = vec![[0; 3]; held.len().div_ceil(2)];
        let worklist = vec![0; worklist_len(held)];
        Saddles { shape, blurred: plane.clone(), response: plane, worklist, rows }
    }

    /// The clusters of a picture of samples from 0.0 to 1.0: blur, response, threshold, clusters. They are handed out one by one,
    /// from the buffers; neither picture nor weights are borrowed for longer than the call. Refusals 1, 2, 3.
    pub fn find(&mut self, img: &[f32], weights: &[f32]) -> Result<impl ExactSizeIterator<Item = Cluster> + use<'_>, Refusal> {
        gaussian_blur_f32(img, self.shape, weights, &mut self.response, &mut self.blurred)?;
        hessian_response(&self.blurred, self.shape, &mut self.response)?;
        let threshold = response_threshold(&self.response, self.shape)?;
        let total = init_saddle_clusters(&mut self.response, self.shape, threshold, &mut self.worklist, &mut self.rows)?;
        Ok(self.rows[..total].iter().map(|&row| row.into()))
    }

    /// The blurred picture of the last call of [`Saddles::find`].
    pub fn blurred(&self) -> &[f32] {
        &self.blurred
    }

    /// The response of the last call of [`Saddles::find`]. Samples of clusters hold the largest f32.
    pub fn response(&self) -> &[f32] {
        &self.response
    }
}
