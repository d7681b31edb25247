//! What `tag_affine` and `decode_positions` use of the crate `faer`: small matrices and a least-squares solution.
//! The solution is worked out in f64 and rounded to f32 once, so it may differ from faer's own in its last bits. Places that are
//! read from it are compared only where such a difference cannot matter (README.md, "Quads").

use std::ops::{Index, IndexMut, Mul};

/// A matrix of f32, row by row.
#[derive(Clone)]
pub struct Mat<T> {
    rows: usize,
    cols: usize,
    data: Vec<T>,
}

pub enum Conj {
    No,
}

impl Mat<f32> {
    pub fn zeros(rows: usize, cols: usize) -> Self {
        Mat { rows, cols, data: vec![0.0; rows * cols] }
    }

    pub fn from_rows<const N: usize>(rows: &[[f32; N]]) -> Self {
        Mat { rows: rows.len(), cols: N, data: rows.concat() }
    }

    /// # Safety
    /// The place is within the matrix. (It is checked here.)
    pub unsafe fn get_mut_unchecked(&mut self, row: usize, col: usize) -> &mut f32 {
        &mut self[(row, col)]
    }

    pub fn as_mut(&mut self) -> &mut Self {
        self
    }

    pub fn col(&self, col: usize) -> Vec<f32> {
        (0..self.rows).map(|row| self[(row, col)]).collect()
    }

    pub fn qr(&self) -> Factored {
        Factored { matrix: self.clone() }
    }
}

impl Index<(usize, usize)> for Mat<f32> {
    type Output = f32;
    fn index(&self, (row, col): (usize, usize)) -> &f32 {
        assert!(row < self.rows && col < self.cols);
        &self.data[row * self.cols + col]
    }
}

impl IndexMut<(usize, usize)> for Mat<f32> {
    fn index_mut(&mut self, (row, col): (usize, usize)) -> &mut f32 {
        assert!(row < self.rows && col < self.cols);
        &mut self.data[row * self.cols + col]
    }
}

impl Mul for Mat<f32> {
    type Output = Mat<f32>;
    fn mul(self, other: Mat<f32>) -> Mat<f32> {
        let mut product = Mat::zeros(self.rows, other.cols);
        for row in 0..self.rows {
            for col in 0..other.cols {
                let sum: f64 = (0..self.cols).map(|k| self[(row, k)] as f64 * other[(k, col)] as f64).sum();
                product[(row, col)] = sum as f32;
            }
        }
        product
    }
}

#[macro_export]
macro_rules! mat {
    ($([$($value:expr),* $(,)?]),* $(,)?) => { $crate::Mat::from_rows(&[$([$($value as f32),*]),*]) };
}

/// A matrix that is ready for `solve_lstsq_in_place_with_conj`.
pub struct Factored {
    matrix: Mat<f32>,
}

pub mod linalg {
    pub mod solvers {
        pub trait SolveLstsqCore {
            /// Puts the least-squares solution into the first rows of `rhs`.
            fn solve_lstsq_in_place_with_conj(&self, conj: crate::Conj, rhs: &mut crate::Mat<f32>);
        }

        impl SolveLstsqCore for crate::Factored {
            fn solve_lstsq_in_place_with_conj(&self, _conj: crate::Conj, rhs: &mut crate::Mat<f32>) {
                let solution = crate::least_squares(&self.matrix, &rhs.col(0));
                for (row, value) in solution.into_iter().enumerate() {
                    rhs[(row, 0)] = value as f32;
                }
            }
        }
    }
}

/// The least-squares solution of `a x = b` in f64: the normal equations, by elimination with pivots.
fn least_squares(a: &Mat<f32>, b: &[f32]) -> Vec<f64> {
    let n = a.cols;
    let at = |row: usize, col: usize| a[(row, col)] as f64;
    let mut m: Vec<Vec<f64>> = (0..n)
        .map(|i| {
            let mut row: Vec<f64> = (0..n).map(|j| (0..a.rows).map(|k| at(k, i) * at(k, j)).sum()).collect();
            row.push((0..a.rows).map(|k| at(k, i) * b[k] as f64).sum());
            row
        })
        .collect();
    for i in 0..n {
        let pivot = (i..n).max_by(|&p, &q| m[p][i].abs().total_cmp(&m[q][i].abs())).unwrap();
        m.swap(i, pivot);
        for j in i + 1..n {
            let factor = m[j][i] / m[i][i];
            for k in i..=n {
                m[j][k] -= factor * m[i][k];
            }
        }
    }
    let mut x = vec![0.0; n];
    for i in (0..n).rev() {
        let known: f64 = (i + 1..n).map(|k| m[i][k] * x[k]).sum();
        x[i] = (m[i][n] - known) / m[i][i];
    }
    x
}
