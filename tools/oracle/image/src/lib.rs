//! What the original functions use of the crate `image`: a plane of one channel, row by row.
//! Every access that `image` leaves unchecked is checked here in a build with debug assertions, as the oracle's is, so that a read
//! past the plane ends the run. In a build without them it is unchecked, as in `image`, so that times can be compared.

use std::marker::PhantomData;
use std::ops::{Deref, DerefMut};

/// One sample of a plane of one channel.
#[derive(Clone, Copy, PartialEq, Debug)]
#[repr(transparent)]
pub struct Luma<T>(pub [T; 1]);

impl<T> From<[T; 1]> for Luma<T> {
    fn from(channels: [T; 1]) -> Self {
        Luma(channels)
    }
}

/// Names the number type of a sample.
pub trait Pixel {
    type Subpixel;
}

impl<T> Pixel for Luma<T> {
    type Subpixel = T;
}

/// A plane with its samples in a container.
#[derive(Clone)]
pub struct ImageBuffer<P, C> {
    width: u32,
    height: u32,
    data: C,
    pixel: PhantomData<P>,
}

pub type GrayImage = ImageBuffer<Luma<u8>, Vec<u8>>;

impl<T: Copy + Default> ImageBuffer<Luma<T>, Vec<T>> {
    pub fn new(width: u32, height: u32) -> Self {
        Self::from_raw(width, height, vec![T::default(); width as usize * height as usize]).unwrap()
    }

    pub fn from_raw(width: u32, height: u32, data: Vec<T>) -> Option<Self> {
        let pixel = PhantomData;
        (data.len() == width as usize * height as usize).then_some(ImageBuffer { width, height, data, pixel })
    }

    pub fn as_raw(&self) -> &Vec<T> {
        &self.data
    }

    pub fn into_raw(self) -> Vec<T> {
        self.data
    }

    pub fn get_pixel(&self, x: u32, y: u32) -> &Luma<T> {
        let sample = &self.data[self.place(x, y)];
        // SAFETY: `Luma<T>` is a transparent wrapper of `[T; 1]`, which has the layout of `T`.
        unsafe { &*(sample as *const T).cast() }
    }

    fn place(&self, x: u32, y: u32) -> usize {
        assert!(x < self.width && y < self.height, "no sample at ({x}, {y})");
        self.place_unchecked(x, y)
    }

    fn place_unchecked(&self, x: u32, y: u32) -> usize {
        debug_assert!(x < self.width && y < self.height, "no sample at ({x}, {y})");
        y as usize * self.width as usize + x as usize
    }
}

impl<P, C> ImageBuffer<P, C> {
    pub fn width(&self) -> u32 {
        self.width
    }

    pub fn height(&self) -> u32 {
        self.height
    }
}

impl<T> Deref for ImageBuffer<Luma<T>, Vec<T>> {
    type Target = [T];
    fn deref(&self) -> &[T] {
        &self.data
    }
}

impl<T> DerefMut for ImageBuffer<Luma<T>, Vec<T>> {
    fn deref_mut(&mut self) -> &mut [T] {
        &mut self.data
    }
}

/// Reading a sample with no check but that of debug assertions.
pub trait GenericImageView {
    type Pixel;
    /// # Safety
    /// The place is within the plane.
    unsafe fn unsafe_get_pixel(&self, x: u32, y: u32) -> Self::Pixel;
}

/// Writing a sample with no check but that of debug assertions.
pub trait GenericImage: GenericImageView {
    /// # Safety
    /// The place is within the plane.
    unsafe fn unsafe_put_pixel(&mut self, x: u32, y: u32, pixel: Self::Pixel);
}

impl<T: Copy + Default> GenericImageView for ImageBuffer<Luma<T>, Vec<T>> {
    type Pixel = Luma<T>;
    unsafe fn unsafe_get_pixel(&self, x: u32, y: u32) -> Luma<T> {
        // SAFETY: the caller says that the place is within the plane.
        Luma([unsafe { *self.data.get_unchecked(self.place_unchecked(x, y)) }])
    }
}

impl<T: Copy + Default> GenericImage for ImageBuffer<Luma<T>, Vec<T>> {
    unsafe fn unsafe_put_pixel(&mut self, x: u32, y: u32, pixel: Luma<T>) {
        let place = self.place_unchecked(x, y);
        // SAFETY: the caller says that the place is within the plane.
        unsafe { *self.data.get_unchecked_mut(place) = pixel.0[0] };
    }
}
