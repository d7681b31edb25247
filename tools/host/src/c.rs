//! The C interface as it crosses: one safe function for each function of `include/muosleap.h`, under its name without the prefix,
//! with its parameters in its order, a pointer and a count as one slice. Each answers the refusal's number, 0 where accepted, and
//! has written its outputs only then, but for the count of codes compared, which [`best_tag`] writes beside 13 too. Use it where the
//! host keeps its own buffers; the rest of the crate is built on it. The `pitch` of an 8-bit plane without filler is its width.
//!
//! This is the only module with `unsafe`. What the C functions ask of every caller holds by the types: a slice's or a reference's
//! pointer is aligned and not null, also for a count of 0; its memory is initialized, and writable behind `&mut`, for the whole call;
//! and borrows keep a buffer that is written from overlapping any other. The archive is built from proved code, which reads and
//! writes within the counts only.

/// Writes out functions that are given by their safe signatures. Each declares the C function, goes through the parameters one by
/// one to make of every slice a pointer and a count, and calls it.
macro_rules! crossing {
    ($($(#[$about:meta])* fn $name:ident($($parameters:tt)*);)*) => {
        $(crossing!(@ [$(#[$about])* $name $($parameters)*] [] [] $($parameters)*,);)*
    };
    // Of each function: as it was given; the parameters of the C function; what is handed to it; the parameters still to go through.
    (@ $given:tt [$($declared:tt)*] [$($handed:tt)*] $name:ident: &mut [$number:ty], $($rest:tt)*) => {
        crossing!(@ $given [$($declared)* $name: *mut $number, _: usize,] [$($handed)* $name.as_mut_ptr(), $name.len(),] $($rest)*);
    };
    (@ $given:tt [$($declared:tt)*] [$($handed:tt)*] $name:ident: &[$number:ty], $($rest:tt)*) => {
        crossing!(@ $given [$($declared)* $name: *const $number, _: usize,] [$($handed)* $name.as_ptr(), $name.len(),] $($rest)*);
    };
    // A number, or a reference to a number or to an array, which crosses as one pointer.
    (@ $given:tt [$($declared:tt)*] [$($handed:tt)*] $name:ident: $kind:ty, $($rest:tt)*) => {
        crossing!(@ $given [$($declared)* $name: $kind,] [$($handed)* $name,] $($rest)*);
    };
    (@ [$(#[$about:meta])* $name:ident $($parameters:tt)*] [$($declared:tt)*] [$($handed:tt)*]) => {
        $(#[$about])*
        #[inline]
        #[allow(clippy::too_many_arguments)]
        pub fn $name($($parameters)*) -> u32 {
            // SAFETY: name, order and types are those of the crate muosleap_c and of include/muosleap.h. `usize` is C's `size_t`.
            unsafe extern "C" {
                #[link_name = concat!("muosleap_", stringify!($name))]
                fn function($($declared)*) -> u32;
            }
            // SAFETY: each pointer and its count are those of one slice. What is written is borrowed alone, so it overlaps nothing.
            unsafe { function($($handed)*) }
        }
    };
}

crossing! {
    /// The word turned once. Refusal 6.
    fn rotate_bits(bits: u64, edge: u8, word: &mut u64);

    /// The code that a word shows, at which turn, in how many bits it differs, and how many codes were compared. Refusals 6, 13; the
    /// count is written beside 13 too, and nothing else then.
    fn best_tag(
        bits: u64, hamming_distance: u8, codes: &[u64], edge: u8, id: &mut usize, turn: &mut u8, differing: &mut u8,
        compared: &mut usize
    );

    /// Whether a table can be read one way only. Refusals 6, 7.
    fn check_likeness(edge: u8, border: u8, hamming_distance: u8, codes: &[u64]);

    /// Levels to bits. Refusals 15, 11, 12.
    fn bit_code(levels: &[u8], band: u8, allowed: u32, word: &mut u64);

    /// A reading of one quad with a lent table. Refusals 1, 6, 8 to 13.
    fn try_decode_quad(
        plane: &[u8], width: usize, height: usize, pitch: usize, edge: u8, border: u8, hamming_distance: u8, codes: &[u64],
        quad: &[f32; 8], id: &mut usize, turn: &mut u8, differing: &mut u8, corners: &mut [f32; 8]
    );

    /// A reading of one quad by family number. Refusals 1, 6, 8 to 13.
    fn try_decode_quad_in(
        plane: &[u8], width: usize, height: usize, pitch: usize, family: u8, quad: &[f32; 8], id: &mut usize, turn: &mut u8,
        differing: &mut u8, corners: &mut [f32; 8]
    );

    /// A reading of a list of quads with a lent table, as rows of refusal, id, turn, differing modules. Refusals 1, 6, 16; 8 to 13
    /// and 18, an id that another quad gives too, stand in rows.
    fn try_decode_quads(
        plane: &[u8], width: usize, height: usize, pitch: usize, edge: u8, border: u8, hamming_distance: u8, codes: &[u64],
        quads: &[f32], rows: &mut [u64], corners: &mut [f32]
    );

    /// A reading of a list of quads by family number, as such rows. Refusals 1, 6, 16; 8 to 13 and 18 stand in rows.
    fn try_decode_quads_in(
        plane: &[u8], width: usize, height: usize, pitch: usize, family: u8, quads: &[f32], rows: &mut [u64], corners: &mut [f32]
    );

    /// The report of a reading, which is rows of four numbers and eight corner numbers each; `written` is how many bytes it has.
    /// Refusals 19 for the number of rows, 20, 19 for the output.
    fn write_report(rows: &[u64], corners: &[f32], report: &mut [u8], written: &mut usize);

    /// The reading of a report; `count` is how many rows it has. Refusals 20 where there are no two bytes, 19 for the number of rows,
    /// 20, 19 for either output.
    fn read_report(report: &[u8], rows: &mut [u64], corners: &mut [f32], count: &mut usize);

    /// Fills the plane with light and paints a tag; filler stays as it was. Refusals 1, 6, 14.
    fn paint_tag(
        plane: &mut [u8], width: usize, height: usize, pitch: usize, edge: u8, border: u8, word: u64, x: usize, y: usize,
        cell: usize, turn: u8, light: u8, dark: u8, quad: &mut [f32; 8]
    );

    /// The same by family number. Refusals 1, 6, 14.
    fn paint_tag_in(
        plane: &mut [u8], width: usize, height: usize, pitch: usize, family: u8, word: u64, x: usize, y: usize, cell: usize,
        turn: u8, light: u8, dark: u8, quad: &mut [f32; 8]
    );

    /// Fills the plane with light and paints a grid of a lent table's codes; filler stays as it was. Refusals 1, 6, 14, 17, 16.
    fn paint_sheet(
        plane: &mut [u8], width: usize, height: usize, pitch: usize, edge: u8, border: u8, hamming_distance: u8, codes: &[u64],
        rows: usize, columns: usize, gap: usize, x: usize, y: usize, cell: usize, turn: u8, light: u8, dark: u8, quads: &mut [f32]
    );

    /// The same by family number. Refusals 1, 6, 14, 17, 16.
    fn paint_sheet_in(
        plane: &mut [u8], width: usize, height: usize, pitch: usize, family: u8, rows: usize, columns: usize, gap: usize, x: usize,
        y: usize, cell: usize, turn: u8, light: u8, dark: u8, quads: &mut [f32]
    );

    /// Blurs `img` across into `temp`, and `temp` down into `out`. Refusals 1, 2, 3.
    fn gaussian_blur_f32(img: &[f32], width: usize, height: usize, weights: &[f32], temp: &mut [f32], out: &mut [f32]);

    /// The response of `img` into `out`. Refusals 1, 3.
    fn hessian_response(img: &[f32], width: usize, height: usize, out: &mut [f32]);

    /// The threshold of the clusters. Refusals 1, 3.
    fn response_threshold(response: &[f32], width: usize, height: usize, threshold: &mut f32);

    /// The clusters of a response, as rows of sum of x, sum of y, count. Refusals 1, 3, 4, 5.
    fn init_saddle_clusters(
        h_mat: &mut [f32], width: usize, height: usize, threshold: f32, worklist: &mut [u32], rows: &mut [u64], total: &mut usize
    );

    /// The centre of a cluster from its row. Refusal 15.
    fn cluster_center(sum_x: u64, sum_y: u64, count: u64, center: &mut [f32; 2]);
}
