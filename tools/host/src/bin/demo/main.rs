//! The demo: paints a sheet of tags on a picture of camera size, finds its corners, reads every tag from all four starts, and
//! writes a table, pictures, and where it is asked to a report.

mod camera;
mod drawing;
#[path = "../shared/number.rs"]
mod number;
mod options;
mod reporting;

use camera::Camera;
use muosleap::image_util::{Saddles, kernel, to_unit};
use muosleap::{Family, Picture, Point, Quad, Refusal, Tag};
use options::{Options, USAGE};
use std::error::Error;
use std::process::ExitCode;
use std::time::{Duration, Instant};

/// The family on the sheet.
const FAMILY: Family = Family::T36H11;

/// Tags in a row and in a column.
const SIDE: usize = 6;

fn main() -> ExitCode {
    let options = match Options::read(std::env::args_os().skip(1)) {
        Ok(options) => options,
        Err(wrong) => {
            eprintln!("demo: {wrong}\n{USAGE}");
            return ExitCode::from(2);
        }
    };
    match run(&options) {
        Ok(()) => ExitCode::SUCCESS,
        Err(error) => {
            eprintln!("demo: {error}");
            ExitCode::FAILURE
        }
    }
}

fn run(options: &Options) -> Result<(), Box<dyn Error>> {
    let camera = Camera::photograph(options)?;
    let mut saddles = Saddles::new(camera.picture.shape());
    let found = Found::read(&camera, &mut saddles)?;
    print_summary(options, &camera, &found);
    print_table(&found.rows);
    let drawing = drawing::draw(&camera, &saddles, &found.quads, &found.rows);
    let folder = &options.folder;
    drawing.write(&camera, folder).map_err(|error| format!("cannot write to {}: {error}", folder.display()))?;
    if let Some(file) = &options.report {
        reporting::write(&found.rows, file)?;
    }
    Ok(())
}

/// What a picture shows.
struct Found {
    clusters: usize,
    /// Each tag's quad, from the clusters.
    quads: Vec<Quad>,
    /// A row for each of the four starts of each quad.
    rows: Vec<Result<Tag, Refusal>>,
    /// How long the clusters and the rows took.
    times: [Duration; 2],
}

impl Found {
    /// The main job: picture to clusters to centres, and quads to rows. Each start has a list of its own: in a list a tag that is read
    /// twice is refused (18).
    fn read(camera: &Camera, saddles: &mut Saddles) -> Result<Found, Refusal> {
        let samples = to_unit(&camera.picture);
        let start = Instant::now();
        let found = saddles.find(&samples, &kernel(1.5))?;
        let (clusters, clustered) = (found.len(), start.elapsed());
        let centers: Vec<Point> = found.map(|cluster| cluster.center()).collect::<Result<_, _>>()?;
        let quads: Vec<Quad> = camera.quads.iter().map(|quad| near(quad, &centers)).collect();
        let starts = [0, 1, 2, 3].map(|start| quads.iter().map(|quad| quad.started(start)).collect::<Vec<Quad>>());
        let start = Instant::now();
        let lists = starts.map(|list| FAMILY.try_decode_quads(&camera.picture, &list));
        let read = start.elapsed();
        let lists = lists.into_iter().collect::<Result<Vec<_>, _>>()?;
        let rows = (0..quads.len()).flat_map(|tag| lists.iter().map(move |list| list[tag])).collect();
        Ok(Found { clusters, quads, rows, times: [clustered, read] })
    }
}

fn print_summary(options: &Options, camera: &Camera, found: &Found) {
    let Picture { width, height, stride, .. } = camera.picture;
    let misprinted = camera::MISPRINTED.map(|(id, modules)| format!("{} of tag {id}", modules.count_ones())).join(", ");
    let [clustered, read] = found.times.map(|time| time.as_secs_f64() * 1e3);
    let corners = |quads: &[Quad]| quads.iter().flat_map(|quad| quad.corners).collect::<Vec<Point>>();
    let away = corners(&found.quads).into_iter().zip(corners(&camera.quads)).map(|(p, q)| distance(p, q)).fold(0.0, f32::max);
    println!("A sheet of {SIDE} x {SIDE} tags of {FAMILY:?} on a picture of {width} x {height} pixels, with noise of about");
    println!("{} levels. Misprinted modules: {misprinted}.", options.noise);
    println!("Its lines begin {stride} bytes after one another (pitch); {} bytes between them are filler.\n", camera.filler());
    println!("Picture to clusters: {} clusters in {clustered:.1} ms (blur, response, threshold, clusters).", found.clusters);
    println!("Each tag's corners are the cluster centres nearest to where they were painted, at most {away:.2} pixel away.");
    println!("Quads to tags: {} quads in {read:.2} ms: four lists, one for each start, with each tag once.\n", found.rows.len());
}

fn distance(p: Point, q: Point) -> f32 {
    (p.x - q.x).hypot(p.y - q.y)
}

/// The cluster centres nearest to a quad's corners. (A host finds its quads by a search over the centres, as the original does.)
fn near(quad: &Quad, centers: &[Point]) -> Quad {
    let nearest =
        |corner: Point| *centers.iter().min_by(|p, q| distance(**p, corner).total_cmp(&distance(**q, corner))).unwrap_or(&corner);
    Quad { corners: quad.corners.map(nearest) }
}

/// One line for each tag: its id, the turn that each start gives, how many modules differ from its code, and its corners.
fn print_table(rows: &[Result<Tag, Refusal>]) {
    println!("  painted | read as | turn at start | differing | corners in print order: fourth, third, second, first (x, y)");
    println!("  tag     | tag     | 0   1   2   3 | modules   |");
    println!("  --------|---------|---------------|-----------|{}", "-".repeat(66));
    for (painted, four) in rows.chunks(4).enumerate() {
        let turns: Vec<String> = four.iter().map(|row| row.map_or("-".into(), |tag| tag.turn.to_string())).collect();
        let [read, differing] = four[0].map_or(["-".into(), "-".into()], |tag| [tag.id.to_string(), tag.differing.to_string()]);
        let corners = match four[0] {
            Ok(tag) => tag.corners.corners.map(|p| format!("({:6.1}, {:6.1})", p.x, p.y)).join(" "),
            Err(refusal) => format!("refusal {}", refusal.number()),
        };
        println!("  {painted:>7} | {read:>7} | {} | {differing:>9} | {corners}", turns.join("   "));
    }
    print_check(rows);
}

/// How many rows were read, how many of these say what was painted, and which refusals the others have.
fn print_check(rows: &[Result<Tag, Refusal>]) {
    let read = rows.iter().enumerate().filter_map(|(place, row)| row.ok().map(|tag| (place / 4, tag)));
    let as_painted = |(painted, tag): &(usize, Tag)| tag.id == *painted && tag.differing as u32 == camera::misprinted(*painted);
    let (count, right) = (read.clone().count(), read.filter(as_painted).count());
    println!("  {count} of {} rows read, {right} of them as painted: tag, and number of misprinted modules.", rows.len());
    let mut refusals: Vec<Refusal> = rows.iter().filter_map(|row| row.err()).collect();
    refusals.sort();
    refusals.dedup();
    refusals.iter().for_each(|refusal| println!("  {refusal}"));
}
