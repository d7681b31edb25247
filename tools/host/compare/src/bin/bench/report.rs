//! The report as Markdown.

use crate::measure::Times;

/// Prints the head of a table and its rows: the time of what ours is held against, ours, and the first divided by the second.
pub fn table(title: &str, note: &str, [other, ours]: [&str; 2], rows: &[(String, Times)]) {
    println!("\n## {title}\n\n{note}\n\n| | {other} | {ours} | times as fast |\n|---|---:|---:|---:|");
    for (name, times) in rows {
        let other = times.other.map_or("none".into(), time);
        let ratio = times.other.map_or("".into(), |other| format!("{:.2}", other / times.ours));
        println!("| {name} | {other} | {} | {ratio} |", time(times.ours));
    }
}

/// How the time grows with the picture.
pub fn growth(note: &str, rows: &[((usize, usize), Times)]) {
    println!("\n## Growth with the picture's size\n\n{note}\n");
    println!(
        "| picture | megapixels | original | ns a pixel | Muosleap | ns a pixel | times as fast |\n|---|---:|---:|---:|---:|---:|---:|"
    );
    for ((width, height), times) in rows {
        let pixels = (width * height) as f64;
        let original = times.other.unwrap_or(f64::NAN);
        let each = |seconds: f64| format!("{:.2}", seconds * 1e9 / pixels);
        println!(
            "| {width} × {height} | {:.1} | {} | {} | {} | {} | {:.2} |",
            pixels / 1e6,
            time(original),
            each(original),
            time(times.ours),
            each(times.ours),
            original / times.ours
        );
    }
}

fn time(seconds: f64) -> String {
    match seconds {
        s if s < 1e-6 => format!("{:.1} ns", s * 1e9),
        s if s < 1e-3 => format!("{:.2} µs", s * 1e6),
        s => format!("{:.2} ms", s * 1e3),
    }
}

/// The machine, the compiler of the Rust side, and the load that others put on it.
pub fn machine() -> String {
    let cpu = std::fs::read_to_string("/proc/cpuinfo").unwrap_or_default();
    let model =
        cpu.lines().find_map(|line| line.strip_prefix("model name").map(|rest| rest.trim_start_matches([':', ' ', '\t'])));
    let cores = std::thread::available_parallelism().map_or(0, |cores| cores.get());
    format!(
        "{}, {cores} cores; {}; load average at the start {}",
        model.unwrap_or("unknown processor"),
        env!("RUSTC_VERSION"),
        load()
    )
}

/// The load average of the last minute.
pub fn load() -> String {
    let loads = std::fs::read_to_string("/proc/loadavg").unwrap_or_default();
    loads.split(' ').next().unwrap_or("unknown").to_string()
}
