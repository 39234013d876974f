//! The picture: bars from 1, on a scale of logarithms, of the others' times divided by the library's.

use crate::scene::{BRUSH, SPARSE};
use crate::table::{percent, thousands, Row, Table, Who, OTHERS};
use std::fmt::Write;

const COLOURS: [&str; 4] = ["#8a8f98", "#d97706", "#3b82f6", "#10a36f"];

// Lengths in pixels.
const WIDTH: f64 = 880.0;
const LABELS: f64 = 225.0;
const RIGHT: f64 = 30.0;
const TOP: f64 = 92.0;
const BOTTOM: f64 = 34.0;
const BAR: f64 = 5.0;
const GAP: f64 = 7.0;

/// The picture of a table's calls on whole maps that flat arrays have too. Masks of all kinds are
/// shown for increments alone.
pub fn svg(table: &Table) -> String {
    let is_repeated = |row: &Row| {
        let is_sparse = row.call.ends_with(SPARSE) || row.call.ends_with(BRUSH);
        is_sparse && !row.call.starts_with("increment_masked")
    };
    let rows = table.rows.iter();
    let rows: Vec<&Row> = rows
        .filter(|row| row.is_whole() && row.against(Who::FlatRust).is_some())
        .filter(|row| !is_repeated(row))
        .collect();
    let scale = Scale::new(&rows);
    let pitch = BAR * OTHERS.len() as f64 + GAP;
    let bottom = TOP + pitch * rows.len() as f64;
    let mut text = String::new();
    let _ = write!(
        text,
        r##"<svg xmlns="http://www.w3.org/2000/svg" viewBox="0 0 {WIDTH} {height}" width="{WIDTH}" height="{height}" role="img">
<title>Times of others divided by the library's</title>
<style>
text {{ font: 12px sans-serif; fill: #1f2328 }}
.title {{ font-weight: bold }}
.ground {{ fill: #ffffff }}
.line {{ stroke: #d0d7de }}
.one {{ stroke: #1f2328; stroke-width: 1.5 }}
.copy {{ stroke: #cf222e; stroke-width: 2 }}
@media (prefers-color-scheme: dark) {{
text {{ fill: #e6edf3 }}
.ground {{ fill: #0d1117 }}
.line {{ stroke: #30363d }}
.one {{ stroke: #e6edf3 }}
.copy {{ stroke: #ff7b72 }}
}}
</style>
<rect class="ground" width="{WIDTH}" height="{height}" rx="6"/>
<text class="title" x="16" y="24">Time of others divided by the library's: {width_slots} by {height_slots}, {share} in overflow</text>
"##,
        height = bottom + BOTTOM,
        width_slots = thousands(table.size.width),
        height_slots = thousands(table.size.height),
        share = percent(table.share),
    );
    legend(&mut text);
    for (ratio, label) in scale.marks() {
        let x = scale.at(ratio);
        let class = if ratio == 1.0 { "one" } else { "line" };
        let _ = writeln!(
            text,
            r#"<line class="{class}" x1="{x:.1}" y1="{TOP}" x2="{x:.1}" y2="{bottom}"/>
<text x="{x:.1}" y="{:.1}" text-anchor="middle">{label}</text>"#,
            bottom + 18.0
        );
    }
    for (i, row) in rows.iter().enumerate() {
        bars(&mut text, &scale, row, TOP + GAP / 2.0 + pitch * i as f64);
    }
    text + "</svg>\n"
}

fn legend(text: &mut String) {
    let mut x = 16.0;
    for (who, colour) in OTHERS.into_iter().zip(COLOURS) {
        let name = who.named();
        let _ = writeln!(
            text,
            r#"<rect x="{x}" y="38" width="12" height="12" fill="{colour}"/><text x="{}" y="48">{name}</text>"#,
            x + 18.0
        );
        x += 110.0;
    }
    let _ = writeln!(
        text,
        r#"<line class="copy" x1="{0}" y1="37" x2="{0}" y2="51"/><text x="{1}" y="48">memcpy</text>"#,
        x + 6.0,
        x + 18.0
    );
    let _ = writeln!(
        text,
        r#"<text x="16" y="72">Bars to the right of 1: the library is faster. To the left: it is slower.</text>"#
    );
}

/// The bars of a call, its name, and the mark of the memcpy.
fn bars(text: &mut String, scale: &Scale, row: &Row, top: f64) {
    let middle = top + BAR * OTHERS.len() as f64 / 2.0;
    let _ = writeln!(
        text,
        r#"<text x="{:.1}" y="{:.1}" text-anchor="end">{}</text>"#,
        LABELS - 10.0,
        middle + 4.0,
        row.call
    );
    let one = scale.at(1.0);
    for (i, (who, colour)) in OTHERS.into_iter().zip(COLOURS).enumerate() {
        let Some(ratio) = row.against(who) else {
            continue;
        };
        let end = scale.at(ratio);
        let _ = writeln!(
            text,
            r#"<rect x="{:.1}" y="{:.1}" width="{:.1}" height="{BAR}" fill="{colour}"/>"#,
            one.min(end),
            top + BAR * i as f64,
            (end - one).abs()
        );
    }
    if let Some(memcpy) = row.against(Who::Memcpy) {
        let _ = writeln!(
            text,
            r#"<line class="copy" x1="{0:.1}" y1="{1:.1}" x2="{0:.1}" y2="{2:.1}"/>"#,
            scale.at(memcpy),
            top - 1.0,
            top + BAR * OTHERS.len() as f64 + 1.0
        );
    }
}

/// The logarithms between which all ratios lie.
struct Scale {
    low: f64,
    high: f64,
}

impl Scale {
    /// What is left free at both ends.
    const MARGIN: f64 = 0.05;

    fn new(rows: &[&Row]) -> Scale {
        let (mut low, mut high) = (0.0f64, 0.0f64);
        for row in rows {
            let others = OTHERS.into_iter().chain([Who::Memcpy]);
            for ratio in others.filter_map(|who| row.against(who)) {
                let ratio = ratio.log10();
                (low, high) = (low.min(ratio), high.max(ratio));
            }
        }
        Scale {
            low: low - Scale::MARGIN,
            high: high + Scale::MARGIN,
        }
    }

    /// Where a ratio is, from the left.
    fn at(&self, ratio: f64) -> f64 {
        LABELS + (ratio.log10() - self.low) / (self.high - self.low) * (WIDTH - LABELS - RIGHT)
    }

    /// The ratios that are marked, 1, 2, 5, 10 and so on to both sides, with their labels.
    fn marks(&self) -> Vec<(f64, String)> {
        let sizes = [1, 2, 5, 10, 20, 50, 100, 200, 500, 1_000];
        let above = sizes.map(|size| (size as f64, thousands(size)));
        let below = sizes.map(|size| (1.0 / size as f64, format!("1/{}", thousands(size))));
        let marks = above.into_iter().chain(below.into_iter().skip(1));
        let inside = |ratio: f64| (self.low..=self.high).contains(&ratio.log10());
        marks.filter(|&(ratio, _)| inside(ratio)).collect()
    }
}
