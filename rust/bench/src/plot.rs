//! A picture of how the cost of a tag grows with its message, a line for each share count.

/// The field of the lines, within a picture of 640 by 400.
const LEFT: f64 = 130.0;
const RIGHT: f64 = 565.0;
const TOP: f64 = 20.0;
const BOTTOM: f64 = 345.0;

const CURVES: [(usize, &str); 4] = [
    (1, "#0072b2"),
    (2, "#009e73"),
    (4, "#d55e00"),
    (8, "#8a4f9e"),
];
const HEAD: &str = r##"<svg xmlns="http://www.w3.org/2000/svg" viewBox="0 0 640 400" width="640" height="400"
 font-family="sans-serif" font-size="13" fill="#222">
<rect width="640" height="400" fill="white"/>
"##;

/// The shares and the bytes of a tag, and what it cost.
type Figure = [f64; 3];

/// The bytes at the right end, and the powers of ten at the lower and the upper end.
struct Axes {
    bytes: f64,
    low: f64,
    high: f64,
}

impl Axes {
    /// Axes with room for every figure.
    fn over(figures: &[Figure]) -> Axes {
        let powers = figures.iter().map(|[_, _, cost]| cost.log10());
        Axes {
            bytes: figures
                .iter()
                .fold(1.0, |most, [_, bytes, _]| most.max(*bytes)),
            low: powers.clone().fold(f64::INFINITY, f64::min).floor(),
            high: powers.fold(0.0, f64::max).ceil(),
        }
    }

    fn place(&self, bytes: f64, cost: f64) -> (f64, f64) {
        let height = (cost.log10() - self.low) / (self.high - self.low);
        let x = LEFT + (RIGHT - LEFT) * bytes / self.bytes;
        (x, BOTTOM - (BOTTOM - TOP) * height)
    }

    /// The lines behind the curves with their numbers, and the names of both axes.
    fn grid(&self, unit: &str) -> String {
        let mut grid = text("middle", (LEFT + RIGHT) / 2.0, 388.0, "message, bytes");
        for cost in (self.low as u32..=self.high as u32).map(|power| 10u64.pow(power)) {
            let (_, y) = self.place(0.0, cost as f64);
            grid += &format!("<path stroke=\"#ccc\" d=\"M{LEFT} {y:.1}H{RIGHT}\"/>\n");
            grid += &text("end", LEFT - 8.0, y + 4.5, &grouped(cost));
        }
        for bytes in (0..=self.bytes as u64).step_by(1024) {
            let (x, _) = self.place(bytes as f64, 1.0);
            grid += &format!("<path stroke=\"#ccc\" d=\"M{x:.1} {TOP}V{BOTTOM}\"/>\n");
            grid += &text("middle", x, BOTTOM + 20.0, &grouped(bytes));
        }
        let upwards = text("middle", -(TOP + BOTTOM) / 2.0, 18.0, unit);
        grid + &format!("<g transform=\"rotate(-90)\">{upwards}</g>\n")
    }

    /// The curve of a share count, and its name at the right end.
    fn curve(&self, shares: usize, figures: &[Figure], colour: &str) -> String {
        let (mut path, mut end) = (String::new(), BOTTOM);
        for [_, bytes, cost] in figures.iter().filter(|[n, ..]| *n == shares as f64) {
            let (x, y) = self.place(*bytes, *cost);
            path += &format!(" {x:.1},{y:.1}");
            end = y;
        }
        let name = format!("{shares} share{}", if shares == 1 { "" } else { "s" });
        format!("<path fill=\"none\" stroke=\"{colour}\" stroke-width=\"2\" d=\"M{path}\"/>\n")
            + &text("start", RIGHT + 8.0, end + 4.5, &name)
    }
}

fn text(anchor: &str, x: f64, y: f64, words: &str) -> String {
    format!("<text text-anchor=\"{anchor}\" x=\"{x:.1}\" y=\"{y:.1}\">{words}</text>\n")
}

/// A number with commas between its thousands.
fn grouped(number: u64) -> String {
    match number {
        0..1000 => number.to_string(),
        _ => format!("{},{:03}", grouped(number / 1000), number % 1000),
    }
}

/// The picture of lines `shares bytes figure`.
pub fn svg(unit: &str, lines: &str) -> String {
    let numbers = |line: &str| line.split(' ').flat_map(str::parse).collect::<Vec<f64>>();
    let figure = |line| Figure::try_from(numbers(line)).expect("shares, bytes and a figure");
    let figures: Vec<Figure> = lines.lines().map(figure).collect();
    let axes = Axes::over(&figures);
    let mut svg = HEAD.to_string() + &axes.grid(unit);
    for (shares, colour) in CURVES {
        svg += &axes.curve(shares, &figures, colour);
    }
    svg + "</svg>\n"
}
