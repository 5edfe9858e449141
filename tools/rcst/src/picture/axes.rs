//! Where keys and versions stand, and which of them are named along the axes.

use super::svg::Svg;

pub const LEFT: f64 = 70.0;
pub const TOP: f64 = 40.0;

/// Keys in order, each as wide as any other.
pub struct Across {
    pub keys: Vec<u32>,
    pub width: f64,
}

impl Across {
    /// How wide one key is.
    pub fn step(&self) -> f64 {
        self.width / self.keys.len().max(1) as f64
    }

    /// The left edge of the first key from this one on.
    pub fn edge(&self, key: u32) -> f64 {
        let place = self.keys.partition_point(|other| *other < key);
        match self.keys.is_empty() {
            true if key > 0 => LEFT + self.width,
            _ => LEFT + self.step() * place as f64,
        }
    }

    pub fn middle(&self, key: u32) -> f64 {
        self.edge(key) + self.step() / 2.0
    }

    /// Names every so many keys, so that the names keep apart.
    pub fn named(&self, svg: &mut Svg, y: f64) {
        let widest = self.keys.last().map_or(1, |key| key.to_string().len());
        let every = thinned(self.step(), 7.0 * widest as f64 + 10.0);
        for key in self.keys.iter().step_by(every) {
            svg.text(self.middle(*key), y, "middle", 11, key);
        }
    }
}

/// Versions from the oldest downward, each as high as any other.
pub struct Down {
    pub oldest: u32,
    pub last: u32,
    pub height: f64,
}

impl Down {
    pub fn step(&self) -> f64 {
        self.height / f64::from(self.last + 1 - self.oldest)
    }

    /// The upper edge of a version; of what is alive, the picture's lower edge, and of
    /// what is older than the oldest version, the upper one.
    pub fn edge(&self, version: u32) -> f64 {
        let shown = version.clamp(self.oldest, self.last + 1) - self.oldest;
        TOP + self.step() * f64::from(shown)
    }

    pub fn named(&self, svg: &mut Svg) {
        let every = thinned(self.step(), 16.0);
        for version in (self.oldest..=self.last).step_by(every) {
            svg.text(
                LEFT - 8.0,
                self.edge(version) + 4.0 + self.step().min(13.0) / 2.0,
                "end",
                11,
                version,
            );
        }
    }
}

/// 1, 2 or 5 times a power of ten: so many steps are as wide as what is wanted.
fn thinned(step: f64, wanted: f64) -> usize {
    let mut every = 1;
    for factor in [2, 5, 10].iter().cycle() {
        if step * every as f64 >= wanted || every > 1_000_000 {
            break;
        }
        every = match factor {
            2 => every * 2,
            5 => every / 2 * 5,
            _ => every * 2,
        };
    }
    every
}
