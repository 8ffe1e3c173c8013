//! Tables of ratios, by how many fields descriptors have.

/// What is measured of a descriptor: some numbers, NaN where there is none.
pub struct Measured {
    pub name: String,
    pub fields: u64,
    pub numbers: Vec<f64>,
}

/// One number over another.
pub struct Ratio {
    pub name: &'static str,
    over: usize,
    under: usize,
}

/// Classes: up to so many fields.
const CLASSES: [(&str, u64); 5] = [
    ("1 to 50", 50),
    ("to 200", 200),
    ("to 1,000", 1000),
    ("to 4,000", 4000),
    ("more", u64::MAX),
];

fn class_of(fields: u64) -> usize {
    CLASSES
        .iter()
        .position(|(_, most)| fields <= *most)
        .unwrap_or(0)
}

/// The names of the classes, each as a cell.
pub fn class_cells() -> String {
    CLASSES
        .iter()
        .map(|(name, _)| format!(" {name} |"))
        .collect()
}

/// How many descriptors each class has, each as a cell.
pub fn count_cells(fields: impl Iterator<Item = u64>) -> String {
    let mut counts = [0; CLASSES.len()];
    fields.for_each(|fields| counts[class_of(fields)] += 1);
    counts.iter().map(|count| format!(" {count} |")).collect()
}

impl Ratio {
    pub const fn new(name: &'static str, over: usize, under: usize) -> Ratio {
        Ratio { name, over, under }
    }

    /// Both numbers of the descriptors that have both.
    fn pairs<'a>(&self, all: &'a [Measured]) -> Vec<(&'a Measured, f64, f64)> {
        all.iter()
            .map(|one| (one, one.numbers[self.over], one.numbers[self.under]))
            .filter(|(_, over, under)| *over > 0.0 && *under > 0.0)
            .collect()
    }

    /// The mean ratio of each class, each as a cell.
    pub fn class_means(&self, all: &[Measured]) -> String {
        let pairs = self.pairs(all);
        let mut cells = String::new();
        for class in 0..CLASSES.len() {
            let of_class = pairs
                .iter()
                .filter(|(one, _, _)| class_of(one.fields) == class);
            cells += &cell(mean(of_class.map(|(_, over, under)| over / under)));
        }
        cells
    }

    /// The mean ratio of all.
    pub fn mean(&self, all: &[Measured]) -> String {
        cell(mean(
            self.pairs(all).iter().map(|(_, over, under)| over / under),
        ))
    }

    /// The ratio of the sums.
    pub fn of_sums(&self, all: &[Measured]) -> String {
        let pairs = self.pairs(all);
        let over: f64 = pairs.iter().map(|(_, over, _)| over).sum();
        let under: f64 = pairs.iter().map(|(_, _, under)| under).sum();
        cell(over / under)
    }

    /// The largest ratio, and whose it is.
    pub fn largest(&self, all: &[Measured]) -> String {
        let pairs = self.pairs(all);
        let largest = pairs
            .iter()
            .max_by(|one, other| (one.1 / one.2).total_cmp(&(other.1 / other.2)));
        match largest {
            Some((one, over, under)) => format!(" {:.2} {} |", over / under, one.name),
            None => " |".to_string(),
        }
    }
}

/// The geometric mean, in which each descriptor has the same weight; NaN of none.
fn mean(ratios: impl Iterator<Item = f64>) -> f64 {
    let logarithms: Vec<f64> = ratios.map(f64::ln).collect();
    (logarithms.iter().sum::<f64>() / logarithms.len() as f64).exp()
}

fn cell(ratio: f64) -> String {
    if ratio.is_nan() {
        " |".to_string()
    } else {
        format!(" {ratio:.2} |")
    }
}
