//! A table in Markdown that is also easy to read as it stands, and the numbers that go into one.

pub struct Table(Vec<Vec<String>>);

impl Table {
    pub fn new(head: &[&str]) -> Table {
        Table(vec![head.iter().map(|word| word.to_string()).collect()])
    }

    pub fn row(&mut self, fields: impl IntoIterator<Item = String>) {
        self.0.push(fields.into_iter().collect());
    }

    /// The first column to the left, the others to the right.
    pub fn print(&self) {
        let columns = self.0[0].len();
        let widths: Vec<usize> =
            (0..columns).map(|i| self.0.iter().map(|row| row[i].len()).max().unwrap_or(0)).collect();
        for (number, row) in self.0.iter().enumerate() {
            let field = |i: usize| match i {
                0 => format!("| {:<1$} |", row[i], widths[i]),
                _ => format!(" {:>1$} |", row[i], widths[i]),
            };
            println!("{}", (0..columns).map(field).collect::<String>());
            if number == 0 {
                let rule = |i: usize| format!("{}:|", "-".repeat(widths[i] + 1));
                println!("|{}|{}", "-".repeat(widths[0] + 2), (1..columns).map(rule).collect::<String>());
            }
        }
        println!();
    }
}

pub fn median(values: impl Iterator<Item = f64>) -> f64 {
    let mut all: Vec<f64> = values.collect();
    all.sort_by(f64::total_cmp);
    let n = all.len();
    if n == 0 {
        return f64::NAN;
    }
    (all[(n - 1) / 2] + all[n / 2]) / 2.0
}

pub fn most(values: impl Iterator<Item = f64>) -> f64 {
    values.fold(f64::NAN, f64::max)
}

pub fn least(values: impl Iterator<Item = f64>) -> f64 {
    values.fold(f64::NAN, f64::min)
}

/// Of those that are numbers.
pub fn geometric_mean(values: impl Iterator<Item = f64>) -> f64 {
    let (sum, n) = values.filter(|value| !value.is_nan()).fold((0.0, 0), |(sum, n), value| (sum + value.ln(), n + 1));
    (sum / n as f64).exp()
}
