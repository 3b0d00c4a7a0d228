//! The straight line through times that grow with rows.

/// Fixed and per row, in nanoseconds, and the point that is the furthest from the line.
pub struct Line {
    pub fixed: f64,
    pub per_row: f64,
    pub worst: Deviation,
}

/// How far a time is from the line, as a part of the line's: above it if positive.
pub struct Deviation {
    pub rows: usize,
    pub part: f64,
}

impl Line {
    /// The line with the smallest sum of squares of the relative deviations of these points, which
    /// are rows and nanoseconds. So a small table counts as much as a large one.
    pub fn through(points: &[(usize, f64)]) -> Line {
        let weighted = |value: fn(f64, f64) -> f64| -> f64 {
            points.iter().map(|&(rows, time)| value(rows as f64, time) / (time * time)).sum()
        };
        let (one, n, nn) = (weighted(|_, _| 1.0), weighted(|n, _| n), weighted(|n, _| n * n));
        let (t, nt) = (weighted(|_, t| t), weighted(|n, t| n * t));
        let determinant = one * nn - n * n;
        let fixed = (t * nn - nt * n) / determinant;
        let per_row = (one * nt - n * t) / determinant;
        let mut line = Line { fixed, per_row, worst: Deviation { rows: 0, part: 0.0 } };
        for &(rows, time) in points {
            let part = time / line.at(rows as f64) - 1.0;
            if part.abs() > line.worst.part.abs() {
                line.worst = Deviation { rows, part };
            }
        }
        line
    }

    pub fn at(&self, rows: f64) -> f64 {
        self.fixed + self.per_row * rows
    }
}
