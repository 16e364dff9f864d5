//! The middle of several measurements, and how far they lie apart.

#[derive(Clone, Copy, Debug, PartialEq)]
pub struct Spread {
    pub median: f64,
    pub least: f64,
    pub most: f64,
}

impl Spread {
    /// Of at least one measurement; of an even number of them the median is the mean of the two
    /// in the middle.
    pub fn of(mut measured: Vec<f64>) -> Spread {
        measured.sort_by(f64::total_cmp);
        let middle = measured.len() / 2;
        let median = if measured.len() % 2 == 1 {
            measured[middle]
        } else {
            (measured[middle - 1] + measured[middle]) / 2.0
        };
        Spread {
            median,
            least: measured[0],
            most: measured[measured.len() - 1],
        }
    }

    /// Of the quotients of what was measured in the same round.
    pub fn of_ratios(above: &[f64], below: &[f64]) -> Spread {
        Spread::of(above.iter().zip(below).map(|(a, b)| a / b).collect())
    }

    pub fn times(self, factor: f64) -> Spread {
        Spread {
            median: self.median * factor,
            least: self.least * factor,
            most: self.most * factor,
        }
    }
}

#[cfg(test)]
mod tests {
    use super::*;

    fn spread(median: f64, least: f64, most: f64) -> Spread {
        Spread {
            median,
            least,
            most,
        }
    }

    #[test]
    fn one() {
        assert_eq!(Spread::of(vec![4.0]), spread(4.0, 4.0, 4.0));
    }

    #[test]
    fn odd() {
        assert_eq!(Spread::of(vec![9.0, 1.0, 2.0]), spread(2.0, 1.0, 9.0));
    }

    #[test]
    fn even() {
        assert_eq!(Spread::of(vec![8.0, 1.0, 2.0, 3.0]), spread(2.5, 1.0, 8.0));
    }

    #[test]
    fn ratios_by_round() {
        let found = Spread::of_ratios(&[2.0, 6.0, 8.0], &[1.0, 2.0, 1.0]);
        assert_eq!(found, spread(3.0, 2.0, 8.0));
    }

    #[test]
    fn times() {
        assert_eq!(spread(2.0, 1.0, 3.0).times(10.0), spread(20.0, 10.0, 30.0));
    }
}
