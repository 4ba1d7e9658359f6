//! Bounds on a number that should be small: a floor, without which nothing is recorded, and a target, which may be
//! missed.

/// The most that a number may be, and the most that it should be.
#[derive(Clone, Copy, Debug, PartialEq)]
pub struct Bounds {
    /// The most that it may be.
    pub floor: f64,
    /// The most that it should be.
    pub target: f64,
}

impl Bounds {
    /// Whether a number keeps the floor.
    pub fn keeps_floor(&self, found: f64) -> bool {
        found <= self.floor
    }

    /// Whether a number meets the target.
    pub fn meets_target(&self, found: f64) -> bool {
        found <= self.target
    }
}

#[cfg(test)]
mod tests {
    use super::*;

    #[test]
    fn bounds_hold_up_to_themselves() {
        let bounds = Bounds { floor: 2.0, target: 1.0 };
        assert!(bounds.keeps_floor(2.0) && !bounds.keeps_floor(2.001));
        assert!(bounds.meets_target(1.0) && !bounds.meets_target(1.001));
        assert!(!bounds.keeps_floor(f64::NAN));
    }
}
