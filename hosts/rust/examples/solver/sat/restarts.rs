/// The conflicts up to the first restart.
const UNIT: u64 = 100;

/// Says when to restart: after as many units of conflicts as Luby's sequence has it, 1, 1, 2, 1, 1, 2, 4 and so on.
pub struct Restarts {
    round: u64,
    units: u64,
    conflicts_left: u64,
}

impl Restarts {
    pub fn new() -> Self {
        Restarts { round: 1, units: 1, conflicts_left: UNIT }
    }

    /// Counts a conflict; says whether to restart with it.
    pub fn due(&mut self) -> bool {
        self.conflicts_left -= 1;
        if self.conflicts_left > 0 {
            return false;
        }
        // a round has 1, 2, 4, .. units, up to the greatest power of two that divides its number
        if self.round.is_multiple_of(2 * self.units) {
            self.units *= 2;
        } else {
            (self.round, self.units) = (self.round + 1, 1);
        }
        self.conflicts_left = self.units * UNIT;
        true
    }
}
