// Accessors for the comparison. All that stands above this line is the original's text.

impl ClockQuality {
    /// `record` is the crate's own business: a way in from the rig.
    pub fn told(&mut self, estimates: Option<(ErrorEstimate, ErrorEstimate)>) {
        self.record(estimates);
    }
}
