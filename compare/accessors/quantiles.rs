// Accessors for the comparison. All that stands above this line is the original's text.

/// A series of the original with its whole state in reach.
pub struct Series<T>(Quantiles<T>);

#[allow(private_bounds)]
impl<T: QuantileValue> Series<T> {
    pub fn fresh() -> Self {
        Self(Quantiles::default())
    }
    pub fn record(&mut self, value: T) -> bool {
        self.0.record(value)
    }
    pub fn percentile(&self, p: f64) -> Option<T> {
        self.0.percentiles([p])[0]
    }
    pub fn count(&self) -> u64 {
        self.0.count()
    }
    pub fn ends(&self) -> (Option<T>, Option<T>) {
        (self.0.min, self.0.max)
    }
    /// The samples in the order in which they came, while they are kept.
    pub fn samples(&self) -> Option<&[T]> {
        match &self.0.storage {
            Storage::Exact(samples) => Some(samples),
            Storage::Histogram(_) => None,
        }
    }
    pub fn buckets(&self) -> Option<&[u64]> {
        match &self.0.storage {
            Storage::Exact(_) => None,
            Storage::Histogram(buckets) => Some(buckets),
        }
    }
    pub fn bucket_of(value: T) -> usize {
        value.index()
    }
    pub fn shown(bucket: usize) -> T {
        T::value(bucket)
    }
    /// A histogram as a host could hand it over, with empty buckets.
    pub fn load(&mut self, count: u64, min: T, max: T) {
        self.0 = Quantiles {
            storage: Storage::Histogram(vec![0; T::BUCKETS].into_boxed_slice()),
            count,
            min: Some(min),
            max: Some(max),
        };
    }
    pub fn load_bucket(&mut self, bucket: usize, count: u64) {
        if let Storage::Histogram(buckets) = &mut self.0.storage {
            buckets[bucket] = count;
        }
    }
}
