//! Stand-in for profiling.rs: a recorder that records nothing.

#[derive(Clone, Debug, Default)]
pub struct Recorder;

impl Recorder {
    pub fn count(&self, _: &'static str, _: u64) {}
}
