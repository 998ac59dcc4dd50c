//! A cause met: its number and its spot.

#[derive(Clone, Copy, Debug, PartialEq, Eq)]
pub struct Refusal {
    pub number: u64,
    pub at: u64,
}

pub fn refuse<T>(number: u64, at: usize) -> Result<T, Refusal> {
    Err(Refusal {
        number,
        at: at as u64,
    })
}
