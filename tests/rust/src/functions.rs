//! The library's convolutions by operator and profile.
use crate::reference::{Op, Profile, PROFILES};
use kozamyure::answers::{self, Answer};

/// Sheet, input, kernel and output.
pub type Sums = fn(&[u8], &[f32], &[f32], &mut [f32]) -> Answer;

/// The profiles that a call of the operator can name: convolution has two, the others do not ask.
pub fn profiles(op: Op) -> &'static [Profile] {
    if op == Op::Convolution { &PROFILES } else { &PROFILES[..1] }
}

pub fn sums(op: Op, profile: Profile) -> Sums {
    match (op, profile) {
        (Op::Convolution, Profile::Running) => answers::convolution,
        (Op::Convolution, Profile::Halved) => answers::convolution_halved,
        (Op::Transposed, Profile::Running) => answers::transposed,
        _ => panic!("{op:?} has no sums in profile {profile:?}"),
    }
}
