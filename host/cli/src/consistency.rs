//! Why a device is not consistent, in words.

use reference::{Entry, Inconsistency};

use crate::words::{device_state, resources};

/// The sentence of answer 8 for a device with this entry, if it is not consistent.
pub fn sentence(entry: Entry, inconsistencies: &[Inconsistency]) -> Option<String> {
    let reasons = inconsistencies.iter().map(|&found| reason(entry, found));
    let reasons: Vec<String> = reasons.collect();
    (!reasons.is_empty()).then(|| {
        let reasons = reasons.join("; it ");
        format!("the state is not consistent: this device {reasons}.")
    })
}

fn reason(entry: Entry, inconsistency: Inconsistency) -> String {
    let (present, wake) = (device_state(entry.state), device_state(entry.wake_d));
    match inconsistency {
        Inconsistency::NotSupported => format!("is in {present}, which it does not have"),
        Inconsistency::ShallowerThanParent { parent, state } => {
            let deeper = device_state(state);
            format!(
                "is in {present}, shallower than its parent, device {parent}, which is in {deeper}"
            )
        }
        Inconsistency::NotWakePair => {
            let s = entry.wake_s;
            format!("is armed for S{s} and {wake}, which is not a legal wake pair")
        }
        Inconsistency::DeeperThanWakeState => {
            format!("is in {present}, deeper than its wake state {wake}")
        }
        Inconsistency::Unpowered(off) => format!("needs what is off: {}", resources(off)),
    }
}
