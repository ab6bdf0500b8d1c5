//! A question put to two archives.

use crate::library::{processor_time, Library, Told};

/// The least time of so many rounds of about so many nanoseconds; no round begins after enough of
/// them.
pub struct Effort {
    pub rounds: usize,
    pub round: u64,
    pub enough: u64,
}

/// What both told, what today's preview did, and the least processor time of a call of both, in
/// nanoseconds.
pub struct Compared {
    pub told: [Told; 2],
    pub preview: Option<Told>,
    pub times: [f64; 2],
}

impl Compared {
    /// Whether one says that the question can agree, and the other that it cannot.
    pub fn contradicts(&self) -> bool {
        match self.told.map(|told| told.can_agree()) {
            [Some(one), Some(other)] => one != other,
            _ => false,
        }
    }

    pub fn both_decide(&self) -> bool {
        self.told.iter().all(Told::is_decided)
    }

    /// Whether the earlier archive alone decides the question.
    pub fn is_lost(&self) -> bool {
        let [earlier, today] = self.told;
        earlier.is_decided() && !today.is_decided()
    }
}

/// Both in turn, each as often the first, so that what slows the machine slows both.
pub fn compare(libraries: &mut [Library; 2], question: &[u8], effort: &Effort) -> Compared {
    let preview = libraries[1].preview(question);
    let start = processor_time();
    let told = [0, 1].map(|i: usize| libraries[i].solve(question));
    let two = (processor_time() - start).max(1);
    let calls = (2 * effort.round / two).clamp(1, 10_000);
    let mut times = [f64::MAX; 2];
    for round in 0..effort.rounds {
        if round > 0 && processor_time() - start > effort.enough {
            break;
        }
        for i in [round % 2, 1 - round % 2] {
            let start = processor_time();
            for _ in 0..calls {
                libraries[i].solve(question);
            }
            let taken = processor_time() - start;
            times[i] = times[i].min(taken as f64 / calls as f64);
        }
    }
    Compared {
        told,
        preview,
        times,
    }
}
