//! What calls come to, counted.

use gurvoke::answers::CONTESTED;
use gurvoke::counts::{named, Counts};
use gurvoke::refusals::NOTHING_AT_WORK;
use gurvoke::rng::Rng;
use gurvoke::runs::{Call, GapCounts, Gaps, StartCounts, Starts};
use gurvoke::unfolding::{Offer, Progress, Run};

use crate::harness::{Board, Given, LAST_VARIABLE};

/// What the first executive came to, and what each other one did: these are given the same calls.
pub fn of_all_executives(counts: &[Counts]) -> Counts {
    let (first, others) = counts.split_first().expect("an executive");
    let mut all = first.clone();
    for other in others {
        assert_eq!(
            other, &others[0],
            "the plain executives are given the same calls"
        );
    }
    for (what, number) in &others[0] {
        all.push((format!("{what} (each plain executive)"), *number));
    }
    all
}

/// How many offers found contested variables, and which of these they named.
#[derive(Default)]
struct Contested {
    offers: u64,
    /// Those of them with more than one.
    several: u64,
    /// Those of them that named the first variable, and the last there can be.
    first: u64,
    last: u64,
}

impl Contested {
    fn note(&mut self, offer: &Offer) {
        let variables = offer.goals.iter().filter(|&&byte| byte == CONTESTED);
        self.offers += u64::from(offer.named.is_some());
        self.several += u64::from(variables.count() > 1);
        self.first += u64::from(offer.named == Some(0));
        self.last += u64::from(offer.named == Some(LAST_VARIABLE));
    }
}

/// How often each answer was given.
#[derive(Default)]
pub struct Tally {
    refusals: [u64; NOTHING_AT_WORK as usize + 1],
    pub offers: u64,
    contested: Contested,
    pub running: u64,
    pub finished: u64,
    starts: StartCounts,
    gaps: GapCounts,
}

impl Tally {
    /// Makes a call, compares it, and notes what it came to.
    pub fn call(
        &mut self,
        rng: &mut Rng,
        (board, run): (&mut Board, &mut Run),
        call: &Call,
    ) -> Given {
        let starts = Starts::of_settling(run);
        let gaps = match call {
            Call::Settle { estimate } => Gaps::of_settling(run, estimate),
            Call::Offer { .. } => Gaps::default(),
        };
        let given = board.call(rng, run, call);
        match given {
            Given::Refused(_) => {}
            Given::Offered(_) => self.gaps.note(&Gaps::of_offer(run)),
            Given::Settled(_) => {
                self.starts.note(&starts);
                self.gaps.note(&gaps);
            }
        }
        self.note(&given);
        given
    }

    fn note(&mut self, given: &Given) {
        match given {
            Given::Refused(number) => self.refusals[*number as usize] += 1,
            Given::Offered(offer) => {
                self.offers += 1;
                self.contested.note(offer);
            }
            Given::Settled(Progress::Running) => self.running += 1,
            Given::Settled(Progress::Finished) => self.finished += 1,
        }
    }

    /// All calls noted.
    pub fn calls(&self) -> u64 {
        let refused: u64 = self.refusals.iter().sum();
        refused + self.offers + self.running + self.finished
    }

    /// What was counted, as the list of counts names it.
    pub fn counts(&self) -> Counts {
        let contested = &self.contested;
        let mut counts = named([
            ("calls", self.calls()),
            ("offers", self.offers),
            ("offers with a contested variable", contested.offers),
            ("offers with several contested variables", contested.several),
            ("offers that name variable 0", contested.first),
            ("offers that name variable 31", contested.last),
            ("settlings that tell running", self.running),
            ("settlings that tell finished", self.finished),
        ]);
        counts.extend(self.starts.counts());
        counts.extend(self.gaps.counts());
        for (refusal, count) in self.refusals.iter().enumerate() {
            counts.push((format!("refusals {refusal}"), *count));
        }
        counts
    }
}
