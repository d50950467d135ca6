//! Sets of faults, for the order of a call's tests.

/// Which faults a call has, counted from 0 in the order of its tests, and in which of two forms.
#[derive(Clone, Copy, Debug)]
pub struct Faults {
    has: u32,
    other_form: u32,
}

impl Faults {
    /// Every set of so many faults, none among them, in every mixture of forms.
    pub fn every_set(count: u32) -> impl Iterator<Item = Faults> {
        let sets = 0..1u32 << count;
        sets.clone().flat_map(move |has| {
            let forms = sets.clone().filter(move |forms| forms & !has == 0);
            forms.map(move |other_form| Faults { has, other_form })
        })
    }

    pub fn only(fault: u32) -> Faults {
        Faults {
            has: 1 << fault,
            other_form: 0,
        }
    }

    /// The fault that is tested first, if there is one.
    pub fn first(self) -> Option<u32> {
        (self.has != 0).then(|| self.has.trailing_zeros())
    }

    pub fn pick<T>(self, fault: u32, fit: T, unfit: T, otherwise_unfit: T) -> T {
        let set = |bits: u32| bits >> fault & 1 == 1;
        match (set(self.has), set(self.other_form)) {
            (false, _) => fit,
            (true, false) => unfit,
            (true, true) => otherwise_unfit,
        }
    }
}
