//! The struct of a meter, and what an offer should make of it: a model of the ring for any contents of the struct.

use reference::Spec;

pub const PLACES: usize = 1_024;

/// The size of the struct.
pub const BYTES: usize = 6_164;

#[repr(C)]
#[derive(Clone, Copy, PartialEq, Eq)]
pub struct Meter {
    pub dmin: u16,
    pub dmax: u16,
    pub smin: u16,
    pub budget: u16,
    pub window: u16,
    pub records: u16,
    pub first: u16,
    pub count: u16,
    pub last: u32,
    pub minutes: [u32; PLACES],
    pub sizes: [u16; PLACES],
}

impl Meter {
    /// Any bytes are a meter.
    pub fn of_bytes(bytes: [u8; BYTES]) -> Meter {
        // SAFETY: the fields are numbers, and the sizes are the same.
        unsafe { std::mem::transmute(bytes) }
    }

    pub fn bytes(&self) -> [u8; BYTES] {
        // SAFETY: there is no padding between the fields, or the sizes would differ.
        unsafe { std::mem::transmute(*self) }
    }

    /// A meter for this specification that has accepted nothing.
    pub fn fresh(spec: &Spec) -> Meter {
        let (budget, window) = spec.supply.unwrap_or((20_000, 0));
        let [dmin, dmax, smin, budget, window] = [spec.size.0, spec.size.1, spec.gap.0, budget, window].map(|n| n as u16);
        Meter { dmin, dmax, smin, budget, window, ..Meter::of_bytes([0; BYTES]) }
    }

    /// The place of report i that is held. The first may be any 16-bit number.
    pub fn place(&self, i: usize) -> usize {
        (usize::from(self.first) + i) % PLACES
    }

    /// How many of the oldest reports are out of the window at this minute, up to the first that is not.
    fn aged(&self, later: u32) -> usize {
        let out = |&i: &usize| u64::from(self.minutes[self.place(i)]) + u64::from(self.window) <= u64::from(later);
        (0..self.count.into()).take_while(out).count()
    }

    /// One offer: its number, and the budget left where it is told. A refusal changes nothing.
    pub fn offer(&mut self, minute: u32, size: u32) -> (u32, Option<u64>) {
        let later = if self.count == 0 { minute } else { minute.max(self.last) };
        let aged = self.aged(later);
        let out: u64 = (0..aged).map(|i| u64::from(self.sizes[self.place(i)])).sum();
        let used = u64::from(self.records).saturating_sub(out);
        let number = self.number(minute, size, used, usize::from(self.count) - aged);
        let records = if number == 0 { used + u64::from(size) } else { used };
        if number == 0 {
            let free = self.place(self.count.into());
            (self.minutes[free], self.sizes[free]) = (minute, size as u16);
            self.records = records as u16;
            self.first = self.place(aged) as u16;
            self.count = self.count - aged as u16 + 1;
            self.last = minute;
        }
        (number, (self.window != 0).then(|| u64::from(self.budget).saturating_sub(records)))
    }

    fn number(&self, minute: u32, size: u32, used: u64, held: usize) -> u32 {
        let early = self.count != 0 && u64::from(minute) < u64::from(self.last) + u64::from(self.smin);
        match () {
            () if early => 13,
            () if size < self.dmin.into() || size > self.dmax.into() => 14,
            () if used + u64::from(size) > self.budget.into() => 15,
            () if held >= PLACES => 22,
            () => 0,
        }
    }
}
