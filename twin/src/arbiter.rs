//! The rules of the specification's sections 4, 5 and 7, on a list of requests in order of issue.
use crate::plan::{Plan, Refusal};

#[derive(Clone, Copy, PartialEq, Debug)]
pub enum Phase {
    Waiting,
    Entitled,
    Holding,
}

use Phase::*;

#[derive(Clone, Debug)]
pub struct Request {
    pub processor: u8,
    pub entry: u8,
    pub phase: Phase,
    pub issued_at: u64,
    pub granted_at: u64,
}

#[derive(Clone, Copy, Debug)]
pub enum Call {
    Issue { processor: u8, entry: u8, tick: u64 },
    Complete { processor: u8, tick: u64 },
    Withdraw { processor: u8, tick: u64 },
    Handover { processor: u8, entry: u8, tick: u64 },
}

#[derive(Clone, Copy, PartialEq, Debug)]
pub struct Done {
    pub granted: u32,
    pub entitled: u32,
    pub late: bool,
}

pub struct Arbiter {
    pub plan: Plan,
    conflicts: Vec<Vec<bool>>,
    last: u64,
    pub requests: Vec<Request>,
}

impl Arbiter {
    pub fn new(plan: Plan) -> Arbiter {
        Arbiter { conflicts: plan.conflicts(), plan, last: 0, requests: Vec::new() }
    }

    pub fn writes(&self, r: &Request) -> bool {
        self.plan.entries[r.entry as usize].write
    }

    fn conflict(&self, r: &Request, q: &Request) -> bool {
        self.conflicts[r.entry as usize][q.entry as usize]
    }

    /// The places of the requests of a kind and phase that conflict with the request at a place.
    fn against(&self, at: usize, write: bool, phase: Phase) -> impl Iterator<Item = usize> + '_ {
        let r = &self.requests[at];
        (0..self.requests.len()).filter(move |&i| {
            let q = &self.requests[i];
            i != at && q.phase == phase && self.writes(q) == write && self.conflict(r, q)
        })
    }

    fn any(&self, at: usize, write: bool, phase: Phase) -> bool {
        self.against(at, write, phase).next().is_some()
    }

    /// Moves all requests of a kind and phase that pass a test, at once.
    fn step(&mut self, write: bool, from: Phase, to: Phase, test: impl Fn(&Arbiter, usize) -> bool) {
        let moved: Vec<usize> = (0..self.requests.len())
            .filter(|&i| self.requests[i].phase == from && self.writes(&self.requests[i]) == write && test(self, i))
            .collect();
        for i in moved {
            self.requests[i].phase = to;
        }
    }

    fn settle(&mut self) {
        self.step(false, Entitled, Holding, |a, i| !a.any(i, true, Holding));
        self.step(false, Waiting, Holding, |a, i| !a.any(i, true, Entitled) && !a.any(i, true, Holding));
        self.step(true, Waiting, Entitled, |a, i| {
            let earlier_unsatisfied = a.against(i, true, Waiting).chain(a.against(i, true, Entitled)).any(|j| j < i);
            !earlier_unsatisfied && !a.any(i, true, Holding) && !a.any(i, false, Entitled)
        });
        self.step(true, Entitled, Holding, |a, i| !a.any(i, false, Holding));
        self.step(false, Waiting, Entitled, |a, i| a.any(i, true, Holding) && !a.any(i, true, Entitled));
    }

    fn mask(requests: &[Request], phase: Phase) -> u32 {
        requests.iter().filter(|r| r.phase == phase).fold(0, |mask, r| mask | 1 << r.processor)
    }

    fn place(&self, processor: u8) -> Option<usize> {
        self.requests.iter().position(|r| r.processor == processor)
    }

    pub fn call(&mut self, call: Call) -> Result<Done, Refusal> {
        let (processor, tick) = match call {
            Call::Issue { processor, tick, .. } | Call::Handover { processor, tick, .. } => (processor, tick),
            Call::Complete { processor, tick } | Call::Withdraw { processor, tick } => (processor, tick),
        };
        if tick < self.last || tick > 1_099_511_627_775 {
            return Err(10);
        }
        if processor >= self.plan.processors {
            return Err(11);
        }
        let place = self.place(processor);
        let before = self.requests.clone();
        let mut late = false;
        match call {
            Call::Issue { entry, .. } => {
                if entry as usize >= self.plan.entries.len() {
                    return Err(12);
                }
                if place.is_some() {
                    return Err(13);
                }
                self.requests.push(Request { processor, entry, phase: Waiting, issued_at: tick, granted_at: 0 });
                let at = self.requests.len() - 1;
                let read = !self.plan.entries[entry as usize].write;
                if read && !self.any(at, true, Entitled) && !self.any(at, true, Holding) {
                    self.requests[at].phase = Holding;
                }
            }
            Call::Complete { .. } => {
                let at = place.ok_or(14)?;
                if self.requests[at].phase != Holding {
                    return Err(15);
                }
                let request = self.requests.remove(at);
                late = tick - request.granted_at > self.plan.entries[request.entry as usize].length;
            }
            Call::Withdraw { .. } => {
                let at = place.ok_or(14)?;
                if self.requests[at].phase == Holding {
                    return Err(17);
                }
                self.requests.remove(at);
            }
            Call::Handover { entry, .. } => {
                if entry as usize >= self.plan.entries.len() {
                    return Err(12);
                }
                let at = place.ok_or(14)?;
                if self.requests[at].phase != Holding {
                    return Err(15);
                }
                return Ok(self.hand_over(processor, entry, tick));
            }
        }
        self.last = tick;
        self.settle();
        let granted = Self::mask(&self.requests, Holding) & !Self::mask(&before, Holding);
        let entitled = Self::mask(&self.requests, Entitled) & !Self::mask(&before, Entitled);
        for r in &mut self.requests {
            if granted >> r.processor & 1 == 1 {
                r.granted_at = tick;
            }
        }
        Ok(Done { granted, entitled, late })
    }

    /// A completion and then an issue, of which neither is refused: both their masks together, but nobody is said to
    /// have become entitled who is not so at the end.
    fn hand_over(&mut self, processor: u8, entry: u8, tick: u64) -> Done {
        let first = self.call(Call::Complete { processor, tick }).expect("a completion that fits");
        let second = self.call(Call::Issue { processor, entry, tick }).expect("an issue that fits");
        let entitled = (first.entitled | second.entitled) & Self::mask(&self.requests, Entitled);
        Done { granted: first.granted | second.granted, entitled, late: first.late }
    }

    /// 0 idle, 1 waiting, 2 entitled, 3 holding.
    pub fn state(&self, processor: u8) -> Result<u8, Refusal> {
        if processor >= self.plan.processors {
            return Err(11);
        }
        Ok(match self.place(processor).map(|at| self.requests[at].phase) {
            None => 0,
            Some(Waiting) => 1,
            Some(Entitled) => 2,
            Some(Holding) => 3,
        })
    }

    /// The processors that a processor waits for directly.
    pub fn direct(&self, processor: u8) -> Result<u32, Refusal> {
        self.state(processor)?;
        let Some(at) = self.place(processor) else { return Ok(0) };
        let request = &self.requests[at];
        let places: Vec<usize> = match (self.writes(request), request.phase) {
            (false, Entitled) => self.against(at, true, Holding).collect(),
            (false, Waiting) => self.against(at, true, Entitled).collect(),
            (true, Entitled) => self.against(at, false, Holding).collect(),
            (true, Waiting) => [Waiting, Entitled, Holding].iter().flat_map(|&ph| self.against(at, true, ph)).filter(|&j| j < at).collect(),
            (_, Holding) => Vec::new(),
        };
        Ok(places.iter().fold(0, |mask, &i| mask | 1 << self.requests[i].processor))
    }

    /// All that a processor waits for, directly or through others.
    pub fn reach(&self, processor: u8) -> Result<u32, Refusal> {
        let mut reached = self.direct(processor)?;
        loop {
            let among = (0..32).filter(|&q| reached >> q & 1 == 1);
            let further = among.fold(reached, |mask, q| mask | self.direct(q).unwrap_or(0));
            if further == reached {
                return Ok(reached);
            }
            reached = further;
        }
    }

    /// The bytes of a mask, low byte first: two on a board of up to 16 processors, four on a larger one.
    fn laid_out(&self, mask: u32) -> Vec<u8> {
        mask.to_le_bytes()[..self.plan.mask_bytes()].to_vec()
    }

    /// The scratch after a reach: for each of 16 or 32 processors the word of all that it reaches.
    pub fn words(&self) -> Vec<u8> {
        let places = 8 * self.plan.mask_bytes() as u8;
        (0..places).flat_map(|p| self.laid_out(self.reach(p).unwrap_or(0))).collect()
    }

    /// The whole board in bytes: m, and for each processor its state, entry, ticks waited and direct waits.
    pub fn list(&self) -> Vec<u8> {
        let mut bytes = vec![self.plan.processors];
        for p in 0..self.plan.processors {
            let request = self.requests.iter().find(|r| r.processor == p);
            let waited = match request {
                Some(r) if r.phase != Holding => u32::try_from(self.last - r.issued_at).unwrap_or(u32::MAX),
                _ => 0,
            };
            bytes.push(self.state(p).expect("a processor of the plan"));
            bytes.push(request.map_or(255, |r| r.entry));
            bytes.extend(waited.to_le_bytes());
            bytes.extend(self.laid_out(self.direct(p).expect("a processor of the plan")));
        }
        bytes
    }
}
