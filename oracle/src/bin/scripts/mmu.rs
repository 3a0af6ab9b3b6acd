//! The scripts on an MMU: that of `mmu_cases`, and that of `host_cases`.

use crate::{RAM, Step, config, said, scheme, who};
use oracle::falcon::memory::Bus;
use oracle::rules::tlb_entries;
use oracle::{Entry, Oracle};

/// The script of `mmu_cases`: the bought Rust, and whether the count was set to what it should not be.
pub struct Mmu {
    o: Oracle,
    spoiled: bool,
}

impl Mmu {
    pub fn new() -> Mmu {
        Mmu { o: Oracle::new(config([32, 4, 0, 0]), &vec![0; RAM]), spoiled: false }
    }

    fn fit(&self) -> bool {
        !self.spoiled && self.o.mmu.tlb.entries.iter().all(|e| e.mask_bits <= 19)
    }

    /// A call that is granted or refused.
    fn call(&mut self, Step(op, n): Step) -> Result<(), u32> {
        let many = tlb_entries(config(n)) > 128;
        if op == b'n' {
            let made = if many { config([32, 4, 0, 0]) } else { config(n) };
            *self = Mmu { o: Oracle::new(made, self.o.ram()), spoiled: false };
        } else if !self.fit() {
            return Err(3);
        }
        match op {
            b'p' => scheme(n).map(|s| self.o.set_scheme(s.offset, &s.widths)).ok_or(1),
            b'n' | b'r' if many => Err(2),
            b'r' => Ok(self.o.reconfigure(config(n))),
            b'f' => Ok(self.o.flush()),
            b'v' => Ok(self.o.flush_vaddr(n[0])),
            _ => Ok(()),
        }
    }

    fn access(&mut self, [vaddr, kind, mode, _]: [u32; 4]) -> String {
        if !self.fit() {
            return format!("{} refused 3\n", who(vaddr, kind, mode));
        }
        match self.o.translate(vaddr, kind as u8, mode as u8) {
            Ok((paddr, stall)) => format!("{} ok {paddr:08x} {stall}\n", who(vaddr, kind, mode)),
            Err((cause, at)) => format!("{} fault {cause}\n", who(at, kind, mode)),
        }
    }

    /// The bought Rust has no slots past its entries; ours are blank there.
    fn slot(&self, i: usize) -> String {
        let yes = |b: bool| if b { "yes" } else { "no" };
        match self.o.state().entries.get(i) {
            Some(&Entry { valid, vpn, ppn, asid, class, age, dirty, ref_bit, .. }) => format!(
                "  slot {} {vpn:08x} {ppn:08x} {asid} {class} {age:08x} {} {}\n",
                yes(valid),
                yes(dirty),
                yes(ref_bit)
            ),
            None => "  slot no 00000000 00000000 0 0 00000000 no no\n".to_string(),
        }
    }

    fn tallies(&self) -> String {
        let [hits, misses, faults, evictions] = self.o.state().tallies;
        format!("  hits {hits} misses {misses} faults {faults} evictions {evictions}\n")
    }

    /// A field set by hand; a slot past the entries is none that the bought Rust has.
    fn set(&mut self, Step(op, [value, i, ..]): Step) {
        let tlb = &mut self.o.mmu.tlb;
        match op {
            b's' => self.o.set_satp(value),
            b'e' => self.o.set_switches(value as u8),
            b'g' => tlb.poke_counters(value, tlb.peek_clock_hands().to_vec()),
            b'k' => drop(tlb.entries.get_mut(i as usize).map(|e| e.mask_bits = value as u8)),
            _ => self.spoiled = value as usize != tlb.entries.len(),
        }
    }

    pub fn perform(&mut self, s: Step) -> String {
        let Step(op, n) = s;
        match op {
            b'w' => drop(self.o.ram.store32(n[0], n[1])),
            b's' | b'e' | b'g' | b'k' | b'q' => self.set(s),
            b'n' | b'p' | b'r' | b'f' | b'v' => return said(self.call(s)),
            b'a' => return self.access(n),
            b'i' => return self.slot(n[0] as usize),
            b'c' => return self.tallies(),
            _ => return "bad line\n".to_string(),
        }
        String::new()
    }
}

/// The script of `host_cases`: the same calls, in the order of a session.
pub struct Host {
    mmu: Mmu,
}

impl Host {
    pub fn new() -> Host {
        Host { mmu: Mmu::new() }
    }

    fn state(&self, count: u32) -> String {
        let m = &self.mmu;
        let offset = m.o.state().offset;
        format!("{}{}{}  entries {count} offset {offset}\n", m.slot(0), m.slot(1), m.tallies())
    }

    fn session(&mut self, [count, config, widths, scheme]: [u32; 4]) -> String {
        let mut out = said(self.mmu.call(Step(b'n', [4, 4, 0, 0])));
        self.mmu.set(Step(b's', [0x8000_0001, 0, 0, 0]));
        self.mmu.set(Step(b'e', [5, 0, 0, 0]));
        out += &self.mmu.access([0x2000, 1, 0, 0]);
        self.mmu.set(Step(b'q', [count, 0, 0, 0]));
        out += &self.mmu.access([0x1234, 1, 0, 0]);
        out += &self.state(count);
        let config = [config >> 16, config >> 8 & 0xFF, config & 0xFF, 0];
        let calls = [
            ("flush 1fff", Step(b'v', [0x1FFF, 0, 0, 0])),
            ("flush", Step(b'f', [0; 4])),
            ("set_scheme", Step(b'p', [scheme >> 8, scheme & 0xFF, widths, 0])),
            ("reconfigure", Step(b'r', config)),
        ];
        for (name, call) in calls {
            let made_anew = call.0 == b'r';
            let answer = self.mmu.call(call);
            let count = if made_anew && answer.is_ok() { self.mmu.o.state().entries.len() as u32 } else { count };
            out += &format!("{name}{}{}", said(answer), self.state(count));
        }
        out + &format!(" {:08x}\n", self.mmu.o.word(0x2004))
    }

    pub fn perform(&mut self, s: Step) -> String {
        match s {
            Step(b'h', n) => self.session(n),
            Step(b'w', _) => self.mmu.perform(s),
            _ => "bad line\n".to_string(),
        }
    }
}
