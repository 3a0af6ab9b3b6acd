//! The scripts on page tables without a cache: that of `walk_cases`, and that of `map_cases`.

use crate::{NOT_COMPARABLE, RAM, Step, config, said, scheme, who};
use oracle::falcon::memory::{Bus, Ram};
use oracle::falcon::mmu::{AccessType, PrivMode, walker};
use oracle::rules::Scheme;
use oracle::{Map, Oracle};

/// The script of `walk_cases`: RAM, how much of it there is, and what walks are made under.
pub struct Walk {
    ram: Vec<u8>,
    size: usize,
    scheme: Option<Scheme>,
    root: u32,
}

impl Walk {
    pub fn new() -> Walk {
        Walk { ram: vec![0; RAM], size: 0, scheme: None, root: 0 }
    }

    fn walk(&mut self, [vaddr, kind, mode, leaf]: [u32; 4]) -> String {
        let mut ram = Ram::new(self.size);
        ram.copy_from_slice(&self.ram, self.size);
        let access = [AccessType::Fetch, AccessType::Load, AccessType::Store][kind as usize];
        let privilege = [PrivMode::U, PrivMode::S, PrivMode::M, PrivMode::M][mode as usize];
        let who_asks = who(vaddr, kind, mode);
        let answer = match &self.scheme {
            None => format!("{who_asks} refused 1"),
            Some(s) => {
                let scheme = oracle::scheme(s.offset, &s.widths);
                match walker::walk(&scheme, self.root, vaddr, &mut ram, access, privilege) {
                    Err(f) => format!("{} fault {}", who(f.vaddr, kind, mode), f.cause),
                    Ok(r) => {
                        let low = ((1u64 << r.page_bits) - 1) as u32;
                        let paddr = (r.ppn << 12) & !low | vaddr & low;
                        format!("{who_asks} ok {paddr:08x} {} {}", r.page_bits, r.leaf_level)
                    }
                }
            }
        };
        self.ram[..self.size].copy_from_slice(ram.as_bytes());
        let word = ram.load32(leaf).map_or("-".to_string(), |w| format!("{w:08x}"));
        format!("{answer} {word}\n")
    }

    pub fn perform(&mut self, Step(op, n): Step) -> String {
        let at = n[0] as usize;
        match op {
            b'w' => self.ram[at..at + 4].copy_from_slice(&n[1].to_le_bytes()),
            b'p' => self.scheme = scheme(n),
            b'r' => self.root = n[0],
            b'm' => self.size = at,
            b'a' => return self.walk(n),
            _ => return "bad line\n".to_string(),
        }
        String::new()
    }
}

/// The script of `map_cases`: the scheme, the map's kind, flags and MiB, and what RAM is filled with.
pub struct Maps {
    scheme: Option<Scheme>,
    kind: [u32; 4],
    fill: u8,
}

impl Maps {
    pub fn new() -> Maps {
        Maps { scheme: None, kind: [0; 4], fill: 0 }
    }

    fn install(&self, [root, start, end, rule]: [u32; 4]) -> String {
        let mut o = Oracle::new(config([1, 1, 0, 0]), &[self.fill; 0x11000]);
        let [kind, flags, mib, _] = self.kind;
        let map = Map { mib: (kind == 1).then_some(mib as i32), flags: flags as u8, root, window: (start, end) };
        let refusal = self.scheme.as_ref().map_or(Some(1), |s| s.map_refusal(rule == 1, &map, o.ram().len()));
        if let (Some(s), None) = (&self.scheme, refusal) {
            if rule == 1 && !s.rules_agree(map.window) {
                return NOT_COMPARABLE.to_string();
            }
            o.install_map_scheme(s.offset, &s.widths, map);
        }
        let word = |at: u32| o.ram.load32(at).map_or("-".to_string(), |w| format!("{w:08x}"));
        let digest = o.ram().iter().fold(0u32, |h, &b| h.wrapping_mul(31).wrapping_add(b as u32));
        let answer = said(refusal.map_or(Ok(()), |number| Err(number as u32)));
        format!("{} {} {} {digest:08x}\n", answer.trim_end(), word(root), word(0xF000))
    }

    pub fn perform(&mut self, Step(op, n): Step) -> String {
        match op {
            b'p' => self.scheme = scheme(n),
            b'k' => self.kind = n,
            b'z' => self.fill = n[0] as u8,
            b'i' => return self.install(n),
            _ => return "bad line\n".to_string(),
        }
        String::new()
    }
}
