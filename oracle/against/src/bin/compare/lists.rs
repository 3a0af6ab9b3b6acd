//! Lists of library calls from any state: records in several stretches, with a new scheme, a new configuration, another
//! satp or other switches between them. After each call text, RAM and the whole state are held to the bought Rust.

use crate::differ::{self, Same};
use crate::met;
use crate::shrink::{Case, shorter, zeroed};
use against::ours::Access;
use against::{image, ours};
use oracle::Oracle;
use oracle::bundle::{config_at, u32_at};
use oracle::rules::{Scheme, records_ok, tlb_entries};

const OLD: u8 = 0xA5;

#[derive(Clone)]
pub enum Step {
    Scheme(Vec<u8>),
    Config(Vec<u8>),
    Satp(u32),
    Switches(u8),
    Records(Vec<u8>),
}

#[derive(Clone)]
pub struct List {
    pub image: Vec<u8>,
    pub ram: Vec<u8>,
    pub steps: Vec<Step>,
}

/// Both sides of a list in the middle of it; what is owed is the image and the RAM, and the Rust where the state is fit.
struct Sides {
    image: Vec<u8>,
    ram: Vec<u8>,
    refusal: Option<u32>,
    rust: Option<Oracle>,
}

impl Sides {
    /// A call that answers a number: what is owed is the first refusal, or 0 and the image as the Rust then has it.
    fn call(
        &mut self,
        ours: u32,
        after: &[u8],
        refusals: [(u32, bool); 2],
        granted: impl FnOnce(&mut Oracle, &mut [u8]),
    ) -> Same {
        let [own_layout, own] = refusals;
        let first = own_layout.1.then_some(own_layout.0).or(self.refusal);
        let number = first.or(own.1.then_some(own.0)).unwrap_or(0);
        differ::numbers("answer", ours as u64, number as u64)?;
        met::number(number);
        if number == 0 {
            let rust = self.rust.as_mut().unwrap();
            granted(rust, &mut self.image);
            image::put_state(&mut self.image, &rust.state());
        }
        differ::images(after, &self.image)
    }

    fn scheme(&mut self, bytes: &[u8]) -> Same {
        let mut after = self.image.clone();
        let said = ours::set_scheme(&mut after, bytes);
        let laid = bytes.len() == 6;
        let valid = if laid { Scheme::valid(bytes) } else { None };
        self.call(said, &after, [(8, !laid), (1, valid.is_none())], |rust, image| {
            let scheme = valid.unwrap();
            rust.set_scheme(scheme.offset, &scheme.widths);
            image::put_scheme(image, bytes);
        })
    }

    fn config(&mut self, bytes: &[u8]) -> Same {
        let mut after = self.image.clone();
        let said = ours::reconfigure(&mut after, bytes);
        let laid = bytes.len() == 6 && bytes[3] <= 5;
        let large = laid && tlb_entries(config_at(bytes, 0)) > 128;
        self.call(said, &after, [(8, !laid), (2, large)], |rust, image| {
            rust.reconfigure(config_at(bytes, 0));
            image::put(image, 0, &bytes[..6]);
            // all slots and hands are new ones
            image[image::HANDS..].fill(0);
        })
    }

    /// What the Rust answers to a list of records, and what it leaves.
    fn owed(&mut self, refusal: Option<u32>, list: &[u8]) -> String {
        let Some(rust) = self.rust.as_mut().filter(|_| refusal.is_none()) else {
            return format!("refused {}\n", refusal.unwrap());
        };
        let before = rust.state().tallies;
        let text = rust.lines(list);
        met::tallies(self.image[3], before, rust.state().tallies);
        image::put_state(&mut self.image, &rust.state());
        self.ram = rust.ram().to_vec();
        text
    }

    fn records(&mut self, list: &[u8]) -> Same {
        let refusal = if records_ok(list) { self.refusal } else { Some(8) };
        let room = if refusal.is_some() { 11 } else { 25 * (list.len() / 8) + 113 };
        self.too_short(list, room)?;
        let (before, ram_before) = (self.image.clone(), self.ram.clone());
        let text = self.owed(refusal, list);
        met::text(&text);

        let (mut image, mut ram, mut out) = (before.clone(), ram_before.clone(), vec![OLD; room + 1]);
        let wrote = ours::records(&mut image, list, &mut ram, &mut out).ok_or("the buffer was called too short")?;
        differ::texts(&out[..wrote], &text)?;
        differ::bytes("output past its end", &out[wrote..], &vec![OLD; out.len() - wrote])?;
        differ::bytes("RAM", &ram, &self.ram)?;
        differ::images(&image, &self.image)?;

        if refusal.is_none() {
            self.one_by_one(list, &text, before.clone(), ram_before.clone()).map_err(|e| format!("one by one, {e}"))?;
        }
        self.without_text(list, refusal, before, ram_before)
    }

    /// Each record by a call of its own, `translate`, `flush` or `flush_vaddr`: the same lines, state and RAM.
    fn one_by_one(&self, list: &[u8], owed: &str, mut image: Vec<u8>, mut ram: Vec<u8>) -> Same {
        for (record, owed) in list.chunks_exact(8).zip(owed.lines()) {
            let va = u32_at(record, 0);
            let (said, line) = match record[6] {
                1 => (ours::flush(&mut image), "flush".to_string()),
                2 => (ours::flush_vaddr(&mut image, va as u64), format!("flush {va:08x}")),
                _ => {
                    let mut told = [OLD; 21];
                    let said = ours::translate(&mut image, Access(va as u64, record[4], record[5]), &mut ram, &mut told);
                    differ::bytes("`told` past its end", &told[20..], &[OLD])?;
                    let (cause, pa, stall) = (u32_at(&told, 0), image::u64_at(&told, 4), u32_at(&told, 16));
                    let end = if cause == 0 { format!("ok {pa:08x} {stall}") } else { format!("fault {cause}") };
                    (said, format!("{va:08x} {end}"))
                }
            };
            differ::numbers("answer", said as u64, 0)?;
            differ::texts(line.as_bytes(), owed)?;
        }
        differ::bytes("RAM", &ram, &self.ram)?;
        differ::images(&image, &self.image)
    }

    /// `events`, which leaves the same and gives no text.
    fn without_text(&self, list: &[u8], refusal: Option<u32>, mut image: Vec<u8>, mut ram: Vec<u8>) -> Same {
        let said = ours::events(&mut image, list, &mut ram);
        let told = |e| format!("`events`, {e}");
        differ::numbers("answer", said as u64, refusal.unwrap_or(0) as u64).map_err(told)?;
        differ::bytes("RAM", &ram, &self.ram).map_err(told)?;
        differ::images(&image, &self.image).map_err(told)
    }

    /// One byte less of room, and nothing is written.
    fn too_short(&self, list: &[u8], room: usize) -> Same {
        let (mut image, mut ram, mut out) = (self.image.clone(), self.ram.clone(), vec![OLD; room - 1]);
        let said = ours::records(&mut image, list, &mut ram, &mut out);
        if said.is_some() || image != self.image || ram != self.ram || out.iter().any(|&x| x != OLD) {
            return Err(format!("an output buffer one byte too short was used: {said:?}"));
        }
        Ok(())
    }

    fn step(&mut self, step: &Step) -> Same {
        match step {
            Step::Scheme(bytes) => self.scheme(bytes),
            Step::Config(bytes) => self.config(bytes),
            Step::Records(list) => self.records(list),
            // the host's own doing: it writes the field
            Step::Satp(raw) => {
                self.rust.iter_mut().for_each(|r| r.set_satp(*raw));
                if self.refusal.is_none() {
                    image::put(&mut self.image, image::SATP, &raw.to_le_bytes());
                }
                Ok(())
            }
            Step::Switches(bits) => {
                self.rust.iter_mut().for_each(|r| r.set_switches(*bits));
                if self.refusal.is_none() {
                    self.image[image::SWITCHES] = *bits;
                }
                Ok(())
            }
        }
    }
}

impl List {
    fn compare(&self) -> Same {
        let refusal = image::refusal(&self.image);
        let rust = refusal.is_none().then(|| image::oracle(&self.image, &self.ram));
        let mut sides = Sides { image: self.image.clone(), ram: self.ram.clone(), refusal, rust };
        for (i, step) in self.steps.iter().enumerate() {
            sides.step(step).map_err(|e| format!("call {}: {e}", i + 1))?;
        }
        Ok(())
    }

    fn with(&self, i: usize, step: Step) -> List {
        let mut list = self.clone();
        list.steps[i] = step;
        list
    }
}

impl Case for List {
    fn differs(&self) -> Option<String> {
        self.compare().err()
    }

    fn smaller(&self) -> Box<dyn Iterator<Item = List> + '_> {
        let fewer = (0..self.steps.len()).map(|i| {
            let mut list = self.clone();
            list.steps.remove(i);
            list
        });
        let lists = self.steps.iter().enumerate().filter_map(|(i, s)| match s {
            Step::Records(r) => Some((i, r)),
            _ => None,
        });
        let shorter_lists =
            lists.clone().flat_map(move |(i, r)| shorter(r, 8).map(move |r| self.with(i, Step::Records(r))));
        let plain_lists = lists.flat_map(move |(i, r)| zeroed(r, 1).map(move |r| self.with(i, Step::Records(r))));
        let plain_image = zeroed(&self.image, 1).map(|image| List { image, ..self.clone() });
        let less_ram = shorter(&self.ram, 1).take(14).map(|ram| List { ram, ..self.clone() });
        let plain_ram = zeroed(&self.ram, 4).map(|ram| List { ram, ..self.clone() });
        Box::new(fewer.chain(shorter_lists).chain(less_ram).chain(plain_image).chain(plain_ram).chain(plain_lists))
    }

    fn tell(&self) -> String {
        let b = &self.image;
        let fields = (0..b.len()).filter(|&i| b[i] != 0);
        let mut out = format!("an image of {} bytes, zero but for\n", b.len());
        for at in fields {
            out += &format!("  byte {at}: {:02x} ({})\n", b[at], image::field(at));
        }
        out += &differ::ram(&self.ram);
        for step in &self.steps {
            out += &match step {
                Step::Scheme(s) => format!("set_scheme {s:02x?}\n"),
                Step::Config(c) => format!("reconfigure {c:02x?}\n"),
                Step::Satp(raw) => format!("satp becomes {raw:08x}\n"),
                Step::Switches(bits) => format!("switches become {bits}\n"),
                Step::Records(r) => format!("records:\n{}", differ::records(r)),
            };
        }
        out
    }
}
