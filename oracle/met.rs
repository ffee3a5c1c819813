//! How often each number was given, told on standard error: a run shows that it met every refusal that it is to meet.

use std::collections::BTreeMap;

/// By what gave it, where a case asks for more than one thing, and the number.
#[derive(Default)]
pub struct Met(BTreeMap<(&'static str, u32), u64>);

impl Met {
    pub fn note(&mut self, number: u32) {
        self.note_of("", number);
    }

    pub fn note_of(&mut self, by: &'static str, number: u32) {
        *self.0.entry((by, number)).or_default() += 1;
    }

    pub fn tell(&self) {
        let all: Vec<String> = self.0.iter().map(|((by, number), times)| format!("{by}{number}:{times}")).collect();
        eprintln!("{}", all.join(" "));
    }
}
