// The Rust original, asked what it can do. It has no capacity, no answer but yes or no, and no pages: a call that the model refuses for one of these is not made.
use crate::model::{Model, FULL, HEIGHT, KEY};
use crate::script::{Call, Key, Page};

#[cfg(original)]
use qptrie::Trie;

#[cfg(original)]
pub struct Original(Trie<Key, u32>);

#[cfg(original)]
pub const PRESENT: bool = true;

#[cfg(original)]
impl Original {
    pub fn new() -> Original {
        Original(Trie::new())
    }

    fn limit(&mut self, limit: u16) {
        self.0 = std::mem::take(&mut self.0).max_height(limit as usize);
    }

    fn listing(&self, p: &Page, after: Option<&Key>) -> Vec<(Key, u32)> {
        let all = self.0.prefix_iter(&p.prefix);
        let all = if p.inclusive { all.include_prefix() } else { all };
        all.map(|(k, v)| (k.clone(), *v)).filter(|e| after.is_none_or(|a| e.0 > *a)).collect()
    }

    // Makes a call whose answer by the model is given, with the model after it; says what is not the same.
    pub fn call(&mut self, call: &Call, model: &Model, answer: &[u8]) -> Option<String> {
        let same = |what: &str, ours: String, theirs: String| {
            if ours == theirs {
                None
            } else {
                Some(format!("{what}: by document 01 {ours}, the original {theirs}"))
            }
        };
        if let Call::Space(_) = call {
            *self = Original::new();
            return None;
        }
        let number = *answer.first()?;
        match call {
            Call::Create(limit) if number == 0 => {
                *self = Original::new();
                self.limit(*limit);
                None
            }
            _ if model.store.is_none() || number == KEY || number == FULL => None,
            Call::Limit(limit) => {
                self.limit(*limit);
                None
            }
            Call::IsEmpty => same("is_empty", (answer[1] == 1).to_string(), self.0.is_empty().to_string()),
            Call::Insert(k, v) => {
                let new = self.0.insert(k.clone(), *v);
                let wanted = if number == HEIGHT { None } else { Some(v) };
                same("insert", (number == 0).to_string(), new.to_string())
                    .or_else(|| same("get after insert", format!("{wanted:?}"), format!("{:?}", self.0.get(k))))
            }
            Call::Get(k) => {
                let value = u32::from_le_bytes(answer[1..5].try_into().unwrap());
                let wanted = if number == 0 { Some(&value) } else { None };
                same("get", format!("{wanted:?}"), format!("{:?}", self.0.get(k)))
            }
            Call::Overwrite(k, v) => {
                let found = self.0.get_mut(k).map(|old| *old = *v).is_some();
                same("get_mut", (number == 0).to_string(), found.to_string())
            }
            Call::Remove(k) => same("remove", (number == 0).to_string(), self.0.remove(k).to_string()),
            Call::First(p) | Call::Next(p, _) if number == 0 => {
                let after = if let Call::Next(_, a) = call { Some(a) } else { None };
                let all = Page { n: u32::MAX, ..p.clone() };
                let (wanted, _) = model.store.as_ref()?.page(&all, after);
                same("listing", format!("{wanted:?}"), format!("{:?}", self.listing(p, after)))
            }
            _ => None,
        }
    }
}

#[cfg(not(original))]
pub struct Original;

#[cfg(not(original))]
pub const PRESENT: bool = false;

#[cfg(not(original))]
impl Original {
    pub fn new() -> Original {
        let _ = (FULL, HEIGHT, KEY, std::mem::size_of::<(Key, Page)>());
        Original
    }

    pub fn call(&mut self, _call: &Call, _model: &Model, _answer: &[u8]) -> Option<String> {
        None
    }
}
