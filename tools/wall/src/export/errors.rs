//! All that is wrong with a file, said at once.
use crate::fault::Fault;

/// How many are said.
const SAID: usize = 50;

#[derive(Default)]
pub struct Errors {
    list: Vec<Fault>,
    more: usize,
}

impl Errors {
    /// What a result has, where it isn't a fault, which is kept.
    pub fn take<T>(&mut self, result: Result<T, Fault>) -> Option<T> {
        match result {
            Ok(value) => Some(value),
            Err(fault) => {
                self.add(fault);
                None
            }
        }
    }

    pub fn add(&mut self, fault: Fault) {
        if self.list.len() < SAID {
            self.list.push(fault);
        } else {
            self.more += 1;
        }
    }

    /// A fault with all of them, where there is one; in the order of their places.
    pub fn finished(mut self) -> Result<(), Fault> {
        self.list.sort_by_key(Fault::order);
        match (self.list.pop(), self.list.is_empty()) {
            (None, _) => Ok(()),
            (Some(only), true) => Err(only),
            (Some(last), false) => {
                self.list.push(last);
                Err(Fault::Many { list: self.list, more: self.more })
            }
        }
    }
}
