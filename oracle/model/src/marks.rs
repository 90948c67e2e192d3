//! Which rules fired. The names are those of `rules.txt`: one on each line, then its meaning.

use std::cell::RefCell;
use std::sync::OnceLock;

pub const TEXT: &str = include_str!("../../rules.txt");

/// The names in the order of the file.
pub fn names() -> &'static [&'static str] {
    static NAMES: OnceLock<Vec<&'static str>> = OnceLock::new();
    NAMES.get_or_init(|| {
        let named = |l: &&'static str| !l.is_empty() && !l.starts_with('#');
        TEXT.lines().filter(named).map(|l| l.split(' ').next().unwrap()).collect()
    })
}

pub fn index(name: &str) -> usize {
    match names().iter().position(|n| *n == name) {
        Some(i) => i,
        None => panic!("rules.txt has no rule {name}"),
    }
}

thread_local! {
    static FIRED: RefCell<Vec<u32>> = RefCell::new(vec![0; names().len()]);
}

pub fn fire(index: usize) {
    FIRED.with(|f| f.borrow_mut()[index] += 1);
}

/// How often each rule fired since the last call.
pub fn take() -> Vec<u32> {
    FIRED.with(|f| f.replace(vec![0; names().len()]))
}

#[macro_export]
macro_rules! mark {
    ($name:literal) => {{
        static INDEX: std::sync::OnceLock<usize> = std::sync::OnceLock::new();
        $crate::marks::fire(*INDEX.get_or_init(|| $crate::marks::index($name)));
    }};
}
