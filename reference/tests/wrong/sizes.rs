//! Interpreters with a mistake of the register size, by its name in the code.

use reference::generate::size_mistakes::SizeMistake;
use reference::programs::Interpreter;
use std::sync::OnceLock;

/// An interpreter has no room for the mistake.
static MISTAKE: OnceLock<SizeMistake> = OnceLock::new();

/// The interpreter with the mistake of a name, if there is one.
pub fn mistake(way: &str) -> Option<Interpreter> {
    let named = |it: &SizeMistake| format!("{it:?}") == way;
    let mistake = SizeMistake::ALL.into_iter().find(named)?;
    MISTAKE.set(mistake).unwrap();
    Some(|case| MISTAKE.get().unwrap().bench(case))
}
