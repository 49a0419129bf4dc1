//! A struct for each call of the interface: its arguments, and how to ask the library and the original for the answer.

use crate::library::*;
use crate::words::{answer_hex, hex, Words};
use crate::{library, rust};

pub trait Call {
    const NAME: &'static str;
    type Answer: Words;

    fn library(&self) -> Self::Answer;
    fn original(&self) -> Self::Answer;
    /// Each argument's name and words.
    fn arguments(&self) -> Vec<(&'static str, String)>;
}

macro_rules! calls {
    ($($call:ident $name:ident = $symbol:ident($($argument:ident: $kind:ty),*) -> $answer:ty;)*) => {$(
        pub struct $call {
            $(pub $argument: $kind,)*
        }

        impl Call for $call {
            const NAME: &'static str = stringify!($name);
            type Answer = $answer;

            fn library(&self) -> $answer {
                library::$name($(self.$argument),*)
            }

            fn original(&self) -> $answer {
                rust::$name($(self.$argument),*)
            }

            fn arguments(&self) -> Vec<(&'static str, String)> {
                vec![$((stringify!($argument), hex(&self.$argument)),)*]
            }
        }
    )*};
}

interface! { calls }

/// The call as a line for a program that replays it: `name arguments.. = answers..`.
pub fn line<C: Call>(call: &C) -> String {
    let words: Vec<String> = call.arguments().into_iter().map(|(_, words)| words).collect();
    format!("{} {} = {}", C::NAME, words.join(" "), answer_hex(&call.original()))
}

/// What to print where the two answers differ.
fn difference<C: Call>(call: &C, library: &C::Answer, original: &C::Answer) -> String {
    let mut text = format!("{}: DIFFERENT\n", C::NAME);
    for (argument, words) in call.arguments() {
        text += &format!("  {argument}: {words}\n");
    }
    text + &format!("  library: {}\n  Rust: {}", hex(library), hex(original))
}

/// How many calls were compared so far.
#[derive(Default)]
pub struct Tally {
    pub compared: u64,
}

impl Tally {
    /// Compares one call.
    pub fn check<C: Call>(&mut self, call: C) -> Result<(), String> {
        let (library, original) = (call.library(), call.original());
        if !library.alike(&original) {
            return Err(difference(&call, &library, &original));
        }
        self.compared += 1;
        Ok(())
    }
}
