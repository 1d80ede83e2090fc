//! What is compared, and what counts as a difference. README.md has the table.

use super::lists::Filling;
use crate::axes::rules::Answer;
use std::cell::Cell;
use std::fmt::Debug;
use std::panic::{catch_unwind, AssertUnwindSafe};
use std::time::{Duration, Instant};

/// What the Rust does.
#[derive(Clone, Copy)]
pub enum Rust<T> {
    Answer(T),
    /// answers `None`, with no number
    None,
    /// panics, by an overflow check
    Stops,
    /// has no counterpart: a list too short, lists of different length
    Silent,
}

thread_local! {
    /// whether the Rust is being asked: there a panic is an answer, elsewhere a fault of the program's
    static ASKED: Cell<bool> = const { Cell::new(false) };
}

/// What comes of asking the Rust.
pub fn asked<T>(question: impl FnOnce() -> Rust<T>) -> Rust<T> {
    ASKED.with(|asked| asked.set(true));
    let done = catch_unwind(AssertUnwindSafe(question)).unwrap_or(Rust::Stops);
    ASKED.with(|asked| asked.set(false));
    done
}

pub fn is_asked() -> bool {
    ASKED.with(Cell::get)
}

/// The functions of the library that are compared.
#[derive(Clone, Copy, PartialEq)]
pub enum Function {
    Counts,
    Axis,
    AxisByTag,
    Instance,
    InstanceFloats,
    NormalizedCoords,
    InstanceCoords,
    HvarAdvanceFixed,
    HvarAdvance,
    HvarSbFixed,
    HvarSb,
    VvarAdvanceFixed,
    VvarAdvance,
    VvarSbFixed,
    VvarSb,
    MvarFixed,
    Mvar,
    HvarAdvanceFixedWith,
    HvarAdvanceWith,
    HvarSbFixedWith,
    HvarSbWith,
    VvarAdvanceFixedWith,
    VvarAdvanceWith,
    VvarSbFixedWith,
    VvarSbWith,
    MvarFixedWith,
    MvarWith,
}

impl Function {
    /// The same delta, read with a filled list.
    pub fn with(self) -> Self {
        match self {
            Function::HvarAdvanceFixed => Function::HvarAdvanceFixedWith,
            Function::HvarAdvance => Function::HvarAdvanceWith,
            Function::HvarSbFixed => Function::HvarSbFixedWith,
            Function::HvarSb => Function::HvarSbWith,
            Function::VvarAdvanceFixed => Function::VvarAdvanceFixedWith,
            Function::VvarAdvance => Function::VvarAdvanceWith,
            Function::VvarSbFixed => Function::VvarSbFixedWith,
            Function::VvarSb => Function::VvarSbWith,
            Function::MvarFixed => Function::MvarFixedWith,
            Function::Mvar => Function::MvarWith,
            other => other,
        }
    }
}

pub const FUNCTIONS: [&str; 27] = [
    "axis_count, instance_count",
    "axis",
    "axis_by_tag",
    "instance",
    "instance_floats",
    "normalized_coords",
    "instance_coords",
    "advance_delta_fixed, HVAR",
    "advance_delta, HVAR",
    "sb_delta_fixed, HVAR",
    "sb_delta, HVAR",
    "advance_delta_fixed, VVAR",
    "advance_delta, VVAR",
    "sb_delta_fixed, VVAR",
    "sb_delta, VVAR",
    "mvar_delta_fixed",
    "mvar_delta",
    "Scalars, advance_delta_fixed, HVAR",
    "Scalars, advance_delta, HVAR",
    "Scalars, sb_delta_fixed, HVAR",
    "Scalars, sb_delta, HVAR",
    "Scalars, advance_delta_fixed, VVAR",
    "Scalars, advance_delta, VVAR",
    "Scalars, sb_delta_fixed, VVAR",
    "Scalars, sb_delta, VVAR",
    "MvarScalars, delta_fixed",
    "MvarScalars, delta",
];

#[derive(Clone, Copy, Default)]
pub struct Tally {
    pub cases: u64,
    /// the Rust's answer
    pub equal: u64,
    /// the refusal of the rules where the Rust answers `None`
    pub none: u64,
    /// the same where it stops
    pub stops: u64,
    /// the same where it has no counterpart
    pub silent: u64,
    /// refusal 3, where the row is outside its subtable's item count, whatever the Rust does
    pub outside: u64,
    /// what the rules say of an instance, where the Rust has another PostScript name id, and all else is the Rust's
    pub other_name: u64,
    pub differences: u64,
}

pub const COLUMNS: [&str; 8] = [
    "cases",
    "equal",
    "None",
    "Rust stops",
    "Rust silent",
    "past count",
    "other name",
    "differences",
];

impl Tally {
    pub fn add(&mut self, other: &Tally) {
        self.cases += other.cases;
        self.equal += other.equal;
        self.none += other.none;
        self.stops += other.stops;
        self.silent += other.silent;
        self.outside += other.outside;
        self.other_name += other.other_name;
        self.differences += other.differences;
    }

    pub fn columns(&self) -> [u64; COLUMNS.len()] {
        [
            self.cases,
            self.equal,
            self.none,
            self.stops,
            self.silent,
            self.outside,
            self.other_name,
            self.differences,
        ]
    }
}

/// What the Rust is held to where the rules have another answer.
enum Second<T> {
    /// the rules without the item count
    Uncounted(Answer<T>),
    /// the rules with the Rust's PostScript name id
    OtherName(Answer<T>),
}

/// Stands for a refusal that changed a lent list, which none may.
pub const CHANGED: u8 = 255;

pub struct Judge {
    /// the font, and what was done to it
    pub input: String,
    /// for the progress: which of how many fonts
    pub place: String,
    pub tallies: [Tally; FUNCTIONS.len()],
    /// where stores are, and lists filled, which the Rust has not
    pub filling: Filling,
    said: Instant,
}

impl Judge {
    pub fn new() -> Self {
        Judge {
            input: String::new(),
            place: String::new(),
            tallies: [Tally::default(); FUNCTIONS.len()],
            filling: Filling::default(),
            said: Instant::now(),
        }
    }

    /// Forgets the counts, and answers them.
    pub fn take(&mut self) -> [Tally; FUNCTIONS.len()] {
        std::mem::replace(&mut self.tallies, [Tally::default(); FUNCTIONS.len()])
    }

    /// Says now and then how far it is.
    pub fn progress(&mut self) {
        if self.said.elapsed() >= Duration::from_secs(3) {
            let cases: u64 = self.tallies.iter().map(|tally| tally.cases).sum();
            eprintln!("shelf: {}: {cases} cases so far", self.place);
            self.said = Instant::now();
        }
    }

    /// One case. By the rules an answer is the Rust's, `None` is one of 1 to 4, what has no counterpart 6
    /// or 7; a stop is 5, or 2 where `few_left` says so. Ours is what the rules say.
    pub fn judge<T: PartialEq + Debug>(
        &mut self,
        function: Function,
        arguments: impl Fn() -> String,
        rust: Rust<T>,
        ours: Answer<T>,
        rule: impl FnOnce() -> Answer<T>,
        few_left: impl FnOnce() -> bool,
    ) {
        self.case(function, arguments, rust, ours, (rule(), None), few_left);
    }

    /// The same for an instance's name ids. Where the Rust has another PostScript name id there are two answers: ours is
    /// the rule's, and the Rust's that of the second model, which counts as the Rust does.
    pub fn instance<T: PartialEq + Debug>(
        &mut self,
        function: Function,
        arguments: impl Fn() -> String,
        rust: Rust<T>,
        ours: Answer<T>,
        (said, theirs): (Answer<T>, Answer<T>),
        few_left: impl FnOnce() -> bool,
    ) {
        let second = (said != theirs).then_some(Second::OtherName(theirs));
        self.case(function, arguments, rust, ours, (said, second), few_left);
    }

    /// The same for a delta. Where its row is outside the item count there are two answers: ours is the rule's, and the
    /// Rust's that of the second model, which does not look at the count.
    pub fn delta<T: PartialEq + Debug>(
        &mut self,
        function: Function,
        arguments: impl Fn() -> String,
        rust: Rust<T>,
        ours: Answer<T>,
        (said, uncounted): (Answer<T>, Option<Answer<T>>),
    ) {
        let second = uncounted.map(Second::Uncounted);
        self.case(function, arguments, rust, ours, (said, second), || false);
    }

    fn case<T: PartialEq + Debug>(
        &mut self,
        function: Function,
        arguments: impl Fn() -> String,
        rust: Rust<T>,
        ours: Answer<T>,
        (said, second): (Answer<T>, Option<Second<T>>),
        few_left: impl FnOnce() -> bool,
    ) {
        let tally = &mut self.tallies[function as usize];
        tally.cases += 1;
        let theirs = match &second {
            Some(Second::Uncounted(theirs) | Second::OtherName(theirs)) => theirs,
            None => &said,
        };
        let (mut count, fits) = match &rust {
            Rust::Answer(answer) => (&mut tally.equal, theirs.as_ref() == Ok(answer)),
            Rust::None => (&mut tally.none, matches!(theirs, Err(1..=4))),
            Rust::Stops => {
                let fits = *theirs == Err(5) || (*theirs == Err(2) && few_left());
                (&mut tally.stops, fits)
            }
            Rust::Silent => (&mut tally.silent, matches!(theirs, Err(6..=7))),
        };
        match second {
            Some(Second::Uncounted(_)) => count = &mut tally.outside,
            Some(Second::OtherName(_)) => count = &mut tally.other_name,
            None => (),
        }
        // the rules' answer is the Rust's where that answers, and there is no second one
        let same = ours == said;
        if fits && same {
            *count += 1;
            return;
        }
        tally.differences += 1;
        let done = match rust {
            Rust::Answer(answer) => format!("{answer:?}"),
            Rust::None => "None".to_string(),
            Rust::Stops => "a stop".to_string(),
            Rust::Silent => "no counterpart".to_string(),
        };
        println!("difference: {}", self.input);
        println!("    {}, {}", FUNCTIONS[function as usize], arguments());
        println!("    ours {}", answer_text(&ours));
        println!("    the Rust {done}; the rules {}", answer_text(&said));
        match &second {
            Some(Second::Uncounted(theirs)) => {
                println!("    without the item count {}", answer_text(theirs))
            }
            Some(Second::OtherName(theirs)) => {
                println!("    with the Rust's name id {}", answer_text(theirs))
            }
            None => (),
        }
    }
}

fn answer_text<T: Debug>(answer: &Answer<T>) -> String {
    match answer {
        Ok(value) => format!("{value:?}"),
        Err(CHANGED) => "a refusal that changed a list".to_string(),
        Err(number) => format!("refusal {number}"),
    }
}
