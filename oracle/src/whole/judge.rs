//! What is compared, and what counts as a difference. README.md has the rules.

use crate::axes::rules::Answer;
use crate::deciding::{Decided, WHYS};
use crate::falling::{Falls, FALLS};
use crate::store::rules::{Rows, COUNTED, UNCOUNTED};
use std::fmt::Debug;

#[derive(Clone, Copy, PartialEq)]
pub enum Function {
    Counts,
    Axis,
    AxisByTag,
    Instance,
    NormalizedCoord,
    NormalizedCoords,
    InstanceCoords,
    Measures,
    ScaleMeasures,
    LinearScaleMeasures,
    Synthesize,
    AdvanceWidth,
    Lsb,
    AdvanceHeight,
    Tsb,
    VerticalOrigin,
    HmtxAdvance,
    HmtxSb,
    VmtxAdvance,
    VmtxSb,
    Vorg,
    AdjustedWidth,
    AdjustedLsb,
    AdjustedHeight,
    AdjustedTsb,
    VorgOrigin,
    TopOrigin,
}

pub const FUNCTIONS: [&str; 27] = [
    "axis_count, instance_count",
    "axis",
    "axis_by_tag",
    "instance, instance_floats",
    "normalized_coords, one axis",
    "normalized_coords",
    "instance_coords",
    "materialize_metrics",
    "scale_metrics",
    "linear_scale_metrics",
    "synthesize",
    "advance_width",
    "lsb",
    "advance_height",
    "tsb",
    "vertical_origin",
    "xmtx_advance, hmtx",
    "xmtx_sb, hmtx",
    "xmtx_advance, vmtx",
    "xmtx_sb, vmtx",
    "vorg_origin",
    "adjusted_advance, hmtx and HVAR",
    "adjusted_sb, hmtx and HVAR",
    "adjusted_advance, vmtx and VVAR",
    "adjusted_sb, vmtx and VVAR",
    "vertical_origin of vorg_origin",
    "vertical_origin of xmtx_sb",
];

/// What the Rust does.
#[derive(Clone, PartialEq)]
pub enum Rust<T> {
    Answer(T),
    None,
    Stops,
}

#[derive(Clone, Copy, Default)]
pub struct Tally {
    pub cases: u64,
    /// the Rust's answer
    pub equal: u64,
    /// document 01's, where the Rust's is another, that of skrifa's avar rule
    pub decided: u64,
    /// the refusal of the rules where the Rust answers `None`
    pub none: u64,
    /// what the rules say where it stops
    pub stops: u64,
    /// what they say where a row outside its subtable's item count is met, whatever the Rust does
    pub outside: u64,
    /// the refusal of the rules where the Rust answers what it has in the place of what can't be read
    pub falls: u64,
    /// what the rules say of an instance, where the Rust has another PostScript name id, and all else is the Rust's
    pub other_name: u64,
    pub differences: u64,
}

impl Tally {
    pub fn add(&mut self, other: &Tally) {
        self.cases += other.cases;
        self.equal += other.equal;
        self.decided += other.decided;
        self.none += other.none;
        self.stops += other.stops;
        self.outside += other.outside;
        self.falls += other.falls;
        self.other_name += other.other_name;
        self.differences += other.differences;
    }

    pub fn columns(&self) -> [u64; COLUMNS.len()] {
        [
            self.cases,
            self.equal,
            self.none,
            self.stops,
            self.decided,
            self.outside,
            self.falls,
            self.other_name,
            self.differences,
        ]
    }
}

pub const COLUMNS: [&str; 9] = [
    "cases",
    "equal",
    "None",
    "Rust stops",
    "01 decides",
    "past count",
    "ours refuses",
    "other name",
    "differences",
];

/// All that is counted of one state of a font, with the coordinates where document 01 decides, and with what ours refuses
/// to read, by the reason.
#[derive(Clone, Copy, Default)]
pub struct Counts {
    pub functions: [Tally; FUNCTIONS.len()],
    pub whys: [u64; WHYS.len()],
    pub falls: [u64; FALLS.len()],
}

/// What is read from a font.
pub struct Read {
    /// by the rules
    pub said: Answer<f32>,
    /// by the second model, of what swash reads; none where it stops
    pub theirs: Option<f32>,
    /// whether a row outside its subtable's item count is met
    pub outside: bool,
    /// what swash has where the rules refuse
    pub falls: Option<Falls>,
}

/// Floats by the rules.
pub struct Floats {
    pub floats: Vec<f32>,
    /// whether a delta on the way is refused by 5
    pub refused_by_5: bool,
    /// whether a row outside its subtable's item count is met
    pub outside: bool,
}

pub struct Judge {
    /// the font, and what was done to it
    pub input: String,
    counts: Counts,
    /// how many differences of each function were listed
    listed: [u64; FUNCTIONS.len()],
    /// whether each answer is printed
    loud: bool,
}

/// So many differences of each function are listed; all are counted.
const LISTED: u64 = 20;

/// Stands for a refusal that changed a lent list, which none may.
pub const CHANGED: u8 = 255;

fn answer_text<T: Debug>(answer: &Answer<T>) -> String {
    match answer {
        Ok(value) => format!("{:?}", value),
        Err(CHANGED) => "a refusal that changed a list".to_string(),
        Err(number) => format!("refusal {}", number),
    }
}

fn rust_text<T: Debug>(rust: &Rust<T>) -> String {
    match rust {
        Rust::Answer(answer) => format!("{:?}", answer),
        Rust::None => "None".to_string(),
        Rust::Stops => "a stop".to_string(),
    }
}

impl Judge {
    pub fn new(loud: bool) -> Self {
        Judge {
            input: String::new(),
            counts: Counts::default(),
            listed: [0; FUNCTIONS.len()],
            loud,
        }
    }

    pub fn take(&mut self) -> Counts {
        std::mem::take(&mut self.counts)
    }

    fn difference(&mut self, function: Function, arguments: String, texts: [String; 3]) {
        self.counts.functions[function as usize].differences += 1;
        let listed = &mut self.listed[function as usize];
        *listed += 1;
        if *listed > LISTED {
            return;
        }
        println!("difference: {}", self.input);
        println!("    {}, {}", FUNCTIONS[function as usize], arguments);
        println!(
            "    ours {}; the Rust {}; the rules {}",
            texts[0], texts[1], texts[2]
        );
    }

    /// One case. By the rules an answer is the Rust's, `None` is one of 1 to 4, a stop is 5, or 2 where
    /// `few_left` says so. Ours is what the rules say.
    pub fn judge<T: PartialEq + Debug>(
        &mut self,
        function: Function,
        arguments: impl Fn() -> String,
        rust: Rust<T>,
        ours: Answer<T>,
        rule: Answer<T>,
        few_left: bool,
    ) {
        self.case(function, arguments, rust, ours, (rule, None), few_left);
    }

    /// The same for an instance. Where the Rust has another PostScript name id there are two answers: ours is the rule's, and
    /// the Rust's that of the second model, which counts as the Rust does.
    pub fn instance<T: PartialEq + Debug>(
        &mut self,
        function: Function,
        arguments: impl Fn() -> String,
        rust: Rust<T>,
        ours: Answer<T>,
        (rule, theirs): (Answer<T>, Answer<T>),
        few_left: bool,
    ) {
        let second = (rule != theirs).then_some(theirs);
        self.case(function, arguments, rust, ours, (rule, second), few_left);
    }

    fn case<T: PartialEq + Debug>(
        &mut self,
        function: Function,
        arguments: impl Fn() -> String,
        rust: Rust<T>,
        ours: Answer<T>,
        (rule, other_name): (Answer<T>, Option<Answer<T>>),
        few_left: bool,
    ) {
        let tally = &mut self.counts.functions[function as usize];
        tally.cases += 1;
        let theirs = other_name.as_ref().unwrap_or(&rule);
        let (mut count, fits) = match &rust {
            Rust::Answer(answer) => (&mut tally.equal, theirs.as_ref() == Ok(answer)),
            Rust::None => (&mut tally.none, matches!(theirs, Err(1..=4))),
            Rust::Stops => (
                &mut tally.stops,
                *theirs == Err(5) || (*theirs == Err(2) && few_left),
            ),
        };
        if other_name.is_some() {
            count = &mut tally.other_name;
        }
        if fits && ours == rule {
            *count += 1;
        } else {
            let mut done = rust_text(&rust);
            if let Some(theirs) = &other_name {
                done += &format!(", by its own rule {}", answer_text(theirs));
            }
            let texts = [answer_text(&ours), done, answer_text(&rule)];
            self.difference(function, arguments(), texts);
        }
    }

    /// The same for coordinates, each with the Rust's own where document 01 decides.
    pub fn coords(
        &mut self,
        function: Function,
        arguments: impl Fn() -> String,
        rust: Rust<Vec<i16>>,
        ours: Answer<Vec<i16>>,
        rule: Answer<Vec<i16>>,
        decided: &[Option<Decided>],
        few_left: bool,
    ) {
        if self.loud {
            let (theirs, ours) = (rust_text(&rust), answer_text(&ours));
            let why = decided[0].map_or(String::new(), |d| format!(" ({})", WHYS[d.why as usize]));
            println!(
                "{}, {}: swash {}, ours {}{}",
                self.input,
                arguments(),
                theirs,
                ours,
                why
            );
        }
        let said = match &rule {
            Ok(said) if decided.iter().any(Option::is_some) => said,
            _ => return self.judge(function, arguments, rust, ours, rule, few_left),
        };
        let theirs =
            |(said, decided): (&i16, &Option<Decided>)| decided.map_or(*said, |d| d.theirs);
        let expected: Vec<i16> = said.iter().zip(decided).map(theirs).collect();
        let tally = &mut self.counts.functions[function as usize];
        tally.cases += 1;
        let expected = Rust::Answer(expected);
        if rust == expected && ours == rule {
            tally.decided += 1;
            for decided in decided.iter().flatten() {
                self.counts.whys[decided.why as usize] += 1;
            }
        } else {
            let rust = format!(
                "{}, by skrifa's rule {}",
                rust_text(&rust),
                rust_text(&expected)
            );
            let texts = [answer_text(&ours), rust, answer_text(&rule)];
            self.difference(function, arguments(), texts);
        }
    }

    /// A float, or some. Ours is what the rules say. So is the Rust's, and where it stops a delta is refused by 5;
    /// but where a row outside an item count is met it is held to the second model, which does not look at the count.
    pub fn floats(
        &mut self,
        function: Function,
        arguments: impl Fn() -> String,
        rust: Option<&[f32]>,
        ours: &[f32],
        rule: impl Fn(Rows) -> Floats,
    ) {
        let tally = &mut self.counts.functions[function as usize];
        tally.cases += 1;
        let said = rule(COUNTED);
        let uncounted = match said.outside {
            true => Some(rule(UNCOUNTED)),
            false => None,
        };
        let theirs = uncounted.as_ref().unwrap_or(&said);
        let fits = match rust {
            Some(floats) => !theirs.refused_by_5 && same(floats, &theirs.floats),
            None => theirs.refused_by_5,
        };
        if fits && same(ours, &said.floats) {
            match rust {
                _ if said.outside => tally.outside += 1,
                Some(_) => tally.equal += 1,
                None => tally.stops += 1,
            }
            return;
        }
        let mut done = rust.map_or("a stop".to_string(), |floats| format!("{:?}", floats));
        if let Some(theirs) = &uncounted {
            done += &format!(", without the item count {:?}", theirs.floats);
        }
        let texts = [format!("{:?}", ours), done, format!("{:?}", said.floats)];
        self.difference(function, arguments(), texts);
    }

    /// A number or a metric that is read from the font. Ours is what the rules say, and the Rust's what the second model
    /// says; the two are one where nothing is refused and no row outside an item count is met.
    pub fn read(
        &mut self,
        function: Function,
        arguments: impl Fn() -> String,
        rust: Option<f32>,
        ours: Answer<f32>,
        read: Read,
    ) {
        let tally = &mut self.counts.functions[function as usize];
        tally.cases += 1;
        let fits = match (rust, read.theirs) {
            (Some(x), Some(y)) => same(&[x], &[y]),
            (x, y) => x.is_none() && y.is_none(),
        };
        let as_said = match (&ours, &read.said) {
            (Ok(x), Ok(y)) => same(&[*x], &[*y]),
            (x, y) => x == y,
        };
        if fits && as_said {
            let count = match (rust, &ours, read.falls) {
                _ if read.outside => Some(&mut tally.outside),
                (None, _, _) => Some(&mut tally.stops),
                (Some(_), Err(_), Some(falls)) => {
                    self.counts.falls[falls as usize] += 1;
                    Some(&mut tally.falls)
                }
                (Some(x), Ok(y), _) if same(&[x], &[*y]) => Some(&mut tally.equal),
                _ => None,
            };
            if let Some(count) = count {
                *count += 1;
                return;
            }
        }
        let text = |x: Option<f32>| x.map_or("a stop".to_string(), |x| format!("{:?}", x));
        let done = format!("{}, by its own rule {}", text(rust), text(read.theirs));
        let texts = [answer_text(&ours), done, answer_text(&read.said)];
        self.difference(function, arguments(), texts);
    }
}

/// By their bits, a NaN as a NaN.
fn same(a: &[f32], b: &[f32]) -> bool {
    a.len() == b.len()
        && a.iter()
            .zip(b)
            .all(|(a, b)| a.to_bits() == b.to_bits() || (a.is_nan() && b.is_nan()))
}
