//! The cases of one font: each is asked of swash, of the library and of the rules.

use super::font::{u16_at, u32_at, Font};
use super::judge::{asked, Function, Judge, Rust, CHANGED};
use super::lists::{self, Question, Table};
use crate::axes::rules::{self as axis_rules, Answer, NO_AVAR};
use crate::lines::rules as line_rules;
use crate::numbers::rules::to_f32;
use crate::private::internal::fixed::Fixed;
use crate::private::internal::var::{self, Fvar, VarAxis};
use crate::private::internal::{raw_tag, shown};
use crate::private::setting::Setting;
use crate::private::variation::{Instances, Variation, Variations};
use crate::private::FontRef;
use crate::random::Random;
use crate::store::rules::{self as store_rules, Map, Rows, COUNTED, UNCOUNTED};
use crate::suolluvik::{self, MvarScalars, Refusal, Scalars};
use crate::tags::TAGS;

/// A tag that no font has.
const UNKNOWN: u32 = raw_tag(b"\x01no\x7f");

/// What a list that is written to holds before: no float of a 16.16 number, no coordinate.
const FLOAT_MARK: u32 = 0x7f7f_ffff;
const COORD_MARK: i16 = 32767;

/// So many pairs of a glyph and a coordinate list are asked for of each table; but each list that is
/// taken is asked for at every glyph.
const PAIRS: usize = 4_000_000;

/// Index, tag, min, default, max, flags, name id, whether it is hidden, min, default and max as the
/// bits of floats.
type AxisAnswer = (u16, u32, [i32; 3], u16, u16, bool, [u32; 3]);

fn swash_axis(variation: Variation) -> AxisAnswer {
    let floats = [
        variation.min_value(),
        variation.default_value(),
        variation.max_value(),
    ];
    axis_answer(variation.axis(), variation.is_hidden(), floats)
}

fn axis_answer(axis: VarAxis, hidden: bool, floats: [f32; 3]) -> AxisAnswer {
    (
        axis.index,
        axis.tag,
        [axis.min.0, axis.default.0, axis.max.0],
        axis.flags,
        axis.name_id,
        hidden,
        floats.map(f32::to_bits),
    )
}

fn bare_axis(axis: VarAxis) -> AxisAnswer {
    let floats = [axis.min, axis.default, axis.max].map(Fixed::to_f32);
    axis_answer(axis, axis.is_hidden(), floats)
}

fn our_axis(axis: Result<suolluvik::Axis, Refusal>) -> Answer<AxisAnswer> {
    let axis = axis.map_err(Refusal::number)?;
    Ok((
        axis.index,
        axis.tag,
        [axis.min, axis.default, axis.max],
        axis.flags,
        axis.name_id,
        axis.is_hidden(),
        [axis.min_value(), axis.default_value(), axis.max_value()].map(f32::to_bits),
    ))
}

fn rule_axis(axis: Answer<axis_rules::Axis>) -> Answer<AxisAnswer> {
    let axis = axis?;
    let numbers = [axis.min, axis.default, axis.max];
    Ok((
        axis.index as u16,
        axis.tag,
        numbers.map(|n| n as i32),
        axis.flags as u16,
        axis.name_id as u16,
        axis.flags % 2 == 1,
        numbers.map(to_f32),
    ))
}

fn option<T>(answer: Option<T>) -> Rust<T> {
    answer.map_or(Rust::None, Rust::Answer)
}

/// The whole list, once its first elements were written.
fn written<T: Copy>(elements: impl IntoIterator<Item = T>, mark: T, room: usize) -> (u16, Vec<T>) {
    let mut list: Vec<T> = elements.into_iter().collect();
    let count = list.len() as u16;
    list.resize(room, mark);
    (count, list)
}

/// The same of ours: a refusal leaves each mark.
fn our_list<T: Copy, U: PartialEq + Copy>(
    answer: Result<u16, Refusal>,
    list: Vec<T>,
    mark: U,
    shown: fn(T) -> U,
) -> Answer<(u16, Vec<U>)> {
    let list: Vec<U> = list.into_iter().map(shown).collect();
    match answer {
        Ok(count) => Ok((count, list)),
        Err(refusal) if list.iter().all(|element| *element == mark) => Err(refusal.number()),
        Err(_) => Err(CHANGED),
    }
}

/// A delta of ours in its two forms.
type Ours = (Result<i32, Refusal>, Result<f32, Refusal>);

/// The same delta through a filled list: ours, and by the rules.
type Through = Option<(Ours, Answer<i64>)>;

pub struct Asker<'a, 'j> {
    pub font: Font<'a>,
    pub judge: &'j mut Judge,
    pub random: Random,
    /// few coordinate lists and a sample of the glyphs
    pub brief: bool,
}

impl<'a> Asker<'a, '_> {
    pub fn all(&mut self) {
        self.counts();
        self.axes();
        self.instances();
        self.settings();
        let lists = self.lists();
        self.stores();
        for (k, list) in lists.iter().enumerate() {
            self.measures(k, list);
        }
        self.glyphs(&lists);
    }

    fn store<'q>(&self, table: Table, coords: &'q [i16]) -> Question<'q>
    where
        'a: 'q,
    {
        let at = match table {
            Table::Hvar => self.font.hvar,
            Table::Vvar => self.font.vvar,
            Table::Mvar => self.font.mvar,
        };
        let font = self.font.data;
        Question {
            font,
            table,
            at,
            coords,
        }
    }

    fn stores(&mut self) {
        for table in [Table::Hvar, Table::Vvar, Table::Mvar] {
            let asked = self.store(table, &[]);
            self.judge.filling.offset(&self.judge.input, asked);
        }
    }

    /// What the rules leave in a table's list, and room for the library's: for every other coordinate list just
    /// enough, else three elements more.
    fn filled(&mut self, table: Table, k: usize, coords: &[i16]) -> (Vec<i32>, Vec<i32>) {
        let asked = self.store(table, coords);
        let said = self.judge.filling.fill(&self.judge.input, asked);
        let room = lists::unfilled(said.len() + 3 * (k % 2));
        (said, room)
    }

    fn axis_count(&self) -> usize {
        Fvar::new(self.font.fvar).axis_count() as usize
    }

    /// Indices below a count, one past it and the last of all. Of a damaged font not all of many.
    fn indices(&self, count: usize) -> Vec<u16> {
        let most = if self.brief { count.min(24) } else { count };
        let mut indices: Vec<u16> = (0..most).map(|i| i as u16).collect();
        for i in [count.saturating_sub(1), count, 65535] {
            let i = i.min(65535) as u16;
            if !indices.contains(&i) {
                indices.push(i);
            }
        }
        indices
    }

    /// The axes that swash can read, of a damaged font not all of many.
    fn readable(&self) -> Vec<VarAxis> {
        let fvar = Fvar::new(self.font.fvar);
        let most = if self.brief { 6 } else { 65535 };
        (0..fvar.axis_count())
            .map_while(|i| fvar.get_axis(i))
            .take(most)
            .collect()
    }

    fn counts(&mut self) {
        let table = self.font.fvar;
        let fvar = Fvar::new(table);
        let rust = (fvar.axis_count(), fvar.instance_count());
        let ours = (
            suolluvik::axis_count(table),
            suolluvik::instance_count(table),
        );
        let rule = || {
            let header = axis_rules::header(table);
            Ok((header.axis_count as u16, header.instance_count as u16))
        };
        let rust = Rust::Answer(rust);
        let arguments = || "the two counts".to_string();
        self.judge
            .judge(Function::Counts, arguments, rust, Ok(ours), rule, || false);
    }

    fn axes(&mut self) {
        let table = self.font.fvar;
        let font = FontRef { data: table };
        let never = || false;
        for index in self.indices(self.axis_count()) {
            let rust = asked(|| {
                let variation = Variations::from_font(&font).at(index as usize);
                option(variation.map(swash_axis))
            });
            let ours = our_axis(suolluvik::axis(table, index));
            let rule = || rule_axis(axis_rules::axis(table, index as usize));
            let arguments = || format!("index {index}");
            self.judge
                .judge(Function::Axis, arguments, rust, ours, rule, never);
        }
        let mut tags: Vec<u32> = self.readable().iter().map(|axis| axis.tag).collect();
        tags.extend([0, raw_tag(b"wght"), UNKNOWN]);
        for tag in tags {
            let bare = asked(|| option(Fvar::new(table).get_axis_by_tag(tag).map(bare_axis)));
            let found = asked(|| {
                let variation = Variations::from_font(&font).find_by_tag(tag);
                option(variation.map(swash_axis))
            });
            for rust in [bare, found] {
                let ours = our_axis(suolluvik::axis_by_tag(table, tag));
                let rule = || rule_axis(axis_rules::axis_by_tag(table, tag));
                let arguments = || format!("tag {tag:08x}");
                self.judge
                    .judge(Function::AxisByTag, arguments, rust, ours, rule, never);
            }
        }
    }

    fn instances(&mut self) {
        let table = self.font.fvar;
        let font = FontRef { data: table };
        let axes = self.axis_count();
        for index in self.indices(Fvar::new(table).instance_count() as usize) {
            let few_left = || axis_rules::few_left(table, index as usize);
            let rust = asked(|| {
                let instance = Fvar::new(table).get_instance(index);
                option(instance.map(|i| (i.index, i.name_id, i.postscript_name_id)))
            });
            let ours = suolluvik::instance(table, index)
                .map(|i| (i.index, i.name_id, i.postscript_name_id))
                .map_err(Refusal::number);
            let rules = |postscript: fn(&axis_rules::Instance) -> Option<i128>| {
                let instance = axis_rules::instance(table, index as usize)?;
                let postscript = postscript(&instance).map(|id| id as u16);
                Ok((index, instance.name_id as u16, postscript))
            };
            let said = rules(|instance| instance.postscript_name_id);
            let theirs = rules(|instance| instance.swash_postscript_name_id);
            let arguments = || format!("index {index}");
            let function = Function::Instance;
            self.judge
                .instance(function, arguments, rust, ours, (said, theirs), few_left);
            // just enough, one too few, and two too many
            let mut rooms = vec![axes, axes + 2];
            rooms.extend(axes.checked_sub(1));
            for room in rooms {
                let arguments = || format!("index {index}, room {room}");
                let found = || Instances::from_font(&font).at(index as usize);
                let rust = asked(|| match found() {
                    None => Rust::None,
                    Some(_) if axes > room => Rust::Silent,
                    Some(instance) => {
                        let bits = instance.values().map(f32::to_bits);
                        Rust::Answer(written(bits, FLOAT_MARK, room))
                    }
                });
                let mut list = vec![f32::from_bits(FLOAT_MARK); room];
                let ours = suolluvik::instance_floats(table, index, &mut list);
                let ours = our_list(ours, list, FLOAT_MARK, f32::to_bits);
                let rule = || {
                    let values = axis_rules::instance_values(table, index as usize, room)?;
                    Ok(written(values.into_iter().map(to_f32), FLOAT_MARK, room))
                };
                let function = Function::InstanceFloats;
                self.judge
                    .judge(function, arguments, rust, ours, rule, few_left);

                let rust = asked(|| match found() {
                    None => Rust::None,
                    Some(_) if axes > room => Rust::Silent,
                    Some(instance) => {
                        Rust::Answer(written(instance.normalized_coords(), COORD_MARK, room))
                    }
                });
                let mut list = vec![COORD_MARK; room];
                let ours = suolluvik::instance_coords(table, self.font.data, 0, index, &mut list);
                let ours = our_list(ours, list, COORD_MARK, |coord| coord);
                let rule = || {
                    let coords = axis_rules::instance_coords(table, NO_AVAR, index as usize, room)?;
                    let coords = coords.into_iter().map(|coord| coord as i16);
                    Ok(written(coords, COORD_MARK, room))
                };
                let function = Function::InstanceCoords;
                self.judge
                    .judge(function, arguments, rust, ours, rule, few_left);
            }
        }
    }

    fn settings(&mut self) {
        let axes = self.readable();
        let room = self.axis_count().min(32);
        self.setting(&[], &[], room);
        for settings in settings(&axes, &mut self.random, self.brief) {
            let (tags, values): (Vec<u32>, Vec<f32>) = settings.into_iter().unzip();
            self.setting(&tags, &values, room);
        }
        // the values of each instance
        let table = self.font.fvar;
        let font = FontRef { data: table };
        for index in self.indices(Fvar::new(table).instance_count() as usize) {
            let values = asked(|| {
                let instance = Instances::from_font(&font).at(index as usize);
                option(instance.map(|i| i.values().take(32).collect::<Vec<f32>>()))
            });
            if let Rust::Answer(values) = values {
                let tags: Vec<u32> = axes.iter().map(|axis| axis.tag).collect();
                let count = tags.len().min(values.len());
                self.setting(&tags[..count], &values[..count], room);
            }
        }
        // other rooms, and lists of different length
        let tag = axes.first().map_or(UNKNOWN, |axis| axis.tag);
        self.setting(&[tag], &[400.0], room + 2);
        self.setting(&[tag], &[], room);
        self.setting(&[], &[400.0], room);
        if let Some(short) = room.checked_sub(1) {
            self.setting(&[tag], &[400.0], short);
            self.setting(&[tag, tag], &[400.0], short);
        }
    }

    fn setting(&mut self, tags: &[u32], values: &[f32], room: usize) {
        let table = self.font.fvar;
        let font = FontRef { data: table };
        let count = self.axis_count().min(32);
        let rust = asked(|| {
            if tags.len() != values.len() || count > room {
                return Rust::Silent;
            }
            let pairs = tags.iter().zip(values);
            let settings = pairs.map(|(tag, value)| Setting {
                tag: *tag,
                value: *value,
            });
            let coords = Variations::from_font(&font).normalized_coords(settings);
            Rust::Answer(written(coords, COORD_MARK, room))
        });
        let mut list = vec![COORD_MARK; room];
        let ours = suolluvik::normalized_coords(table, self.font.data, 0, tags, values, &mut list);
        let ours = our_list(ours, list, COORD_MARK, |coord| coord);
        let rule = || {
            let bits: Vec<u32> = values.iter().map(|value| value.to_bits()).collect();
            let coords = axis_rules::settings(table, NO_AVAR, tags, &bits, room)?;
            let coords = coords.into_iter().map(|coord| coord as i16);
            Ok(written(coords, COORD_MARK, room))
        };
        let arguments = || format!("tags {tags:08x?}, values {values:?}, room {room}");
        let function = Function::NormalizedCoords;
        self.judge
            .judge(function, arguments, rust, ours, rule, || false);
    }

    /// The coordinate lists: none, the default, each axis end, all ends, the named instances with avar
    /// and without, the ends of the 2.14 range, random ones inside and outside, one too short and one
    /// too long each. Of very many the first are taken.
    pub fn lists(&mut self) -> Vec<Vec<i16>> {
        let axes = self.axis_count();
        let count = axes.min(if self.brief { 4 } else { 64 });
        let mut lists = vec![vec![], vec![0; count]];
        for axis in 0..count {
            for end in [-16384, 16384] {
                let mut list = vec![0; count];
                list[axis] = end;
                lists.push(list);
            }
        }
        lists.push(vec![-16384; count]);
        lists.push(vec![16384; count]);
        let (named, random) = if self.brief { (1, 1) } else { (65535, 16) };
        let found = Fvar::new(self.font.fvar).instance_count();
        for index in 0..found.min(named) {
            for avar in [0, self.font.avar] {
                let mut list = vec![0; axes];
                let (table, font) = (self.font.fvar, self.font.data);
                if suolluvik::instance_coords(table, font, avar, index, &mut list).is_ok() {
                    list.truncate(count);
                    lists.push(list);
                }
            }
        }
        lists.extend([vec![i16::MIN; count], vec![i16::MAX; count]]);
        for _ in 0..random {
            let mut list = vec![0; count];
            list.fill_with(|| (self.random.below(32769) as i32 - 16384) as i16);
            lists.push(list.clone());
            list.pop();
            lists.push(list);
            let mut list = vec![0; count + 1];
            list.fill_with(|| self.random.bits() as i16);
            lists.push(list);
        }
        let mut once: Vec<Vec<i16>> = vec![];
        for list in lists {
            if !once.contains(&list) {
                once.push(list);
            }
        }
        once
    }

    fn measures(&mut self, k: usize, coords: &[i16]) {
        let (font, mvar) = (self.font.data, self.font.mvar);
        let (said, mut list) = self.filled(Table::Mvar, k, coords);
        let scalars = MvarScalars::fill(font, mvar, coords, &mut list).ok();
        let mut tags = TAGS.to_vec();
        tags.extend([0, UNKNOWN]);
        if mvar == 0 {
            // whoever asks with no MVAR; the offset 0 is opened like any other
            tags.truncate(1);
        } else {
            let at = |p: usize| mvar as usize + p;
            let size = u16_at(font, at(6)).unwrap_or(0) as usize;
            let count = u16_at(font, at(8)).unwrap_or(0) as usize;
            let records = (0..count.min(64)).filter_map(|i| u32_at(font, at(12 + i * size)));
            tags.extend(records);
            tags.sort();
            tags.dedup();
        }
        for tag in tags {
            let rule =
                |rows: &mut Rows| store_rules::tag_delta(font, mvar as usize, tag, coords, rows);
            let arguments = || format!("offset {mvar}, tag {tag:08x}, coordinates {coords:?}");
            let raw = asked(|| {
                let opened = shown::Mvar::new(font, mvar, coords);
                option(opened.and_then(|m| m.raw_delta(tag)).map(|d| d.0))
            });
            let float = asked(|| {
                let opened = var::Mvar::new(font, mvar, coords);
                option(opened.map(|m| m.delta(tag).to_bits()))
            });
            let ours = (
                suolluvik::mvar_delta_fixed(font, mvar, tag, coords),
                suolluvik::mvar_delta(font, mvar, tag, coords),
            );
            let functions = [Function::MvarFixed, Function::Mvar];
            let through = scalars.map(|scalars| {
                let ours = (scalars.delta_fixed(tag), scalars.delta(tag));
                let base = mvar as usize;
                let said = line_rules::tag_delta(font, base, tag, &said, &mut { COUNTED });
                (ours, said)
            });
            self.delta(functions, arguments, raw, float, ours, rule, through);
        }
    }

    /// Each glyph, one past the last, and the last of all numbers. Of a damaged font some.
    pub fn sample(&mut self) -> Vec<u16> {
        let count = self.font.glyphs;
        if self.brief {
            let mut some = vec![0, 1, 2, count.saturating_sub(1), count, 65535];
            for _ in 0..14 {
                some.push(self.random.below(count as u64 + 1) as u16);
            }
            some
        } else {
            let mut all: Vec<u16> = (0..=count).collect();
            if count < 65535 {
                all.push(65535);
            }
            all
        }
    }

    fn glyphs(&mut self, lists: &[Vec<i16>]) {
        let glyphs = self.sample();
        let most = PAIRS / glyphs.len();
        if lists.len() > most {
            let left = lists.len() - most;
            println!(
                "left out, {left} of {} coordinate lists: {}",
                lists.len(),
                self.judge.input
            );
        }
        let horizontal = [
            (
                Map::Advance,
                Function::HvarAdvanceFixed,
                Function::HvarAdvance,
            ),
            (Map::Bearing, Function::HvarSbFixed, Function::HvarSb),
        ];
        let vertical = [
            (
                Map::Advance,
                Function::VvarAdvanceFixed,
                Function::VvarAdvance,
            ),
            (Map::Bearing, Function::VvarSbFixed, Function::VvarSb),
        ];
        let tables = [
            (Table::Hvar, self.font.hvar, horizontal),
            (Table::Vvar, self.font.vvar, vertical),
        ];
        for (name, table, functions) in tables {
            for (k, list) in lists.iter().take(most).enumerate() {
                let (said, mut room) = self.filled(name, k, list);
                let scalars = Scalars::fill(self.font.data, table, list, &mut room).ok();
                let through = scalars.map(|scalars| (scalars, &said[..]));
                for (map, fixed, float) in functions {
                    // with no table, and with no map of bearings, one glyph tells all
                    let map_offset = u32_at(self.font.data, table as usize + map as usize);
                    let none = table == 0 || (map == Map::Bearing && map_offset == Some(0));
                    let glyphs = if none { &glyphs[..1] } else { &glyphs[..] };
                    for glyph in glyphs {
                        self.glyph(table, map, [fixed, float], *glyph, list, through);
                    }
                }
                self.judge.progress();
            }
        }
    }

    fn glyph(
        &mut self,
        table: u32,
        map: Map,
        functions: [Function; 2],
        glyph: u16,
        coords: &[i16],
        filled: Option<(Scalars, &[i32])>,
    ) {
        let font = self.font.data;
        let (base, index) = (table as usize, glyph as usize);
        let rule = |rows: &mut Rows| store_rules::metric(font, base, map, index, coords, rows);
        let arguments = || format!("offset {table}, glyph {glyph}, coordinates {coords:?}");
        let (raw, float, ours) = match map {
            Map::Advance => (
                asked(|| option(shown::raw_advance_delta(font, table, glyph, coords))),
                asked(|| Rust::Answer(var::advance_delta(font, table, glyph, coords))),
                (
                    suolluvik::advance_delta_fixed(font, table, glyph, coords),
                    suolluvik::advance_delta(font, table, glyph, coords),
                ),
            ),
            Map::Bearing => (
                asked(|| option(shown::raw_sb_delta(font, table, glyph, coords))),
                asked(|| Rust::Answer(var::sb_delta(font, table, glyph, coords))),
                (
                    suolluvik::sb_delta_fixed(font, table, glyph, coords),
                    suolluvik::sb_delta(font, table, glyph, coords),
                ),
            ),
        };
        let through = filled.map(|(scalars, said)| {
            let ours = match map {
                Map::Advance => (
                    scalars.advance_delta_fixed(glyph),
                    scalars.advance_delta(glyph),
                ),
                Map::Bearing => (scalars.sb_delta_fixed(glyph), scalars.sb_delta(glyph)),
            };
            let said = line_rules::metric(font, base, map, index, said, &mut { COUNTED });
            (ours, said)
        });
        let (raw, float) = (map_answer(raw, |d| d.0), map_answer(float, f32::to_bits));
        self.delta(functions, arguments, raw, float, ours, rule, through);
    }

    /// A delta in its two forms. The raw one comes through the hook; its float must be the one that
    /// the unchanged file answers, where 0.0 stands for `None` too. The second model is asked where the
    /// row is outside the item count. Through a filled list it must be the same, and is judged again.
    fn delta(
        &mut self,
        [fixed, float]: [Function; 2],
        arguments: impl Fn() -> String,
        rust: Rust<i32>,
        rust_float: Rust<u32>,
        ours: Ours,
        rule: impl Fn(&mut Rows) -> Answer<i64>,
        through: Through,
    ) {
        let (alike, rust_float) = match (&rust, rust_float) {
            (Rust::Answer(raw), Rust::Answer(bits)) => {
                (Fixed(*raw).to_f32().to_bits() == bits, Rust::Answer(bits))
            }
            (Rust::None, Rust::Answer(bits)) => (bits == 0, Rust::None),
            (Rust::None, Rust::None) => (true, Rust::None),
            (Rust::Stops, Rust::Stops) => (true, Rust::Stops),
            (_, rust_float) => (false, rust_float),
        };
        assert!(alike, "the hook and the float differ: {}", arguments());
        let mut rows = COUNTED;
        let said = rule(&mut rows);
        let uncounted = rows.outside.then(|| rule(&mut { UNCOUNTED }));
        let raw = |said: Answer<i64>| said.map(|delta| delta as i32);
        let bits = |said: Answer<i64>| said.map(|delta| to_f32(delta as i128));
        let plain = Some(([fixed, float], ours, said));
        let through = through.map(|(ours, said)| ([fixed.with(), float.with()], ours, said));
        for ([fixed, float], ours, said) in plain.into_iter().chain(through) {
            let given = ours.0.map_err(Refusal::number);
            let by_rules = (raw(said), uncounted.map(raw));
            self.judge.delta(fixed, &arguments, rust, given, by_rules);
            let given = ours.1.map(f32::to_bits).map_err(Refusal::number);
            let by_rules = (bits(said), uncounted.map(bits));
            self.judge
                .delta(float, &arguments, rust_float, given, by_rules);
        }
    }
}

fn map_answer<T, U>(rust: Rust<T>, f: impl FnOnce(T) -> U) -> Rust<U> {
    match rust {
        Rust::Answer(answer) => Rust::Answer(f(answer)),
        Rust::None => Rust::None,
        Rust::Stops => Rust::Stops,
        Rust::Silent => Rust::Silent,
    }
}

/// A number between two, ends included; any of the two may be the larger one.
fn between(random: &mut Random, a: f32, b: f32) -> f32 {
    a + (b - a) * (random.below(65537) as f32 / 65536.)
}

/// Settings: each axis alone at its default, at its ends, beyond both, half way and at random; all axes
/// so; a tag twice; a tag that no axis has; what is no number.
pub fn settings(axes: &[VarAxis], random: &mut Random, brief: bool) -> Vec<Vec<(u32, f32)>> {
    let mut all = vec![vec![(UNKNOWN, 400.0)]];
    let mut together = vec![vec![]; 9];
    for axis in axes {
        let [min, default, max] = [axis.min, axis.default, axis.max].map(Fixed::to_f32);
        let mut values = vec![
            default,
            min,
            max,
            min - 1.0,
            max + 1.0,
            (min + default) / 2.0,
            (default + max) / 2.0,
            between(random, min, default),
            between(random, default, max),
        ];
        for (list, value) in together.iter_mut().zip(&values) {
            list.push((axis.tag, *value));
        }
        if !brief {
            values.extend([min * 1.5 - 1e5, max * 1.5 + 1e5, 0.0, -0.0]);
            values.extend([f32::NAN, f32::INFINITY, f32::NEG_INFINITY]);
            for _ in 0..12 {
                values.push(between(random, min, max));
                values.push(f32::from_bits(random.bits() as u32));
            }
        }
        all.extend(values.iter().map(|value| vec![(axis.tag, *value)]));
        all.push(vec![(axis.tag, max), (axis.tag, min)]);
    }
    if !brief {
        for _ in 0..24 {
            let value = |axis: &VarAxis, random: &mut Random| {
                (
                    axis.tag,
                    between(random, axis.min.to_f32(), axis.max.to_f32()),
                )
            };
            together.push(axes.iter().map(|axis| value(axis, random)).collect());
        }
    }
    all.extend(together);
    all
}
