//! Axes, instances and coordinates.

use crate::axes::rules::{self, Answer, Axis};
use crate::deciding::{decided, Decided};
use crate::font::Font;
use crate::judge::{Function, Judge, Rust, CHANGED};
use crate::numbers::rules::{from_f32, to_f32};
use crate::suolluvik::{self, Refusal};
use crate::text::{self, halves, list, list_text, EMPTY};

/// What a list that is written to holds before.
const COORD_MARK: i16 = 32767;

/// A setting's answer counts the first so many axes.
const MOST: usize = 32;

/// One line, if it is of this kind.
pub fn line(judge: &mut Judge, font: &Font, kind: &str, words: &[&str]) -> Option<()> {
    match (kind, words) {
        ("counts", [axes, instances]) => counts(judge, font, &format!("{},{}", axes, instances)),
        ("axis", [index, answer]) => axis(judge, font, index.parse().ok()?, answer),
        ("tag", [tag, answer]) => axis_by_tag(judge, font, text::bits(tag)?, answer),
        ("instance", [index, answer]) => instance(judge, font, index.parse().ok()?, answer),
        ("instance_coords", [index, answer]) => {
            instance_coords(judge, font, index.parse().ok()?, rust_coords(answer)?)
        }
        ("normalize", [index, tag, value, answer]) => {
            let value = f32::from_bits(text::bits(value)?);
            normalize(
                judge,
                font,
                index.parse().ok()?,
                text::bits(tag)?,
                value,
                rust_coords(answer)?,
            )
        }
        ("coords", [tags, values, answer]) => {
            let values: Vec<f32> = list(values)?.into_iter().map(f32::from_bits).collect();
            settings(judge, font, &list(tags)?, &values, rust_coords(answer)?)
        }
        _ => return None,
    }
    Some(())
}

/// swash's answer, in its line's text.
fn rust_text(answer: &str) -> Rust<String> {
    match answer {
        EMPTY => Rust::None,
        "stops" => Rust::Stops,
        _ => Rust::Answer(answer.to_string()),
    }
}

fn rust_coords(answer: &str) -> Option<Rust<Vec<i16>>> {
    match answer {
        "none" => Some(Rust::None),
        "stops" => Some(Rust::Stops),
        _ => halves(answer).map(Rust::Answer),
    }
}

fn counts(judge: &mut Judge, font: &Font, answer: &str) {
    let table = font.table();
    let ours = format!(
        "{},{}",
        suolluvik::axis_count(table),
        suolluvik::instance_count(table)
    );
    let header = rules::header(table);
    let rule = format!("{},{}", header.axis_count, header.instance_count);
    judge.judge(
        Function::Counts,
        || "the two counts".to_string(),
        rust_text(answer),
        Ok(ours),
        Ok(rule),
        false,
    );
}

/// Index, tag, name id, whether it is hidden, min, default and max as the bits of floats.
fn axis_text(index: usize, tag: u32, name_id: u16, hidden: bool, bits: [u32; 3]) -> String {
    let floats = bits.map(|bits| format!("{:08x}", bits)).join(",");
    format!(
        "{},{:08x},{},{},{}",
        index, tag, name_id, hidden as u8, floats
    )
}

fn our_axis(axis: Result<suolluvik::Axis, Refusal>) -> Answer<String> {
    let axis = axis.map_err(Refusal::number)?;
    let floats = [axis.min_value(), axis.default_value(), axis.max_value()];
    let hidden = axis.is_hidden();
    Ok(axis_text(
        axis.index.into(),
        axis.tag,
        axis.name_id,
        hidden,
        floats.map(f32::to_bits),
    ))
}

fn rule_axis(axis: Answer<Axis>) -> Answer<String> {
    let axis = axis?;
    let bits = [axis.min, axis.default, axis.max].map(to_f32);
    Ok(axis_text(
        axis.index,
        axis.tag,
        axis.name_id as u16,
        axis.flags % 2 == 1,
        bits,
    ))
}

fn axis(judge: &mut Judge, font: &Font, index: u16, answer: &str) {
    let ours = our_axis(suolluvik::axis(font.table(), index));
    let rule = rule_axis(rules::axis(font.table(), index.into()));
    judge.judge(
        Function::Axis,
        || format!("index {}", index),
        rust_text(answer),
        ours,
        rule,
        false,
    );
}

fn axis_by_tag(judge: &mut Judge, font: &Font, tag: u32, answer: &str) {
    let ours = our_axis(suolluvik::axis_by_tag(font.table(), tag));
    let rule = rule_axis(rules::axis_by_tag(font.table(), tag));
    judge.judge(
        Function::AxisByTag,
        || format!("tag {:08x}", tag),
        rust_text(answer),
        ours,
        rule,
        false,
    );
}

/// Index, both name ids, then the values as the bits of floats.
fn instance_text(
    index: usize,
    name_id: u16,
    postscript: Option<u16>,
    values: impl Iterator<Item = u32>,
) -> String {
    let postscript = postscript.map_or(EMPTY.to_string(), |id| id.to_string());
    format!(
        "{};{};{};{}",
        index,
        name_id,
        postscript,
        list_text(values.map(|bits| format!("{:08x}", bits)))
    )
}

fn our_instance(table: &[u8], index: u16) -> Result<String, Refusal> {
    let instance = suolluvik::instance(table, index)?;
    let mut values = vec![0.; suolluvik::axis_count(table).into()];
    suolluvik::instance_floats(table, index, &mut values)?;
    let values = values.into_iter().map(f32::to_bits);
    Ok(instance_text(
        instance.index.into(),
        instance.name_id,
        instance.postscript_name_id,
        values,
    ))
}

fn rule_instance(
    table: &[u8],
    index: usize,
    postscript: fn(&rules::Instance) -> Option<i128>,
) -> Answer<String> {
    let instance = rules::instance(table, index)?;
    let values = rules::instance_values(table, index, usize::MAX)?;
    let postscript = postscript(&instance).map(|id| id as u16);
    Ok(instance_text(
        index,
        instance.name_id as u16,
        postscript,
        values.into_iter().map(to_f32),
    ))
}

fn instance(judge: &mut Judge, font: &Font, index: u16, answer: &str) {
    let table = font.table();
    let ours = our_instance(table, index).map_err(Refusal::number);
    let rule = rule_instance(table, index.into(), |i| i.postscript_name_id);
    let theirs = rule_instance(table, index.into(), |i| i.swash_postscript_name_id);
    let few_left = rules::few_left(table, index.into());
    let arguments = || format!("index {}", index);
    judge.instance(
        Function::Instance,
        arguments,
        rust_text(answer),
        ours,
        (rule, theirs),
        few_left,
    );
}

/// A list with room for so many coordinates, and for two more.
fn room(count: usize) -> Vec<i16> {
    vec![COORD_MARK; count + 2]
}

/// The coordinates that were written; what is behind them must stay, and all of it on a refusal.
fn written(answer: Result<u16, Refusal>, mut list: Vec<i16>) -> Answer<Vec<i16>> {
    let count = answer.unwrap_or(0).into();
    if list[count..].iter().any(|coord| *coord != COORD_MARK) {
        return Err(CHANGED);
    }
    list.truncate(count);
    answer.map(|_| list).map_err(Refusal::number)
}

fn narrow(coords: Answer<Vec<i64>>) -> Answer<Vec<i16>> {
    coords.map(|coords| coords.into_iter().map(|coord| coord as i16).collect())
}

/// Where document 01 decides of a value of an axis; not where that is refused.
fn decided_at(font: &Font, axis: &Axis, value: i128) -> Option<Decided> {
    decided(font.rule_avar(), axis.index, rules::held(axis, value).ok()?)
}

fn instance_coords(judge: &mut Judge, font: &Font, index: u16, rust: Rust<Vec<i16>>) {
    let table = font.table();
    let mut list = room(suolluvik::axis_count(table).into());
    let ours = suolluvik::instance_coords(table, &font.data, font.avar, index, &mut list);
    let rule = rules::instance_coords(table, font.rule_avar(), index.into(), usize::MAX);
    let values = rules::instance_values(table, index.into(), usize::MAX).unwrap_or_default();
    let decided = |(i, value): (usize, &i128)| {
        decided_at(font, &rules::axis(table, i).unwrap_or_default(), *value)
    };
    let decided: Vec<Option<Decided>> = values.iter().enumerate().map(decided).collect();
    let arguments = || format!("index {}", index);
    judge.coords(
        Function::InstanceCoords,
        arguments,
        rust,
        written(ours, list),
        narrow(rule),
        &decided,
        rules::few_left(table, index.into()),
    );
}

fn our_settings(font: &Font, tags: &[u32], values: &[f32]) -> Answer<Vec<i16>> {
    let table = font.table();
    let mut list = room(usize::from(suolluvik::axis_count(table)).min(MOST));
    let ours = suolluvik::normalized_coords(table, &font.data, font.avar, tags, values, &mut list);
    written(ours, list)
}

/// One value of one axis, against swash's `Variation::normalize`. Ours is a setting, which every axis with the tag gets: where
/// another one refuses it, there is nothing to compare.
fn normalize(
    judge: &mut Judge,
    font: &Font,
    index: usize,
    tag: u32,
    value: f32,
    rust: Rust<Vec<i16>>,
) {
    let ours = our_settings(font, &[tag], &[value]).map(|list| vec![list[index]]);
    let axis = rules::axis(font.table(), index).unwrap_or_default();
    let fixed = from_f32(value.to_bits()) as i128;
    let rule = rules::normalise(&axis, font.rule_avar(), fixed).map(|coord| vec![coord]);
    let all = rules::settings(
        font.table(),
        font.rule_avar(),
        &[tag],
        &[value.to_bits()],
        MOST,
    );
    if all.is_err() && rule.is_ok() {
        return;
    }
    let arguments = || format!("axis {}, value {:?}", index, value);
    let decided = decided_at(font, &axis, fixed);
    judge.coords(
        Function::NormalizedCoord,
        arguments,
        rust,
        ours,
        narrow(rule),
        &[decided],
        false,
    );
}

fn settings(judge: &mut Judge, font: &Font, tags: &[u32], values: &[f32], rust: Rust<Vec<i16>>) {
    let table = font.table();
    let ours = our_settings(font, tags, values);
    let bits: Vec<u32> = values.iter().map(|value| value.to_bits()).collect();
    let rule = rules::settings(table, font.rule_avar(), tags, &bits, MOST);
    // the last setting of a tag counts
    let decided = |i: usize| {
        let axis = rules::axis(table, i).ok()?;
        let set = tags.iter().rposition(|tag| *tag == axis.tag)?;
        decided_at(font, &axis, from_f32(bits[set]) as i128)
    };
    let decided: Vec<Option<Decided>> = (0..rules::header(table).axis_count.min(MOST))
        .map(decided)
        .collect();
    let arguments = || format!("tags {:08x?}, values {:?}", tags, values);
    judge.coords(
        Function::NormalizedCoords,
        arguments,
        rust,
        ours,
        narrow(rule),
        &decided,
        false,
    );
}
