//! Axes, instances and coordinates, with the font's own avar.

use crate::face::Face;
use crate::lines::{asked, Lines};
use crate::random::Random;
use crate::text::{float_text, list_text, EMPTY};
use swash::{FontRef, Setting, Tag, Variation};

/// The steps of the grid that is laid over each axis.
const STEPS: u64 = 5000;

/// A tag that no font has.
const UNKNOWN: Tag = 0x016e_6f7f;

pub fn coords_text(coords: impl Iterator<Item = i16>) -> String {
    list_text(coords.map(|coord| coord.to_string()))
}

fn axis_text(axis: Option<Variation>) -> String {
    axis.map_or(EMPTY.to_string(), |axis| {
        let floats = [axis.min_value(), axis.default_value(), axis.max_value()];
        let mut words = vec![
            axis.index().to_string(),
            format!("{:08x}", axis.tag()),
            axis.name_id().to_raw().to_string(),
            (axis.is_hidden() as u8).to_string(),
        ];
        words.extend(floats.map(float_text));
        words.join(",")
    })
}

/// Indices below a count, one past it and the last of all.
fn indices(count: usize) -> Vec<usize> {
    let mut indices: Vec<usize> = (0..=count).collect();
    if count < 65535 {
        indices.push(65535);
    }
    indices
}

pub fn ask(lines: &mut Lines, face: &Face, random: &mut Random) {
    let font = face.font;
    let counts = [font.variations().len(), font.instances().len()];
    lines.put("counts", &counts.map(|count| count.to_string()));
    axes(lines, font);
    instances(lines, font, usize::MAX);
    let readable: Vec<Variation> = font.variations().collect();
    // settings give the coordinates of the first 32
    for axis in readable.iter().take(32) {
        for value in values(axis, random) {
            normalize(lines, axis, value);
        }
    }
    for settings in settings(&readable, random) {
        coords(lines, font, &settings);
    }
}

fn axes(lines: &mut Lines, font: FontRef) {
    for index in indices(font.variations().len()) {
        let answer = asked(|| axis_text(font.variations().nth(index)));
        lines.put("axis", &[index.to_string(), answer]);
    }
    let mut tags: Vec<Tag> = font.variations().map(|axis| axis.tag()).collect();
    tags.extend([0, UNKNOWN]);
    for tag in tags {
        let answer = asked(|| axis_text(font.variations().find_by_tag(tag)));
        lines.put("tag", &[format!("{tag:08x}"), answer]);
    }
}

/// The first so many instances: index, both name ids and the values, then the coordinates.
pub fn instances(lines: &mut Lines, font: FontRef, most: usize) {
    let count = font.instances().len();
    for index in indices(count).into_iter().take(most) {
        let found = || font.instances().nth(index);
        let answer = asked(|| {
            found().map_or(EMPTY.to_string(), |instance| {
                let postscript = instance.postscript_name_id();
                let postscript = postscript.map_or(EMPTY.to_string(), |id| id.to_raw().to_string());
                let values = list_text(instance.values().map(float_text));
                let (index, name) = (instance.index(), instance.name_id().to_raw());
                format!("{index};{name};{postscript};{values}")
            })
        });
        lines.put("instance", &[index.to_string(), answer]);
        let answer =
            asked(|| found().map_or("none".to_string(), |i| coords_text(i.normalized_coords())));
        lines.put("instance_coords", &[index.to_string(), answer]);
    }
}

/// One value of one axis.
pub fn normalize(lines: &mut Lines, axis: &Variation, value: f32) {
    let answer = asked(|| axis.normalize(value).to_string());
    let tag = format!("{:08x}", axis.tag());
    lines.put(
        "normalize",
        &[axis.index().to_string(), tag, bits(value), answer],
    );
}

fn bits(value: f32) -> String {
    format!("{:08x}", value.to_bits())
}

/// The coordinates that settings give.
pub fn coords(lines: &mut Lines, font: FontRef, settings: &[(Tag, f32)]) {
    let answer = asked(|| {
        let settings = settings.iter().map(|(tag, value)| Setting {
            tag: *tag,
            value: *value,
        });
        coords_text(font.variations().normalized_coords(settings))
    });
    let tags = list_text(settings.iter().map(|(tag, _)| format!("{tag:08x}")));
    let values = list_text(settings.iter().map(|(_, value)| bits(*value)));
    lines.put("coords", &[tags, values, answer]);
}

/// The grid, the ends and the default, next to them and beyond them, random ones, and what is no number.
fn values(axis: &Variation, random: &mut Random) -> Vec<f32> {
    let [min, default, max] = [axis.min_value(), axis.default_value(), axis.max_value()];
    let mut values = vec![
        min - 1.,
        max + 1.,
        0.,
        -0.,
        f32::MIN,
        f32::MAX,
        f32::INFINITY,
        f32::NEG_INFINITY,
        f32::NAN,
    ];
    for value in [min, default, max] {
        values.extend([value, beside(value, -1), beside(value, 1)]);
    }
    values.extend((0..=STEPS).map(|k| min + (max - min) * (k as f32 / STEPS as f32)));
    values.extend((0..100).map(|_| within(axis, random)));
    values.extend((0..50).map(|_| f32::from_bits(random.bits() as u32)));
    values
}

/// The next float, or the one before; of a zero, the next 16.16 number.
fn beside(value: f32, by: i32) -> f32 {
    match value.to_bits() << 1 {
        0 => by as f32 / 65536.,
        _ => f32::from_bits(value.to_bits().wrapping_add_signed(by)),
    }
}

pub fn within(axis: &Variation, random: &mut Random) -> f32 {
    let (min, max) = (axis.min_value(), axis.max_value());
    min + (max - min) * (random.below(1 << 24) as f32 / (1 << 24) as f32)
}

/// None; all axes at their ends, at random, in fvar's order and the other way round; a tag twice, and one that no axis
/// has.
fn settings(axes: &[Variation], random: &mut Random) -> Vec<Vec<(Tag, f32)>> {
    let all = |value: &dyn Fn(&Variation) -> f32| {
        axes.iter().map(|axis| (axis.tag(), value(axis))).collect()
    };
    let mut settings: Vec<Vec<(Tag, f32)>> = vec![
        vec![],
        vec![(UNKNOWN, 400.)],
        all(&|axis| axis.min_value()),
        all(&|axis| axis.default_value()),
        all(&|axis| axis.max_value()),
    ];
    for k in 0..100 {
        let mut all: Vec<_> = axes
            .iter()
            .map(|axis| (axis.tag(), within(axis, random)))
            .collect();
        if k % 2 == 1 {
            all.reverse();
        }
        settings.push(all);
    }
    for axis in axes {
        let [first, second] = [within(axis, random), within(axis, random)];
        settings.push(vec![
            (axis.tag(), first),
            (UNKNOWN, first),
            (axis.tag(), second),
        ]);
    }
    settings
}
