//! Damaged copies of bundles that are well formed.

use bundle_format::{limits, Body, Bundle, Item};

use super::valid::any_project;
use super::{each_item, encode};
use crate::rng::Rng;

/// Sets the header's length to what is there.
fn mend_header(bytes: &mut [u8]) {
    if bytes.len() >= limits::HEADER {
        let length = u16::try_from(bytes.len() - limits::HEADER).unwrap_or(u16::MAX);
        bytes[1..limits::HEADER].copy_from_slice(&length.to_be_bytes());
    }
}

/// Cut at any byte, with the header's length as it was or as it is now.
pub fn truncated(rng: &mut Rng) -> Vec<u8> {
    let mut bytes = encode(any_project(rng));
    bytes.truncate(rng.below(bytes.len()));
    if rng.chance(70) {
        mend_header(&mut bytes);
    }
    bytes
}

/// One or two bytes changed.
pub fn changed(rng: &mut Rng) -> Vec<u8> {
    let mut bytes = encode(any_project(rng));
    for _ in 0..rng.between(1, 2) {
        let at = rng.below(bytes.len());
        let byte = &mut bytes[at];
        *byte = match rng.below(5) {
            0 => byte.wrapping_add(1),
            1 => byte.wrapping_sub(1),
            2 => *byte ^ 1 << rng.below(8),
            3 => *rng.pick(b"abfgmTU_/\x00\x01\x02"),
            _ => rng.next_u64() as u8,
        };
    }
    bytes
}

/// The places of the lengths and counts that have one byte.
fn byte_fields(bundle: &Bundle) -> Vec<usize> {
    let mut fields = vec![bundle.root_at];
    let mut end = bundle.root_at + 1 + bundle.root.len();
    // Each count stands where the list before it ends.
    fields.push(end);
    end += 1;
    for (at, path) in bundle.folder_at.iter().zip(&bundle.folders) {
        fields.push(*at);
        end = at + 1 + path.len();
    }
    fields.push(end);
    end += 1;
    for remapping in &bundle.remappings {
        fields.extend([remapping.context_at, remapping.name_at, remapping.target_at]);
        end = remapping.target_at + 1 + remapping.target.len();
    }
    fields.push(end);
    fields.extend(bundle.files.iter().map(|file| file.path_at));
    each_item(bundle, &mut |item| {
        let mut at = item.mark + 4;
        let mut field = |length: usize| {
            fields.push(at);
            at += 1 + length;
        };
        match &item.body {
            Body::TypeAlias(name) | Body::Function(name) | Body::Enum(name) => field(name.len()),
            Body::Module { name, .. } => field(name.len()),
            Body::Use { segments, elements } => {
                field(0);
                segments.iter().for_each(|segment| field(segment.len()));
                field(0);
                for element in elements {
                    field(element.name.len());
                    field(element.alias.as_ref().map_or(0, Vec::len));
                }
            }
            Body::Ignored => {}
        }
    });
    fields
}

fn add(bytes: &mut [u8], at: usize, more: i16) {
    let old = u16::from_be_bytes([bytes[at], bytes[at + 1]]);
    let new = old.wrapping_add_signed(more);
    bytes[at..at + 2].copy_from_slice(&new.to_be_bytes());
}

/// Lengths and counts off by one, or by any number.
pub fn lengths(rng: &mut Rng) -> Vec<u8> {
    let mut bytes = encode(any_project(rng));
    let bundle = Bundle::decode(&bytes).expect("a project is well formed");
    let off = |rng: &mut Rng| match rng.below(4) {
        0 => rng.next_u64() as i16,
        1 => -1,
        _ => 1,
    };
    if rng.chance(50) {
        let at = *rng.pick(&byte_fields(&bundle));
        bytes[at] = bytes[at].wrapping_add(off(rng) as u8);
    } else {
        let mut fields = vec![1];
        fields.extend(bundle.files.iter().map(items_length_at));
        each_item(&bundle, &mut |item| fields.push(item.mark));
        let at = *rng.pick(&fields);
        let more = off(rng);
        add(&mut bytes, at, more);
    }
    bytes
}

fn items_length_at(file: &bundle_format::File) -> usize {
    file.path_at + 1 + file.path.len()
}

/// The places of the lengths around some item, its own last, and the end of the item.
fn around(rng: &mut Rng, bundle: &Bundle) -> Option<(Vec<usize>, usize)> {
    let file = rng.pick(&bundle.files);
    let mut places = vec![1, items_length_at(file)];
    let mut items: &[Item] = &file.items;
    loop {
        if items.is_empty() {
            return None;
        }
        let item = rng.pick(items);
        places.push(item.mark);
        match &item.body {
            Body::Module { items: inner, .. } if !inner.is_empty() && rng.chance(50) => {
                items = inner;
            }
            _ => {
                let mut out = Vec::new();
                bundle_format::encode_item(item, &mut out).expect("the item was decoded");
                return Some((places, item.mark + out.len()));
            }
        }
    }
}

/// Bytes put in or taken out at the end of an item, the lengths around it mended.
pub fn resized(rng: &mut Rng) -> Vec<u8> {
    let mut bytes = encode(any_project(rng));
    let bundle = Bundle::decode(&bytes).expect("a project is well formed");
    let Some((places, end)) = around(rng, &bundle) else {
        return bytes;
    };
    let own = places[places.len() - 1];
    let count = rng.between(1, 3);
    let more = if rng.chance(50) {
        let new: Vec<u8> = (0..count).map(|_| rng.below(7) as u8).collect();
        bytes.splice(end..end, new);
        count as i16
    } else {
        let count = count.min(end - own - 2);
        bytes.drain(end - count..end);
        -(count as i16)
    };
    for at in places {
        add(&mut bytes, at, more);
    }
    bytes
}

/// Pieces of two bundles put together, as bytes or as items.
pub fn spliced(rng: &mut Rng) -> Vec<u8> {
    let mut bundle = any_project(rng);
    let other = any_project(rng);
    if rng.chance(60) {
        for _ in 0..rng.between(1, 3) {
            let from = &rng.pick(&other.files).items;
            let taken: Vec<Item> = from.iter().filter(|_| rng.chance(40)).cloned().collect();
            let into = rng.below(bundle.files.len());
            let items = &mut bundle.files[into].items;
            let at = rng.below(items.len() + 1);
            items.splice(at..at, taken);
        }
        match rng.below(5) {
            0 => bundle.remappings = other.remappings,
            1 => bundle.root = other.root,
            2 => {
                let swapped = rng.below(bundle.files.len());
                bundle.files.swap(0, swapped);
            }
            _ => {}
        }
        return encode(bundle);
    }
    let (mut bytes, other) = (encode(bundle), encode(other));
    let start = rng.below(bytes.len());
    let end = rng.between(start, (start + 20).min(bytes.len()));
    let from = rng.below(other.len());
    let until = rng.between(from, (from + 20).min(other.len()));
    bytes.splice(start..end, other[from..until].iter().copied());
    if rng.chance(80) {
        mend_header(&mut bytes);
    }
    bytes
}

/// Any bytes, mostly under a good header.
pub fn noise(rng: &mut Rng) -> Vec<u8> {
    let mut bytes: Vec<u8> = (0..rng.below(60))
        .map(|_| match rng.below(3) {
            0 => rng.next_u64() as u8,
            1 => rng.below(8) as u8,
            _ => *rng.pick(b"/arm"),
        })
        .collect();
    if let [version, ..] = &mut bytes[..] {
        if rng.chance(80) {
            *version = limits::VERSION;
        }
    }
    if rng.chance(80) {
        mend_header(&mut bytes);
    }
    bytes
}
