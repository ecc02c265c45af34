//! Edits that are drawn, and made by the Rust crate.
use crate::generate::{Draw, NAMES, Paths, value};
use crate::theirs::{escaped, json, words};
use jsonc::{Edit, Place, Shape};
use jsonc_parser::cst::*;

fn node_at(root: &CstRootNode, path: &[usize]) -> Option<CstNode> {
    let mut node = root.value()?;
    for place in path {
        node = match (node.as_array(), node.as_object()) {
            (Some(array), _) => array.elements().get(*place)?.clone(),
            (_, Some(object)) => object.properties().get(*place)?.value()?,
            _ => return None,
        };
    }
    Some(node)
}

fn property_at(root: &CstRootNode, path: &[usize]) -> Option<CstObjectProp> {
    let (last, before) = path.split_last()?;
    node_at(root, before)?.as_object()?.properties().get(*last).cloned()
}

fn entry_at(root: &CstRootNode, path: &[usize]) -> Option<CstNode> {
    property_at(root, path).map(CstNode::from).or_else(|| node_at(root, path))
}

fn comments(node: &CstNode, all: &mut Vec<CstComment>) {
    all.extend(node.as_comment());
    node.children().iter().for_each(|child| comments(child, all));
}

/// A property's name as it is written, without quotes; a literal's text; of an array or object nothing.
fn sorted_by(node: &CstNode) -> Vec<u8> {
    match node.as_object_prop().map(|it| it.name()) {
        Some(Some(ObjectPropName::String(it))) => {
            let raw = it.raw_value();
            raw[1..raw.len() - 1].into()
        }
        Some(Some(ObjectPropName::Word(it))) => it.to_string().into(),
        Some(None) => vec![],
        None if node.as_array().is_some() || node.as_object().is_some() => vec![],
        None => node.to_string().into(),
    }
}

fn replace(node: CstNode, value: CstInputValue) {
    match node {
        CstNode::Container(CstContainerNode::Array(it)) => drop(it.replace_with(value)),
        CstNode::Container(CstContainerNode::Object(it)) => drop(it.replace_with(value)),
        CstNode::Leaf(CstLeafNode::StringLit(it)) => drop(it.replace_with(value)),
        CstNode::Leaf(CstLeafNode::NumberLit(it)) => drop(it.replace_with(value)),
        CstNode::Leaf(CstLeafNode::BooleanLit(it)) => drop(it.replace_with(value)),
        CstNode::Leaf(CstLeafNode::NullKeyword(it)) => drop(it.replace_with(value)),
        _ => {}
    }
}

fn sort(node: &CstNode, pin: bool, groups: bool) -> Option<()> {
    if let Some(array) = node.as_array() {
        let mut sort = array.sort_elements();
        if pin {
            sort = sort.pin_comment_headers();
        }
        if groups {
            sort = sort.within_groups();
        }
        sort.by(|one, other| sorted_by(one).cmp(&sorted_by(other)));
        return Some(());
    }
    let object = node.as_object()?;
    let mut sort = object.sort_properties();
    if pin {
        sort = sort.pin_comment_headers();
    }
    if groups {
        sort = sort.within_groups();
    }
    sort.by(|one, other| sorted_by(&one.clone().into()).cmp(&sorted_by(&other.clone().into())));
    Some(())
}

/// An edit, with the value that it writes.
pub struct Drawn {
    pub edit: Edit,
    pub value: CstInputValue,
}

/// Draws an edit of a document: of a place that is there, in nine of ten cases.
pub fn draw(draw: &mut Draw, root: &CstRootNode) -> Drawn {
    let paths = Paths::of(root);
    let written = value(draw, 2);
    let json = json(&written);
    let name = draw.one(&NAMES).to_string();
    let index = draw.below(4);
    let shape = if draw.flag() { Shape::Array } else { Shape::Object };
    let (first, second) = (draw.flag(), draw.flag());
    let stray = draw.below(10) == 0;
    let mut one = |of: &[Vec<usize>]| match of.len() {
        0 => vec![draw.below(3)],
        _ if stray => [of[draw.below(of.len())].clone(), vec![draw.below(4)]].concat(),
        count => of[draw.below(count)].clone(),
    };
    let held = [paths.arrays.clone(), paths.objects.clone()].concat();
    let entries = [paths.values.clone(), paths.properties.clone()].concat();
    let (value_path, array, object, property) = (one(&paths.values), one(&paths.arrays), one(&paths.objects), one(&paths.properties));
    let (boolean, container, entry) = (one(&paths.booleans), one(&held), one(&entries));
    // (a stray edit may be of any kind, others of those that something is there for)
    let is_there = |kind: usize| match kind {
        0 => !paths.values.is_empty(),
        1 | 2 | 5 => !entries.is_empty(),
        6 | 8 | 9 | 20 => !paths.properties.is_empty(),
        10 => !paths.booleans.is_empty(),
        11 | 17..=19 => !held.is_empty(),
        12 | 13 => !paths.arrays.is_empty(),
        14..=16 => !paths.objects.is_empty(),
        _ => true,
    };
    let mut kind = draw.below(21);
    while !stray && !is_there(kind) {
        kind = draw.below(21);
    }
    let edit = match kind {
        0 => Edit::Replace { path: value_path, value: json },
        1 | 2 => Edit::Remove { path: entry },
        3 => Edit::RemoveComment { index },
        4 => Edit::SetRoot { value: json },
        5 => if draw.below(4) == 0 { Edit::ClearRoot } else { Edit::Remove { path: entry } },
        6 => Edit::ReplaceProperty { path: property, name, value: json },
        7 => Edit::EnsureRoot { shape, replace: first },
        8 => Edit::SetValue { path: property, value: json },
        9 => Edit::EnsureValue { path: property, shape },
        10 => Edit::SetBoolean { path: boolean, value: first },
        11 => Edit::EnsureMultiline { path: container },
        12 => Edit::InsertElement { path: array, index, value: json },
        13 => Edit::AppendElement { path: array, value: json },
        14 => Edit::InsertProperty { path: object, index, name, value: json },
        15 => Edit::AppendProperty { path: object, name, value: json },
        16 => Edit::EnsureProperty { path: object, name, shape, replace: first },
        17 => Edit::SetTrailingCommas { path: container, never: first },
        20 => Edit::RenameProperty { path: property, name },
        _ => Edit::Sort { path: container, pin: first, groups: second },
    };
    Drawn { edit, value: written }
}

/// Makes the edit by the Rust crate. None where it has no place.
pub fn make(root: &CstRootNode, drawn: &Drawn) -> Option<()> {
    let value = drawn.value.clone();
    match &drawn.edit {
        // (of the document's value `replace_with` writes LF whatever ends the other lines; docs/EDITS.md has `set_value`)
        Edit::Replace { path, .. } if path.is_empty() => {
            node_at(root, path)?;
            root.set_value(value)
        }
        Edit::Replace { path, .. } => replace(node_at(root, path)?, value),
        Edit::Remove { path } => entry_at(root, path)?.remove(),
        Edit::RemoveComment { index } => {
            let mut all = vec![];
            comments(&root.clone().into(), &mut all);
            all.get(*index)?.clone().remove()
        }
        Edit::SetRoot { .. } => root.set_value(value),
        Edit::ClearRoot => root.clear_children(),
        Edit::ReplaceProperty { path, name, .. } => drop(property_at(root, path)?.replace_with(name, value)),
        // (the crate has no call for it: a string's text is set, and a word gives way to a string)
        Edit::RenameProperty { path, name } => match property_at(root, path)?.name()? {
            ObjectPropName::String(it) => it.set_raw_value(json(&CstInputValue::String(name.clone()))),
            ObjectPropName::Word(it) => drop(it.replace_with(CstInputValue::String(name.clone()))),
        },
        // (the crate has no call for it, nor one that a comment can be made with: it is not drawn)
        Edit::InsertComment { .. } => unreachable!("an edit that the crate lacks was drawn"),
        Edit::EnsureRoot { shape: Shape::Object, replace: false } => drop(root.object_value_or_create()),
        Edit::EnsureRoot { shape: Shape::Array, replace: false } => drop(root.array_value_or_create()),
        Edit::EnsureRoot { shape: Shape::Object, replace: true } => drop(root.object_value_or_set()),
        Edit::EnsureRoot { shape: Shape::Array, replace: true } => drop(root.array_value_or_set()),
        Edit::SetValue { path, .. } => property_at(root, path)?.set_value(value),
        Edit::EnsureValue { path, shape: Shape::Object } => drop(property_at(root, path)?.object_value_or_set()),
        Edit::EnsureValue { path, shape: Shape::Array } => drop(property_at(root, path)?.array_value_or_set()),
        Edit::SetBoolean { path, value } => node_at(root, path)?.as_boolean_lit()?.set_value(*value),
        Edit::EnsureMultiline { path } => match node_at(root, path)?.as_array() {
            Some(array) => array.ensure_multiline(),
            None => node_at(root, path)?.as_object()?.ensure_multiline(),
        },
        Edit::InsertElement { path, index, .. } => drop(node_at(root, path)?.as_array()?.insert(*index, value)),
        Edit::AppendElement { path, .. } => drop(node_at(root, path)?.as_array()?.append(value)),
        Edit::InsertProperty { path, index, name, .. } => drop(node_at(root, path)?.as_object()?.insert(*index, name, value)),
        Edit::AppendProperty { path, name, .. } => drop(node_at(root, path)?.as_object()?.append(name, value)),
        Edit::EnsureProperty { path, name, shape, replace } => {
            let object = node_at(root, path)?.as_object()?;
            match (shape, replace) {
                (Shape::Object, false) => drop(object.object_value_or_create(name)),
                (Shape::Array, false) => drop(object.array_value_or_create(name)),
                (Shape::Object, true) => drop(object.object_value_or_set(name)),
                (Shape::Array, true) => drop(object.array_value_or_set(name)),
            }
        }
        Edit::SetTrailingCommas { path, never } => {
            let mode = if *never { TrailingCommaMode::Never } else { TrailingCommaMode::IfMultiline };
            match node_at(root, path)?.as_array() {
                Some(array) => array.set_trailing_commas(mode),
                None => node_at(root, path)?.as_object()?.set_trailing_commas(mode),
            }
        }
        Edit::Sort { path, pin, groups } => sort(&node_at(root, path)?, *pin, *groups)?,
    }
    Some(())
}

/// The edit in the words of the bench.
pub fn shown(drawn: &Drawn) -> String {
    let at = |path: &[usize]| match path {
        [] => "/".to_string(),
        path => path.iter().map(|place| format!("/{place}")).collect(),
    };
    let v = words(&drawn.value);
    let n = |name: &str| format!("'{}", escaped(name, true));
    let s = |shape: &Shape| if *shape == Shape::Array { "arr" } else { "obj" };
    let o = |replace: &bool| if *replace { "replace" } else { "keep" };
    match &drawn.edit {
        Edit::Replace { path, .. } => format!("Replace {} {v}", at(path)),
        Edit::Remove { path } => format!("Remove {}", at(path)),
        Edit::RemoveComment { index } => format!("RemoveComment {index}"),
        Edit::SetRoot { .. } => format!("SetRoot {v}"),
        Edit::ClearRoot => "ClearRoot".to_string(),
        Edit::ReplaceProperty { path, name, .. } => format!("ReplaceProperty {} {} {v}", at(path), n(name)),
        Edit::RenameProperty { path, name } => format!("RenameProperty {} {}", at(path), n(name)),
        Edit::InsertComment { path, place, text } => {
            format!("InsertComment {} {} {}", at(path), if *place == Place::After { "after" } else { "above" }, n(text))
        }
        Edit::EnsureRoot { shape, replace } => format!("EnsureRoot {} {}", s(shape), o(replace)),
        Edit::SetValue { path, .. } => format!("SetValue {} {v}", at(path)),
        Edit::EnsureValue { path, shape } => format!("EnsureValue {} {}", at(path), s(shape)),
        Edit::SetBoolean { path, value } => format!("SetBoolean {} {}", at(path), if *value { "T" } else { "F" }),
        Edit::EnsureMultiline { path } => format!("EnsureMultiline {}", at(path)),
        Edit::InsertElement { path, index, .. } => format!("InsertElement {} {index} {v}", at(path)),
        Edit::AppendElement { path, .. } => format!("AppendElement {} {v}", at(path)),
        Edit::InsertProperty { path, index, name, .. } => format!("InsertProperty {} {index} {} {v}", at(path), n(name)),
        Edit::AppendProperty { path, name, .. } => format!("AppendProperty {} {} {v}", at(path), n(name)),
        Edit::EnsureProperty { path, name, shape, replace } => format!("EnsureProperty {} {} {} {}", at(path), n(name), s(shape), o(replace)),
        Edit::SetTrailingCommas { path, never } => format!("SetTrailingCommas {} {}", at(path), if *never { "never" } else { "ifmultiline" }),
        Edit::Sort { path, pin, groups } => format!("Sort {} {} {}", at(path), *pin as u8, *groups as u8),
    }
}
