//! The commands as the Rust crate does them, with all options on.
use jsonc_parser::cst::*;

pub enum Command {
    Set(String, CstInputValue),
    Append(CstInputValue),
    Remove(String),
    Sort,
    Get(Vec<String>),
    Put(Vec<String>, CstInputValue),
    Drop(Vec<String>),
}

/// A value under names that are missing.
fn nested(names: &[String], value: CstInputValue) -> CstInputValue {
    names.iter().rev().fold(value, |value, name| CstInputValue::Object(vec![(name.clone(), value)]))
}

fn found(root: &CstRootNode, names: &[String]) -> Option<CstNode> {
    names.iter().try_fold(root.value()?, |node, name| node.as_object()?.get(name)?.value())
}

/// Puts a value at names. None where a value of another kind stands on the way.
fn put(root: &CstRootNode, names: &[String], value: CstInputValue) -> Option<()> {
    let (Some((last, before)), Some(mut node)) = (names.split_last(), root.value()) else {
        root.set_value(nested(names, value));
        return Some(());
    };
    for (place, name) in before.iter().enumerate() {
        let object = node.as_object()?;
        match object.get(name) {
            Some(property) => node = property.value()?,
            None => {
                object.append(name, nested(&names[place + 1..], value));
                return Some(());
            }
        }
    }
    let object = node.as_object()?;
    match object.get(last) {
        Some(property) => property.set_value(value),
        None => drop(object.append(last, value)),
    }
    Some(())
}

/// A name as it is written, without quotes.
fn written(property: &CstObjectProp) -> String {
    match property.name() {
        Some(ObjectPropName::String(it)) => it.raw_value()[1..it.raw_value().len() - 1].to_string(),
        Some(ObjectPropName::Word(it)) => it.to_string(),
        None => String::new(),
    }
}

/// What a command makes of a document, or the value that it gets; or the variant of `jsonc::Error` that it is.
pub fn made(root: &CstRootNode, command: &Command) -> Result<Option<String>, &'static str> {
    match command {
        Command::Set(name, value) => {
            let object = root.object_value_or_create().ok_or("NotObject")?;
            match object.get(name) {
                Some(property) => property.set_value(value.clone()),
                None => drop(object.append(name, value.clone())),
            }
        }
        Command::Append(value) => drop(root.array_value_or_create().ok_or("NotArray")?.append(value.clone())),
        Command::Remove(name) => {
            if let Some(property) = root.object_value().ok_or("NotObject")?.get(name) {
                property.remove();
            }
        }
        Command::Sort => {
            let object = root.object_value().ok_or("NotObject")?;
            object.sort_properties().by(|one, other| written(one).as_bytes().cmp(written(other).as_bytes()));
        }
        Command::Get(names) => return Ok(found(root, names).map(|node| node.to_string())),
        Command::Put(names, value) => put(root, names, value.clone()).ok_or("OnTheWay")?,
        Command::Drop(names) => match (found(root, names), names.is_empty()) {
            (Some(node), true) => node.remove(),
            (Some(node), false) => node.parent().and_then(|it| it.as_object_prop()).into_iter().for_each(CstObjectProp::remove),
            (None, _) => {}
        },
    }
    Ok(Some(root.to_string()))
}
