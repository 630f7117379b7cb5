// All names of a map in one walk.

use ion_map::{annotations, items, walk, Item, Part, PartKind, Refusal, Scalar, Symbols, Type, Value};

/// Hands out each ID that stands in a map, where the value stands, and the ID's text.
pub fn names<'a>(map: &'a [u8], mut each: impl FnMut(usize, u64, Option<&'a str>)) -> Result<(), Refusal> {
    let system = Symbols::at(&[], 0)?;
    let mut own = Vec::new(); // the texts of the IDs from 10 up
    for top in items(map, Part::stream(map)) {
        let top = top?;
        let bytes = &map[top.span()];
        for met in walk(bytes) {
            let (_, item) = met?;
            let Some(value) = item.value() else { continue };
            let mut ids = Vec::new();
            if let Item::Field { id, .. } = item {
                ids.push(id);
            }
            for annotation in annotations(bytes, value.annotations.clone()) {
                ids.push(annotation?.id);
            }
            if let Scalar::Symbol(id) = value.read(bytes)? {
                ids.push(id);
            }
            for id in ids {
                let text = match id.checked_sub(10) {
                    None => system.text(id)?,
                    Some(entry) => own.get(entry as usize).copied().flatten(),
                };
                each(top.span().start + value.start, id, text);
            }
        }
        match &top {
            Item::Marker(_) => own.clear(),
            Item::Value(value) if is_table(map, value)? => own = texts(bytes)?,
            _ => {}
        }
    }
    Ok(())
}

/// A symbol table is a top-level struct whose first annotation is 3.
fn is_table(map: &[u8], value: &Value) -> Result<bool, Refusal> {
    let first = annotations(map, value.annotations.clone()).next().transpose()?;
    Ok(value.ion_type == Type::Struct && !value.is_null() && first.is_some_and(|first| first.id == 3))
}

/// The texts of a symbol table. Nothing else is needed: as a map by itself, it rules at its end.
fn texts(table: &[u8]) -> Result<Vec<Option<&str>>, Refusal> {
    let list = Symbols::at(table, table.len())?.list().unwrap_or(0..0);
    let mut texts = Vec::new();
    for entry in items(table, Part::new(PartKind::Sequence, list)) {
        let entry = entry?;
        let scalar = entry.value().map(|value| value.read(table)).transpose()?;
        texts.push(scalar.and_then(|scalar| scalar.as_str()));
    }
    Ok(texts)
}

fn main() -> Result<(), Refusal> {
    let map = [
        0xE9, 0x81, 0x83, 0xD6, 0x87, 0xB4, 0x81, b'a', 0x81, b'b', // a symbol table: "a" and "b"
        0xE4, 0x81, 0x8A, 0x71, 0x0B, // with the annotation 10, the symbol 11
        0xD3, 0x84, 0x71, 0x0C, // a struct whose field 4 is the symbol 12
    ];
    let mut met = Vec::new();
    names(&map, |position, id, text| met.push((position, id, text)))?;
    let table = [(0, 3, Some("$ion_symbol_table")), (4, 7, Some("symbols"))];
    let symbol = [(10, 10, Some("a")), (10, 11, Some("b"))];
    let fields = [(16, 4, Some("name")), (16, 12, None)];
    assert_eq!(met, [table, symbol, fields].concat());
    Ok(())
}
