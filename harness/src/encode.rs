//! Rows as calls of the crate: the section that wasm-encoder writes for them.

use crate::tbaunarith::{CANONICALS, CORE_INSTANCES, IMPORTS, INSTANCES, TYPES};
use std::borrow::Cow;
use wasm_encoder::{
    CanonicalFunctionSection, CanonicalOption, ComponentExportKind, ComponentExternName, ComponentImportSection,
    ComponentInstanceSection, ComponentSection, ComponentTypeRef, ComponentTypeSection, ComponentValType, ExportKind,
    InstanceSection, ModuleArg, PrimitiveValType, TypeBounds, ValType,
};

/// The primitives in the order of document 01's numbers.
pub const PRIMITIVES: [PrimitiveValType; 14] = {
    use PrimitiveValType::*;
    [Bool, S8, U8, S16, U16, S32, U32, S64, U64, F32, F64, Char, String, ErrorContext]
};

/// The core export kinds in the order of document 01's numbers.
pub const CORE_KINDS: [ExportKind; 5] = {
    use ExportKind::*;
    [Func, Table, Memory, Global, Tag]
};

/// The sorts in the order of document 01's numbers.
pub const SORTS: [ComponentExportKind; 6] = {
    use ComponentExportKind::*;
    [Module, Func, Value, Type, Component, Instance]
};

/// The section that the crate writes for these rows, each beside its pool. The rows are valid.
pub fn crate_section<R: AsRef<[u32]>>(family: u64, rows: &[(R, &[u8])]) -> Vec<u8> {
    crate_section_if_valid(family, rows).expect("rows of the family, as document 01 has them")
}

/// The same; nothing where a row is none that document 01 takes. No size is judged.
pub fn crate_section_if_valid<R: AsRef<[u32]>>(family: u64, rows: &[(R, &[u8])]) -> Option<Vec<u8>> {
    match family {
        TYPES => filled(ComponentTypeSection::new(), rows, add_type),
        IMPORTS => filled(ComponentImportSection::new(), rows, add_import),
        CANONICALS => filled(CanonicalFunctionSection::new(), rows, add_canonical),
        CORE_INSTANCES => filled(InstanceSection::new(), rows, add_core_instance),
        INSTANCES => filled(ComponentInstanceSection::new(), rows, add_instance),
        _ => None,
    }
}

/// The bytes of a crate's section: id, size, count, entries.
pub fn framed(section: &impl ComponentSection) -> Vec<u8> {
    let mut bytes = Vec::new();
    section.append_to_component(&mut bytes);
    bytes
}

/// Adds each row to the crate's section and gives its bytes.
fn filled<S: ComponentSection, R: AsRef<[u32]>>(
    mut section: S,
    rows: &[(R, &[u8])],
    add: fn(&mut S, &mut Fields) -> Option<()>,
) -> Option<Vec<u8>> {
    for (row, pool) in rows {
        let mut fields = Fields { words: row.as_ref(), pool };
        if fields.words.len() > 16_384 || pool.len() > 65_536 {
            return None;
        }
        add(&mut section, &mut fields)?;
        if !fields.words.is_empty() {
            return None;
        }
    }
    Some(framed(&section))
}

/// Kinds 0 to 16.
pub fn add_type(section: &mut ComponentTypeSection, row: &mut Fields) -> Option<()> {
    let kind = row.word()?;
    match kind {
        15 => return add_function(section, row),
        16 => {
            section.resource(row.rep()?, row.optional_index()?);
            return Some(());
        }
        _ => {}
    }
    let defined = section.defined_type();
    match kind {
        0 => defined.primitive(row.primitive()?),
        1 => defined.record(row.many(Fields::member)?),
        2 => defined.variant(row.many(Fields::case)?),
        3 => defined.list(row.value()?),
        4 => defined.map(row.value()?, row.value()?),
        5 => defined.fixed_length_list(row.value()?, row.word()?),
        6 => defined.tuple(row.many(Fields::value)?),
        7 => defined.flags(row.many(Fields::name)?),
        8 => defined.enum_type(row.many(Fields::name)?),
        9 => defined.option(row.value()?),
        10 => defined.result(row.optional()?, row.optional()?),
        11 => defined.own(row.word()?),
        12 => defined.borrow(row.word()?),
        13 => defined.future(row.optional()?),
        14 => defined.stream(row.optional()?),
        _ => return None,
    }
    Some(())
}

/// Kind 15.
fn add_function(section: &mut ComponentTypeSection, row: &mut Fields) -> Option<()> {
    let mut function = section.function();
    function.async_(row.flag()?);
    function.params(row.many(Fields::member)?);
    function.result(row.optional()?);
    Some(())
}

/// Kind 17.
fn add_import(section: &mut ComponentImportSection, row: &mut Fields) -> Option<()> {
    if row.word()? != 17 {
        return None;
    }
    section.import(row.extern_name()?, row.reference()?);
    Some(())
}

/// Kinds 18 and 20.
fn add_core_instance(section: &mut InstanceSection, row: &mut Fields) -> Option<()> {
    match row.word()? {
        18 => section.instantiate(row.word()?, row.many(Fields::core_argument)?),
        20 => section.export_items(row.many(Fields::core_item)?),
        _ => return None,
    };
    Some(())
}

/// Kinds 19 and 21.
fn add_instance(section: &mut ComponentInstanceSection, row: &mut Fields) -> Option<()> {
    match row.word()? {
        19 => section.instantiate(row.word()?, row.many(Fields::argument)?),
        21 => section.export_items(row.many(Fields::item)?),
        _ => return None,
    };
    Some(())
}

/// Kinds 256 + lead whose rows have words.
fn add_canonical(section: &mut CanonicalFunctionSection, row: &mut Fields) -> Option<()> {
    let lead = row.word()?.checked_sub(256)?;
    match lead {
        0x00 => section.lift(row.word()?, row.word()?, row.many(Fields::option)?),
        0x01 => section.lower(row.word()?, row.many(Fields::option)?),
        0x02 => section.resource_new(row.word()?),
        0x03 => section.resource_drop(row.word()?),
        0x04 => section.resource_rep(row.word()?),
        0x06 => section.subtask_cancel(row.flag()?),
        0x0a => section.context_get(row.rep()?, row.word()?),
        0x0b => section.context_set(row.rep()?, row.word()?),
        0x0e => section.stream_new(row.word()?),
        0x0f => section.stream_read(row.word()?, row.many(Fields::option)?),
        0x11 => section.stream_cancel_read(row.word()?, row.flag()?),
        0x12 => section.stream_cancel_write(row.word()?, row.flag()?),
        0x13 => section.stream_drop_readable(row.word()?),
        0x14 => section.stream_drop_writable(row.word()?),
        0x15 => section.future_new(row.word()?),
        0x16 => section.future_read(row.word()?, row.many(Fields::option)?),
        0x18 => section.future_cancel_read(row.word()?, row.flag()?),
        0x19 => section.future_cancel_write(row.word()?, row.flag()?),
        0x1a => section.future_drop_readable(row.word()?),
        0x1b => section.future_drop_writable(row.word()?),
        0x20 => section.waitable_set_wait(row.word()?),
        0x21 => section.waitable_set_poll(row.word()?),
        0x27 => section.thread_new_indirect(row.word()?, row.word()?),
        0x2e => section.stream_forward(row.word()?),
        0x2f => section.future_forward(row.word()?),
        0x40 => section.thread_spawn_ref(row.word()?),
        0x41 => section.thread_spawn_indirect(row.word()?, row.word()?),
        _ => return add_wordless(section, lead),
    };
    Some(())
}

/// Kinds 256 + lead whose rows are the kind alone.
fn add_wordless(section: &mut CanonicalFunctionSection, lead: u32) -> Option<()> {
    match lead {
        0x05 => section.task_cancel(),
        0x0c => section.thread_yield(),
        0x0d => section.subtask_drop(),
        0x1e => section.error_context_drop(),
        0x1f => section.waitable_set_new(),
        0x22 => section.waitable_set_drop(),
        0x23 => section.waitable_join(),
        0x24 => section.backpressure_inc(),
        0x25 => section.backpressure_dec(),
        0x26 => section.thread_index(),
        0x29 => section.thread_suspend(),
        0x2a => section.thread_suspend_then_resume(),
        0x2b => section.thread_yield_then_resume(),
        0x2c => section.thread_suspend_then_promote(),
        0x2d => section.thread_yield_then_promote(),
        _ => return None,
    };
    Some(())
}

/// What is left of a row, beside its pool. Each method takes a field as what the crate's calls want, or nothing
/// where the words are none of the field's.
pub struct Fields<'a> {
    pub words: &'a [u32],
    pub pool: &'a [u8],
}

impl<'a> Fields<'a> {
    fn word(&mut self) -> Option<u32> {
        let (first, rest) = self.words.split_first()?;
        self.words = rest;
        Some(*first)
    }

    /// An absent thing's unused word.
    fn unused(&mut self) -> Option<()> {
        (self.word()? == 0).then_some(())
    }

    fn flag(&mut self) -> Option<bool> {
        match self.word()? {
            0 => Some(false),
            1 => Some(true),
            _ => None,
        }
    }

    fn rep(&mut self) -> Option<ValType> {
        Some(if self.flag()? { ValType::I64 } else { ValType::I32 })
    }

    fn optional_index(&mut self) -> Option<Option<u32>> {
        match self.flag()? {
            true => Some(Some(self.word()?)),
            false => self.unused().map(|()| None),
        }
    }

    fn name(&mut self) -> Option<&'a str> {
        let start = self.word()? as usize;
        let length = self.word()? as usize;
        std::str::from_utf8(self.pool.get(start..start + length)?).ok()
    }

    fn optional_name(&mut self) -> Option<Option<Cow<'a, str>>> {
        match self.flag()? {
            true => Some(Some(Cow::Borrowed(self.name()?))),
            false => {
                self.unused()?;
                self.unused().map(|()| None)
            }
        }
    }

    /// A name and its three options.
    fn extern_name(&mut self) -> Option<ComponentExternName<'a>> {
        Some(ComponentExternName {
            name: Cow::Borrowed(self.name()?),
            implements: self.optional_name()?,
            version_suffix: self.optional_name()?,
            external_id: self.optional_name()?,
        })
    }

    fn core_argument(&mut self) -> Option<(&'a str, ModuleArg)> {
        Some((self.name()?, ModuleArg::Instance(self.word()?)))
    }

    fn core_item(&mut self) -> Option<(&'a str, ExportKind, u32)> {
        Some((self.name()?, self.one_of(&CORE_KINDS)?, self.word()?))
    }

    fn argument(&mut self) -> Option<(&'a str, ComponentExportKind, u32)> {
        Some((self.name()?, self.one_of(&SORTS)?, self.word()?))
    }

    fn item(&mut self) -> Option<(ComponentExternName<'a>, ComponentExportKind, u32)> {
        Some((self.extern_name()?, self.one_of(&SORTS)?, self.word()?))
    }

    /// One of a list, by its place.
    fn one_of<T: Copy>(&mut self, list: &[T]) -> Option<T> {
        list.get(self.word()? as usize).copied()
    }

    fn primitive(&mut self) -> Option<PrimitiveValType> {
        self.one_of(&PRIMITIVES)
    }

    /// V.
    fn value(&mut self) -> Option<ComponentValType> {
        match self.word()? {
            0 => Some(ComponentValType::Primitive(self.primitive()?)),
            1 => Some(ComponentValType::Type(self.word()?)),
            _ => None,
        }
    }

    /// O.
    pub fn optional(&mut self) -> Option<Option<ComponentValType>> {
        match self.words.first()? {
            2 => {
                self.word()?;
                self.unused().map(|()| None)
            }
            _ => self.value().map(Some),
        }
    }

    /// n, and n of the same field.
    pub fn many<T>(&mut self, each: fn(&mut Self) -> Option<T>) -> Option<Vec<T>> {
        let count = self.word()?;
        (0..count).map(|_| each(self)).collect()
    }

    /// A record's field or a function's parameter.
    pub fn member(&mut self) -> Option<(&'a str, ComponentValType)> {
        Some((self.name()?, self.value()?))
    }

    fn case(&mut self) -> Option<(&'a str, Option<ComponentValType>)> {
        Some((self.name()?, self.optional()?))
    }

    fn reference(&mut self) -> Option<ComponentTypeRef> {
        let sort = self.word()?;
        match sort {
            2 => return self.value().map(ComponentTypeRef::Value),
            3 => return self.bounds().map(ComponentTypeRef::Type),
            _ => {}
        }
        let index = self.word()?;
        self.unused()?;
        match sort {
            0 => Some(ComponentTypeRef::Module(index)),
            1 => Some(ComponentTypeRef::Func(index)),
            4 => Some(ComponentTypeRef::Component(index)),
            5 => Some(ComponentTypeRef::Instance(index)),
            _ => None,
        }
    }

    fn bounds(&mut self) -> Option<TypeBounds> {
        match self.flag()? {
            false => Some(TypeBounds::Eq(self.word()?)),
            true => self.unused().map(|()| TypeBounds::SubResource),
        }
    }

    /// A canonical option.
    fn option(&mut self) -> Option<CanonicalOption> {
        use CanonicalOption::*;
        let (option, index) = (self.word()?, self.word()?);
        match (option, index) {
            (0, 0) => Some(UTF8),
            (1, 0) => Some(UTF16),
            (2, 0) => Some(CompactUTF16),
            (3, _) => Some(Memory(index)),
            (4, _) => Some(Realloc(index)),
            (5, _) => Some(PostReturn(index)),
            (6, 0) => Some(Async),
            (7, _) => Some(Callback(index)),
            (8, _) => Some(CoreType(index)),
            (9, 0) => Some(Gc),
            _ => None,
        }
    }
}

#[cfg(test)]
mod tests {
    use super::*;
    use crate::frames;
    use crate::input::{family_of, Input};
    use crate::model::write_row;
    use crate::random::{valid_row, Random, KINDS};

    #[test]
    fn the_crate_writes_what_the_model_writes() {
        for kind in KINDS {
            let mut random = Random::new(u64::from(*kind));
            for _ in 0..ROWS_OF_EACH {
                let mut pool = Vec::new();
                let row = valid_row(&mut random, *kind, &mut pool);
                let input = Input::alone(row, pool);
                let section = crate_section(input.family, &input.beside_pool());
                let written = write_row(family_of(*kind), &input.rows[0], &input.pool);
                assert_eq!(written.as_deref().ok(), frames::body(&section), "{}", input.shown());
            }
        }
    }

    const ROWS_OF_EACH: usize = 20_000;
}
