//! Valid rows as calls of the crate, checked for UTF-8 only and without lists in between: the crate at its best, for the bench.

use crate::encode::{CORE_KINDS, PRIMITIVES, SORTS};
use crate::input::family_of;
use crate::tbaunarith::{CORE_INSTANCES, IMPORTS, INSTANCES, TYPES};
use std::borrow::Cow;
use wasm_encoder::{
    CanonicalFunctionSection, CanonicalOption, ComponentDefinedTypeEncoder, ComponentExportKind, ComponentExternName,
    ComponentImportSection, ComponentInstanceSection, ComponentSection, ComponentTypeRef, ComponentTypeSection, ComponentValType,
    InstanceSection, ModuleArg, TypeBounds, ValType,
};

/// A word of a row: a number, or the four bytes that a sheet has for it.
pub trait Word: Copy {
    fn number(self) -> u32;
}

impl Word for u32 {
    fn number(self) -> u32 {
        self
    }
}

impl Word for [u8; 4] {
    fn number(self) -> u32 {
        u32::from_be_bytes(self)
    }
}

/// In the place of a family: imports, or instances, of which none has options, so that nothing need look for them.
pub const PLAIN_IMPORTS: u64 = 0;
pub const PLAIN_INSTANCES: u64 = 1;

/// The crate's section of a sheet at the end of `sink`. Words and names are taken where they stand. The sheet is right.
pub fn append_sheet(sheet: &[u8], sink: &mut Vec<u8>) {
    let (length, rest) = sheet[1..].split_first_chunk::<4>().expect("a pool's length");
    let (pool, rows) = rest.split_at(length.number() as usize);
    let mut words = rows.as_chunks::<4>().0;
    let family = family_of(words[1].number());
    let rows = std::iter::from_fn(|| {
        let (count, rest) = words.split_first()?;
        let (row, rest) = rest.split_at(count.number() as usize);
        words = rest;
        Some(row)
    });
    append_section(family, rows, pool, sink);
}

/// The crate's section at the end of `sink`. The rows are valid.
pub fn append_section<'a, W: Word + 'a>(family: u64, rows: impl Iterator<Item = &'a [W]>, pool: &[u8], sink: &mut Vec<u8>) {
    if family == TYPES {
        let mut section = ComponentTypeSection::new();
        rows.for_each(|row| add_type(&mut section, row, pool));
        section.append_to_component(sink);
    } else if family == PLAIN_IMPORTS {
        let mut section = ComponentImportSection::new();
        for row in rows {
            section.import(name(&row[1..], pool), reference(&row[12..]));
        }
        section.append_to_component(sink);
    } else if family == IMPORTS {
        let mut section = ComponentImportSection::new();
        rows.for_each(|row| add_import(&mut section, row, pool));
        section.append_to_component(sink);
    } else if family == CORE_INSTANCES {
        let mut section = InstanceSection::new();
        rows.for_each(|row| add_core_instance(&mut section, row, pool));
        section.append_to_component(sink);
    } else if family == PLAIN_INSTANCES {
        let mut section = ComponentInstanceSection::new();
        rows.for_each(|row| add_instance(&mut section, row, pool, |words| name(words, pool)));
        section.append_to_component(sink);
    } else if family == INSTANCES {
        let mut section = ComponentInstanceSection::new();
        rows.for_each(|row| add_instance(&mut section, row, pool, |words| extern_name(words, pool)));
        section.append_to_component(sink);
    } else {
        let mut section = CanonicalFunctionSection::new();
        rows.for_each(|row| add_canonical(&mut section, row));
        section.append_to_component(sink);
    }
}

/// Kinds 0 to 16.
fn add_type<W: Word>(section: &mut ComponentTypeSection, row: &[W], pool: &[u8]) {
    match row[0].number() {
        15 => {
            let (params, result) = row[3..].split_at(row.len() - 5);
            let mut function = section.function();
            function.async_(row[1].number() == 1);
            function.params(params.chunks_exact(4).map(|member| (name(member, pool), value(&member[2..]))));
            function.result(optional(result));
        }
        16 => {
            section.resource(rep(row[1]), (row[2].number() == 1).then_some(row[3].number()));
        }
        kind => add_defined(section.defined_type(), kind, &row[1..], pool),
    }
}

/// Kinds 0 to 14, with the words after the kind.
fn add_defined<W: Word>(new: ComponentDefinedTypeEncoder, kind: u32, row: &[W], pool: &[u8]) {
    let entries = |width| row[1..].chunks_exact(width);
    match kind {
        0 => new.primitive(PRIMITIVES[row[0].number() as usize]),
        1 => new.record(entries(4).map(|member| (name(member, pool), value(&member[2..])))),
        2 => new.variant(entries(4).map(|case| (name(case, pool), optional(&case[2..])))),
        3 => new.list(value(row)),
        4 => new.map(value(row), value(&row[2..])),
        5 => new.fixed_length_list(value(row), row[2].number()),
        6 => new.tuple(entries(2).map(value)),
        7 => new.flags(entries(2).map(|words| name(words, pool))),
        8 => new.enum_type(entries(2).map(|words| name(words, pool))),
        9 => new.option(value(row)),
        10 => new.result(optional(row), optional(&row[2..])),
        11 => new.own(row[0].number()),
        12 => new.borrow(row[0].number()),
        13 => new.future(optional(row)),
        _ => new.stream(optional(row)),
    }
}

/// Kind 17.
fn add_import<W: Word>(section: &mut ComponentImportSection, row: &[W], pool: &[u8]) {
    section.import(extern_name(&row[1..], pool), reference(&row[12..]));
}

/// Kinds 18 and 20.
fn add_core_instance<W: Word>(section: &mut InstanceSection, row: &[W], pool: &[u8]) {
    if row[0].number() == 18 {
        let given = row[3..].chunks_exact(3).map(|words| (name(words, pool), ModuleArg::Instance(words[2].number())));
        section.instantiate(row[1].number(), given);
    } else {
        let kind = |words: &[W]| CORE_KINDS[words[2].number() as usize];
        section.export_items(row[2..].chunks_exact(4).map(|words| (name(words, pool), kind(words), words[3].number())));
    }
}

/// Kinds 19 and 21, whose items have such names.
fn add_instance<'a, W: Word, N: Into<ComponentExternName<'a>>>(
    section: &mut ComponentInstanceSection,
    row: &[W],
    pool: &'a [u8],
    item_name: impl Fn(&[W]) -> N,
) {
    if row[0].number() == 19 {
        let given = row[3..].chunks_exact(4).map(|words| (name(words, pool), sort(words[2]), words[3].number()));
        section.instantiate(row[1].number(), given);
    } else {
        let items = row[2..].chunks_exact(13);
        section.export_items(items.map(|words| (item_name(words), sort(words[11]), words[12].number())));
    }
}

/// Kinds 256 + lead.
fn add_canonical<W: Word>(section: &mut CanonicalFunctionSection, row: &[W]) {
    let word = |place: usize| row[place].number();
    let flag = |place| word(place) == 1;
    let options = |place: usize| row[place..].chunks_exact(2).map(option);
    match word(0) - 256 {
        0x00 => section.lift(word(1), word(2), options(4)),
        0x01 => section.lower(word(1), options(3)),
        0x02 => section.resource_new(word(1)),
        0x03 => section.resource_drop(word(1)),
        0x04 => section.resource_rep(word(1)),
        0x05 => section.task_cancel(),
        0x06 => section.subtask_cancel(flag(1)),
        0x0a => section.context_get(rep(row[1]), word(2)),
        0x0b => section.context_set(rep(row[1]), word(2)),
        0x0c => section.thread_yield(),
        0x0d => section.subtask_drop(),
        0x0e => section.stream_new(word(1)),
        0x0f => section.stream_read(word(1), options(3)),
        0x11 => section.stream_cancel_read(word(1), flag(2)),
        0x12 => section.stream_cancel_write(word(1), flag(2)),
        0x13 => section.stream_drop_readable(word(1)),
        0x14 => section.stream_drop_writable(word(1)),
        0x15 => section.future_new(word(1)),
        0x16 => section.future_read(word(1), options(3)),
        0x18 => section.future_cancel_read(word(1), flag(2)),
        0x19 => section.future_cancel_write(word(1), flag(2)),
        0x1a => section.future_drop_readable(word(1)),
        0x1b => section.future_drop_writable(word(1)),
        0x1e => section.error_context_drop(),
        0x1f => section.waitable_set_new(),
        0x20 => section.waitable_set_wait(word(1)),
        0x21 => section.waitable_set_poll(word(1)),
        0x22 => section.waitable_set_drop(),
        0x23 => section.waitable_join(),
        0x24 => section.backpressure_inc(),
        0x25 => section.backpressure_dec(),
        0x26 => section.thread_index(),
        0x27 => section.thread_new_indirect(word(1), word(2)),
        0x29 => section.thread_suspend(),
        0x2a => section.thread_suspend_then_resume(),
        0x2b => section.thread_yield_then_resume(),
        0x2c => section.thread_suspend_then_promote(),
        0x2d => section.thread_yield_then_promote(),
        0x2e => section.stream_forward(word(1)),
        0x2f => section.future_forward(word(1)),
        0x40 => section.thread_spawn_ref(word(1)),
        _ => section.thread_spawn_indirect(word(1), word(2)),
    };
}

fn name<'a, W: Word>(words: &[W], pool: &'a [u8]) -> &'a str {
    std::str::from_utf8(&pool[words[0].number() as usize..][..words[1].number() as usize]).expect("a name in UTF-8")
}

fn extern_name<'a, W: Word>(words: &[W], pool: &'a [u8]) -> ComponentExternName<'a> {
    let option = |words: &[W]| (words[0].number() == 1).then(|| Cow::Borrowed(name(&words[1..], pool)));
    ComponentExternName {
        name: Cow::Borrowed(name(words, pool)),
        implements: option(&words[2..]),
        version_suffix: option(&words[5..]),
        external_id: option(&words[8..]),
    }
}

fn sort(word: impl Word) -> ComponentExportKind {
    SORTS[word.number() as usize]
}

fn rep(word: impl Word) -> ValType {
    [ValType::I32, ValType::I64][word.number() as usize]
}

fn value<W: Word>(words: &[W]) -> ComponentValType {
    match words[0].number() {
        0 => ComponentValType::Primitive(PRIMITIVES[words[1].number() as usize]),
        _ => ComponentValType::Type(words[1].number()),
    }
}

fn optional<W: Word>(words: &[W]) -> Option<ComponentValType> {
    (words[0].number() != 2).then(|| value(words))
}

fn reference<W: Word>(words: &[W]) -> ComponentTypeRef {
    let index = words[1].number();
    match words[0].number() {
        0 => ComponentTypeRef::Module(index),
        1 => ComponentTypeRef::Func(index),
        2 => ComponentTypeRef::Value(value(&words[1..])),
        3 if index == 0 => ComponentTypeRef::Type(TypeBounds::Eq(words[2].number())),
        3 => ComponentTypeRef::Type(TypeBounds::SubResource),
        4 => ComponentTypeRef::Component(index),
        _ => ComponentTypeRef::Instance(index),
    }
}

fn option<W: Word>(words: &[W]) -> CanonicalOption {
    let index = words[1].number();
    match words[0].number() {
        0 => CanonicalOption::UTF8,
        1 => CanonicalOption::UTF16,
        2 => CanonicalOption::CompactUTF16,
        3 => CanonicalOption::Memory(index),
        4 => CanonicalOption::Realloc(index),
        5 => CanonicalOption::PostReturn(index),
        6 => CanonicalOption::Async,
        7 => CanonicalOption::Callback(index),
        8 => CanonicalOption::CoreType(index),
        _ => CanonicalOption::Gc,
    }
}
