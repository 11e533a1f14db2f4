//! Sections written by the library and read by wasmparser: it finds the items that the library reads, at the same places; of
//! instances, which the library does not read, those that were written.

use crate::frames;
use crate::growing::Growing;
use crate::input::{counted, family_of, Input};
use crate::random::{valid_row, Random, KINDS};
use crate::report::{words, Difference, Table};
use crate::shrink;
use crate::tbaunarith::{read_import, read_type, Refused, CORE_INSTANCES, IMPORTS, INSTANCES, TYPES};
use std::collections::BTreeMap;
use wasmparser::{
    BinaryReader, BinaryReaderError, ComponentDefinedType, ComponentExport, ComponentExternalKind, ComponentImport,
    ComponentImportSectionReader, ComponentInstance, ComponentInstanceSectionReader, ComponentInstantiationArg, ComponentType,
    ComponentTypeRef, ComponentTypeSectionReader, ComponentValType, Export, ExternalKind, FromReader, Instance,
    InstanceSectionReader, InstantiationArg, PrimitiveValType, SectionLimited, TypeBounds, ValType, VariantCase,
};

/// How many items of each kind are compared at least.
const ITEMS_OF_EACH: u64 = 20_000;

/// The most items of a section.
const ITEMS_OF_A_SECTION: usize = 50;

/// The most words of a row.
const ROW_WORDS: usize = 16_384;

/// The families that wasmparser reads.
const FAMILIES: [(u64, &str); 4] =
    [(TYPES, "types"), (IMPORTS, "imports"), (CORE_INSTANCES, "core instances"), (INSTANCES, "instances")];

/// Each family.
pub fn compare(table: &mut Table) -> Result<(), Difference> {
    for (family, name) in FAMILIES {
        let mut counts = Counts::default();
        compare_sections(family, &mut counts)?;
        let what = format!("{name}: items read, at least {ITEMS_OF_EACH} of each kind ({})", counts.items.len());
        table.add(&what, "wasmparser", counts.items.values().sum());
        for (form, times) in counts.left_out {
            table.add(&format!("  left out, as wasmparser refuses it: {form}"), "wasmparser", times);
        }
    }
    Ok(())
}

/// How many items were compared, by kind, and how many left out, by form.
#[derive(Default)]
struct Counts {
    items: BTreeMap<u32, u64>,
    left_out: BTreeMap<&'static str, u64>,
}

/// The kind of which wasmparser knows no item.
const MAP: u32 = 4;

/// Why wasmparser 0.239 does not read a valid row's item, if so: it knows an older format, and has limits of its own.
pub(crate) fn unread(row: &[u32]) -> Option<&'static str> {
    match row[0] {
        MAP => Some("map (63)"),
        7 if row[1] > 1000 => Some("over 1,000 flags"),
        15 if row[1] == 1 => Some("async function (43)"),
        15 if row[2] > 1000 => Some("over 1,000 parameters"),
        17 if [row[3], row[6], row[9]].contains(&1) => Some("import options (02)"),
        21 if row[2..].chunks(13).any(|item| [item[2], item[5], item[8]].contains(&1)) => Some("item options (02)"),
        _ => None,
    }
}

/// Random sections until each kind was there often enough. A row that wasmparser does not read is tried alone.
fn compare_sections(family: u64, counts: &mut Counts) -> Result<(), Difference> {
    let kinds: Vec<u32> = KINDS.iter().copied().filter(|kind| family_of(*kind) == family).collect();
    let mut random = Random::new(family);
    counts.items.extend(kinds.iter().filter(|kind| **kind != MAP).map(|kind| (*kind, 0)));
    while counts.items.values().any(|items| *items < ITEMS_OF_EACH) {
        let mut input = Input { family, ..Input::default() };
        for _ in 0..=random.below(ITEMS_OF_A_SECTION) {
            let kind = *random.pick(&kinds);
            let mut row = valid_row(&mut random, kind, &mut input.pool);
            if kind == 21 && random.one_in(2) {
                row[2..].chunks_mut(13).for_each(|item| item[2..11].fill(0));
            }
            match unread(&row) {
                None => {
                    *counts.items.entry(row[0]).or_default() += 1;
                    input.rows.push(row);
                }
                Some(form) => {
                    refused_alone(form, &Input::alone(row, input.pool.clone()))?;
                    *counts.left_out.entry(form).or_default() += 1;
                }
            }
        }
        if let Err(first) = same_items(&input) {
            return Err(shrink::smallest(input, difference).unwrap_or(first));
        }
    }
    Ok(())
}

/// An item that is left out: the library writes it, and reads it if it has a call for that; wasmparser does refuse it.
fn refused_alone(form: &str, input: &Input) -> Result<(), Difference> {
    let unlike = |library, other| told(&format!("{form}, which is left out"), input, library, other);
    let section = written(input).map_err(|refused| unlike(format!("{refused:?}"), "a valid row".into()))?;
    match (by_library(input, &section), by_wasmparser(input.family, &section)) {
        (Ok(_), Err(_)) => Ok(()),
        (library, other) => Err(unlike(shown(&library), shown(&other))),
    }
}

/// An item: where its bytes start in the section's content, and its row, whose names count from there.
pub(crate) type Found = (usize, Vec<u32>);

/// The items of a section, or why there are none.
pub(crate) type Answer = Result<Vec<Found>, String>;

/// Both sides find the same items.
fn same_items(input: &Input) -> Result<(), Difference> {
    let section = written(input).map_err(|refused| told("valid rows", input, format!("{refused:?}"), String::new()))?;
    let (library, other) = (by_library(input, &section), by_wasmparser(input.family, &section));
    if library.is_ok() && library == other {
        return Ok(());
    }
    Err(told("items of a section", input, shown(&library), shown(&other)))
}

/// The difference that an input shows, if both sides take its rows.
fn difference(input: &Input) -> Option<Difference> {
    let taken = written(input).is_ok() && input.rows.iter().all(|row| unread(row).is_none());
    same_items(input).err().filter(|_| taken)
}

fn written(input: &Input) -> Result<Vec<u8>, Refused> {
    Growing::of_rows(input.family, &input.rows, &input.pool)
}

const BROKEN: &str = "the section's framing is broken";

/// The items that the library reads, one after another to the end of the section; of instances those that it wrote.
pub(crate) fn by_library(input: &Input, section: &[u8]) -> Answer {
    let read = match input.family {
        TYPES => read_type,
        IMPORTS => read_import,
        _ => return Ok(input.rows.iter().map(|row| (0, with_names(row, &input.pool))).collect()),
    };
    let (content, body) = (frames::content(section).ok_or(BROKEN)?, frames::body(section).ok_or(BROKEN)?);
    let (mut place, mut row, mut found) = (content.len() - body.len(), vec![0; ROW_WORDS], Vec::new());
    while place < content.len() {
        let item = read(&content[place..], 3, &mut row).map_err(|refused| format!("at byte {place}: {refused:?}"))?;
        found.push((place, row.get(..item.words).ok_or("more words than a row has")?.to_vec()));
        let left = content.len() - place;
        place += Some(item.taken).filter(|taken| (1..=left).contains(taken)).ok_or("more bytes taken than there are, or none")?;
    }
    Ok(found)
}

/// An instance's row in which the bytes of each entry's name stand in the place of its start; entries begin with their names.
fn with_names(row: &[u32], bytes: &[u8]) -> Vec<u32> {
    let Some((front, entries)) = counted(row[0]).and_then(|(place, _)| row.split_at_checked(place + 1)) else {
        return Vec::new();
    };
    let mut words = front.to_vec();
    for entry in entries.chunks(counted(row[0]).map_or(1, |(_, width)| width)) {
        let name = bytes.get(entry[0] as usize..).and_then(|bytes| bytes.get(..entry[1] as usize)).unwrap_or_default();
        words.extend(name.iter().map(|byte| u32::from(*byte)));
        words.extend(&entry[1..]);
    }
    words
}

/// The items that wasmparser reads.
pub(crate) fn by_wasmparser(family: u64, section: &[u8]) -> Answer {
    let content = frames::content(section).ok_or(BROKEN)?;
    let reader = BinaryReader::new(content, 0);
    let found = match family {
        TYPES => ComponentTypeSectionReader::new(reader).and_then(|section| rows_of(section, content, RowOf::component_type)),
        IMPORTS => ComponentImportSectionReader::new(reader).and_then(|section| rows_of(section, content, RowOf::import)),
        CORE_INSTANCES => InstanceSectionReader::new(reader).and_then(|section| rows_of(section, content, RowOf::core_instance)),
        _ => ComponentInstanceSectionReader::new(reader).and_then(|section| rows_of(section, content, RowOf::instance)),
    };
    let found = found.map_err(|error| error.to_string())?;
    if family == TYPES || family == IMPORTS {
        return Ok(found);
    }
    Ok(found.iter().map(|(place, row)| (0, with_names(row, &content[*place..]))).collect())
}

/// Each item of a reader as the row of document 01.
fn rows_of<'a, T: FromReader<'a>>(
    section: SectionLimited<'a, T>,
    content: &'a [u8],
    fields: fn(&mut RowOf<'a>, &T) -> Option<()>,
) -> Result<Vec<Found>, BinaryReaderError> {
    let mut found = Vec::new();
    for item in section.into_iter_with_offsets() {
        let (place, item) = item?;
        let mut row = RowOf { bytes: &content[place..], words: Vec::new() };
        // Where document 01 has no such form there is no row.
        found.push((place, fields(&mut row, &item).map_or(Vec::new(), |()| row.words)));
    }
    Ok(found)
}

/// The row of an item that wasmparser found: the words so far, and the bytes in which its names stand.
struct RowOf<'a> {
    bytes: &'a [u8],
    words: Vec<u32>,
}

/// Each method adds a field; nothing where document 01 has no such form.
impl RowOf<'_> {
    fn word(&mut self, word: u32) -> Option<()> {
        self.words.push(word);
        Some(())
    }

    /// N: wasmparser's names are parts of the bytes that it was given.
    fn name(&mut self, name: &str) -> Option<()> {
        let start = (name.as_ptr() as usize).checked_sub(self.bytes.as_ptr() as usize)?;
        self.word(start as u32)?;
        self.word(name.len() as u32)
    }

    fn primitive(&mut self, primitive: PrimitiveValType) -> Option<()> {
        use PrimitiveValType::*;
        const ALL: [PrimitiveValType; 14] = [Bool, S8, U8, S16, U16, S32, U32, S64, U64, F32, F64, Char, String, ErrorContext];
        self.word(ALL.iter().position(|each| *each == primitive)? as u32)
    }

    /// V.
    fn value(&mut self, value: &ComponentValType) -> Option<()> {
        match value {
            ComponentValType::Primitive(primitive) => {
                self.word(0)?;
                self.primitive(*primitive)
            }
            ComponentValType::Type(index) => {
                self.word(1)?;
                self.word(*index)
            }
        }
    }

    /// O.
    fn optional(&mut self, value: &Option<ComponentValType>) -> Option<()> {
        match value {
            Some(value) => self.value(value),
            None => {
                self.word(2)?;
                self.word(0)
            }
        }
    }

    /// n, and n of the same field.
    fn many<T>(&mut self, all: &[T], each: fn(&mut Self, &T) -> Option<()>) -> Option<()> {
        self.word(all.len() as u32)?;
        all.iter().try_for_each(|one| each(self, one))
    }

    fn member(&mut self, (name, value): &(&str, ComponentValType)) -> Option<()> {
        self.name(name)?;
        self.value(value)
    }

    fn case(&mut self, case: &VariantCase) -> Option<()> {
        self.name(case.name)?;
        self.optional(&case.ty)?;
        case.refines.is_none().then_some(())
    }

    fn flag_or_tag(&mut self, name: &&str) -> Option<()> {
        self.name(name)
    }

    /// Kinds 0 to 16.
    fn component_type(&mut self, item: &ComponentType) -> Option<()> {
        match item {
            ComponentType::Defined(defined) => self.defined_type(defined),
            ComponentType::Func(function) => {
                self.word(15)?;
                self.word(0)?;
                self.many(&function.params, Self::member)?;
                self.optional(&function.result)
            }
            ComponentType::Resource { rep, dtor } => {
                self.word(16)?;
                self.word([ValType::I32, ValType::I64].iter().position(|each| each == rep)? as u32)?;
                self.word(u32::from(dtor.is_some()))?;
                self.word(dtor.unwrap_or(0))
            }
            ComponentType::Component(_) | ComponentType::Instance(_) => None,
        }
    }

    fn defined_type(&mut self, defined: &ComponentDefinedType) -> Option<()> {
        use ComponentDefinedType::*;
        self.word(kind_of(defined))?;
        match defined {
            Primitive(primitive) => self.primitive(*primitive),
            Record(members) => self.many(members, Self::member),
            Variant(cases) => self.many(cases, Self::case),
            Tuple(values) => self.many(values, Self::value),
            Flags(names) | Enum(names) => self.many(names, Self::flag_or_tag),
            List(value) | Option(value) => self.value(value),
            FixedSizeList(value, length) => {
                self.value(value)?;
                self.word(*length)
            }
            Result { ok, err } => {
                self.optional(ok)?;
                self.optional(err)
            }
            Own(index) | Borrow(index) => self.word(*index),
            Future(value) | Stream(value) => self.optional(value),
        }
    }

    /// Kind 17.
    fn import(&mut self, item: &ComponentImport) -> Option<()> {
        self.word(17)?;
        self.name(item.name.0)?;
        self.words.extend([0; 9]);
        match item.ty {
            ComponentTypeRef::Value(value) => {
                self.word(2)?;
                self.value(&value)
            }
            ComponentTypeRef::Module(index) => self.three_words(0, index, 0),
            ComponentTypeRef::Func(index) => self.three_words(1, index, 0),
            ComponentTypeRef::Type(TypeBounds::Eq(index)) => self.three_words(3, 0, index),
            ComponentTypeRef::Type(TypeBounds::SubResource) => self.three_words(3, 1, 0),
            ComponentTypeRef::Component(index) => self.three_words(4, index, 0),
            ComponentTypeRef::Instance(index) => self.three_words(5, index, 0),
        }
    }

    /// Kinds 18 and 20.
    fn core_instance(&mut self, item: &Instance) -> Option<()> {
        match item {
            Instance::Instantiate { module_index, args } => {
                self.words.extend([18, *module_index]);
                self.many(args, Self::core_argument)
            }
            Instance::FromExports(items) => {
                self.word(20)?;
                self.many(items, Self::core_item)
            }
        }
    }

    /// An argument can be nothing but an instance.
    fn core_argument(&mut self, argument: &InstantiationArg) -> Option<()> {
        self.name(argument.name)?;
        self.word(argument.index)
    }

    fn core_item(&mut self, item: &Export) -> Option<()> {
        use ExternalKind::*;
        self.name(item.name)?;
        self.word([Func, Table, Memory, Global, Tag].iter().position(|each| *each == item.kind)? as u32)?;
        self.word(item.index)
    }

    /// Kinds 19 and 21.
    fn instance(&mut self, item: &ComponentInstance) -> Option<()> {
        match item {
            ComponentInstance::Instantiate { component_index, args } => {
                self.words.extend([19, *component_index]);
                self.many(args, Self::argument)
            }
            ComponentInstance::FromExports(items) => {
                self.word(21)?;
                self.many(items, Self::item)
            }
        }
    }

    fn argument(&mut self, argument: &ComponentInstantiationArg) -> Option<()> {
        self.name(argument.name)?;
        self.sort(argument.kind)?;
        self.word(argument.index)
    }

    fn item(&mut self, item: &ComponentExport) -> Option<()> {
        self.name(item.name.0)?;
        self.words.extend([0; 9]);
        self.sort(item.kind)?;
        self.word(item.index)
    }

    fn sort(&mut self, kind: ComponentExternalKind) -> Option<()> {
        use ComponentExternalKind::*;
        self.word([Module, Func, Value, Type, Component, Instance].iter().position(|each| *each == kind)? as u32)
    }

    fn three_words(&mut self, one: u32, two: u32, three: u32) -> Option<()> {
        self.words.extend([one, two, three]);
        Some(())
    }
}

/// The kind of a defined type.
fn kind_of(defined: &ComponentDefinedType) -> u32 {
    use ComponentDefinedType::*;
    match defined {
        Primitive(_) => 0,
        Record(_) => 1,
        Variant(_) => 2,
        List(_) => 3,
        FixedSizeList(..) => 5,
        Tuple(_) => 6,
        Flags(_) => 7,
        Enum(_) => 8,
        Option(_) => 9,
        Result { .. } => 10,
        Own(_) => 11,
        Borrow(_) => 12,
        Future(_) => 13,
        Stream(_) => 14,
    }
}

fn told(what: &str, input: &Input, library: String, other: String) -> Difference {
    Difference { what: what.into(), input: input.shown(), library, other }
}

/// An answer's items as text.
fn shown(answer: &Answer) -> String {
    match answer {
        Ok(found) => found.iter().map(|(place, row)| format!("at byte {place} [{}]", words(row))).collect::<Vec<_>>().join(" "),
        Err(why) => why.clone(),
    }
}
