//! The sample components as a user of wasm-encoder writes them: parts of a station that tests cylinders hydrostatically.

use std::borrow::Cow;
use wasm_encoder::PrimitiveValType::*;
use wasm_encoder::{
    CanonicalOption, CodeSection, ComponentBuilder, ComponentDefinedTypeEncoder, ComponentExportKind, ComponentExternName,
    ComponentType, ComponentTypeRef, ComponentValType, CompositeInnerType, CompositeType, ConstExpr, EntityType, ExportKind,
    ExportSection, FuncType, Function, FunctionSection, GlobalSection, GlobalType, ImportSection, InstanceType, Instruction,
    MemorySection, MemoryType, Module, ModuleArg, ModuleType, RefType, SubType, TableSection, TableType, TagKind, TagSection,
    TagType, TypeBounds, TypeSection, ValType,
};

/// The judge: takes a cylinder with its limits and the readings of a test, and gives its verdict.
pub fn judge() -> Vec<u8> {
    let mut component = ComponentBuilder::default();
    let (judge_type, log_type) = judge_types(&mut component);
    let log = component.import("log", ComponentTypeRef::Func(log_type));
    let (memory, realloc) = memory_module(&mut component);
    let options = [CanonicalOption::UTF8, CanonicalOption::Memory(memory)];
    let log = component.lower_func(None, log, options);
    let host = component.core_instantiate_exports(None, [("log", ExportKind::Func, log)]);
    let code = core_module(&[("host", "log", "ii>")], &[("judge", "iiiididdiiii>i"), ("forget", "i>")]);
    let host = [("host", ModuleArg::Instance(host))];
    let (_, [judge, forget]) = instantiated(&mut component, &code, host, ["judge", "forget"]);
    let options = [options[0], options[1], CanonicalOption::Realloc(realloc), CanonicalOption::PostReturn(forget)];
    let judge = component.lift_func(None, judge, judge_type, options);
    component.export("judge", ComponentExportKind::Func, judge, None);
    component.finish()
}

/// The judge's types: the function that judges, and the one that logs.
fn judge_types(component: &mut ComponentBuilder) -> (u32, u32) {
    let limits = defined(component, |new| {
        new.record([("working-bar", F64), ("test-bar", F64), ("hold-seconds", U32), ("permanent-permille", U16)])
    });
    let material = defined(component, |new| new.enum_type(["steel", "aluminium", "composite"]));
    let marks = defined(component, |new| new.flags(["stamped", "repainted", "dented", "heat-marked"]));
    let limits = import_type(component, "limits", limits);
    let material = import_type(component, "material", material);
    let marks = import_type(component, "marks", marks);
    let maybe_limits = defined(component, |new| new.option(of(limits)));
    let cylinder = defined(component, |new| {
        let volume = ("volume-litres", F64.into());
        let marked = [("material", of(material)), ("marks", of(marks))];
        new.record([("serial", String.into()), marked[0], marked[1], volume, ("limits", of(maybe_limits))])
    });
    let reading = defined(component, |new| new.tuple([U64, F64]));
    let readings = defined(component, |new| new.list(of(reading)));
    let verdict = defined(component, |new| {
        new.variant([("passed", None), ("expanded", Some(F64.into())), ("failed", Some(String.into()))])
    });
    let cylinder = import_type(component, "cylinder", cylinder);
    let verdict = import_type(component, "verdict", verdict);
    let outcome = defined(component, |new| new.result(Some(of(verdict)), Some(String.into())));
    let (judge, mut new) = component.type_function(None);
    new.params([("cylinder", of(cylinder)), ("readings", of(readings))]).result(Some(of(outcome)));
    let (log, mut new) = component.type_function(None);
    new.params([("line", String)]).result(None);
    (judge, log)
}

/// The pump: a resource of this component, driven by a gauge, which is a resource of the host.
pub fn pump() -> Vec<u8> {
    let mut component = ComponentBuilder::default();
    let code = core_module(&[], &[("realloc", "iiii>i"), ("stop", "i>")]);
    let (memory, [realloc, stop]) = instantiated(&mut component, &code, [], ["realloc", "stop"]);
    let pump = component.type_resource(None, ValType::I32, Some(stop));
    let gauge = component.import("gauge", ComponentTypeRef::Type(TypeBounds::SubResource));
    let borrowed_gauge = defined(&mut component, |new| new.borrow(gauge));
    let (read, mut new) = component.type_function(None);
    new.params([("self", of(borrowed_gauge))]).result(Some(F64.into()));
    let read = component.import("[method]gauge.read", ComponentTypeRef::Func(read));
    let host = [
        ("new", ExportKind::Func, component.resource_new(pump)),
        ("rep", ExportKind::Func, component.resource_rep(pump)),
        ("drop-gauge", ExportKind::Func, component.resource_drop(gauge)),
        ("read-gauge", ExportKind::Func, component.lower_func(None, read, [])),
    ];
    let host = component.core_instantiate_exports(None, host);
    let imports = [("host", "new", "i>i"), ("host", "rep", "i>i"), ("host", "drop-gauge", "i>"), ("host", "read-gauge", "i>d")];
    let code = core_module(&imports, &[("make", "d>i"), ("raise", "idi>i"), ("log", "i>i"), ("retire", "i>i")]);
    let (_, code) =
        instantiated(&mut component, &code, [("host", ModuleArg::Instance(host))], ["make", "raise", "log", "retire"]);
    let pump = component.export("pump", ComponentExportKind::Type, pump, None);
    let types = pump_types(&mut component, pump, borrowed_gauge);
    let names = ["[constructor]pump", "[method]pump.raise", "[method]pump.log", "[static]pump.retire"];
    let memory = CanonicalOption::Memory(memory);
    let texts = [memory, CanonicalOption::Realloc(realloc), CanonicalOption::CompactUTF16];
    let options: [&[CanonicalOption]; 4] = [&[], &texts[..1], &texts, &texts[..1]];
    let lifted = [0, 1, 2, 3].map(|place| component.lift_func(None, code[place], types[place], options[place].iter().copied()));
    for (name, function) in names.into_iter().zip(lifted) {
        component.export(name, ComponentExportKind::Func, function, None);
    }
    component.finish()
}

/// The types of the pump's functions.
fn pump_types(component: &mut ComponentBuilder, pump: u32, borrowed_gauge: u32) -> [u32; 4] {
    let fault = defined(component, |new| new.enum_type(["over-pressure", "leak", "stalled"]));
    let fault = component.export("fault", ComponentExportKind::Type, fault, None);
    let own = defined(component, |new| new.own(pump));
    let borrow = defined(component, |new| new.borrow(pump));
    let raised = defined(component, |new| new.result(Some(F64.into()), Some(of(fault))));
    let lines = defined(component, |new| new.list(String));
    let retired = defined(component, |new| new.option(Bool));
    let (make, mut new) = component.type_function(None);
    new.params([("limit-bar", F64)]).result(Some(of(own)));
    let (raise, mut new) = component.type_function(None);
    new.params([("self", of(borrow)), ("target-bar", F64.into()), ("gauge", of(borrowed_gauge))]).result(Some(of(raised)));
    let (log, mut new) = component.type_function(None);
    new.params([("self", of(borrow))]).result(Some(of(lines)));
    let (retire, mut new) = component.type_function(None);
    new.params([("pump", of(own))]).result(Some(of(retired)));
    [make, raise, log, retire]
}

/// The watch: follows a test as it goes on, with streams, futures, an async import and an async export.
pub fn watch() -> Vec<u8> {
    let mut component = ComponentBuilder::default();
    let [start, shared_start, driver] = watch_core_types(&mut component);
    component.import("driver", ComponentTypeRef::Module(driver));
    let clock = component.type_instance(None, &InstanceType::new());
    let spare = component.type_component(None, &ComponentType::new());
    component.import("station:parts/clock@1.0.0", ComponentTypeRef::Instance(clock));
    component.import("spare-watch", ComponentTypeRef::Component(spare));
    let tolerance = component.import("tolerance", ComponentTypeRef::Value(F64.into()));
    let [samples, note, watch_type, sample_type] = watch_types(&mut component);
    let sample = component.import("sample", ComponentTypeRef::Func(sample_type));
    let (memory, realloc) = memory_module(&mut component);
    component.thread_new_indirect(start, 0);
    component.thread_spawn_ref(shared_start);
    let host = watch_builtins(&mut component, [samples, note, sample, memory, realloc]);
    let imports: Vec<_> = host.iter().map(|(name, _, signature)| ("host", *name, *signature)).collect();
    let code = core_module(&imports, &[("watch", "ii>i"), ("on-event", "iii>i")]);
    let host = component.core_instantiate_exports(None, host.iter().map(|(name, index, _)| (*name, ExportKind::Func, *index)));
    let host = [("host", ModuleArg::Instance(host))];
    let (_, [watch, on_event]) = instantiated(&mut component, &code, host, ["watch", "on-event"]);
    let options = [CanonicalOption::UTF16, CanonicalOption::Memory(memory), CanonicalOption::Realloc(realloc)];
    let concurrent = [CanonicalOption::Async, CanonicalOption::Callback(on_event)];
    let watch = component.lift_func(None, watch, watch_type, options.into_iter().chain(concurrent).collect::<Vec<_>>());
    component.export("watch", ComponentExportKind::Func, watch, None);
    component.export("tolerance-in-use", ComponentExportKind::Value, tolerance, None);
    component.finish()
}

/// The types of a thread's start and of one that is shared between threads, and the driver's module.
fn watch_core_types(component: &mut ComponentBuilder) -> [u32; 3] {
    let (start, new) = component.core_type(None);
    new.core().func_type(&function_type("i>"));
    let (shared_start, new) = component.core_type(None);
    let shared = CompositeType { inner: CompositeInnerType::Func(function_type("i>")), shared: true };
    new.core().subtype(&SubType { is_final: true, supertype_idx: None, composite_type: shared });
    let (driver, new) = component.core_type(None);
    new.module(ModuleType::new().export("ring", EntityType::Memory(ONE_PAGE)));
    [start, shared_start, driver]
}

/// The watch's stream of samples, future note, watching function and sampling function.
fn watch_types(component: &mut ComponentBuilder) -> [u32; 4] {
    let samples = defined(component, |new| new.stream(Some(F64.into())));
    let note = defined(component, |new| new.future(Some(String.into())));
    let axes = defined(component, |new| new.fixed_length_list(F32, 3));
    let error = defined(component, |new| new.primitive(ErrorContext));
    let sampled = defined(component, |new| new.result(None, Some(of(error))));
    let watched = defined(component, |new| new.tuple([of(samples), of(note)]));
    let (watch, mut new) = component.type_function(None);
    new.params([("station", String)]).result(Some(of(watched)));
    let (sample, mut new) = component.type_function(None);
    new.params([("axes", of(axes))]).result(Some(of(sampled)));
    [samples, note, watch, sample]
}

/// The built-ins that the watch's code is given: name, core function and its signature.
fn watch_builtins(component: &mut ComponentBuilder, indices: [u32; 5]) -> Vec<(&'static str, u32, &'static str)> {
    let [samples, note, sample, memory, realloc] = indices;
    let with_memory = CanonicalOption::Memory(memory);
    let texts = [CanonicalOption::UTF8, with_memory, CanonicalOption::Realloc(realloc), CanonicalOption::Async];
    vec![
        ("sample", component.lower_func(None, sample, [CanonicalOption::Async, with_memory]), "fffi>i"),
        ("samples-new", component.stream_new(samples), ">l"),
        ("samples-read", component.stream_read(samples, [with_memory, CanonicalOption::Async]), "iii>i"),
        ("samples-stop-reading", component.stream_cancel_read(samples, false), "i>i"),
        ("samples-stop-writing", component.stream_cancel_write(samples, true), "i>i"),
        ("samples-drop-readable", component.stream_drop_readable(samples), "i>"),
        ("samples-drop-writable", component.stream_drop_writable(samples), "i>"),
        ("note-new", component.future_new(note), ">l"),
        ("note-read", component.future_read(note, texts), "ii>i"),
        ("note-stop-reading", component.future_cancel_read(note, true), "i>i"),
        ("note-stop-writing", component.future_cancel_write(note, false), "i>i"),
        ("note-drop-readable", component.future_drop_readable(note), "i>"),
        ("note-drop-writable", component.future_drop_writable(note), "i>"),
        ("error-drop", component.error_context_drop(), "i>"),
        ("task-cancel", component.task_cancel(), ">"),
        ("subtask-cancel", component.subtask_cancel(true), "i>i"),
        ("subtask-drop", component.subtask_drop(), "i>"),
        ("context-get", component.context_get(ValType::I32, 0), ">i"),
        ("context-set", component.context_set(ValType::I32, 0), "i>"),
        ("set-new", component.waitable_set_new(), ">i"),
        ("set-wait", component.waitable_set_wait(memory), "ii>i"),
        ("set-poll", component.waitable_set_poll(memory), "ii>i"),
        ("set-drop", component.waitable_set_drop(), "i>"),
        ("join", component.waitable_join(), "ii>"),
        ("busier", component.backpressure_inc(), ">"),
        ("less-busy", component.backpressure_dec(), ">"),
        ("yield", component.thread_yield(), ">i"),
        ("suspend", component.thread_suspend(), ">i"),
        ("thread", component.thread_index(), ">i"),
    ]
}

/// The gauge: two modules, the second instantiated with the first, and a panel that is given one of everything.
pub fn gauge() -> Vec<u8> {
    let mut component = ComponentBuilder::default();
    let unit = defined(&mut component, |new| new.enum_type(["bar", "psi"]));
    let unit = import_type(&mut component, "unit", unit);
    let (read_type, mut new) = component.type_function(None);
    new.params::<[(&str, ComponentValType); 0], _>([]).result(Some(F64.into()));
    let tolerance = component.import("tolerance", ComponentTypeRef::Value(F64.into()));
    let sensor = component.core_module(None, &sensor_module());
    let sensing = component.core_instantiate(None, sensor, []);
    let parts = [
        ("sample", ExportKind::Func),
        ("table", ExportKind::Table),
        ("memory", ExportKind::Memory),
        ("zero", ExportKind::Global),
        ("fault", ExportKind::Tag),
    ];
    let parts = parts.map(|(name, kind)| (name, kind, component.core_alias_export(None, sensing, name, kind)));
    let parts = component.core_instantiate_exports(None, parts);
    let nothing = component.core_instantiate_exports(None, []);
    let code = core_module(&[("sensor", "sample", ">d"), ("parts", "sample", ">d")], &[("read", ">d")]);
    let given = [("sensor", sensing), ("parts", parts), ("none", nothing)];
    let (_, [read]) =
        instantiated(&mut component, &code, given.map(|(name, instance)| (name, ModuleArg::Instance(instance))), ["read"]);
    let read = component.lift_func(None, read, read_type, []);
    let reading = [("read", ComponentExportKind::Func, read), ("unit", ComponentExportKind::Type, unit)];
    let reading = component.instantiate_exports(None, reading);
    let spare = component.component(None, ComponentBuilder::default());
    let panel = component.component(None, panel());
    component.instantiate(None, spare, [("unheard", ComponentExportKind::Func, read)]);
    let given = [
        ("sensor", ComponentExportKind::Module, sensor),
        ("read", ComponentExportKind::Func, read),
        ("tolerance", ComponentExportKind::Value, tolerance),
        ("unit", ComponentExportKind::Type, unit),
        ("spare", ComponentExportKind::Component, spare),
        ("gauge", ComponentExportKind::Instance, reading),
    ];
    let panel = component.instantiate(None, panel, given);
    let all = [
        ("sensor", ComponentExportKind::Module, sensor),
        ("spare", ComponentExportKind::Component, spare),
        ("panel", ComponentExportKind::Instance, panel),
    ];
    let all = component.instantiate_exports(None, all);
    component.export("station:parts/gauge@1.0.0", ComponentExportKind::Instance, reading, None);
    component.export("all", ComponentExportKind::Instance, all, None);
    component.finish()
}

/// The first of the gauge's modules, with something of each kind that a core module exports.
fn sensor_module() -> Module {
    let (mut types, mut bodies) = (TypeSection::new(), CodeSection::new());
    types.ty().func_type(&function_type(">d"));
    types.ty().func_type(&function_type("i>"));
    bodies.function(Function::new([]).instruction(&Instruction::Unreachable).instruction(&Instruction::End));
    let mut module = Module::new();
    module.section(&types).section(FunctionSection::new().function(0));
    module.section(TableSection::new().table(EMPTY_TABLE)).section(MemorySection::new().memory(ONE_PAGE));
    module.section(TagSection::new().tag(TagType { kind: TagKind::Exception, func_type_idx: 1 }));
    let zero = GlobalType { val_type: ValType::F64, mutable: true, shared: false };
    module.section(GlobalSection::new().global(zero, &ConstExpr::f64_const(0.0.into())));
    let mut exported = ExportSection::new();
    exported.export("sample", ExportKind::Func, 0).export("table", ExportKind::Table, 0);
    exported.export("memory", ExportKind::Memory, 0).export("zero", ExportKind::Global, 0).export("fault", ExportKind::Tag, 0);
    module.section(&exported).section(&bodies);
    module
}

/// The gauge's panel, which imports something of each sort, and shows the value.
fn panel() -> ComponentBuilder {
    let mut component = ComponentBuilder::default();
    let (sample, new) = component.core_type(None);
    let mut sensor = ModuleType::new();
    sensor.ty().func_type(&function_type(">d"));
    new.module(sensor.export("sample", EntityType::Function(0)));
    component.import("sensor", ComponentTypeRef::Module(sample));
    let (read, mut new) = component.type_function(None);
    new.params::<[(&str, ComponentValType); 0], _>([]).result(Some(F64.into()));
    component.import("read", ComponentTypeRef::Func(read));
    let tolerance = component.import("tolerance", ComponentTypeRef::Value(F64.into()));
    let unit = defined(&mut component, |new| new.enum_type(["bar", "psi"]));
    import_type(&mut component, "unit", unit);
    let spare = component.type_component(None, &ComponentType::new());
    component.import("spare", ComponentTypeRef::Component(spare));
    let mut gauge = InstanceType::new();
    gauge.ty().function().params::<[(&str, ComponentValType); 0], _>([]).result(Some(F64.into()));
    gauge.export("read", ComponentTypeRef::Func(0));
    let gauge = component.type_instance(None, &gauge);
    component.import("gauge", ComponentTypeRef::Instance(gauge));
    component.export("tolerance-shown", ComponentExportKind::Value, tolerance, None);
    component
}

/// What is newer than the tool that validates: async function types, maps, options of names, and built-ins.
pub fn newer() -> Vec<u8> {
    let mut component = ComponentBuilder::default();
    let limits = defined(&mut component, |new| new.map(String, F64));
    let samples = defined(&mut component, |new| new.stream(Some(F64.into())));
    let note = defined(&mut component, |new| new.future(None));
    let (run, mut new) = component.type_function(None);
    new.async_(true).params([("cylinder", String.into()), ("limits", of(limits))]).result(Some(of(samples)));
    let (stop, mut new) = component.type_function(None);
    new.async_(true).params([("note", of(note))]).result(None);
    let versioned = ComponentExternName {
        name: Cow::Borrowed("station:parts/run@1"),
        implements: Some(Cow::Borrowed("station:parts/run")),
        version_suffix: Some(Cow::Borrowed(".2.3")),
        external_id: Some(Cow::Borrowed("bench-7")),
    };
    component.import(versioned, ComponentTypeRef::Func(run));
    let known_outside =
        ComponentExternName { external_id: Some(Cow::Borrowed("red-button")), ..ComponentExternName::from("stop") };
    let stop = component.import(known_outside.clone(), ComponentTypeRef::Func(stop));
    component.stream_forward(samples);
    component.future_forward(note);
    component.context_get(ValType::I64, 1);
    component.context_set(ValType::I64, 1);
    component.thread_suspend_then_resume();
    component.thread_yield_then_resume();
    component.thread_suspend_then_promote();
    component.thread_yield_then_promote();
    let button = ComponentExternName { version_suffix: Some(Cow::Borrowed(".1")), ..known_outside };
    let buttons = [(button, ComponentExportKind::Func, stop), ("halt".into(), ComponentExportKind::Func, stop)];
    component.instantiate_exports(None, buttons);
    component.finish()
}

/// A value type that is an earlier type.
fn of(index: u32) -> ComponentValType {
    ComponentValType::Type(index)
}

/// A new defined type.
fn defined(component: &mut ComponentBuilder, make: impl FnOnce(ComponentDefinedTypeEncoder)) -> u32 {
    let (index, new) = component.type_defined(None);
    make(new);
    index
}

/// Gives an earlier type a name: an import that is equal to it.
fn import_type(component: &mut ComponentBuilder, name: &str, index: u32) -> u32 {
    component.import(name, ComponentTypeRef::Type(TypeBounds::Eq(index)))
}

/// The module that only has the memory, for what is called before the code is there: its memory and its realloc.
fn memory_module(component: &mut ComponentBuilder) -> (u32, u32) {
    let (memory, [realloc]) = instantiated(component, &core_module(&[], &[("realloc", "iiii>i")]), [], ["realloc"]);
    (memory, realloc)
}

/// An instance of a core module: its memory, and functions of it by name; its table is there too.
fn instantiated<const N: usize, const M: usize>(
    component: &mut ComponentBuilder,
    module: &Module,
    given: [(&str, ModuleArg); M],
    names: [&str; N],
) -> (u32, [u32; N]) {
    let module = component.core_module(None, module);
    let instance = component.core_instantiate(None, module, given);
    let memory = component.core_alias_export(None, instance, "memory", ExportKind::Memory);
    component.core_alias_export(None, instance, "table", ExportKind::Table);
    (memory, names.map(|name| component.core_alias_export(None, instance, name, ExportKind::Func)))
}

const ONE_PAGE: MemoryType = MemoryType { minimum: 1, maximum: None, memory64: false, shared: false, page_size_log2: None };
const EMPTY_TABLE: TableType =
    TableType { element_type: RefType::FUNCREF, minimum: 0, maximum: None, table64: false, shared: false };

/// A core module with a memory, a table and functions that do nothing but trap: imports (from, name, signature) and
/// exports (name, signature). In a signature i, l, f and d are i32, i64, f32 and f64, and > stands before the results.
fn core_module(imports: &[(&str, &str, &str)], exports: &[(&str, &str)]) -> Module {
    let (mut types, mut imported, mut exported) = (TypeSection::new(), ImportSection::new(), ExportSection::new());
    let (mut functions, mut bodies) = (FunctionSection::new(), CodeSection::new());
    for (from, name, signature) in imports {
        types.ty().func_type(&function_type(signature));
        imported.import(from, name, EntityType::Function(types.len() - 1));
    }
    for (name, signature) in exports {
        types.ty().func_type(&function_type(signature));
        functions.function(types.len() - 1);
        exported.export(name, ExportKind::Func, types.len() - 1);
        bodies.function(Function::new([]).instruction(&Instruction::Unreachable).instruction(&Instruction::End));
    }
    exported.export("memory", ExportKind::Memory, 0).export("table", ExportKind::Table, 0);
    let mut module = Module::new();
    module.section(&types).section(&imported).section(&functions);
    module.section(TableSection::new().table(EMPTY_TABLE)).section(MemorySection::new().memory(ONE_PAGE));
    module.section(&exported).section(&bodies);
    module
}

fn function_type(signature: &str) -> FuncType {
    let types = |letters: &str| -> Vec<ValType> {
        let types = [('i', ValType::I32), ('l', ValType::I64), ('f', ValType::F32), ('d', ValType::F64)];
        letters.chars().filter_map(|letter| types.iter().find(|each| each.0 == letter)).map(|each| each.1).collect()
    };
    let (params, results) = signature.split_once('>').unwrap_or((signature, ""));
    FuncType::new(types(params), types(results))
}
