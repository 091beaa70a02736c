//! Load plans of eBPF objects, made by the library `libmorvezin`, which is proved.
//!
//! [`Morvezin::prepare`] turns an object and what is known of a kernel into a [`Plan`]: the maps,
//! programs and types that a loader hands to that kernel. This crate adds nothing to the library
//! but a safe call and a reader of plans. It isn't proved itself.
//!
//! ```
//! use morvezin::{Kernel, Morvezin, Refusal};
//!
//! # fn main() -> Result<(), Refusal> {
//! let object = include_bytes!("../../../examples/trace_unlink.o");
//! let plan = Morvezin::prepare(object, &Kernel::new())?;
//! let program = &plan.programs[0];
//! assert_eq!(program.name, "trace_unlink");
//! assert_eq!(program.slots.len(), 2);
//! assert_eq!(program.section.load_attributes().prog_type, 2); // BPF_PROG_TYPE_KPROBE
//! # Ok(())
//! # }
//! ```
//!
//! The crate links `libmorvezin.a`, or `libmorvezin.so` where the variable `MORVEZIN_LINK` is
//! `dylib`. It is looked for in the folder that the variable `MORVEZIN_LIB_DIR` names, then in the
//! repository that holds this crate, then by `pkg-config`.
#![warn(missing_debug_implementations)]

mod plan;
mod read;
mod refusal;
mod section;
mod sys;

pub use plan::{
    BtfFeature, MapWords, PinningType, Plan, PlanMap, PlanProgram, PlanReadError, bpf_func_info,
    bpf_insn, bpf_line_info,
};
pub use refusal::{Refusal, RefusalKind};
pub use section::{
    CgroupSkbAttachType, CgroupSockAddrAttachType, CgroupSockAttachType, CgroupSockoptAttachType,
    LoadAttributes, ProgramSection, SkReuseportAttachType, SkSkbKind, XdpAttachType,
};

use std::slice;

/// What is known of a kernel, and how objects are prepared for it.
///
/// ```no_run
/// use morvezin::Kernel;
///
/// # fn main() -> std::io::Result<()> {
/// let types = std::fs::read("/sys/kernel/btf/vmlinux")?;
/// let symbols = std::fs::read("/proc/kallsyms")?;
/// let kernel = Kernel::new().types(&types).symbols(&symbols).number_maps(true);
/// # Ok(())
/// # }
/// ```
#[derive(Clone, Debug, Default)]
pub struct Kernel<'a> {
    types: Vec<&'a [u8]>,
    symbols: &'a [u8],
    settings: &'a str,
    rewrite_first: bool,
    number_maps: bool,
}

impl<'a> Kernel<'a> {
    /// A kernel of which nothing is known, with the default settings.
    pub fn new() -> Kernel<'a> {
        Kernel::default()
    }

    /// Adds a table of types (BTF), in either byte order. That of vmlinux comes first.
    pub fn types(mut self, table: &'a [u8]) -> Kernel<'a> {
        self.types.push(table);
        self
    }

    /// The text of `/proc/kallsyms`.
    pub fn symbols(self, symbols: &'a [u8]) -> Kernel<'a> {
        Kernel { symbols, ..self }
    }

    /// The settings as a TOML document (docs/FORMATS.md, "Settings").
    pub fn settings(self, settings: &'a str) -> Kernel<'a> {
        Kernel { settings, ..self }
    }

    /// Whether the object's types are rewritten to the kernel's features before type relocations
    /// are resolved in them, and not after it.
    pub fn rewrite_first(self, rewrite_first: bool) -> Kernel<'a> {
        Kernel {
            rewrite_first,
            ..self
        }
    }

    /// Whether each map without a number in the settings gets one: the least that no map has, in
    /// order of the names. Without it, such an object is refused.
    pub fn number_maps(self, number_maps: bool) -> Kernel<'a> {
        Kernel {
            number_maps,
            ..self
        }
    }
}

/// What [`Morvezin::check`] says.
#[derive(Clone, Debug, PartialEq, Eq)]
pub struct Check {
    /// Whether the kernel takes the object, as far as the check knows.
    pub takes: bool,
    /// The report, a JSON document (docs/FORMATS.md, "What `inspect_object --types` prints").
    pub report: String,
}

/// The library's calls. They keep no state, and may be made on different threads at once.
#[derive(Clone, Copy, Debug)]
pub struct Morvezin;

impl Morvezin {
    /// Makes the plan of an object for a kernel.
    ///
    /// # Errors
    ///
    /// The object is refused, the settings or the types are invalid, or memory runs out.
    ///
    /// # Examples
    ///
    /// ```
    /// use morvezin::{Kernel, Morvezin, RefusalKind};
    ///
    /// let refusal = Morvezin::prepare(b"no object", &Kernel::new()).unwrap_err();
    /// assert_eq!(refusal.kind(), RefusalKind::Object);
    /// ```
    pub fn prepare(object: &[u8], kernel: &Kernel<'_>) -> Result<Plan, Refusal> {
        let text = Morvezin::prepare_text(object, kernel)?;
        Ok(Plan::read(text.as_bytes()).expect("the library writes texts of plans"))
    }

    /// The same plan as text, for a loader on another machine. [`Plan::read`] reads it.
    ///
    /// # Errors
    ///
    /// Those of [`Morvezin::prepare`].
    pub fn prepare_text(object: &[u8], kernel: &Kernel<'_>) -> Result<String, Refusal> {
        call(sys::morvezin_prepare, object, kernel)?.into_text()
    }

    /// Checks whether a kernel takes an object. The settings aren't looked at, and maps are
    /// numbered. Without symbols, the kernel counts as one that has all that the object needs.
    ///
    /// # Errors
    ///
    /// The object can't be parsed, a table of types is invalid, or memory runs out.
    pub fn check(object: &[u8], kernel: &Kernel<'_>) -> Result<Check, Refusal> {
        let answer = call(sys::morvezin_check, object, kernel)?;
        if answer.status == sys::FAILS {
            let report = answer.text;
            return Ok(Check {
                takes: false,
                report,
            });
        }
        let report = answer.into_text()?;
        Ok(Check {
            takes: true,
            report,
        })
    }

    /// Lists the instructions of an object's programs as they would be loaded (docs/FORMATS.md,
    /// "What `inspect_object --code` prints"), with the inputs of [`Morvezin::check`].
    ///
    /// # Errors
    ///
    /// Those of [`Morvezin::prepare`].
    pub fn code(object: &[u8], kernel: &Kernel<'_>) -> Result<String, Refusal> {
        call(sys::morvezin_code, object, kernel)?.into_text()
    }

    /// The version of the library: major, minor and patch.
    pub fn version() -> (u32, u32, u32) {
        let version = sys::morvezin_version();
        (version / 1_000_000, version / 1000 % 1000, version % 1000)
    }
}

/// What the library said, with its text.
struct Answer {
    status: i32,
    kind: i32,
    text: String,
}

impl Answer {
    fn into_text(self) -> Result<String, Refusal> {
        let kind = match self.status {
            sys::OK => return Ok(self.text),
            sys::REFUSED => RefusalKind::of_object(self.kind),
            sys::INVALID_SETTINGS => RefusalKind::InvalidSettings,
            sys::INVALID_TYPES => RefusalKind::InvalidTypes,
            other => RefusalKind::Other(other),
        };
        Err(Refusal::new(kind, self.text))
    }
}

/// Makes a call of the library. `OutOfMemory` is its only error.
fn call(call: sys::Call, object: &[u8], kernel: &Kernel<'_>) -> Result<Answer, Refusal> {
    let tables: Vec<sys::Types> = kernel
        .types
        .iter()
        .map(|table| sys::Types {
            table: sys::Bytes::from(*table),
            is_big_endian: table.starts_with(&[0xeb, 0x9f]),
        })
        .collect();
    let inputs = sys::Inputs {
        object: object.into(),
        types: tables.as_ptr(),
        types_len: tables.len(),
        symbols: kernel.symbols.into(),
        settings: kernel.settings.as_bytes().into(),
        rewrite_first: kernel.rewrite_first,
        number_maps: kernel.number_maps,
    };
    let mut answer = sys::Answer {
        text: b"".as_slice().into(),
        status: 0,
        kind: 0,
    };
    // SAFETY: No pointer is null, since those of slices and vectors aren't. What they point to
    // lives and stays as it is during the call. `answer` overlaps nothing else.
    unsafe { call(&inputs, &mut answer) };
    let text = take_text(answer.text);
    if answer.status == sys::OUT_OF_MEMORY {
        let message = String::from("out of memory");
        return Err(Refusal::new(RefusalKind::OutOfMemory, message));
    }
    Ok(Answer {
        status: answer.status,
        kind: answer.kind,
        text,
    })
}

/// Copies an answer's text, and gives the library's back.
fn take_text(text: sys::Bytes) -> String {
    if text.len == 0 {
        return String::new();
    }
    // SAFETY: The library gives `len` bytes of malloc, which nothing else points to.
    let copy = unsafe { slice::from_raw_parts(text.data, text.len) }.to_vec();
    unsafe { sys::free(text.data.cast_mut().cast()) };
    String::from_utf8(copy).unwrap_or_else(|error| String::from_utf8_lossy(error.as_bytes()).into())
}
