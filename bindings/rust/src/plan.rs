use crate::read;
use crate::section::ProgramSection;
use std::error::Error;
use std::fmt;

/// What a loader hands to one kernel. docs/FORMATS.md, "What a loader does with a plan", says how.
#[derive(Clone, Debug, PartialEq, Eq)]
pub struct Plan {
    /// The license, without the NUL that ends it in the object.
    pub license: Vec<u8>,
    /// The kernel version that the object was made for. `None` is any version.
    pub version: Option<u32>,
    /// The features of the kernel that were asked about, each once, with the answers, in the order
    /// asked.
    pub features: Vec<(BtfFeature, bool)>,
    /// The types as the kernel takes them, at least one byte. `None` is no types.
    pub type_bytes: Option<Vec<u8>>,
    /// The maps, names strictly rising by bytes.
    pub maps: Vec<PlanMap>,
    /// The programs, names strictly rising by bytes.
    pub programs: Vec<PlanProgram>,
}

/// A map of a plan.
#[derive(Clone, Debug, PartialEq, Eq)]
pub struct PlanMap {
    /// The map's name in the object.
    pub name: String,
    /// The number that stands for the map in the slots of programs, below 2^31.
    pub number: u32,
    /// Whether types define it.
    pub is_btf: bool,
    /// The words that define it.
    pub words: MapWords,
    /// The bytes of a section's variables; none for other maps.
    pub contents: Vec<u8>,
    /// The words of the maps that it holds.
    pub inner: Option<MapWords>,
}

/// The words that define a map, sizes in bytes.
#[derive(Clone, Copy, Debug, PartialEq, Eq)]
pub struct MapWords {
    /// The kernel's number of the map's type.
    pub map_type: u32,
    pub key_size: u32,
    pub value_size: u32,
    pub max_entries: u32,
    pub map_flags: u32,
    /// The per-type extra word: 0 for a map that types don't define.
    pub map_extra: u64,
    pub pinning: PinningType,
    /// The id in the map's definition: 0 for a map that types define.
    pub id: u32,
    /// The type of keys, by its id in the plan's types: 0 for none.
    pub btf_key_type_id: u32,
    /// The type of values, by its id in the plan's types: 0 for none.
    pub btf_value_type_id: u32,
}

/// Whether a map is pinned.
#[derive(Clone, Copy, Debug, Default, PartialEq, Eq)]
pub enum PinningType {
    /// It isn't.
    #[default]
    None,
    /// Under its name.
    ByName,
}

/// A program of a plan.
#[derive(Clone, Debug, PartialEq, Eq)]
pub struct PlanProgram {
    /// The program's name in the object.
    pub name: String,
    /// The kind of program, with its attach type.
    pub section: ProgramSection,
    /// The instruction slots.
    pub slots: Vec<bpf_insn>,
    /// Which function begins at which slot.
    pub func_records: Vec<bpf_func_info>,
    /// Which lines of source files the slots come from.
    pub line_records: Vec<bpf_line_info>,
    /// The kernel tables in which the type relocations of the program's functions have their first
    /// matches, by their indexes in the list of tables, strictly rising. `None` where they aren't
    /// known.
    pub tables: Option<Vec<u32>>,
}

/// An instruction slot: eight bytes, of which a wide instruction takes two slots ("Instruction
/// encoding" in the kernel's `instruction-set.rst`).
#[allow(non_camel_case_types)]
#[derive(Clone, Copy, Debug, Default, PartialEq, Eq)]
pub struct bpf_insn {
    /// The operation code.
    pub code: u8,
    /// The destination register in the low four bits, the source register in the high four.
    pub registers: u8,
    /// The signed offset.
    pub off: i16,
    /// The signed immediate.
    pub imm: i32,
}

impl bpf_insn {
    /// The slot that eight little-endian bytes encode.
    pub fn from_bytes(bytes: [u8; 8]) -> bpf_insn {
        let [code, registers, a, b, c, d, e, f] = bytes;
        bpf_insn {
            code,
            registers,
            off: i16::from_le_bytes([a, b]),
            imm: i32::from_le_bytes([c, d, e, f]),
        }
    }

    /// The eight bytes that encode the slot, little-endian.
    pub fn to_bytes(self) -> [u8; 8] {
        let ([a, b], [c, d, e, f]) = (self.off.to_le_bytes(), self.imm.to_le_bytes());
        [self.code, self.registers, a, b, c, d, e, f]
    }

    /// The number of the destination register, 0 to 15.
    pub fn dst_reg(self) -> u8 {
        self.registers & 15
    }

    /// The number of the source register, 0 to 15.
    pub fn src_reg(self) -> u8 {
        self.registers >> 4
    }
}

/// The type of a function, and where the function begins.
#[allow(non_camel_case_types)]
#[derive(Clone, Copy, Debug, PartialEq, Eq)]
pub struct bpf_func_info {
    /// The index of its first instruction, in slots of 8 bytes.
    pub insn_off: u32,
    /// The id of its `BTF_KIND_FUNC`.
    pub type_id: u32,
}

/// A line of a source file, and where the instructions that come from it begin.
#[allow(non_camel_case_types)]
#[derive(Clone, Copy, Debug, PartialEq, Eq)]
pub struct bpf_line_info {
    /// The index of the first instruction that comes from it, in slots of 8 bytes.
    pub insn_off: u32,
    /// The offset of the file's name in the strings.
    pub file_name_off: u32,
    /// The offset of the line's text in the strings.
    pub line_off: u32,
    /// The line's number in the high 22 bits, and the column in the low 10.
    pub line_col: u32,
}

/// A part of BTF that some kernels don't support.
#[derive(Clone, Copy, Debug, PartialEq, Eq)]
pub enum BtfFeature {
    /// `BTF_KIND_FUNC` and `BTF_KIND_FUNC_PROTO`.
    Func,
    /// Functions of global linkage.
    FuncGlobal,
    /// `BTF_KIND_VAR` and `BTF_KIND_DATASEC`.
    DataSec,
    /// Sections without variables.
    DataSecZero,
    /// `BTF_KIND_FLOAT`.
    Float,
    /// `BTF_KIND_DECL_TAG`.
    DeclTag,
    /// `BTF_KIND_TYPE_TAG`.
    TypeTag,
    /// `BTF_KIND_ENUM64`, and signed `BTF_KIND_ENUM`.
    Enum64,
}

/// Why bytes can't be read as a plan: the number, from 1, of the first line that no plan's text has
/// after the lines before it. Where the text only ends too early, that of the line after the last
/// whole one.
#[derive(Clone, Copy, Debug, PartialEq, Eq)]
pub struct PlanReadError(pub usize);

impl fmt::Display for PlanReadError {
    fn fmt(&self, f: &mut fmt::Formatter<'_>) -> fmt::Result {
        write!(f, "no plan's text goes on with line {}", self.0)
    }
}

impl Error for PlanReadError {}

impl Plan {
    /// Reads a plan from its text (docs/FORMATS.md, "The text of a plan"), in either version.
    ///
    /// # Errors
    ///
    /// The bytes aren't a plan's text.
    ///
    /// # Examples
    ///
    /// ```
    /// use morvezin::{Plan, PlanReadError};
    ///
    /// let text = "bpf-plan 2\nlicense 47504c\nversion any\ntypes none\nend\n";
    /// let plan = Plan::read(text.as_bytes())?;
    /// assert_eq!(plan.license, b"GPL");
    /// assert_eq!(Plan::read(b"bpf-plan 2\nlicence\n"), Err(PlanReadError(2)));
    /// # Ok::<(), PlanReadError>(())
    /// ```
    pub fn read(text: &[u8]) -> Result<Plan, PlanReadError> {
        read::plan(text)
    }
}
