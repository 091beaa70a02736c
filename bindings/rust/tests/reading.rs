//! A text with each kind of line, and what is read of it.

use morvezin::*;

const TEXT: &str = "bpf-plan 2\n\
    license 47504c\n\
    version 329728\n\
    feature Func yes\n\
    feature Enum64 no\n\
    types 9feb01\n\
    map 6f75746572 7 btf 13 4 4 16 1 18446744073709551615 1 0 5 6 -\n\
    inner 1 4 8 32 2 9 0 0 3 4\n\
    map 7a 2147483647 legacy 2 4 3 1 128 0 0 12 0 0 00ff10\n\
    program 63616c6c 6 1 2\n\
    slots 18a1feff010000800000000002000000\n\
    tables 0 4294967295\n\
    func 0 4294967295\n\
    func 9 2\n\
    line 1 2 3 1034\n\
    program c3a9 12 11 0\n\
    slots -\n\
    tables ?\n\
    end\n";

fn words(numbers: [u32; 5], map_extra: u64, pinning: PinningType, ids: [u32; 3]) -> MapWords {
    let [map_type, key_size, value_size, max_entries, map_flags] = numbers;
    let [id, btf_key_type_id, btf_value_type_id] = ids;
    MapWords {
        map_type,
        key_size,
        value_size,
        max_entries,
        map_flags,
        map_extra,
        pinning,
        id,
        btf_key_type_id,
        btf_value_type_id,
    }
}

fn wanted_maps() -> Vec<PlanMap> {
    let outer = words([13, 4, 4, 16, 1], u64::MAX, PinningType::ByName, [0, 5, 6]);
    vec![
        PlanMap {
            name: "outer".into(),
            number: 7,
            is_btf: true,
            words: outer,
            contents: vec![],
            inner: Some(words([1, 4, 8, 32, 2], 9, PinningType::None, [0, 3, 4])),
        },
        PlanMap {
            name: "z".into(),
            number: i32::MAX as u32,
            is_btf: false,
            words: words([2, 4, 3, 1, 128], 0, PinningType::None, [12, 0, 0]),
            contents: vec![0, 255, 16],
            inner: None,
        },
    ]
}

#[test]
fn each_line_is_read() {
    let plan = Plan::read(TEXT.as_bytes()).unwrap();
    assert_eq!(plan.license, b"GPL");
    assert_eq!(plan.version, Some(329728));
    let features = [(BtfFeature::Func, true), (BtfFeature::Enum64, false)];
    assert_eq!(plan.features, features);
    assert_eq!(plan.type_bytes.as_deref(), Some(&[0x9f, 0xeb, 1][..]));
    assert_eq!(plan.maps, wanted_maps());
    let [call, last] = plan.programs.as_slice() else {
        panic!("{plan:?}");
    };
    assert_eq!((call.name.as_str(), last.name.as_str()), ("call", "é"));
    let (frags, attach_type) = (true, XdpAttachType::DevMap);
    assert_eq!(call.section, ProgramSection::Xdp { frags, attach_type });
    let [first, second] = call.slots.as_slice() else {
        panic!("{call:?}");
    };
    assert_eq!(
        (first.code, first.dst_reg(), first.src_reg()),
        (0x18, 1, 10)
    );
    assert_eq!((first.off, first.imm, second.imm), (-2, i32::MIN + 1, 2));
    assert_eq!(first.to_bytes(), [0x18, 0xa1, 0xfe, 0xff, 1, 0, 0, 0x80]);
    assert_eq!(call.tables.as_deref(), Some(&[0, u32::MAX][..]));
    let funcs: Vec<_> = call
        .func_records
        .iter()
        .map(|it| (it.insn_off, it.type_id))
        .collect();
    assert_eq!(funcs, [(0, u32::MAX), (9, 2)]);
    let line = call.line_records[0];
    assert_eq!((line.insn_off, line.file_name_off), (1, 2));
    assert_eq!((line.line_off, line.line_col), (3, 1034));
    let attach_type = CgroupSockAddrAttachType::UDPRecvMsg6;
    assert_eq!(last.section, ProgramSection::CgroupSockAddr { attach_type });
    assert_eq!((last.slots.len(), &last.tables), (0, &None));
}

/// The numbers in a cell of docs/FORMATS.md, such as `A 0: -; A 1, 2: 0 INGRESS, 1 EGRESS`; a dash is none.
fn numbers(cell: &str) -> Vec<Option<u32>> {
    let lists = cell
        .split("; ")
        .map(|part| part.split(": ").last().unwrap());
    let items = lists.flat_map(|list| list.split(", "));
    items
        .map(|item| item.split(' ').next().unwrap().parse().ok())
        .collect()
}

fn attributes(kind: &str, first: usize, second: usize) -> LoadAttributes {
    let text = format!(
        "bpf-plan 2\nlicense -\nversion any\ntypes none\n\
         program - {kind} {first} {second}\nslots -\ntables -\nend\n"
    );
    Plan::read(text.as_bytes()).unwrap().programs[0]
        .section
        .load_attributes()
}

/// Each kind has the attributes that docs/FORMATS.md lists.
#[test]
fn kinds_have_the_attributes_of_the_table() {
    let document = include_str!("../../../docs/FORMATS.md");
    let part = document
        .split("### What a kind is for the kernel")
        .nth(1)
        .unwrap();
    let table = part.split("\n## ").next().unwrap();
    let mut kinds = 0;
    for row in table
        .lines()
        .filter(|row| row.starts_with("| ") && !row.starts_with("| KIND"))
    {
        let cells: Vec<_> = row.split('|').map(str::trim).collect();
        let (prog_type, has_flag) = (numbers(cells[2])[0].unwrap(), cells[4].starts_with("A 1: "));
        for kind in cells[1]
            .split(", ")
            .map(|kind| kind.split(' ').next().unwrap())
        {
            for (place, expected_attach_type) in numbers(cells[3]).into_iter().enumerate() {
                for flag in 0..=usize::from(has_flag) {
                    let fields = if has_flag { (flag, place) } else { (place, 0) };
                    let flags = if flag == 1 {
                        numbers(cells[4])[0].unwrap()
                    } else {
                        0
                    };
                    let wanted = LoadAttributes {
                        prog_type,
                        expected_attach_type,
                        flags,
                    };
                    assert_eq!(attributes(kind, fields.0, fields.1), wanted, "{row}");
                    kinds += 1;
                }
            }
        }
    }
    assert_eq!(kinds, 64);
}
