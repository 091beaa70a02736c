//! Calls of the library over objects of the repository, whose plans are expected there.

use morvezin::{Kernel, Morvezin, Plan, RefusalKind};
use std::fs;
use std::thread;

fn file(name: &str) -> Vec<u8> {
    fs::read(format!("{}/../../{name}", env!("CARGO_MANIFEST_DIR"))).unwrap()
}

const SETTINGS: &str = "[maps]\n\".bss\" = 3\n";

#[test]
fn texts_are_those_of_the_program() {
    let text = Morvezin::prepare_text(&file("examples/trace_unlink.o"), &Kernel::new()).unwrap();
    assert_eq!(text.as_bytes(), file("tests/rows/trace-unlink/stdout"));
    let types = file("tests/objects/kernel_structs.little.btf");
    let kernel = Kernel::new().types(&types).settings(SETTINGS);
    let object = file("tests/objects/task_reads.little.o");
    let wanted = file("tests/objects/task_reads.little.plan");
    assert_eq!(
        Morvezin::prepare_text(&object, &kernel).unwrap().as_bytes(),
        wanted
    );
    assert_eq!(
        Morvezin::prepare(&object, &kernel),
        Ok(Plan::read(&wanted).unwrap())
    );
}

#[test]
fn types_are_of_either_byte_order() {
    let types = file("tests/rows/kernel-types-big-endian/types.bin");
    assert!(types.starts_with(&[0xeb, 0x9f]));
    let object = file("tests/rows/kernel-types-big-endian/object.bin");
    let text = Morvezin::prepare_text(&object, &Kernel::new().types(&types)).unwrap();
    let wanted = file("tests/rows/kernel-types-big-endian/stdout");
    assert_eq!(text.as_bytes(), wanted);
}

#[test]
fn maps_are_numbered_where_that_is_asked_for() {
    let object = file("tests/objects/hash_and_constants.little.o");
    let refusal = Morvezin::prepare(&object, &Kernel::new()).unwrap_err();
    assert_eq!(refusal.kind(), RefusalKind::MapNumber);
    assert!(refusal.message().contains("\"packets\""), "{refusal}");
    let plan = Morvezin::prepare(&object, &Kernel::new().number_maps(true)).unwrap();
    let maps: Vec<_> = plan
        .maps
        .iter()
        .map(|map| (map.name.as_str(), map.number))
        .collect();
    assert_eq!(maps, [(".rodata", 0), ("packets", 1)]);
}

#[test]
fn refusals_have_kinds_and_messages() {
    let object = file("examples/trace_unlink.o");
    let reads = file("tests/objects/task_reads.little.o");
    for (object, kernel, wanted) in [
        (b"".as_slice(), Kernel::new(), RefusalKind::Object),
        (&object[..100], Kernel::new(), RefusalKind::Object),
        (
            &reads,
            Kernel::new().number_maps(true),
            RefusalKind::TypesRequired,
        ),
        (
            &object,
            Kernel::new().settings("maps = 1"),
            RefusalKind::InvalidSettings,
        ),
        (
            &object,
            Kernel::new().types(b"no types"),
            RefusalKind::InvalidTypes,
        ),
        (&object, Kernel::new().types(b""), RefusalKind::InvalidTypes),
    ] {
        let refusal = Morvezin::prepare(object, &kernel).unwrap_err();
        assert_eq!(refusal.kind(), wanted, "{refusal}");
        assert!(!refusal.message().is_empty() && !refusal.message().contains('\n'));
    }
}

#[test]
fn kernels_are_checked_and_code_is_listed() {
    let object = file("tests/objects/task_reads.little.o");
    let (types, later) = (
        file("tests/objects/kernel_structs.little.btf"),
        file("tests/objects/kernel_later.little.btf"),
    );
    let check = Morvezin::check(&object, &Kernel::new().types(&types)).unwrap();
    assert!(
        check.takes && check.report.starts_with("{\"object\":\"object\","),
        "{check:?}"
    );
    assert!(
        !Morvezin::check(&object, &Kernel::new().types(&later))
            .unwrap()
            .takes
    );
    let refusal = Morvezin::check(b"", &Kernel::new()).unwrap_err();
    assert_eq!(refusal.kind(), RefusalKind::Object);
    let code = Morvezin::code(&file("examples/trace_unlink.o"), &Kernel::new()).unwrap();
    assert!(code.contains("r0 = 0") && code.contains("exit"), "{code}");
}

#[test]
fn calls_on_four_threads_give_one_answer() {
    let object = file("tests/objects/task_reads.little.o");
    let types = file("tests/objects/kernel_structs.little.btf");
    let kernel = Kernel::new().types(&types).number_maps(true);
    let wanted = Morvezin::prepare(&object, &kernel);
    thread::scope(|scope| {
        let calls = [(); 4].map(|()| scope.spawn(|| Morvezin::prepare(&object, &kernel)));
        for call in calls {
            assert_eq!(call.join().unwrap(), wanted);
        }
    });
}

#[test]
fn the_version_is_that_of_the_package() {
    let (major, minor, patch) = Morvezin::version();
    assert_eq!(
        format!("{major}.{minor}.{patch}"),
        env!("CARGO_PKG_VERSION")
    );
}
