//! The named sizes and numbers are the same everywhere: those of the proved code,
//! which ../crates/constants/out/constants prints (`CONSTANTS` selects another binary),
//! those of include/grelfint.h, and those of the Rust bindings. A line of the
//! program is a name, without the header's prefix, and its value or values.
use std::collections::{BTreeMap, BTreeSet};
use std::path::{Path, PathBuf};
use std::process::Command;

/// The values of each name.
type Constants = BTreeMap<String, Vec<u64>>;

fn repository() -> PathBuf {
    Path::new(env!("CARGO_MANIFEST_DIR")).join("..")
}

/// What a program prints.
fn output_of(command: &mut Command) -> String {
    let output = command.output().unwrap_or_else(|error| panic!("{error}: {command:?}"));
    let errors = String::from_utf8_lossy(&output.stderr);
    assert!(output.status.success() && errors.is_empty(), "{}: {command:?}\n{errors}", output.status);
    String::from_utf8(output.stdout).expect("text")
}

fn constants_in(lines: &str) -> Constants {
    let mut constants = Constants::new();
    for line in lines.lines() {
        let mut words = line.split(' ');
        let name = words.next().expect("a name").to_string();
        let values = words.map(|word| word.parse().unwrap_or_else(|_| panic!("not a number: {line}"))).collect();
        assert!(constants.insert(name, values).is_none(), "named twice: {line}");
    }
    constants
}

fn of_the_proved_code() -> Constants {
    let program = std::env::var_os("CONSTANTS")
        .map_or_else(|| repository().join("crates/constants/out/constants"), PathBuf::from);
    constants_in(&output_of(&mut Command::new(program)))
}

// ---- the header ----
fn header() -> PathBuf {
    repository().join("include/grelfint.h")
}

/// The macros of the header that name a number, or several.
fn macros_of_numbers() -> Vec<String> {
    let defined = output_of(Command::new("gcc").args(["-dM", "-E"]).arg(header()));
    let macros = defined.lines().filter_map(|line| line.strip_prefix("#define GRELFINT_")?.split(' ').next());
    let is_number = |name: &&str| {
        !name.contains('(') && !name.starts_with("VERSION") && !["H", "MUST_USE", "NONNULL"].contains(name)
    };
    macros.filter(is_number).map(str::to_string).collect()
}

/// Compiles a C program with this body of `main`, and returns what it prints.
fn printed_by_c(name: &str, body: &str) -> String {
    let folder = Path::new(env!("CARGO_TARGET_TMPDIR"));
    let (source, program) = (folder.join(format!("{name}.c")), folder.join(name));
    let text = format!("#include <stdio.h>\n#include \"grelfint.h\"\n\nint main(void)\n{{\n{body}    return 0;\n}}\n");
    std::fs::write(&source, text).expect("written");
    let flags = ["-std=c11", "-Wall", "-Wextra", "-Werror", "-I"];
    output_of(Command::new("gcc").args(flags).arg(repository().join("include")).arg(source).arg("-o").arg(&program));
    output_of(&mut Command::new(program))
}

fn of_the_header() -> Constants {
    let print = |name: String| {
        format!(
            "    {{\n        const unsigned long long values[] = {{GRELFINT_{name}}};\n        printf(\"{name}\");\n        \
             for (size_t i = 0; i < sizeof values / sizeof *values; i++)\n            printf(\" %llu\", values[i]);\n        \
             printf(\"\\n\");\n    }}\n"
        )
    };
    let body: String = macros_of_numbers().into_iter().map(print).collect();
    constants_in(&printed_by_c("constants", &body))
}

// ---- the bindings ----
macro_rules! of_the_bindings {
    ($($name:ident)*) => {
        [$((stringify!($name), vec![u64::try_from(grelfint::$name).expect("a number")]),)*
            ("DIMMING_STEPS", grelfint::DIMMING_STEPS.map(u64::from).to_vec())]
    };
}

fn of_the_bindings() -> Constants {
    let constants = of_the_bindings! {
        LAMPS SCENES STEPS QUEUE
        RAM EEPROM EXTERNAL RAM_BLOCK EEPROM_BLOCK EXTERNAL_BLOCK FRAME_HEADER PDATA FRAME RESPONSE_HEADER RESPONSE
        CONFIRMATION ENTRY_HEADER BITMAP BOOK BOOK_LOCATION BOOK_STEP COMPILED NODE_SET BONDS UART_FRAME UART_FRAMED
        AT_NADR AT_PNUM AT_PCMD AT_HWPID AT_PDATA AT_ERRN AT_DPA_VALUE AT_DATA AT_HOPS AT_TIMESLOT AT_RESPONSE_HOPS
        OK REFUSED_NODE REFUSED_FRAME REFUSED_RESPONSE REFUSED_MEMORY REFUSED_PDATA REFUSED_BOOK REFUSED_SCENE
        REFUSED_STEP_KIND REFUSED_STEP_TARGET REFUSED_STEP_VALUE REFUSED_STEP_TIME REFUSED_OUTPUT REFUSED_VIEW
        REFUSED_FRAMED REFUSED_ADDRESS REFUSED_FULL REFUSED_TIME REFUSED_BLOCK REFUSED_RANGE
        ERRN_NONE ERRN_FAIL ERRN_PCMD ERRN_PNUM ERRN_ADDR ERRN_DATA_LEN ERRN_DATA ERRN_HWPID
        PNUM_OS PNUM_EEPROM PNUM_EXTERNAL PNUM_RAM PNUM_LIGHTS
        PCMD_OS_BATCH PCMD_OS_CODE_CHECK PCMD_OS_SELECTIVE_BATCH PCMD_EEPROM_READ PCMD_EEPROM_WRITE
        PCMD_EXTERNAL_READ PCMD_EXTERNAL_WRITE PCMD_RAM_READ PCMD_RAM_WRITE PCMD_LIGHTS_SET PCMD_LIGHTS_RAISE
        PCMD_LIGHTS_LOWER PCMD_LIGHTS_ENUMERATE PCMD_RESPONSE
        NADR_BROADCAST ADDRESS_MAX HWPID_ANY
        FRC_ON FRC_ALARM FRC_NOT_IMPLEMENTED FRC_NO FRC_YES
        LEVEL_MAX SECONDS_MAX POWER_KEEP POWER_TIMED TIME_SECONDS
        REASON_NONE REASON_SHORT REASON_PAST_END REASON_UNCLOSED REASON_TRAILING
        KIND_SET KIND_RAISE KIND_LOWER KIND_RAM KIND_EEPROM
        EVENT_NONE EVENT_FRAME EVENT_DROPPED CAUSE_NONE CAUSE_TOO_LONG CAUSE_CUT CAUSE_SHORT CAUSE_CHECK_BYTE
        SLOT_MS NETWORK_STD NETWORK_STD_LP TIME_MAX WAIT_MAX
    };
    constants.into_iter().map(|(name, values)| (name.to_string(), values)).collect()
}

/// Each name on both sides, with the same values.
fn assert_same(name: &str, constants: &Constants, want: &Constants) {
    let names: BTreeSet<&String> = constants.keys().chain(want.keys()).collect();
    let differ = names.into_iter().filter(|name| constants.get(*name) != want.get(*name));
    let lines: Vec<String> =
        differ.map(|name| format!("{name} {:?}, expected {:?}", constants.get(name), want.get(name))).collect();
    assert!(lines.is_empty(), "{name}:\n{}", lines.join("\n"));
}

#[test]
fn header_has_those_of_the_proved_code() {
    assert_same("include/grelfint.h", &of_the_header(), &of_the_proved_code());
}

#[test]
fn bindings_have_those_of_the_proved_code() {
    assert_same("bindings/rust", &of_the_bindings(), &of_the_proved_code());
}

/// The list in this file is complete.
#[test]
fn bindings_have_no_others() {
    let source = include_str!("../../bindings/rust/src/constants.rs");
    let declared = source.lines().filter_map(|line| line.strip_prefix("pub const ")?.split(':').next());
    let mut declared: Vec<&str> = declared.collect();
    declared.sort_unstable();
    assert_eq!(declared, of_the_bindings().keys().collect::<Vec<_>>());
}

#[test]
fn one_version() {
    let parts = "GRELFINT_VERSION_MAJOR, GRELFINT_VERSION_MINOR, GRELFINT_VERSION_PATCH";
    let body = format!("    printf(\"%s %d.%d.%d\", GRELFINT_VERSION, {parts});\n");
    let version = grelfint::VERSION;
    assert_eq!(printed_by_c("version", &body), format!("{version} {version}"));
}
