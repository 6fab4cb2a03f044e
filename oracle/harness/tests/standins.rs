//! That the stand-in derives do what num_enum documents, against the text of the source: each enum's
//! number is taken to the case written beside it and back, and every other number of 32 bits is refused
//! with that number.
use arm_psci::*;
use num_enum::TryFromPrimitive;

const SOURCE: &str = include_str!("../../target/source/src/lib.rs");

/// The cases of an enum as the source writes them: name and number.
fn cases(name: &str) -> Vec<(&'static str, i64)> {
    let body = SOURCE.split_once(&format!("pub enum {name} {{\n")).unwrap().1.split_once("\n}").unwrap().0;
    let cases: Vec<_> = body.lines().filter_map(|line| line.trim().strip_suffix(',')?.split_once(" = ")).map(|(case, number)| {
        let number = match number.strip_prefix("0x") {
            Some(hex) => i64::from_str_radix(hex, 16).unwrap(),
            None => number.parse().unwrap(),
        };
        (case, number)
    }).collect();
    assert!(!cases.is_empty());
    cases
}

macro_rules! every_number {
    ($($test:ident: $name:ident, $int:ty, $error:ident;)*) => {$(
        #[test]
        fn $test() {
            let cases = cases(stringify!($name));
            for (case, number) in &cases {
                let value = $name::try_from(*number as $int).unwrap();
                assert_eq!((format!("{value:?}").as_str(), <$int>::from(value) as i64), (*case, *number));
            }
            let mut known = 0;
            for n in 0..=u32::MAX {
                match $name::try_from_primitive(n as $int) {
                    Ok(v) => {
                        assert_eq!(<$int>::from(v), n as $int);
                        known += 1;
                    }
                    Err(e) => assert_eq!(e, Error::$error(n as $int)),
                }
            }
            assert_eq!(known, cases.len());
        }
    )*};
}

every_number! {
    function_id: FunctionId, u32, UnrecognisedFunctionId;
    error_code: ErrorCode, i32, UnrecognisedErrorCode;
    off2_type: SystemOff2Type, u32, UnrecognisedSystemOff2Type;
    reset_type: ArchitecturalResetType, u32, UnrecognisedSystemReset2Type;
    hw_state: HwState, u32, UnrecognisedHwState;
    suspend_mode: SuspendMode, u32, UnrecognisedSuspendMode;
}
