//! A text file of settings, and what the library makes of its table.

use host::naming::{self, Viewer};
use host::settings::{self, Fault, Setting};

const EXAMPLE: &str = include_str!("../../../examples/settings.txt");

/// The table that a text makes, and its settings.
fn read(text: &str) -> Result<(Vec<u32>, Vec<Setting<'_>>), Fault> {
    let mut table = vec![0; 4 * text.lines().count()];
    let count = settings::table(text, &mut table)?;
    table.truncate(4 * count);
    Ok((table, settings::settings(text).collect()))
}

fn key_of(settings: &[Setting], name: &str) -> Option<u32> {
    let setting = settings.iter().find(|setting| setting.name == name)?;
    Some(setting.row[0])
}

#[test]
fn the_example() {
    let (table, settings) = read(EXAMPLE).expect("a right text");
    let rows: [u32; 16] = [
        40,
        0,
        1,
        100,
        41,
        1,
        0,
        0,
        42,
        2,
        0,
        0x3FC0_0000,
        43,
        2,
        0x3E99_999A,
        0x4120_0000,
    ];
    assert_eq!(table, rows);
    assert_eq!(settings[3].unit, "mm");
    let softness = key_of(&settings, "filter-softness").unwrap();
    let mut store = vec![0; 256 * 8];
    host::fresh(&mut store);
    host::open(&mut store);
    assert_eq!(
        naming::insert(&mut store, &table, softness, 1.5f32.to_bits()),
        0
    );
    assert_eq!(naming::insert(&mut store, &table, 41, 2), 16);
    assert_eq!(key_of(&settings, "sharpness"), None);
    let viewer = Viewer::open(&store, 1, &table).map_err(|_| ()).unwrap();
    assert_eq!(viewer.level(softness).3, 1.5);
}

#[test]
fn faults_by_line() {
    let fault = |text: &str| read(text).expect_err(text).line;
    assert_eq!(fault("1 a whole 0 9\n# a remark\n\n1 b whole 0 9"), 4);
    assert_eq!(fault("2 a whole 0 9\n1 b whole 0 9"), 2);
    assert_eq!(fault("1 a whole 9 0"), 1);
    assert_eq!(fault("1 a level NaN 1.0"), 1);
    assert_eq!(fault("1 a level 1.0 0.5"), 1);
    assert_eq!(fault("16777216 a switch"), 1);
    assert_eq!(fault("1 a switch\n2 a switch"), 2);
    assert_eq!(fault("1 a whole 0"), 1);
    assert_eq!(fault("1 a percent 0 9"), 1);
    assert_eq!(fault("-1 a switch"), 1);
    assert_eq!(fault("4294967296 a switch"), 1);
    assert_eq!(fault("1 a whole 0 9 mA mA"), 1);
    assert_eq!(fault("1 a"), 1);
    assert_eq!(fault("1 2 switch"), 1);
    assert_eq!(read(""), Ok((vec![], vec![])));
    let (table, _) = read("1 a level -inf inf m/s").unwrap();
    assert_eq!(table[2], 0xFF80_0000);
    assert_eq!(
        settings::table("1 a switch\n2 b switch", &mut [0; 4]).map_err(|fault| fault.line),
        Err(2)
    );
}
