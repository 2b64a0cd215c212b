//! What settings ask of a prune, and the table that the port's program prints.

use checker::{Setting, meaning_of_setting};

/// The first setting that has a threshold, and the last setting.
const PRUNING: std::ops::RangeInclusive<u64> = 20..=200;

fn threshold(setting: u64) -> f64 {
    let Some(Setting::Threshold(threshold)) = meaning_of_setting(setting) else { panic!("setting {setting}") };
    threshold
}

#[test]
fn limits_and_ends() {
    assert_eq!(meaning_of_setting(0), Some(Setting::Untouched));
    assert_eq!(meaning_of_setting(19), Some(Setting::Untouched));
    assert_eq!(meaning_of_setting(20), Some(Setting::Threshold(0.000_199_526_231_496_887_97)));
    assert_eq!(meaning_of_setting(200), Some(Setting::Threshold(0.1)));
    assert_eq!(meaning_of_setting(201), None);
    assert_eq!(meaning_of_setting(u64::from(u32::MAX)), None);
}

/// Each threshold lies within a few units in the last place of the host's power.
#[test]
fn near_the_power_function() {
    for setting in PRUNING {
        let power = 10_f64.powf((3.0 * setting as f64 - 800.0) / 200.0);
        assert!(threshold(setting).to_bits().abs_diff(power.to_bits()) <= 8, "setting {setting}");
    }
}

/// The program's table is computed here a second time, by another way.
#[test]
fn the_port_prints_the_same_table() {
    let table: String = PRUNING.map(|setting| format!("{:016X}\n", threshold(setting).to_bits())).collect();
    assert_eq!(table, include_str!("../../../crates/settings_table/stdout"));
}
