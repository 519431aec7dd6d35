//! Document 01's twelve sample events, two of them as Order 2 changes them.

use crate::rig::{
    COLUMN, CONTRAST, DISPLAY_ON, MULTIPLEX, OFFSET, PAGE, ROW_DIRECTION, Rig, START_LINE,
};

#[test]
fn sample_1_data_goes_to_byte_0() {
    let mut rig = Rig::power_on();
    assert_eq!(rig.write(0x03), 0);
    assert_eq!(rig.memory[0], 0x03);
    assert_eq!(rig.state[COLUMN], 1);
    assert!(rig.memory[1..].iter().all(|&byte| byte == 0));
}

#[test]
fn sample_2_column_131_then_0_of_the_same_page() {
    let mut rig = Rig::after(&[0x03, 0x18]);
    assert_eq!(rig.state[COLUMN], 131);
    assert_eq!(rig.write(0xAA), 0);
    assert_eq!(rig.memory[131], 0xAA);
    assert_eq!(rig.state[COLUMN], 0);
    assert_eq!(rig.state[PAGE], 0);
}

#[test]
fn sample_3_column_143_takes_no_data() {
    let mut rig = Rig::after(&[0x0F, 0x18]);
    assert_eq!(rig.state[COLUMN], 143);
    let before = rig.clone();
    assert_eq!(rig.write(0xAA), 7);
    assert_eq!(rig, before);
}

#[test]
fn sample_4_pages_end_at_8() {
    let mut rig = Rig::power_on();
    assert_eq!(rig.command(0xB8), 0);
    assert_eq!(rig.state[PAGE], 8);
    let before = rig.clone();
    assert_eq!(rig.command(0xB9), 4);
    assert_eq!(rig, before);
}

#[test]
fn sample_5_page_8_has_bit_0_only() {
    let mut rig = Rig::after(&[0xB8]);
    assert_eq!(rig.write(0xFF), 0);
    assert_eq!(rig.memory[1056], 0x01);
}

#[test]
fn sample_6_the_column_is_put_back() {
    let mut rig = Rig::after(&[0x05, 0xE0]);
    assert_eq!((rig.write(0x11), rig.write(0x22)), (0, 0));
    assert_eq!(rig.state[COLUMN], 7);
    rig.commands(&[0xEE]);
    assert_eq!(rig.state[COLUMN], 5);

    let mut rig = Rig::after(&[0x05]);
    assert_eq!((rig.write(0x11), rig.write(0x22)), (0, 0));
    assert_eq!(rig.state[COLUMN], 7);
}

#[test]
fn sample_7_no_data_while_81_awaits_its_n() {
    let mut rig = Rig::after(&[0x81]);
    let before = rig.clone();
    assert_eq!(rig.write(0x00), 6);
    assert_eq!(rig, before);
    assert_eq!(rig.command(0xC5), 0);
    // C5 is 197, and 197 - 3 * 64 is 5.
    assert_eq!(rig.state[CONTRAST], 5);
    assert_eq!(rig.state[ROW_DIRECTION], 0);
}

#[test]
fn sample_8_an_offset_not_allowed_leaves_d3_awaited() {
    let mut rig = Rig::after(&[0xD3]);
    let before = rig.clone();
    assert_eq!(rig.command(0x40), 5);
    assert_eq!(rig, before);
    assert_eq!(rig.command(0x3F), 0);
    assert_eq!(rig.state[OFFSET], 63);
    assert_eq!(rig.state[START_LINE], 0);
}

#[test]
fn sample_9_entire_on_lights_the_rows_in_use() {
    let rig = Rig::after(&[0xA8, 0x0F, 0xAF, 0xA5]);
    let frame = rig.frame();
    for (place, &lit) in frame.iter().enumerate() {
        let row = place / 132;
        let expected = (24..=39).contains(&row) || row == 64;
        assert_eq!(lit, u8::from(expected), "row {row}");
    }
}

#[test]
fn sample_10_start_line_and_offset() {
    let rig = Rig::after(&[0x43, 0xD3, 0x02, 0xAF]);
    assert_eq!(rig.state[MULTIPLEX], 63);
    assert_eq!(rig.ram_row_shown(0), Some(5));
    assert_eq!(rig.ram_row_shown(63), Some(4));

    let rig = Rig::after(&[0x43, 0xD3, 0x02, 0xAF, 0xC8]);
    assert_eq!(rig.ram_row_shown(0), Some(0));
    assert_eq!(rig.ram_row_shown(63), Some(1));
}

#[test]
fn sample_11_sixteen_rows_reversed() {
    let rig = Rig::after(&[0xA8, 0x0F, 0xC8, 0xAF]);
    assert_eq!(rig.ram_row_shown(24), Some(15));
}

#[test]
fn sample_12_display_off_is_dark() {
    let rig = Rig::after(&[0xA5]);
    assert_eq!(rig.state[DISPLAY_ON], 0);
    assert_eq!(rig.frame(), vec![0; 8580]);
}
