//! The twelve figures of document 01, its table of kinds, and its windows at their edges.

use model::end::End;
use model::frame::{Frame, Message};
use model::host;
use model::setup::Setup;
use model::units::{is_ahead, kind, may_be_sent, place_of, Packet, Place, Units};

fn data_units(length: u32) -> u32 {
    Packet::new(1, 0, length, 0).units().data
}

#[test]
fn a_to_d_units_of_kind_1() {
    assert_eq!([1, 4, 5, 1024].map(data_units), [1, 1, 2, 256]);
}

#[test]
fn e_f_header_gate() {
    let gate = |limit| may_be_sent(Units::new(limit, 0), Units::new(255, 0), Units::new(1, 0));
    assert!(gate(2));
    assert!(!gate(255));
}

#[test]
fn g_h_data_gate() {
    let gate = |need| may_be_sent(Units::new(1, 5), Units::new(0, 4090), Units::new(1, need));
    assert!(gate(11));
    assert!(!gate(12));
}

#[test]
fn gates_allow_half_the_range() {
    let gate = |header, data| may_be_sent(Units::new(header, data), Units::default(), Units::new(1, 0));
    assert!(gate(129, 2048));
    assert!(!gate(130, 2048));
    assert!(!gate(129, 2049));
    assert!(!gate(0, 0));
}

#[test]
fn updates_lie_at_most_127_and_2047_ahead() {
    let stored = Units::new(200, 4000);
    assert!(is_ahead(stored, stored));
    assert!(is_ahead(Units::new(71, 1951), stored));
    assert!(!is_ahead(Units::new(72, 1951), stored));
    assert!(!is_ahead(Units::new(71, 1952), stored));
    assert!(!is_ahead(Units::new(199, 4000), stored));
}

#[test]
fn i_j_duplicate_and_out_of_order() {
    assert_eq!(place_of(0, 2048), Place::Duplicate);
    assert_eq!(place_of(0, 2047), Place::OutOfOrder);
    assert_eq!(place_of(0, 4095), Place::Duplicate);
    assert_eq!(place_of(0, 1), Place::OutOfOrder);
    assert_eq!(place_of(0, 0), Place::InSequence);
}

/// An end with numbers 0, 1, 2 out.
fn three_out() -> End {
    let mut end = End::start(&Setup::even(1, Units::new(4, 4)), 0);
    for ident in 0..3 {
        end.submit(Packet::new(1, 0, 1, ident)).unwrap();
        end.send().unwrap();
    }
    end
}

#[test]
fn k_l_acknowledged_4095() {
    let ack = |number| host::arrive(&mut three_out(), &Frame::Link(Message::Ack(number)));
    assert_eq!(ack(2), Ok(0));
    assert_eq!(ack(3), Err(24));
    assert_eq!(ack(4095), Ok(0));
    assert_eq!(ack(4094), Err(24));
}

#[test]
fn rounding_is_by_packet() {
    // Two packets of 2 words cost 2 units; sixteen of 5 words 32.
    assert_eq!(2 * data_units(2), 2);
    assert_eq!(16 * data_units(5), 32);
}

#[test]
fn the_table_of_kinds() {
    let row = |number| kind(number).map(|k| (k.category, k.shortest, k.longest, k.payload));
    assert_eq!(row(0), Some((1, 1, 1024, false)));
    assert_eq!(row(1), Some((0, 1, 1024, true)));
    assert_eq!(row(2), Some((1, 1, 1, false)));
    assert_eq!(row(3), Some((1, 1, 1, true)));
    assert_eq!(row(4), row(2));
    assert_eq!(row(5), row(3));
    assert_eq!(row(6), Some((0, 0, 0, false)));
    assert_eq!(row(7), row(1));
    assert_eq!(row(8), Some((2, 0, 0, false)));
    assert_eq!(row(9), Some((2, 1, 1024, true)));
    assert_eq!(row(10), None);
}
