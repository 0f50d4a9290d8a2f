//! What octets are, without an engine. Expected values are those of X.690, docs/FORMATS.md and tcap.h, as in
//! python/tests/test_codec.py, which has more of them.

use tcap::{canon, check, front, oid, oid_text, show, Error, TransactionIds};

const BEGIN: &[u8] = b"\x62\x15\x48\x04\0\0\0\x01\x6c\x0d\xa1\x0b\x02\x01\x01\x02\x01\x02\x30\x03\x04\x01\xaa";

#[test]
fn object_identifiers_by_text() {
    let rows: [(&str, &[u8]); 4] = [
        ("0.4.0.0.1.0.1.3", &[4, 0, 0, 1, 0, 1, 3]),
        ("2.100.3", &[0x81, 0x34, 3]), // X.690, 8.19.5
        ("1.39.16384", &[0x4f, 0x81, 0x80, 0]),
        ("2.4294967215", &[0x8f, 0xff, 0xff, 0xff, 0x7f]),
    ];
    for (text, octets) in rows {
        assert_eq!((oid(text), oid_text(octets)), (Ok(octets.to_vec()), Ok(text.to_string())));
    }
    for text in ["", "0", "3.1", "0.40", "0.04", "0.4.", "0.4 ", "0.٤", "2.4294967216"] {
        assert_eq!(oid(text), Err(Error::BadOid), "{}", text);
    }
    let rows: [&[u8]; 4] = [&[], &[0x80], &[4, 0x81], &[4, 0x90, 0x80, 0x80, 0x80, 0]];
    for octets in rows {
        assert_eq!(oid_text(octets), Err(Error::BadOid), "{:02x?}", octets);
    }
}

#[test]
fn a_message_is_judged() {
    let shown = "begin\n  otid 00000001\n  components 13\n    invoke 1 linked - op local 2 param 30030401aa\n";
    let indefinite = [&b"\x62\x80\x48\x04\0\0\0\x01\x6c\x80"[..], &BEGIN[10..], &[0; 4]].concat();
    for message in [BEGIN, &indefinite] {
        assert_eq!((check(message), show(message)), (Ok("good".to_string()), Ok(shown.to_string())));
        assert_eq!(canon(message), Ok(Some(BEGIN.to_vec())));
    }
    let incorrect = b"\x62\x07\x48\x05\0\0\0\0\x01";
    assert_eq!((check(incorrect), canon(incorrect)), (Ok("fault incorrect".to_string()), Ok(None)));
    assert_eq!(show(incorrect), Ok("fault incorrect\n".to_string()));
}

#[test]
fn a_long_text_has_room() {
    let parameter = [&[4, 0x82, 0x20, 0][..], &[0; 0x2000]].concat();
    let front = b"\x62\x82\x20\x18\x48\x04\0\0\0\x01\x6c\x82\x20\x0e\xa1\x82\x20\x0a\x02\x01\x01\x02\x01\x02";
    let message = [&front[..], &parameter].concat();
    assert_eq!(canon(&message), Ok(Some(message)));
}

#[test]
fn the_front_of_a_message() {
    let rows: [(&[u8], &[u8], &[u8]); 4] = [
        (BEGIN, &[0, 0, 0, 1], &[]),
        (&[0x65, 7, 0x48, 1, 5, 0x49, 2, 6, 7], &[5], &[6, 7]),
        (&[0x64, 6, 0x49, 4, 10, 11, 12, 13], &[], &[10, 11, 12, 13]),
        (&[], &[], &[]),
    ];
    for (message, origin, destination) in rows {
        let of = |id: &[u8]| Some(id.to_vec()).filter(|id| !id.is_empty());
        assert_eq!(front(message), TransactionIds { origin: of(origin), destination: of(destination) });
    }
}
