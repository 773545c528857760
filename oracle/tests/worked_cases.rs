//! The worked cases of document 01, with bytes written out by hand.

use oracle::handling::Call;
use oracle::rules::DOCUMENT_01;
use oracle::set_up::{Account, NewEntry, NewRow};
use oracle::the_table::{Form, sums};
use oracle::{Outcome, SUCCESS, experimental, plain};

const NAME: &[u8] = b"001010123456789";

/// Reads bytes written as pairs of hexadecimal digits.
fn hex(text: &str) -> Vec<u8> {
    let digits: Vec<u8> = text.bytes().filter(|b| !b.is_ascii_whitespace()).collect();
    let pair = |p: &[u8]| u8::from_str_radix(std::str::from_utf8(p).unwrap(), 16).unwrap();
    digits.chunks(2).map(pair).collect()
}

/// The server with its table and rooms after each call.
struct Bench {
    table: Vec<u8>,
    answer: Vec<u8>,
    notice: Vec<u8>,
}

impl Bench {
    /// One row: "board" with limit 2 and no flags, "yard" with limit 1, barred.
    fn new() -> Bench {
        let rules = &DOCUMENT_01;
        let mut table = vec![0; Form::One.row()];
        let new = |label, limit, flags| NewEntry {
            label,
            limit,
            flags,
        };
        let subscriber = NewRow {
            operator: 0,
            shares: &[1, 0, 0, 0, 0, 0, 0, 0, 0, 0, 0, 0, 0, 0, 0, 0],
            name: NAME,
        };
        assert_eq!((rules.enter)(rules, 1, &mut table, &subscriber), 0);
        let account = Account {
            operator: 0,
            name: NAME,
        };
        for entry in [new(b"board", 2, 0), new(b"yard", 1, 1)] {
            assert_eq!((rules.add)(rules, 1, &mut table, &account, &entry), 0);
        }
        Bench {
            table,
            answer: Vec::new(),
            notice: Vec::new(),
        }
    }

    fn send(&mut self, message: &[u8]) -> Outcome {
        self.answer = vec![0xAA; 5_120];
        self.notice = vec![0xBB; 256];
        let call = Call {
            form: 1,
            table: &mut self.table,
            operator: 0,
            host: b"aaa",
            realm: b"home",
            message,
            wag: true,
            answer_room: &mut self.answer,
            notice_room: &mut self.notice,
        };
        (DOCUMENT_01.handle)(&DOCUMENT_01, call)
    }

    fn open(&mut self, session: u8) -> Outcome {
        self.send(&open(session, BOARD, false))
    }

    fn line(&self) -> &[u8] {
        &self.table[20..28]
    }
}

/// 3GPP-WLAN-APN-Id with the labels "board", "Board" and "yard".
const BOARD: &str = "00000064 C0000011 000028AF 626F617264 000000";
const CAPITAL_BOARD: &str = "00000064 C0000011 000028AF 426F617264 000000";
const YARD: &str = "00000064 C0000010 000028AF 79617264";

/// Session-Id of one letter, Auth-Application-Id 1, Origin-Host "pdg",
/// Origin-Realm "v", Destination-Realm "home".
fn both(session: u8) -> String {
    format!(
        "00000107 40000009 {session:02X}000000  00000102 4000000C 00000001
         00000108 4000000B 70646700  00000128 40000009 76000000
         0000011B 4000000C 686F6D65"
    )
}

/// Destination-Host "aaa" and User-Name 001010123456789.
const HOST_AND_USER: &str = "00000125 4000000B 61616100
    00000001 40000017 303031303130313233343536373839 00";

/// A header of the given command, then the AVPs.
fn message(command: &str, avps: &str) -> Vec<u8> {
    let avps = hex(avps);
    let length = 20 + avps.len();
    let mut bytes = hex(&format!(
        "01{length:06X} C0 {command} 00000001 00000A0B 00000C0D"
    ));
    bytes.extend(avps);
    bytes
}

fn open(session: u8, label: &str, visited: bool) -> Vec<u8> {
    let both = both(session);
    let visited = if visited {
        "00000258 C000000D 000028AF 76000000"
    } else {
        ""
    };
    let own = format!("00000112 4000000C 00000002 {HOST_AND_USER}");
    let kind = "00000137 C0000010 000028AF 00000000";
    message("000109", &format!("{both} {own} {kind} {visited} {label}"))
}

fn terminate(session: u8, label: &str) -> Vec<u8> {
    let both = both(session);
    let own = format!("00000127 4000000C 00000001 {HOST_AND_USER}");
    message("000113", &format!("{both} {own} {label}"))
}

fn success(length: usize, place: u8, cut: Option<[usize; 3]>) -> Outcome {
    Outcome {
        code: plain(2001),
        length,
        place,
        cut,
    }
}

#[test]
fn case_1_first_access() {
    let mut bench = Bench::new();
    assert_eq!(bench.open(b'a'), success(136, 1, None));
    assert_eq!(bench.line(), [1, 0, 0, 0, 0, 0, 0, 0]);
    assert_eq!(bench.table[17], 1);
    let answer = hex("01000088 40000109 00000001 00000A0B 00000C0D
         00000107 40000009 61000000
         00000102 4000000C 00000001  00000112 4000000C 00000002
         0000010C 4000000C 000007D1
         00000108 4000000B 61616100  00000128 4000000C 686F6D65
         000001BB 4000002C  000001C2 4000000C 00000001
         000001BC 40000017 303031303130313233343536373839 00");
    assert_eq!(bench.answer[..136], answer);
    assert!(bench.answer[136..].iter().all(|&b| b == 0xAA));
    assert!(bench.notice.iter().all(|&b| b == 0xBB));
}

#[test]
fn case_1_row_in_bytes() {
    let mut bench = Bench::new();
    bench.open(b'a');
    let row = &bench.table;
    assert_eq!(row[..17], hex("010F 303031303130313233343536373839"));
    assert_eq!(row[17..32], hex("01 02 00 0100000000000000 00000000"));
    assert_eq!(row[32..38], hex("05 626F617264"));
    assert_eq!(row[133..136], hex("00 02 00"));
    assert_eq!(row[136..141], hex("04 79617264"));
    assert_eq!(row[237..240], hex("01 01 00"));
    assert!(row[240..510].iter().all(|&b| b == 0));
    let place = &row[512..1_024];
    assert_eq!(place[..9], hex("02 01 01 03 00 00 0000 61"));
    assert_eq!(place[136..140], hex("70646700"));
    // First sum: 2 + 1 + 1 + 3 + 97 + 112 + 100 + 103 = 419, and 419 - 255 = 164.
    // Second sum: byte i counts 510 - i times, so it is minus the sum of i times byte i:
    // -(1 + 2 + 9 + 776 + 15232 + 13700 + 14214) = -43934, which is 181 modulo 255.
    assert_eq!(place[510..], [181, 164]);
    assert!(row[1_024..].iter().all(|&b| b == 0));
}

#[test]
fn cases_2_to_4_lowest_place_and_oldest_cut() {
    let mut bench = Bench::new();
    bench.open(b'a');
    assert_eq!(bench.open(b'b'), success(136, 2, None));
    assert_eq!(bench.line(), [1, 2, 0, 0, 0, 0, 0, 0]);
    assert_eq!(bench.open(b'c'), success(136, 1, Some([1, 3, 0])));
    assert_eq!(bench.line(), [2, 1, 0, 0, 0, 0, 0, 0]);
    assert_eq!(bench.notice[..2], *b"a\0");
    assert_eq!(bench.notice[128..132], *b"pdg\0");
    assert!(bench.notice[2..128].iter().all(|&b| b == 0));
    assert!(bench.notice[132..].iter().all(|&b| b == 0));
    assert_eq!(bench.open(b'd'), success(136, 2, Some([1, 3, 0])));
    assert_eq!(bench.line(), [1, 2, 0, 0, 0, 0, 0, 0]);
    assert_eq!(bench.notice[..2], *b"b\0");
}

/// The bench after case 3: b in place 2, then c in place 1.
fn after_3() -> Bench {
    let mut bench = Bench::new();
    for session in *b"abc" {
        bench.open(session);
    }
    bench
}

#[test]
fn case_5_session_held() {
    let mut bench = after_3();
    let before = bench.table.clone();
    let outcome = bench.open(b'b');
    assert_eq!((outcome.code, outcome.cut), (SUCCESS, None));
    assert_eq!(outcome.place, 0);
    assert_eq!(bench.table, before);
}

#[test]
fn case_6_termination() {
    let mut bench = after_3();
    let outcome = bench.send(&terminate(b'a', BOARD));
    assert_eq!(outcome.code, experimental(5042));
    assert_eq!(bench.line(), [2, 1, 0, 0, 0, 0, 0, 0]);
    let outcome = bench.send(&terminate(b'c', BOARD));
    assert_eq!(outcome, success(68, 0, None));
    assert_eq!(bench.line(), [2, 0, 0, 0, 0, 0, 0, 0]);
    assert!(bench.table[512..1_024].iter().all(|&b| b == 0));
    let answer = hex("01000044 40000113 00000001 00000A0B 00000C0D
         00000107 40000009 63000000  0000010C 4000000C 000007D1
         00000108 4000000B 61616100  00000128 4000000C 686F6D65");
    assert_eq!(bench.answer[..68], answer);
}

#[test]
fn case_7_barring_roaming_and_a_label_in_another_case() {
    let mut bench = Bench::new();
    let before = bench.table.clone();
    assert_eq!(bench.send(&open(b'a', YARD, true)).code, plain(5003));
    assert_eq!(
        bench.send(&open(b'a', BOARD, true)).code,
        experimental(5004)
    );
    assert_eq!(
        bench.send(&open(b'a', CAPITAL_BOARD, true)).code,
        experimental(5004)
    );
    assert_eq!(bench.table, before);
    let outcome = bench.send(&open(b'a', CAPITAL_BOARD, false));
    let mut other = Bench::new();
    assert_eq!(outcome, other.send(&open(b'a', BOARD, false)));
    assert_eq!((outcome.code, outcome.place), (plain(2001), 1));
    assert_eq!(bench.table, other.table);
    assert_eq!(bench.answer, other.answer);
}

#[test]
fn case_8_sums() {
    assert_eq!(sums(b"abcde"), [0xC8, 0xF0]);
    assert_eq!(sums(&[0; 510]), [0, 0]);
}

#[test]
fn cases_9_and_10_result_avps() {
    let mut bench = Bench::new();
    bench.open(b'a');
    let result = hex("00 00 01 0C 40 00 00 0C 00 00 07 D1");
    assert_eq!(bench.answer[56..68], result);
    bench.table.fill(0);
    bench.open(b'a');
    let unknown = hex("00 00 01 29 40 00 00 20 00 00 01 0A 40 00 00 0C 00 00 28 AF
         00 00 01 2A 40 00 00 0C 00 00 13 89");
    assert_eq!(bench.answer[56..88], unknown);
}

/// A request to open an access whose Session-Id has this many bytes.
fn with_session(length: usize) -> Vec<u8> {
    let good = open(b'a', BOARD, false);
    let mut avps = hex(&format!("00000107 40{:06X}", 8 + length));
    avps.resize(8 + length.next_multiple_of(4), b's');
    avps.extend(&good[32..]);
    resized(&good, avps)
}

/// The header of `good`, with its length put right, before other AVPs.
fn resized(good: &[u8], avps: Vec<u8>) -> Vec<u8> {
    let mut bytes = good[..20].to_vec();
    bytes.extend(avps);
    let length = (bytes.len() as u32).to_be_bytes();
    bytes[1..4].copy_from_slice(&length[1..]);
    bytes
}

#[test]
fn case_11_limits_of_lengths() {
    let mut bench = Bench::new();
    let outcome = bench.send(&with_session(128));
    assert_eq!(
        (outcome.code, outcome.length),
        (plain(2001), 136 - 12 + 136)
    );
    let outcome = bench.send(&with_session(129));
    assert_eq!(
        (outcome.code, outcome.length),
        (plain(5014), 20 + 24 + 12 + 24)
    );
    for (size, code) in [(4_096, plain(2001)), (4_100, oracle::Code::NoAnswer(5))] {
        let good = open(b'm', BOARD, false);
        let mut avps = good[20..].to_vec();
        // An AVP that is not named anywhere fills the message up.
        avps.extend(hex(&format!("00000019 40{:06X}", size - good.len())));
        avps.resize(size - 20, 0);
        assert_eq!(bench.send(&resized(&good, avps)).code, code);
    }
    let bare = hex("01000014 80000109 00000001 00000000 00000000");
    assert_eq!(bench.send(&bare).code, plain(5005));
    let answer = hex("01000050 00000109 00000001 00000000 00000000
         00000102 4000000C 00000001  00000112 4000000C 00000002
         0000010C 4000000C 0000138D
         00000108 4000000B 61616100  00000128 4000000C 686F6D65");
    assert_eq!(bench.answer[..80], answer);
}
