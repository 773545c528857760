//! The decisions of the papers that a program could take otherwise, each as one
//! field. `DOCUMENT_01` holds the right one everywhere, and the program proper knows
//! no other. The tests build wrong programs by exchanging a single field.

use crate::burst::{Burst, Taken, burst, burst_number, message_length, room_for_one, take};
use crate::disconnecting::{
    ANSWER_TESTS, Abort, AnswerTest, Sent, Written, abort_avps, abort_header, abort_number,
    abort_texts, belongs, write_abort,
};
use crate::handling::{Call, frame_number, handle, no_answer};
use crate::known_avps::{supported, supported_with_re_auth};
use crate::moving::{move_table, row_may_move, says_form_1};
use crate::reading_a_message::{
    Avp, Field, HEADER, Header, Name, Request, header_tests, is, list, read_field, read_list,
    walk_is_over, walk_tests,
};
use crate::reauthorizing::{
    LentAccess, ReAuth, ReAuthorized, aa_avps, aa_header, is_of_access, re_auth_answer,
    re_auth_header_tests, re_auth_list, re_auth_number, re_authorize,
};
use crate::set_up::{
    Account, NewEntry, NewRow, add, clear, enter, may_add, operator_fits, share_is_full,
    shares_fit, table_fits,
};
use crate::the_table::{Access, CONDITIONS, Form, Row, find, row_is_free, store, sums};
use crate::writing_the_answer::{
    Reply, answer_flags, auth_part, cut_lengths, notice, proxy_part, result_part, session_part,
    subscription_part,
};
use crate::{Code, Outcome, deciding};

type ReadList = for<'m> fn(&Rules, Form, u32, &[Avp<'m>]) -> Result<Request<'m>, Code>;
type ReadField = for<'m> fn(&Rules, &[Avp<'m>], &Field) -> Result<Vec<&'m [u8]>, Code>;
type Find = fn(&Rules, Form, &[u8], u32, &[u8]) -> Option<usize>;
type Part = fn(&Reply) -> Vec<u8>;
type AbortTexts = for<'a> fn(&Abort<'a>) -> [&'a [u8]; 3];

#[derive(Clone, Copy)]
pub struct Rules {
    // The seven operations that a script has. The first four are told by a number which form
    // is lent, the fifth one to which form the table goes; the last two have no table (W6).
    pub clear: fn(&Rules, u32, &mut [u8]) -> u8,
    pub enter: fn(&Rules, u32, &mut [u8], &NewRow) -> u8,
    pub add: fn(&Rules, u32, &mut [u8], &Account, &NewEntry) -> u8,
    pub handle: fn(&Rules, Call) -> Outcome,
    pub move_table: fn(&Rules, &[u8], &mut [u8], u32) -> u8,
    pub abort: fn(&Rules, &Abort, &mut [u8]) -> Written,
    pub belongs: fn(&Rules, &Sent, &[u8]) -> bool,
    // Calls that get no Diameter answer, and set-up.
    pub no_answer: fn(&Rules, &Call) -> u16,
    pub form_numbered: fn(u32) -> Option<Form>,
    pub table_fits: fn(Form, &[u8]) -> bool,
    pub operator_fits: fn(u32) -> bool,
    pub shares_fit: fn(Form, &[u8], &[u32]) -> bool,
    pub share_is_full: fn(&Rules, Form, &[u8], &NewRow) -> bool,
    pub row_is_free: fn(&[u8]) -> bool,
    pub may_add: fn(&Row, &NewEntry) -> u8,
    // A burst (W2).
    pub burst: fn(&Rules, &mut Burst) -> Taken,
    pub burst_number: fn(&Rules, &Burst) -> u16,
    pub message_length: fn(&[u8]) -> Option<usize>,
    pub room_for_one: fn(Form, usize, usize) -> bool,
    pub take: fn(&Rules, Form, &mut Burst, &mut Taken, &[u8]),
    // Moving.
    pub row_may_move: fn(&Rules, Form, &[u8]) -> bool,
    pub says_form_1: fn(&Row) -> bool,
    // Reading a message.
    pub header_tests: fn(&Header) -> Result<(), Code>,
    pub walk_is_over: fn(&[u8]) -> bool,
    pub walk_tests: fn(&[u8]) -> Result<Avp<'_>, Code>,
    pub supported: fn(&Avp) -> Result<(), Code>,
    pub is: fn(&Avp, Name) -> bool,
    pub list: fn(Form, u32) -> Vec<Field>,
    pub read_list: ReadList,
    pub read_field: ReadField,
    // The table.
    pub sums: fn(&[u8]) -> [u8; 2],
    pub same_row: fn(Form, &[u8], &[u8]) -> bool,
    pub conditions: &'static [fn(&Row) -> bool],
    pub find: Find,
    pub store: fn(&Rules, Form, &mut [u8], usize, &Row),
    // Deciding.
    pub may_open: fn(&Row, &Request) -> Result<u8, Code>,
    pub held: fn(&Row, u8, &Request) -> Result<bool, Code>,
    pub at_limit: fn(&Row, u8) -> bool,
    pub place_to_cut: fn(&Row, u8) -> Option<u8>,
    pub place_to_take: fn(&Row, Option<u8>) -> Option<u8>,
    pub realm_to_keep: fn(Form, &Request) -> Vec<u8>,
    pub take_policy: fn(&mut Row, &Request, bool) -> Result<(), Code>,
    pub terminate: fn(&mut Row, &Request) -> Result<(), Code>,
    // Writing the answer.
    pub answer_flags: fn(u8, Code) -> u8,
    pub session_part: Part,
    pub auth_part: Part,
    pub result_part: Part,
    pub subscription_part: Part,
    pub proxy_part: Part,
    pub notice: fn(Form, &mut [u8], &Access),
    pub cut_lengths: fn(&Access) -> [usize; 3],
    // The disconnection.
    pub abort_number: fn(&Abort, usize) -> u8,
    pub abort_header: fn(&Abort) -> [u8; HEADER],
    pub abort_texts: AbortTexts,
    pub abort_avps: fn(&Abort, [&[u8]; 3]) -> Vec<Vec<u8>>,
    pub answer_number: fn(&[u8]) -> u16,
    pub supported_in_answers: fn(&Avp) -> Result<(), Code>,
    pub answer_tests: &'static [AnswerTest],
    // Re-authorization at the gateway (W11).
    pub re_authorize: fn(&Rules, &mut ReAuth) -> ReAuthorized,
    pub re_auth_number: fn(&ReAuth) -> u16,
    pub re_auth_header_tests: fn(&Header) -> Result<(), Code>,
    pub supported_at_gateway: fn(&Avp) -> Result<(), Code>,
    pub re_auth_list: fn(Form, u32) -> Vec<Field>,
    pub is_of_access: fn(&LentAccess, &Request) -> Result<(), Code>,
    pub re_auth_answer: fn(&Rules, &Reply) -> Vec<u8>,
    pub aa_header: fn([u32; 2]) -> [u8; HEADER],
    pub aa_avps: fn(&ReAuth, &Request) -> Vec<Vec<u8>>,
}

/// The rules as they stand: of document 02 all that has landed.
pub const DOCUMENT_01: Rules = WITH_W11;

/// With the server's rule of W11: a Session-Id that is held on the same entry is granted
/// and changes nothing, and Re-Auth-Request-Type is known.
pub const WITH_W11: Rules = Rules {
    held: deciding::held_stands,
    supported: supported_with_re_auth,
    ..BEFORE_W11
};

const BEFORE_W11: Rules = Rules {
    clear,
    enter,
    add,
    handle,
    move_table,
    abort: write_abort,
    belongs,
    no_answer,
    form_numbered: Form::numbered,
    table_fits,
    operator_fits,
    shares_fit,
    share_is_full: |_, form, table, new| share_is_full(form, table, new),
    row_is_free,
    may_add,
    burst,
    burst_number,
    message_length,
    room_for_one,
    take,
    row_may_move,
    says_form_1,
    header_tests,
    walk_is_over,
    walk_tests,
    supported,
    is,
    list,
    read_list,
    read_field,
    sums,
    same_row: |_, held, written| held == written,
    conditions: CONDITIONS,
    find: |_, form, table, operator, name| find(form, table, operator, name),
    store,
    may_open: deciding::may_open,
    held: deciding::held_is_refused,
    at_limit: deciding::at_limit,
    place_to_cut: deciding::place_to_cut,
    place_to_take: deciding::place_to_take,
    realm_to_keep: deciding::realm_to_keep,
    take_policy: deciding::take_policy,
    terminate: deciding::terminate,
    answer_flags,
    session_part,
    auth_part,
    result_part,
    subscription_part,
    proxy_part,
    notice,
    cut_lengths,
    abort_number,
    abort_header,
    abort_texts,
    abort_avps,
    answer_number: frame_number,
    supported_in_answers: |_| Ok(()),
    answer_tests: ANSWER_TESTS,
    re_authorize,
    re_auth_number,
    re_auth_header_tests,
    supported_at_gateway: supported_with_re_auth,
    re_auth_list,
    is_of_access,
    re_auth_answer,
    aa_header,
    aa_avps,
};
