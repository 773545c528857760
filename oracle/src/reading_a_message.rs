//! Reading a message: the header tests, the walk over the AVPs, and the lists of
//! what each command must carry.

use crate::rules::Rules;
use crate::the_table::Form;
use crate::{Code, plain};

pub const VENDOR_3GPP: u32 = 10_415;
pub const HEADER: usize = 20;
pub const RE_AUTH: u32 = 258;
pub const AA: u32 = 265;
pub const TERMINATION: u32 = 275;

/// Command flags: R P E T and four reserved bits.
pub const REQUEST: u8 = 0x80;
pub const PROXIABLE: u8 = 0x40;
pub const ERROR: u8 = 0x20;
pub const RETRANSMITTED: u8 = 0x10;
pub const HEADER_RESERVED: u8 = 0x0F;

/// AVP flags: V M P and five reserved bits.
pub const VENDOR: u8 = 0x80;
pub const MANDATORY: u8 = 0x40;
pub const AVP_RESERVED: u8 = 0x1F;

/// What the tests look at in the 20 bytes of the header.
#[derive(Clone, Copy, Debug, PartialEq, Eq)]
pub struct Header {
    pub version: u8,
    pub length: u32,
    pub flags: u8,
    pub command: u32,
    pub application: u32,
}

/// `None` for a message that is shorter than a header.
pub fn header(message: &[u8]) -> Option<Header> {
    (message.len() >= HEADER).then(|| Header {
        version: message[0],
        length: number(&message[1..4]),
        flags: message[4],
        command: number(&message[5..8]),
        application: number(&message[8..12]),
    })
}

/// A big-endian number of at most four bytes.
pub fn number(bytes: &[u8]) -> u32 {
    bytes
        .iter()
        .fold(0, |sum, &byte| sum << 8 | u32::from(byte))
}

/// The tests of the header's flags, which are the same for every command.
pub fn flag_tests(header: &Header) -> Result<(), Code> {
    if header.flags & HEADER_RESERVED != 0 {
        return Err(plain(5013));
    }
    if header.flags & ERROR != 0 {
        return Err(plain(3008));
    }
    Ok(())
}

pub fn header_tests(header: &Header) -> Result<(), Code> {
    flag_tests(header)?;
    let served = match header.command {
        AA => header.application == 1,
        TERMINATION => header.application <= 1,
        _ => return Err(plain(3001)),
    };
    if served { Ok(()) } else { Err(plain(3007)) }
}

/// An AVP of the message. `vendor` is there exactly if the V bit is set; `whole`
/// takes in header and padding.
#[derive(Clone, Copy, Debug, PartialEq, Eq)]
pub struct Avp<'m> {
    pub code: u32,
    pub vendor: Option<u32>,
    pub mandatory: bool,
    pub value: &'m [u8],
    pub whole: &'m [u8],
}

/// The four tests of the walk on the AVP at the front of `rest`.
pub fn walk_tests(rest: &[u8]) -> Result<Avp<'_>, Code> {
    if rest.len() < 8 {
        return Err(plain(5014));
    }
    let flags = rest[4];
    if flags & AVP_RESERVED != 0 {
        return Err(plain(3009));
    }
    let length = number(&rest[5..8]) as usize;
    let start = if flags & VENDOR != 0 { 12 } else { 8 };
    if length < start {
        return Err(plain(5014));
    }
    let end = length.next_multiple_of(4);
    if end > rest.len() {
        return Err(plain(5014));
    }
    Ok(Avp {
        code: number(&rest[..4]),
        vendor: (start == 12).then(|| number(&rest[8..12])),
        mandatory: flags & MANDATORY != 0,
        value: &rest[start..length],
        whole: &rest[..end],
    })
}

/// All AVPs, one after another; the first that fails a test gives the code. Behind the
/// four tests of an AVP, and before the next one, comes the fifth (W1).
pub fn walk<'m>(rules: &Rules, message: &'m [u8]) -> Result<Vec<Avp<'m>>, Code> {
    let mut avps = Vec::new();
    let mut rest = message.get(HEADER..).unwrap_or_default();
    while !(rules.walk_is_over)(rest) {
        let avp = (rules.walk_tests)(rest)?;
        (rules.supported)(&avp)?;
        rest = rest.get(avp.whole.len()..).unwrap_or_default();
        avps.push(avp);
    }
    Ok(avps)
}

/// The walk ends only where nothing is left: a rest of 4 bytes is a broken AVP.
pub fn walk_is_over(rest: &[u8]) -> bool {
    rest.is_empty()
}

/// What an AVP is known by. Base AVPs have no V bit.
#[derive(Clone, Copy, Debug, PartialEq, Eq)]
pub struct Name {
    pub code: u32,
    pub vendor: Option<u32>,
}

pub const fn base(code: u32) -> Name {
    Name { code, vendor: None }
}

pub const fn of_3gpp(code: u32) -> Name {
    let vendor = Some(VENDOR_3GPP);
    Name { code, vendor }
}

pub const USER_NAME: Name = base(1);
pub const AUTH_APPLICATION_ID: Name = base(258);
pub const SESSION_ID: Name = base(263);
pub const ORIGIN_HOST: Name = base(264);
pub const AUTH_REQUEST_TYPE: Name = base(274);
pub const DESTINATION_REALM: Name = base(283);
pub const PROXY_INFO: Name = base(284);
pub const RE_AUTH_REQUEST_TYPE: Name = base(285);
pub const DESTINATION_HOST: Name = base(293);
pub const TERMINATION_CAUSE: Name = base(295);
pub const ORIGIN_REALM: Name = base(296);
pub const W_APN: Name = of_3gpp(100);
pub const SESSION_REQUEST_TYPE: Name = of_3gpp(311);
pub const ROUTING_POLICY: Name = of_3gpp(312);
pub const VISITED_NETWORK: Name = of_3gpp(600);

/// Code, V bit and vendor have to agree, all three.
pub fn is(avp: &Avp, name: Name) -> bool {
    avp.code == name.code && avp.vendor == name.vendor
}

/// When an AVP of a list has to be there.
#[derive(Clone, Copy, Debug, PartialEq, Eq)]
pub enum Needed {
    Always,
    /// Must be there, and as the first AVP of all.
    First,
    /// Only with this Session-Request-Type.
    ForType(u32),
    Never,
}

/// What its value has to be.
#[derive(Clone, Copy, Debug, PartialEq, Eq)]
pub enum ValueForm {
    /// At least 1 and at most this many bytes.
    Text(usize),
    /// Four bytes; the value from the first to the second, both allowed.
    Number(u32, u32),
}

/// An AVP of a list. `most` is how often it may stand.
#[derive(Clone, Copy, Debug, PartialEq, Eq)]
pub struct Field {
    pub name: Name,
    pub needed: Needed,
    pub form: ValueForm,
    pub most: usize,
}

const fn field(name: Name, needed: Needed, form: ValueForm) -> Field {
    Field {
        name,
        needed,
        form,
        most: 1,
    }
}

const TEXT: ValueForm = ValueForm::Text(128);
const LABEL: ValueForm = ValueForm::Text(100);

pub const LIST_BOTH: [Field; 5] = [
    field(SESSION_ID, Needed::First, TEXT),
    field(AUTH_APPLICATION_ID, Needed::Always, ValueForm::Number(1, 1)),
    field(ORIGIN_HOST, Needed::Always, TEXT),
    field(ORIGIN_REALM, Needed::Always, TEXT),
    field(DESTINATION_REALM, Needed::Always, TEXT),
];

pub const LIST_265: [Field; 7] = [
    field(AUTH_REQUEST_TYPE, Needed::Always, ValueForm::Number(2, 2)),
    field(DESTINATION_HOST, Needed::Always, TEXT),
    field(USER_NAME, Needed::Always, TEXT),
    field(
        SESSION_REQUEST_TYPE,
        Needed::Always,
        ValueForm::Number(0, 1),
    ),
    field(VISITED_NETWORK, Needed::Never, TEXT),
    field(W_APN, Needed::ForType(0), LABEL),
    field(ROUTING_POLICY, Needed::ForType(1), TEXT),
];

pub const LIST_275: [Field; 4] = [
    field(TERMINATION_CAUSE, Needed::Always, ValueForm::Number(1, 8)),
    field(DESTINATION_HOST, Needed::Always, TEXT),
    field(USER_NAME, Needed::Always, TEXT),
    field(W_APN, Needed::Always, LABEL),
];

/// The gateway's own list (W11).
pub const LIST_258: [Field; 2] = [
    field(DESTINATION_HOST, Needed::Always, TEXT),
    field(
        RE_AUTH_REQUEST_TYPE,
        Needed::Always,
        ValueForm::Number(0, 0),
    ),
];

/// The values of a request that passed its lists, several under one name in the order
/// in which they stand.
#[derive(Clone, Debug, PartialEq, Eq, Default)]
pub struct Request<'m> {
    pub command: u32,
    pub values: Vec<(Name, &'m [u8])>,
}

impl<'m> Request<'m> {
    pub fn get(&self, name: Name) -> Option<&'m [u8]> {
        let found = self.values.iter().find(|(n, _)| *n == name);
        found.map(|(_, value)| *value)
    }

    /// All values of a name.
    pub fn all(&self, name: Name) -> Vec<&'m [u8]> {
        let named = self.values.iter().filter(|(n, _)| *n == name);
        named.map(|(_, value)| *value).collect()
    }

    /// A text, empty where it is not there.
    pub fn text(&self, name: Name) -> &'m [u8] {
        self.get(name).unwrap_or_default()
    }

    pub fn session_type(&self) -> Option<u32> {
        self.get(SESSION_REQUEST_TYPE).map(number)
    }
}

/// The list of a command, what both have in common first. For a table of form 2 a
/// policy may come as often as an access can hold one.
pub fn list(form: Form, command: u32) -> Vec<Field> {
    let own: &[Field] = match command {
        AA => &LIST_265,
        TERMINATION => &LIST_275,
        _ => &[],
    };
    let mut fields = [&LIST_BOTH, own].concat();
    for field in &mut fields {
        if field.name == ROUTING_POLICY {
            field.most = form.policies();
        }
    }
    fields
}

/// Takes the fields in list order; all tests of one come before those of the next.
pub fn read_list<'m>(
    rules: &Rules,
    form: Form,
    command: u32,
    avps: &[Avp<'m>],
) -> Result<Request<'m>, Code> {
    let mut request = Request {
        command,
        values: Vec::new(),
    };
    for field in (rules.list)(form, command) {
        let needed = match field.needed {
            Needed::ForType(which) => request.session_type() == Some(which),
            other => other != Needed::Never,
        };
        let values = (rules.read_field)(rules, avps, &field)?;
        if values.is_empty() && needed {
            return Err(plain(5005));
        }
        let named = values.into_iter().map(|value| (field.name, value));
        request.values.extend(named);
    }
    Ok(request)
}

/// One field: absent (no value), too often, then length and value of each that is
/// there, in this order.
pub fn read_field<'m>(
    rules: &Rules,
    avps: &[Avp<'m>],
    field: &Field,
) -> Result<Vec<&'m [u8]>, Code> {
    let copies = copies(rules, avps, field);
    if copies.len() > field.most {
        return Err(plain(5009));
    }
    for value in &copies {
        length_and_value(value, field.form)?;
    }
    Ok(copies)
}

/// The values of all AVPs with the field's name; none where the field must come
/// first and does not.
pub fn copies<'m>(rules: &Rules, avps: &[Avp<'m>], field: &Field) -> Vec<&'m [u8]> {
    let named = |avp: &&Avp<'m>| (rules.is)(avp, field.name);
    let misplaced = field.needed == Needed::First && !avps.first().as_ref().is_some_and(named);
    if misplaced {
        return Vec::new();
    }
    avps.iter().filter(named).map(|avp| avp.value).collect()
}

pub fn length_and_value(value: &[u8], form: ValueForm) -> Result<(), Code> {
    match form {
        ValueForm::Text(most) if !(1..=most).contains(&value.len()) => Err(plain(5014)),
        ValueForm::Number(..) if value.len() != 4 => Err(plain(5014)),
        ValueForm::Number(low, high) if !(low..=high).contains(&number(value)) => Err(plain(5004)),
        _ => Ok(()),
    }
}
