//! Messages in the making: good ones to begin with, in a form in which any part can
//! be spoilt before the bytes are written.

use crate::reading_a_message::{
    AA, AUTH_APPLICATION_ID, AUTH_REQUEST_TYPE, DESTINATION_HOST, DESTINATION_REALM, Name,
    ORIGIN_HOST, ORIGIN_REALM, PROXIABLE, REQUEST, ROUTING_POLICY, SESSION_ID,
    SESSION_REQUEST_TYPE, TERMINATION, TERMINATION_CAUSE, USER_NAME, VENDOR, W_APN,
};

/// An AVP to be written. `flags` does not hold the V bit, which follows `vendor`.
#[derive(Clone, Debug)]
pub struct DraftAvp {
    pub name: Name,
    pub flags: u8,
    pub value: Vec<u8>,
    /// The length to claim instead of the true one.
    pub length: Option<u32>,
    pub padding: u8,
}

impl DraftAvp {
    pub fn new(name: Name, value: &[u8]) -> DraftAvp {
        DraftAvp {
            name,
            flags: 0x40,
            value: value.to_vec(),
            length: None,
            padding: 0,
        }
    }

    pub fn number(name: Name, value: u32) -> DraftAvp {
        DraftAvp::new(name, &value.to_be_bytes())
    }

    pub fn bytes(&self) -> Vec<u8> {
        let start: u32 = if self.name.vendor.is_some() { 12 } else { 8 };
        let length = self.length.unwrap_or(start + self.value.len() as u32);
        let bit = if start == 12 { VENDOR } else { 0 };
        let mut bytes = self.name.code.to_be_bytes().to_vec();
        bytes.push(self.flags | bit);
        bytes.extend(&length.to_be_bytes()[1..]);
        bytes.extend(self.name.vendor.iter().flat_map(|v| v.to_be_bytes()));
        bytes.extend(&self.value);
        bytes.resize(bytes.len().next_multiple_of(4), self.padding);
        bytes
    }
}

#[derive(Clone, Debug)]
pub struct Draft {
    pub version: u8,
    pub flags: u8,
    pub command: u32,
    pub application: u32,
    pub identifiers: [u8; 8],
    pub avps: Vec<DraftAvp>,
    /// Bytes behind the last AVP.
    pub tail: Vec<u8>,
    /// Cut or filled up with zeros to this size.
    pub size: Option<usize>,
    /// Added to the length that the header gives.
    pub length_off: i32,
}

impl Draft {
    fn new(command: u32, session: &[u8], host: &[u8], middle: DraftAvp, user: &[u8]) -> Draft {
        let avps = vec![
            DraftAvp::new(SESSION_ID, session),
            DraftAvp::number(AUTH_APPLICATION_ID, 1),
            DraftAvp::new(ORIGIN_HOST, host),
            DraftAvp::new(ORIGIN_REALM, b"visited.example"),
            DraftAvp::new(DESTINATION_REALM, b"home.example"),
            middle,
            DraftAvp::new(DESTINATION_HOST, b"aaa.home.example"),
            DraftAvp::new(USER_NAME, user),
        ];
        Draft {
            version: 1,
            flags: REQUEST | PROXIABLE,
            command,
            application: 1,
            identifiers: [0, 0, 0, 7, 0, 0, 1, 7],
            avps,
            tail: Vec::new(),
            size: None,
            length_off: 0,
        }
    }

    /// A request of type 0: open an access.
    pub fn open(user: &[u8], session: &[u8], host: &[u8], label: &[u8]) -> Draft {
        let kind = DraftAvp::number(AUTH_REQUEST_TYPE, 2);
        let mut draft = Draft::new(AA, session, host, kind, user);
        draft.avps.push(DraftAvp::number(SESSION_REQUEST_TYPE, 0));
        draft.avps.push(DraftAvp::new(W_APN, label));
        draft
    }

    /// A request of type 1: the policy of an open access.
    pub fn policy(user: &[u8], session: &[u8], host: &[u8], policy: &[u8]) -> Draft {
        let kind = DraftAvp::number(AUTH_REQUEST_TYPE, 2);
        let mut draft = Draft::new(AA, session, host, kind, user);
        draft.avps.push(DraftAvp::number(SESSION_REQUEST_TYPE, 1));
        draft.avps.push(DraftAvp::new(ROUTING_POLICY, policy));
        draft
    }

    /// A Session-Termination-Request.
    pub fn termination(user: &[u8], session: &[u8], host: &[u8], label: &[u8]) -> Draft {
        let cause = DraftAvp::number(TERMINATION_CAUSE, 1);
        let mut draft = Draft::new(TERMINATION, session, host, cause, user);
        draft.avps.push(DraftAvp::new(W_APN, label));
        draft
    }

    pub fn position(&self, name: Name) -> Option<usize> {
        self.avps.iter().position(|avp| avp.name == name)
    }

    pub fn avp(&mut self, name: Name) -> Option<&mut DraftAvp> {
        self.avps.iter_mut().find(|avp| avp.name == name)
    }

    /// Adds an AVP in a place of its own choice, but not before the Session-Id.
    pub fn insert(&mut self, place: usize, avp: DraftAvp) {
        let place = 1 + place % self.avps.len().max(1);
        self.avps.insert(place.min(self.avps.len()), avp);
    }

    pub fn bytes(&self) -> Vec<u8> {
        let mut bytes = vec![0; 20];
        for avp in &self.avps {
            bytes.extend(avp.bytes());
        }
        bytes.extend(&self.tail);
        if let Some(size) = self.size {
            bytes.resize(size, 0);
        }
        let length = (bytes.len() as u32).wrapping_add_signed(self.length_off);
        let mut header = (length & 0x00FF_FFFF).to_be_bytes().to_vec();
        header[0] = self.version;
        header.push(self.flags);
        header.extend(&self.command.to_be_bytes()[1..]);
        header.extend(self.application.to_be_bytes());
        header.extend(self.identifiers);
        crate::the_table::put(&mut bytes, 0, &header);
        bytes
    }
}
