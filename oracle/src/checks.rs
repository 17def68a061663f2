//! What can be wrong with a packet, one name for each test that MQTT 3.1.1 and request C-11 ask for. The second reader
//! (mqtt.rs) says which it met first; a run must meet every one of them.

/// A field of one of the four packets that are read.
#[derive(Clone, Copy, Debug, PartialEq, Eq, PartialOrd, Ord)]
pub enum Field {
    ProtocolName,
    ProtocolLevel,
    ConnectFlags,
    KeepAlive,
    ClientId,
    WillTopic,
    WillMessage,
    UserName,
    Password,
    PublishTopic,
    PublishId,
    SubscribeId,
    SubscribeFilter,
    RequestedQos,
    UnsubscribeId,
    UnsubscribeFilter,
}

use Field::*;

/// The fields whose length stands before them.
const COUNTED: [Field; 9] = [
    ProtocolName,
    ClientId,
    WillTopic,
    WillMessage,
    UserName,
    Password,
    PublishTopic,
    SubscribeFilter,
    UnsubscribeFilter,
];
/// The fields of one or two bytes.
const FIXED: [Field; 7] = [ProtocolLevel, ConnectFlags, KeepAlive, PublishId, SubscribeId, RequestedQos, UnsubscribeId];
/// The strings of section 1.5.3; the protocol's name has just one good value and so a test of its own.
const STRINGS: [Field; 6] = [ClientId, WillTopic, UserName, PublishTopic, SubscribeFilter, UnsubscribeFilter];
/// The strings that become a message's topic.
pub const TOPICS: [Field; 4] = [ClientId, PublishTopic, SubscribeFilter, UnsubscribeFilter];

/// How a string breaks section 1.5.3: the last by MQTT-1.5.3-2, all others by MQTT-1.5.3-1.
#[derive(Clone, Copy, Debug, PartialEq, Eq, PartialOrd, Ord)]
pub enum Flaw {
    /// A byte that begins no character.
    Lead,
    /// A byte of another kind, where a character must go on.
    Continuation,
    /// The string ends within a character.
    CutOff,
    /// A number with more bytes than it needs.
    Overlong,
    /// D800 to DFFF.
    Surrogate,
    /// A number above 10FFFF.
    Above,
    /// U+0000.
    Zero,
}

const FLAWS: [Flaw; 7] =
    [Flaw::Lead, Flaw::Continuation, Flaw::CutOff, Flaw::Overlong, Flaw::Surrogate, Flaw::Above, Flaw::Zero];

/// Why a packet is refused, with the standard's statement where it has a number.
#[derive(Clone, Copy, Debug, PartialEq, Eq, PartialOrd, Ord)]
pub enum Check {
    /// Section 2.2.3, four bytes at most: the fourth byte of the length field says that one more follows.
    FourthContinuation,
    /// There is no byte at the place.
    Nothing,
    /// The input ends within the length field, behind so many of its bytes.
    LengthMissing(usize),
    /// The input ends before the length field says.
    BodyMissing,
    /// Section 2.2.1: type 0 or 15.
    ReservedType,
    /// MQTT-2.2.2-1 and -2: a CONNECT's flags in the fixed header are not 0.
    ConnectHeaderFlags,
    /// MQTT-3.8.1-1: a SUBSCRIBE's are not 2.
    SubscribeHeaderFlags,
    /// MQTT-3.10.1-1: an UNSUBSCRIBE's are not 2.
    UnsubscribeHeaderFlags,
    /// MQTT-3.3.1-4: a PUBLISH with both bits of its QoS.
    PublishQos3,
    /// MQTT-3.3.1-2: a PUBLISH with DUP and QoS 0.
    DupQos0,
    /// MQTT-3.1.2-1: a protocol name other than MQTT.
    WrongName,
    /// MQTT-3.1.2-2: a protocol level other than 4.
    WrongLevel,
    /// MQTT-3.1.2-3: bit 0 of the connect flags.
    ReservedConnectFlag,
    /// MQTT-3.1.2-13: a will's QoS without a will.
    WillQosWithoutWill,
    /// MQTT-3.1.2-14: a will with both bits of its QoS.
    WillQos3,
    /// MQTT-3.1.2-15: a will's retain flag without a will.
    WillRetainWithoutWill,
    /// MQTT-3.1.2-22: a password without a user name.
    PasswordWithoutUser,
    /// MQTT-3.1.3-7 and -8: an empty client id with CleanSession 0.
    EmptyClientIdWithoutClean,
    /// MQTT-3.1.2-11, -18 and -20: bytes behind the last field that the connect flags announce.
    BytesBehindConnect,
    /// MQTT-2.3.1-1: packet identifier 0.
    IdZero(Field),
    /// MQTT-3.8.3-3 and MQTT-3.10.3-2: no filter at all.
    NoFilter(Field),
    /// MQTT-3-8.3-4, as the standard prints it: requested QoS 3.
    RequestedQos3,
    /// MQTT-3-8.3-4: one of the upper six bits of a requested QoS.
    RequestedReservedBits,
    /// Section 2.2.3: the packet ends within a field, or before it. In a CONNECT, which has those that its flags say:
    /// MQTT-3.1.2-9, -19 and -21, and MQTT-3.1.3-1 and -3.
    Past(Field),
    /// The same with the two bytes of a field's length.
    PastInLength(Field),
    /// MQTT-1.5.3-1 and -2, where MQTT-3.1.3-4, -10, -11, 3.3.2-1, 3.8.3-1 and 3.10.3-1 ask for a string.
    Broken(Field, Flaw),
    /// Request C-11: what becomes a topic has over 128 bytes.
    TooLong(Field),
}

use Check::*;

impl Check {
    /// The number of the refusal.
    pub fn number(self) -> u32 {
        match self {
            Nothing | LengthMissing(_) | BodyMissing => 31,
            TooLong(_) => 33,
            _ => 32,
        }
    }

    /// All of them, in groups that have a name.
    pub fn all() -> [(&'static str, Vec<Check>); 6] {
        let length = [FourthContinuation, Nothing, BodyMissing].into_iter().chain((0..4).map(LengthMissing));
        let header = [
            ReservedType,
            ConnectHeaderFlags,
            SubscribeHeaderFlags,
            UnsubscribeHeaderFlags,
            PublishQos3,
            DupQos0,
            WrongName,
            WrongLevel,
            ReservedConnectFlag,
            WillQosWithoutWill,
            WillQos3,
            WillRetainWithoutWill,
            PasswordWithoutUser,
            EmptyClientIdWithoutClean,
            BytesBehindConnect,
        ];
        let lists = [PublishId, SubscribeId, UnsubscribeId]
            .map(IdZero)
            .into_iter()
            .chain([SubscribeFilter, UnsubscribeFilter].map(NoFilter))
            .chain([RequestedQos3, RequestedReservedBits]);
        let past = COUNTED.into_iter().map(PastInLength).chain(COUNTED.into_iter().chain(FIXED).map(Past));
        let broken = STRINGS.into_iter().flat_map(|field| FLAWS.map(|flaw| Broken(field, flaw)));
        [
            ("every test of the length field", length.collect()),
            ("every test of the flags and of a CONNECT", header.to_vec()),
            ("every test of packet identifiers and lists of filters", lists.collect()),
            ("every field that runs past the packet's end", past.collect()),
            ("every flaw of every string", broken.collect()),
            ("every string that is too long", TOPICS.map(TooLong).to_vec()),
        ]
    }
}
