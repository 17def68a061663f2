//! A PUBLISH by the reader of Paho's client for C, Debian's libpaho-mqtt-dev: its shared library hides that reader, its
//! static one does not. It reads what a client receives, so no CONNECT and no SUBSCRIBE. What it hands back is declared
//! in no header that is installed: whoever calls this compares what was read from it.

use std::ffi::{c_char, c_int, c_uchar, c_uint};

/// A PUBLISH as it was read, up to what is asked for here. The topic is a copy, the payload lies in what was read.
#[repr(C)]
struct Publish {
    header: c_uchar,
    topic: *mut c_char,
    topic_len: c_int,
    id: c_int,
    payload: *mut c_char,
    payload_len: c_int,
}

#[link(name = "libpaho-mqtt3c.a", modifiers = "+verbatim")]
unsafe extern "C" {
    fn Heap_initialize();
    fn MQTTPacket_decodeBuf(bytes: *mut c_char, value: *mut c_uint) -> c_int;
    fn MQTTPacket_publish(version: c_int, header: c_uchar, data: *mut c_char, data_len: usize) -> *mut Publish;
    fn MQTTPacket_freePublish(publish: *mut Publish);
}

/// MQTT 3.1.1.
const VERSION: c_int = 4;

/// What a client does before it reads anything: the library keeps a list of what it allocates.
pub fn start() {
    unsafe { Heap_initialize() }
}

/// The lengths of a PUBLISH, of its topic and of its payload, if it is taken. All of its bytes must be there: of the
/// network the library asks for so many before it comes to this.
#[inline(always)]
pub fn publish(bytes: &mut [u8]) -> Option<(usize, usize, usize)> {
    let data: *mut c_char = bytes.as_mut_ptr().cast();
    let mut remaining = 0;
    unsafe {
        let header = 1 + MQTTPacket_decodeBuf(data.add(1), &mut remaining) as usize;
        let read = MQTTPacket_publish(VERSION, bytes[0], data.add(header), remaining as usize);
        let publish = read.as_ref()?;
        let lengths = (header + remaining as usize, publish.topic_len as usize, publish.payload_len as usize);
        MQTTPacket_freePublish(read);
        Some(lengths)
    }
}
