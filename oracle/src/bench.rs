//! bench: each leaf once by the archive and once by the Rust original, on the same input, for bin/measure. Both sides
//! pay one call.

mod hub;
mod rows;

use rows::row;
use std::hint::black_box;
use vs_mqtt_monitor::opened;

#[unsafe(no_mangle)]
#[inline(never)]
fn rust_topic_matches(topic: &[u8], pattern: &[u8]) -> bool {
    opened::topic_matches(topic, pattern)
}

#[unsafe(no_mangle)]
#[inline(never)]
fn rust_fnv1a_hash(data: &[u8]) -> u32 {
    vs_types_embedded::fnv1a_hash(data)
}

#[unsafe(no_mangle)]
#[inline(never)]
fn rust_djb2_hash(data: &[u8]) -> u32 {
    opened::djb2_hash(data)
}

#[unsafe(no_mangle)]
#[inline(never)]
fn rust_compute_payload_hash(data: &[u8], out: &mut [u8; 32]) {
    *out = vs_types_embedded::compute_payload_hash(data).0;
}

fn main() {
    let long = [b'a'; 256];
    let levels = b"tenant-0001/site-0001/".repeat(6);
    let pairs: [(&str, &[u8], &[u8]); 5] = [
        ("plain, 64 equal bytes", &long[..64], &long[..64]),
        ("differs at the first byte", b"sensors/kitchen", b"admin/#"),
        ("`sensors/+/temperature`, 27 bytes", b"sensors/kitchen/temperature", b"sensors/+/temperature"),
        ("`+/+/+/#`, 128 bytes", &levels[..128], b"+/+/+/#"),
        ("`+`, 128 bytes", &long[..128], b"+"),
    ];
    for (input, topic, pattern) in pairs {
        let name = format!("topic_matches, {input}");
        let rust = || rust_topic_matches(black_box(topic), black_box(pattern));
        row(&name, 1, || hub::topic_matches(black_box(topic), black_box(pattern)), rust);
    }
    for len in [1, 32, 128] {
        let data = &long[..len];
        let name = |hash| format!("{hash}, {len} bytes");
        let rust = || rust_fnv1a_hash(black_box(data));
        row(&name("fnv1a_hash"), 1, || hub::fnv1a_hash(black_box(data)), rust);
        let rust = || rust_djb2_hash(black_box(data));
        row(&name("djb2_hash"), 1, || hub::djb2_hash(black_box(data)), rust);
    }
    for len in [0, 1, 64, 256] {
        let hash = |compute: fn(&[u8], &mut [u8; 32])| {
            let mut out = [0xa5; 32];
            compute(black_box(&long[..len]), &mut out);
            out
        };
        let name = format!("compute_payload_hash, {len} bytes");
        row(&name, 1, || hash(hub::compute_payload_hash), || hash(rust_compute_payload_hash));
    }
}
