//! The packets that bin/measure counts, with their names.

use crate::drafts::{Draft, connect, publish, subscribe};

/// The topic of the short PUBLISHes, 16 bytes; the filters have as many.
const TOPIC: &[u8] = b"mount/7/tracking";

/// What Paho's client for Python sent as an example's mount (oracle/captures); it begins with a CONNECT that has a
/// will, a user name and a password.
const MOUNT: &[u8] = include_bytes!("../captures/mount.mqtt");

/// Every one of them.
pub fn packets() -> Vec<(String, Vec<u8>)> {
    let mut all = vec![
        ("CONNECT, client id".into(), connect(2, b"mount-7", [b"", b""], [b"", b""]).bytes()),
        ("CONNECT, client id, will, user name, password".into(), MOUNT[..2 + usize::from(MOUNT[1])].to_vec()),
    ];
    let long = b"tenant-0001/site-0001/".repeat(6)[..128].to_vec();
    for (topic, size) in [(TOPIC, 8), (TOPIC, 256), (TOPIC, 65_536), (&long, 8)] {
        let name = format!("PUBLISH, topic {}, payload {size}", topic.len());
        all.push((name, publish(0, topic, 0, &vec![b'5'; size]).bytes()));
    }
    for count in [1, 3, 100] {
        let filters: Vec<String> = (0..count).map(|number| format!("mount/7/axis-{number:03}")).collect();
        let filters: Vec<(&[u8], u8)> = filters.iter().map(|filter| (filter.as_bytes(), 1)).collect();
        all.push((format!("SUBSCRIBE, filters {count}"), subscribe(1, &filters).bytes()));
    }
    all.push(("PINGREQ".into(), Draft::new(0xc0, vec![]).bytes()));
    all
}
