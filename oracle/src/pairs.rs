//! Names that the hashes do not tell apart, searched for once: topics and clients that several programs ask about.

use crate::make::BLOCKS;
use crate::tally::Random;
use vs_mqtt_monitor::opened::djb2_hash;
use vs_types_embedded::fnv1a_hash;

/// Pairs of topics with equal FNV-1a, and but for the last with equal djb2 too.
pub struct Pairs {
    /// Equal length, different among the first 32 bytes or just in the last of them: two identities.
    pub apart: Vec<Pair>,
    /// Equal length and first 32 bytes: one identity.
    pub one: Vec<Pair>,
    /// Equal first 32 bytes and suffix hash: two identities by their length alone.
    pub by_length: Vec<Pair>,
    /// Two clients, by their djb2 alone.
    pub by_djb2: Vec<Pair>,
}

pub type Pair = [Vec<u8>; 2];

impl Pairs {
    pub fn search() -> Pairs {
        // djb2 of this prefix is its start, so that behind it djb2 and the suffix hash are the same.
        let prefix = completed(&[b'p'; 25], 5381);
        let lengths: [&[u8]; 2] = [b"", b"x"];
        let longer = lengths
            .iter()
            .flat_map(|middle| blocks_after(&prefix).map(move |start| completed(&[&start[..], middle].concat(), 5381)));
        let mut apart = colliding(blocks_after(b""));
        apart.extend(colliding(blocks_after(&[b'p'; 31])).into_iter().filter(|[a, b]| a[31] != b[31]));
        let mut by_length = colliding(longer);
        by_length.retain(|[a, b]| a.len() != b.len());
        let mut random = Random(1);
        let by_djb2 = colliding((0..300_000).map(|_| random.bytes(12, b"abcdefgh")));
        let pairs = Pairs { apart, one: colliding(blocks_after(&[b'p'; 32])), by_length, by_djb2 };
        assert!(pairs.apart.iter().any(|[a, _]| a.len() > 32), "no pair that differs in byte 32");
        assert!(pairs.one.iter().any(|[a, b]| a[32] != b[32]), "no pair that differs in byte 33");
        assert!(!pairs.by_length.is_empty(), "no pair that differs in length");
        assert!(pairs.by_djb2.iter().any(|[a, b]| djb2_hash(a) != djb2_hash(b)), "no pair that differs in djb2");
        pairs
    }

    pub fn pick(&self, random: &mut Random) -> &Pair {
        let kind = [&self.apart, &self.one, &self.one, &self.by_length][random.below(4)];
        &kind[random.below(kind.len())]
    }
}

/// The prefix with eleven two-byte blocks, in every way: all of them have one djb2.
fn blocks_after(prefix: &[u8]) -> impl Iterator<Item = Vec<u8>> {
    (0..3usize.pow(11)).map(move |choice| {
        let blocks = (0..11).flat_map(|place| &BLOCKS[choice / 3usize.pow(place) % 3]);
        prefix.iter().chain(blocks).copied().collect()
    })
}

/// The bytes with seven more, so that their djb2 is `target`: what is missing, written in base 33.
fn completed(start: &[u8], target: u32) -> Vec<u8> {
    let mut missing = target.wrapping_sub(djb2_hash(&[start, b"AAAAAAA"].concat()));
    let mut last = [b'A'; 7];
    for letter in last.iter_mut().rev() {
        *letter += (missing % 33) as u8;
        missing /= 33;
    }
    let whole = [start, &last].concat();
    assert_eq!(djb2_hash(&whole), target);
    whole
}

/// The topic with its last block made another: djb2 stays, FNV-1a does not.
pub fn reblocked(topic: &[u8]) -> Vec<u8> {
    let which = |two: &[u8]| BLOCKS.iter().position(|block| block == two);
    let place = topic.windows(2).rposition(|two| which(two).is_some()).expect("a topic of blocks");
    let next = which(&topic[place..place + 2]).map_or(0, |block| (block + 1) % 3);
    [&topic[..place], &BLOCKS[next], &topic[place + 2..]].concat()
}

/// Those of the topics that share FNV-1a with another.
fn colliding(topics: impl Iterator<Item = Vec<u8>>) -> Vec<Pair> {
    let mut hashed: Vec<(u32, Vec<u8>)> = topics.map(|topic| (fnv1a_hash(&topic), topic)).collect();
    hashed.sort_unstable();
    let equal = hashed.windows(2).filter(|two| two[0].0 == two[1].0);
    equal.map(|two| [two[0].1.clone(), two[1].1.clone()]).collect()
}
