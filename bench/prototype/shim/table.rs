//! A map from numbers to numbers, as std's map by hash has it: dense entries, and a table of groups of twelve lanes.
use crate::rstd::alloc::{AllocError, Global};
use crate::rstd::vec::{AllocFailed, Vec};

const GROUP_LOAD: usize = 9;

#[derive(Clone, Copy)]
#[repr(C)]
struct Bucket {
    hash: u32,
    slot: u32,
}

#[derive(Clone, Copy)]
#[repr(C)]
struct Group {
    tags: [u8; 16],
    indices: [u32; 12],
}

fn tag(hash: u32) -> u8 {
    ((hash >> 24) as u8).max(1)
}

impl Group {
    fn match_tag(&self, tag: u8) -> u32 {
        use core::arch::x86_64::*;
        unsafe {
            let tags = _mm_loadu_si128(self.tags.as_ptr() as *const __m128i);
            _mm_movemask_epi8(_mm_cmpeq_epi8(tags, _mm_set1_epi8(tag as i8))) as u32 & 0xFFF
        }
    }
    fn overflow(&self) -> u32 {
        u32::from_le_bytes([self.tags[12], self.tags[13], self.tags[14], self.tags[15]])
    }
}

pub struct HashMap<K, V> {
    keys: Vec<K>,
    vals: Vec<V>,
    alloc: Global,
    groups: Vec<Group>,
    buckets: Vec<Bucket>,
    growth_left: usize,
}

pub enum Entry<'a> {
    Occupied(&'a mut HashMap<u64, u64>, usize),
    Vacant(&'a mut HashMap<u64, u64>, u64, u32),
}

impl<'a> Entry<'a> {
    pub fn or_insert(self, default: u64) -> &'a mut u64 {
        match self {
            Entry::Occupied(map, place) => &mut map.vals[place],
            Entry::Vacant(map, key, hash) => {
                let place = map.keys.len();
                map.keys.push_reserved(key);
                map.vals.push_reserved(default);
                let bucket = insert_bucket(map.groups.as_mut_slice(), map.buckets.len(), hash);
                map.buckets.push_reserved(bucket);
                map.growth_left -= 1;
                &mut map.vals[place]
            }
        }
    }
}

fn insert_bucket(groups: &mut [Group], index: usize, hash: u32) -> Bucket {
    let count = groups.len();
    let mut pos = hash as usize & (count - 1);
    loop {
        let group = &mut groups[pos];
        let empty = group.match_tag(0);
        if empty != 0 {
            let lane = empty.trailing_zeros() as usize;
            group.tags[lane] = tag(hash);
            group.indices[lane] = index as u32;
            return Bucket { hash, slot: (16 * pos + lane) as u32 };
        }
        let over = (group.overflow() | 1 << (tag(hash) & 31)).to_le_bytes();
        group.tags[12..16].copy_from_slice(&over);
        pos = (pos + 1) & (count - 1);
    }
}

fn hashed(key: u64) -> u32 {
    let product = (0x243f_6a88_85a3_08d3u64 ^ key) as u128 * (0x9e37_79b9_7f4a_7c15u64 ^ 16) as u128;
    let hash = product as u64 ^ (product >> 64) as u64;
    (hash ^ (hash >> 32)) as u32
}

impl HashMap<u64, u64> {
    pub fn new(alloc: Global) -> HashMap<u64, u64> {
        HashMap { keys: Vec::new(alloc), vals: Vec::new(alloc), alloc, groups: Vec::new(alloc), buckets: Vec::new(alloc), growth_left: 0 }
    }
    #[inline(always)]
    pub fn entry(&mut self, key: u64) -> Result<Entry<'_>, AllocFailed<u64>> {
        let hash = hashed(key);
        if let Some(place) = self.find(hash, key) {
            return Ok(Entry::Occupied(self, place));
        }
        if !self.make_room() {
            return Err(AllocFailed { value: key });
        }
        Ok(Entry::Vacant(self, key, hash))
    }
    pub fn insert(&mut self, key: u64, value: u64) -> Result<Option<u64>, AllocError> {
        match self.entry(key)? {
            Entry::Occupied(map, place) => Ok(Some(core::mem::replace(&mut map.vals[place], value))),
            vacant => {
                vacant.or_insert(value);
                Ok(None)
            }
        }
    }
    pub fn get(&self, key: &u64) -> Option<&u64> {
        match self.find(hashed(*key), *key) {
            Some(place) => Some(&self.vals[place]),
            None => None,
        }
    }
    #[inline(always)]
    fn find(&self, hash: u32, key: u64) -> Option<usize> {
        let count = self.groups.len();
        if count == 0 {
            return None;
        }
        let start = hash as usize & (count - 1);
        let mut pos = start;
        loop {
            let group = &self.groups[pos];
            let mut matches = group.match_tag(tag(hash));
            while matches != 0 {
                let index = group.indices[matches.trailing_zeros() as usize] as usize;
                if self.keys[index] == key {
                    return Some(index);
                }
                matches &= matches - 1;
            }
            if (group.overflow() >> (tag(hash) & 31)) & 1 == 0 {
                return None;
            }
            pos = (pos + 1) & (count - 1);
            if pos == start {
                return None;
            }
        }
    }
    fn make_room(&mut self) -> bool {
        self.keys.reserve(1).is_ok() && self.vals.reserve(1).is_ok() && self.reserve_table().is_ok()
    }
    fn reserve_table(&mut self) -> Result<(), AllocError> {
        if self.growth_left > 0 {
            return Ok(());
        }
        let len = self.buckets.len();
        let mut count = 1;
        while GROUP_LOAD * count < (len + 1).max(GROUP_LOAD * self.groups.len() + 1) {
            count *= 2;
        }
        let mut groups = Vec::new(self.alloc);
        groups.resize(count, Group { tags: [0; 16], indices: [0; 12] })?;
        self.buckets.reserve(GROUP_LOAD * count - len)?;
        for i in 0..len {
            let hash = self.buckets[i].hash;
            self.buckets[i] = insert_bucket(groups.as_mut_slice(), i, hash);
        }
        self.groups = groups;
        self.growth_left = GROUP_LOAD * count - len;
        Ok(())
    }
}
