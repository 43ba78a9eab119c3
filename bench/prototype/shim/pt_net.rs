//! What pt_meeting_lines uses of a net.
use crate::pt_value::Text;
use crate::rstd::vec::Vec;

#[derive(Clone, Copy)]
#[repr(C)]
pub struct End {
    pub entity: u32,
    pub port: u32,
    pub index: u32,
}

#[derive(Clone, Copy)]
#[repr(C)]
pub struct Channel {
    pub composite: u32,
    pub from: End,
    pub to: End,
}

#[repr(C)]
pub struct Port {
    pub name: Text,
}

#[repr(C)]
pub struct NetEntity {
    pub path: Text,
    pub ports: Vec<Port>,
}

#[repr(C)]
pub struct Net {
    pub entities: Vec<NetEntity>,
    pub channels: Vec<Channel>,
}
