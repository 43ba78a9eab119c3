use crate::pt_firing::{Ports, Values};
use crate::pt_value::Text;
#[repr(C)]
pub struct Params {
    pub class: Text,
    pub values: Values,
    pub ports: Ports,
}
