use super::text::Text;
use super::token::Token;
use crate::rstd::alloc::{AllocError, Global};
#[repr(C)]
pub struct Field {
    pub name: Text,
    pub value: Token,
}
impl Field {
    pub fn copy(&self, alloc: Global) -> Result<Field, AllocError> {
        Ok(Field { name: self.name.copy(alloc)?, value: self.value.copy(alloc)? })
    }
}
#[repr(C)]
pub struct Fields {
    fields: Vec<Field>,
}
impl Fields {
    pub fn copy(&self, alloc: Global) -> Result<Fields, AllocError> {
        let mut fields = Vec::with_capacity(alloc, self.fields.len())?;
        for field in &self.fields {
            fields.push(field.copy(alloc)?)?;
        }
        Ok(Fields { fields })
    }
    pub fn of(_alloc: Global, fields: Vec<(Text, Token)>) -> Result<Fields, AllocError> {
        let mut made = Vec::new(crate::rstd::alloc::GLOBAL);
        for (name, value) in fields {
            made.push(Field { name, value })?;
        }
        Ok(Fields { fields: made })
    }
    pub fn get(&self, name: &str) -> Option<&Token> {
        for field in &self.fields {
            if field.name.as_str() == name {
                return Some(&field.value);
            }
        }
        None
    }
    pub fn size(&self) -> u64 {
        0
    }
    pub fn same(&self, _other: &Fields) -> bool {
        false
    }
    pub(crate) fn write(&self, _out: &mut Vec<u8>) -> Result<(), AllocError> {
        Ok(())
    }
}
