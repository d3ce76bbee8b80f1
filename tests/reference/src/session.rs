//! The plain session: the design as read and a list of standing renames.

use crate::bytes::is_name;
use crate::design::Design;
use crate::sizes;
use crate::statements::{Constant, ModuleNumber, WireNumber};
use crate::tokens::Name;

#[derive(Debug, Clone, PartialEq, Eq)]
pub struct Rename {
    pub module: ModuleNumber,
    pub wire: WireNumber,
    pub name: Name,
}

#[derive(Debug, Clone, PartialEq, Eq)]
pub struct Session {
    /// As read.
    design: Design,
    /// Oldest first.
    renames: Vec<Rename>,
}

impl Session {
    pub fn new(design: Design) -> Session {
        Session {
            design,
            renames: Vec::new(),
        }
    }

    /// The design as read, without renames.
    pub fn design_read(&self) -> &Design {
        &self.design
    }

    /// Standing renames, oldest first.
    pub fn renames(&self) -> &[Rename] {
        &self.renames
    }

    /// The design with the names now.
    pub fn design_now(&self) -> Design {
        let mut design = self.design.clone();
        for rename in &self.renames {
            let wire = design
                .wire_mut(rename.module, rename.wire)
                .expect("the wire was there");
            wire.name = rename.name.clone();
        }
        design
    }

    /// The wire's name now: the last rename of it, else as read.
    pub fn name_now(&self, module: ModuleNumber, wire: WireNumber) -> Option<&Name> {
        let renamed = self
            .renames
            .iter()
            .rfind(|rename| rename.module == module && rename.wire == wire);
        match renamed {
            Some(rename) => Some(&rename.name),
            None => self.design.wire(module, wire).map(|wire| &wire.object.name),
        }
    }

    /// Bytes of the names as read and of the listed new names.
    pub fn room_used(&self) -> usize {
        let listed: usize = self.renames.iter().map(|rename| rename.name.len()).sum();
        self.design.name_bytes() + listed
    }

    /// 0 if taken, else the lowest number that applies.
    pub fn rename(&mut self, module: ModuleNumber, wire: WireNumber, name: &[u8]) -> u32 {
        let number = self.rename_refusal(module, wire, name);
        if number == 0 {
            self.renames.push(Rename {
                module,
                wire,
                name: name.to_vec(),
            });
        }
        number
    }

    fn rename_refusal(&self, module: ModuleNumber, wire: WireNumber, name: &[u8]) -> u32 {
        if !is_name(name) {
            return 4;
        }
        let Some(found) = self.design.wire(module, wire) else {
            return 8;
        };
        if found.object.port.is_some() {
            return 6;
        }
        if self.name_space_has(module, name) {
            return 9;
        }
        if self.renames.len() == sizes::RENAMES || self.room_used() + name.len() > sizes::NAME_BYTES
        {
            return 11;
        }
        0
    }

    /// Does a wire, memory, cell or process of the module have the name now?
    fn name_space_has(&self, module: ModuleNumber, name: &[u8]) -> bool {
        let Some(objects) = self.design.module(module) else {
            return false;
        };
        self.look_up(module, name).is_ok()
            || objects
                .memories
                .iter()
                .any(|memory| memory.object.name == name)
            || objects.cells.iter().any(|cell| cell.object.name == name)
            || objects
                .processes
                .iter()
                .any(|process| process.object.name == name)
    }

    /// 0 if the last rename is taken off, 13 if none stands.
    pub fn undo(&mut self) -> u32 {
        match self.renames.pop() {
            Some(_) => 0,
            None => 13,
        }
    }

    /// The number of the wire that has these bytes as its name now.
    pub fn look_up(&self, module: ModuleNumber, name: &[u8]) -> Result<WireNumber, u32> {
        let wires = self
            .design
            .module(module)
            .map_or(0, |module| module.wires.len());
        let has_name =
            |&wire: &WireNumber| self.name_now(module, wire).is_some_and(|now| now == name);
        (0..wires).map(WireNumber).find(has_name).ok_or(8)
    }

    /// The name to show.
    pub fn show(&self, module: ModuleNumber, wire: WireNumber) -> Result<&[u8], u32> {
        let found = self.design.wire(module, wire).ok_or(8u32)?;
        let hdlname = found
            .attributes
            .iter()
            .find(|attribute| attribute.name == b"\\hdlname");
        if let Some(Constant::String(shown)) = hdlname.map(|attribute| &attribute.constant) {
            if !shown.is_empty() {
                return Ok(shown);
            }
        }
        let name = self.name_now(module, wire).ok_or(8u32)?;
        Ok(name.strip_prefix(b"\\").unwrap_or(name))
    }

    /// The author's index of a bit.
    pub fn index(&self, module: ModuleNumber, wire: WireNumber, bit: usize) -> Result<i64, u32> {
        let wire = &self.design.wire(module, wire).ok_or(8u32)?.object;
        wire.authors_index(bit).ok_or(10)
    }
}
