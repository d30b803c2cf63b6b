//! The parts of systems.

use super::{Parsed, Parser};
use crate::keywords::{Keyword, Sign};
use crate::tokens::Kind;
use crate::tree::{Application, Device, Mapping, Name, Network, System};

impl Parser<'_> {
    pub(super) fn system_section(&mut self, word: Keyword, system: &mut System) -> Parsed<bool> {
        match word {
            Keyword::Application => system.applications.push(self.application()?),
            Keyword::Device => system.devices.push(self.device()?),
            Keyword::Mappings => self.mappings(system)?,
            _ => return Ok(false),
        }
        Ok(true)
    }

    fn application(&mut self) -> Parsed<Application> {
        self.take();
        let name = self.name()?;
        let mut network = Network::default();
        while let Some(Kind::Reserved(word)) = self.kind() {
            if !self.network_section(word, &mut network)? && !self.subapplications(word, &mut network)? {
                break;
            }
        }
        self.need_word(Keyword::EndApplication)?;
        network.index();
        Ok(Application { name, network })
    }

    fn device(&mut self) -> Parsed<Device> {
        let name = self.typed_place()?;
        let mut resources = Vec::new();
        while self.is_word(Keyword::Resource) {
            resources.push(self.typed_place()?);
            self.need_word(Keyword::EndResource)?;
        }
        self.need_word(Keyword::EndDevice)?;
        Ok(Device { name, resources })
    }

    /// The head of a device or a resource: its name, type and parameters.
    fn typed_place(&mut self) -> Parsed<Name> {
        self.take();
        let name = self.name()?;
        self.need_sign(Sign::Colon)?;
        self.name()?;
        self.parameters()?;
        self.eat_sign(Sign::Semicolon);
        Ok(name)
    }

    fn mappings(&mut self, system: &mut System) -> Parsed<()> {
        self.take();
        while self.is_name() {
            let mapping = self.mapping()?;
            system.mappings.push(mapping);
        }
        self.need_word(Keyword::EndMappings)?;
        Ok(())
    }

    fn mapping(&mut self) -> Parsed<Mapping> {
        let (names, span) = self.path()?;
        self.need_named("ON")?;
        let device = self.name()?;
        self.need_sign(Sign::Dot)?;
        let resource = self.name()?;
        self.need_sign(Sign::Semicolon)?;
        Ok(Mapping {
            path: names.iter().map(|name| name.symbol).collect(),
            span,
            device,
            resource,
        })
    }
}
