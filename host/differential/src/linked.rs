//! The library through its C interface.

use calls::{Answer, Call, Implementation, Lent};
use sii_decode::library;

pub struct Linked;

impl Implementation for Linked {
    fn answer(&mut self, call: Call<'_>, lent: Lent<'_>) -> Answer {
        let Lent { file, table, out } = lent;
        match call {
            Call::Read => Answer::Reading(library::read(file, table)),
            Call::GetPrototype { id } => Answer::Prototype(library::get_prototype(file, table, id)),
            Call::BlockAt { n } => Answer::Block(library::block_at(file, table, n)),
            Call::BlocksByPrototypeName { name, n } => {
                Answer::Number(library::blocks_by_prototype_name(file, table, name, n))
            }
            Call::FieldOf { block, name } => {
                Answer::Field(library::field_of(file, table, block, name))
            }
            Call::ElementOf {
                version,
                type_id,
                part,
                index,
            } => Answer::Element(library::element_of(version, type_id, part, index)),
            Call::ToSiin => Answer::Text(library::to_siin(file, table, out)),
            Call::WriteIndex => Answer::Length(library::write_index(file, table, out)),
            Call::CheckIndex { index } => Answer::Checked(library::check_index(file, table, index)),
            Call::FieldByIndex { index, block, name } => {
                Answer::Field(library::field_by_index(file, index, block, name))
            }
            Call::DefinesOnce => Answer::Number(library::defines_once(file, table)),
            Call::Forecast => Answer::Forecast(library::forecast(file, table)),
        }
    }
}
