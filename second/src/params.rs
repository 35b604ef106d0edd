//! SET-PARAMS and GET-PARAMS: what their fields say about a channel's settings.

use crate::channel::Channel;
use crate::fields::{Fields, Known};
use crate::settings::{Edition, MOST_SETTINGS};
use crate::writing::Told;

/// Whether there is a field that is "neither a setting of this kind nor one that
/// in 01 acts everywhere or nowhere".
pub fn has_foreign(channel: &Channel, fields: &Fields) -> bool {
    let settings = channel.kind().settings();
    !fields.all().iter().all(|field| match field.known {
        None => false,
        Some(Known::ChannelIdentifier | Known::ContentLength) => true,
        Some(Known::ProxySyncId | Known::LoggingTag) => true,
        Some(known) => settings.iter().any(|setting| setting.field == known),
    })
}

/// The edition that a SET-PARAMS makes, "what it doesn't name as before". None
/// where a value is illegal.
pub fn edition(channel: &Channel, fields: &Fields) -> Option<Edition> {
    let mut edition = channel.editions.newest();
    for (setting, kept) in channel.kind().settings().iter().zip(&mut edition.0) {
        if let Some(text) = fields.value(setting.field) {
            *kept = Some(setting.sort.read(&text)?);
        }
    }
    Some(edition)
}

/// What a GET-PARAMS is answered: "the settings named, or all, in the order above".
pub fn told(channel: &Channel, fields: &Fields) -> [Option<Told>; MOST_SETTINGS] {
    let settings = channel.kind().settings();
    let is_named = |field| fields.value(field).is_some();
    let names_none = !settings.iter().any(|setting| is_named(setting.field));
    let mut told = [None; MOST_SETTINGS];
    for ((setting, value), told) in settings
        .iter()
        .zip(channel.editions.newest().0)
        .zip(&mut told)
    {
        let field = setting.field;
        if names_none || is_named(field) {
            *told = Some(Told { field, value });
        }
    }
    told
}
