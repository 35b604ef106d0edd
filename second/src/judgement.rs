//! The order of judgement for a request, in eleven steps.

use std::borrow::Cow;

use crate::channel::{Channel, Held, Kind, State};
use crate::fields::{self, Field, Fields, Known};
use crate::framing::Version;
use crate::level::Level;
use crate::params;
use crate::settings::{flag, Edition, Value};
use crate::start_line::RequestState;
use crate::states::list_of_ids;
use crate::writing::{Answer, Ids, NOTHING_TOLD};

#[derive(Clone, Copy, Debug, PartialEq, Eq)]
pub struct Status(pub u16);

impl Status {
    pub const SUCCESS: Status = Status(200);
    pub const SOME_IGNORED: Status = Status(201);
    pub const METHOD_NOT_ALLOWED: Status = Status(401);
    pub const NOT_VALID_IN_STATE: Status = Status(402);
    pub const UNSUPPORTED_FIELD: Status = Status(403);
    pub const ILLEGAL_VALUE: Status = Status(404);
    pub const NO_SUCH_CHANNEL: Status = Status(405);
    pub const FIELD_MISSING: Status = Status(406);
    pub const OPERATION_FAILED: Status = Status(407);
    pub const NO_CONTENT: Status = Status(408);
    pub const UNSUPPORTED_VALUE: Status = Status(409);
    pub const OUT_OF_ORDER: Status = Status(410);
    pub const VERSION_UNSUPPORTED: Status = Status(502);
}

#[derive(Clone, Copy, Debug, PartialEq, Eq)]
pub enum Method {
    Speak,
    Stop,
    Pause,
    Resume,
    Control,
    BargeInOccurred,
    Recognize,
    StartInputTimers,
    SetParams,
    GetParams,
}

impl Method {
    /// None for a method that channels of this kind lack.
    pub fn of_name(kind: Kind, name: &[u8]) -> Option<Method> {
        match (kind, name) {
            (_, b"STOP") => Some(Method::Stop),
            (_, b"SET-PARAMS") => Some(Method::SetParams),
            (_, b"GET-PARAMS") => Some(Method::GetParams),
            (Kind::Synthesizer, b"SPEAK") => Some(Method::Speak),
            (Kind::Synthesizer, b"PAUSE") => Some(Method::Pause),
            (Kind::Synthesizer, b"RESUME") => Some(Method::Resume),
            (Kind::Synthesizer, b"CONTROL") => Some(Method::Control),
            (Kind::Synthesizer, b"BARGE-IN-OCCURRED") => Some(Method::BargeInOccurred),
            (Kind::Recognizer, b"RECOGNIZE") => Some(Method::Recognize),
            (Kind::Recognizer, b"START-INPUT-TIMERS") => Some(Method::StartInputTimers),
            _ => None,
        }
    }

    /// The types of body that the method wants; none where it wants no body.
    fn types(self) -> &'static [&'static [u8]] {
        match self {
            Method::Speak => &[b"text/plain", b"application/ssml+xml", b"text/uri-list"],
            Method::Recognize => &[b"application/srgs+xml", b"text/uri-list"],
            _ => &[],
        }
    }

    /// SPEAK, and RECOGNIZE standing for it.
    fn wants_content(self) -> bool {
        !self.types().is_empty()
    }

    fn is_about_settings(self) -> bool {
        matches!(self, Method::SetParams | Method::GetParams)
    }
}

/// A framed request whose start line is well formed; its fields are still unread.
#[derive(Clone, Copy, Debug)]
pub struct Request<'a> {
    pub version: Version,
    pub name: &'a [u8],
    pub id: u32,
    /// What follows the start line.
    pub block: &'a [u8],
}

const SPOKEN_VERSION: Version = Version { major: 2, minor: 0 };

/// Judges a request and does what it asks. "A failed request answers COMPLETE
/// and, but for the last id, changes nothing."
pub fn judge(channel: &mut Channel, request: &Request) -> Answer {
    let judged = before_the_id_counts(channel, request).and_then(|fields| {
        // "Once this passes, the last id seen becomes this one, whatever the answer."
        channel.last = Some(request.id);
        after_the_id_counts(channel, request, &fields)
    });
    judged.unwrap_or_else(|status| answer(request, status))
}

/// Judgements 1 to 5.
fn before_the_id_counts<'a>(
    channel: &Channel,
    request: &Request<'a>,
) -> Result<Fields<'a>, Status> {
    // 1
    if request.version != SPOKEN_VERSION {
        return Err(Status::VERSION_UNSUPPORTED);
    }
    // 2
    let fields = fields::read(request.block, Some(request.name)).ok_or(Status::ILLEGAL_VALUE)?;
    // 3
    let identifier = fields.value(Known::ChannelIdentifier);
    let identifier = identifier.ok_or(Status::FIELD_MISSING)?;
    // 4
    if *identifier != *channel.name.bytes() {
        return Err(Status::NO_SUCH_CHANNEL);
    }
    // 5
    match channel.last {
        Some(last) if request.id <= last => Err(Status::OUT_OF_ORDER),
        _ => Ok(fields),
    }
}

/// Judgements 6 to 11.
fn after_the_id_counts(
    channel: &mut Channel,
    request: &Request,
    fields: &Fields,
) -> Result<Answer, Status> {
    let method = Method::of_name(channel.kind(), request.name);
    // 6: with an unknown method none of these fields acts.
    let acting = acting(channel, method, request.id, fields)?;
    // 7
    let method = method.ok_or(Status::METHOD_NOT_ALLOWED)?;
    // 8
    if !is_valid(method, channel.state) {
        return Err(Status::NOT_VALID_IN_STATE);
    }
    if method.wants_content() {
        // 9
        content(method, fields)?;
        // 10
        if channel.is_full() {
            return Err(Status::OPERATION_FAILED);
        }
    }
    // 11
    let mut answer = answer(request, success(method, fields));
    act(channel, method, acting, fields, &mut answer);
    Ok(answer)
}

/// Does what the method asks; the answer gets the state of the request after it, the
/// ids to list and the settings to tell. "All but SPEAK's successes answer COMPLETE",
/// and RECOGNIZE's.
fn act(
    channel: &mut Channel,
    method: Method,
    acting: Acting,
    fields: &Fields,
    answer: &mut Answer,
) {
    match method {
        Method::Speak | Method::Recognize => answer.state = channel.accept(acting.held),
        Method::Stop => answer.list = channel.stop(acting.list.as_deref()),
        Method::BargeInOccurred => answer.list = channel.barge_in(),
        Method::Pause => answer.list = channel.pause(),
        Method::Resume => answer.list = channel.resume(),
        Method::Control => answer.list = channel.control(),
        Method::SetParams => channel.editions.add(acting.edition),
        Method::GetParams => answer.told = params::told(channel, fields),
        // "No change, no list."
        Method::StartInputTimers => {}
    }
}

/// COMPLETE, with nothing listed or told.
fn answer(request: &Request, status: Status) -> Answer {
    Answer {
        id: request.id,
        status: status.0,
        state: RequestState::Complete,
        list: Ids::NONE,
        told: NOTHING_TOLD,
    }
}

/// What the fields that act say.
struct Acting<'a> {
    /// What a SPEAK or RECOGNIZE asks to hold.
    held: Held,
    /// Which a STOP names.
    list: Option<Cow<'a, [u8]>>,
    /// What a SET-PARAMS makes.
    edition: Edition,
}

/// Judgement 6: in SET-PARAMS and GET-PARAMS "403 [...], then 404".
fn acting<'a>(
    channel: &Channel,
    method: Option<Method>,
    id: u32,
    fields: &Fields<'a>,
) -> Result<Acting<'a>, Status> {
    if method.is_some_and(Method::is_about_settings) && params::has_foreign(channel, fields) {
        return Err(Status::UNSUPPORTED_FIELD);
    }
    Ok(Acting {
        held: Held {
            id,
            killable: kill_on_barge_in(channel, method, fields)?,
            threshold: confidence_threshold(channel, method, fields)?,
        },
        list: active_request_id_list(method, fields)?,
        edition: edition(channel, method, fields)?,
    })
}

/// Judgement 6 for Kill-On-Barge-In, which acts in SPEAK only: "`true` or `false`
/// in any case". Without it a SPEAK "takes the setting of the moment"; the
/// default is true.
fn kill_on_barge_in(
    channel: &Channel,
    method: Option<Method>,
    fields: &Fields,
) -> Result<bool, Status> {
    if method != Some(Method::Speak) {
        return Ok(true);
    }
    if let Some(value) = fields.value(Known::KillOnBargeIn) {
        return flag(&value).ok_or(Status::ILLEGAL_VALUE);
    }
    match channel.setting(Known::KillOnBargeIn) {
        Some(Value::Flag(flag)) => Ok(flag),
        _ => Ok(true),
    }
}

/// Judgement 6 for Confidence-Threshold, which acts in RECOGNIZE only. Without
/// it a RECOGNIZE "takes the setting of the moment"; the default is 0.
fn confidence_threshold(
    channel: &Channel,
    method: Option<Method>,
    fields: &Fields,
) -> Result<Level, Status> {
    if method != Some(Method::Recognize) {
        return Ok(Level::ZERO);
    }
    if let Some(value) = fields.value(Known::ConfidenceThreshold) {
        return Level::of_value(&value).ok_or(Status::ILLEGAL_VALUE);
    }
    match channel.setting(Known::ConfidenceThreshold) {
        Some(Value::Level(level)) => Ok(level),
        _ => Ok(Level::ZERO),
    }
}

/// Judgement 6 for the settings that a SET-PARAMS names: "All fields of a
/// SET-PARAMS take effect or none do".
fn edition(channel: &Channel, method: Option<Method>, fields: &Fields) -> Result<Edition, Status> {
    match method {
        Some(Method::SetParams) => params::edition(channel, fields).ok_or(Status::ILLEGAL_VALUE),
        _ => Ok(channel.editions.newest()),
    }
}

/// Judgement 6 for Active-Request-Id-List, which acts in STOP only.
fn active_request_id_list<'a>(
    method: Option<Method>,
    fields: &Fields<'a>,
) -> Result<Option<Cow<'a, [u8]>>, Status> {
    if method != Some(Method::Stop) {
        return Ok(None);
    }
    match fields.value(Known::ActiveRequestIdList) {
        Some(value) if !list_of_ids(&value).all(|id| id.is_some()) => Err(Status::ILLEGAL_VALUE),
        list => Ok(list),
    }
}

/// Judgement 8: PAUSE, RESUME and CONTROL want a SPEAK, START-INPUT-TIMERS is
/// for "recognizing only, else 402"; the others are never 402.
fn is_valid(method: Method, state: State) -> bool {
    match method {
        Method::Speak | Method::Stop | Method::BargeInOccurred | Method::Recognize => true,
        Method::SetParams | Method::GetParams => true,
        Method::Pause | Method::Resume | Method::Control => state != State::Idle,
        Method::StartInputTimers => state == State::Recognizing,
    }
}

/// Judgement 9: "SPEAK without Content-Length or Content-Type 406; with an
/// empty body 408; with a type other than [its own] (any case, nothing after)
/// 409". "RECOGNIZE wants length, type and body as SPEAK does."
fn content(method: Method, fields: &Fields) -> Result<(), Status> {
    let length = fields.value(Known::ContentLength);
    let content_type = fields.value(Known::ContentType);
    let (Some(_), Some(content_type)) = (length, content_type) else {
        return Err(Status::FIELD_MISSING);
    };
    if fields.body.is_empty() {
        return Err(Status::NO_CONTENT);
    }
    let mut types = method.types().iter();
    if types.any(|known| content_type.eq_ignore_ascii_case(known)) {
        Ok(())
    } else {
        Err(Status::UNSUPPORTED_VALUE)
    }
}

/// Judgement 11: "200, or 201 if a field was ignored".
fn success(method: Method, fields: &Fields) -> Status {
    // What a SET-PARAMS or GET-PARAMS does not take is 403.
    if method.is_about_settings() {
        return Status::SUCCESS;
    }
    if fields.all().iter().any(|field| is_ignored(method, field)) {
        Status::SOME_IGNORED
    } else {
        Status::SUCCESS
    }
}

/// "Any other field, or one outside its method, is ignored." The last two of
/// the seven "act nowhere and are never ignored".
fn is_ignored(method: Method, field: &Field) -> bool {
    match field.known {
        // The three are known only where nothing is ignored.
        None | Some(Known::FetchTimeout | Known::NoInputTimeout | Known::SensitivityLevel) => true,
        Some(Known::ContentType) => !method.wants_content(),
        Some(Known::KillOnBargeIn) => method != Method::Speak,
        Some(Known::ConfidenceThreshold) => method != Method::Recognize,
        Some(Known::ActiveRequestIdList) => method != Method::Stop,
        Some(Known::ChannelIdentifier | Known::ContentLength) => false,
        Some(Known::ProxySyncId | Known::LoggingTag) => false,
    }
}
