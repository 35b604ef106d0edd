//! Conversations about settings: SET-PARAMS, GET-PARAMS and going back, on both kinds.

use super::{habits, Conversation};
use crate::channel::Kind;
use crate::fields::Known;
use crate::gen::batch::Batch;
use crate::gen::damage::{blanks_and_case, damage, damage_bytes, stated_length};
use crate::gen::draft::{methods, other_method, SETTINGS_METHODS};
use crate::gen::editions::{broken, editions, given};
use crate::gen::folds::fold_draft;
use crate::gen::random::Random;
use crate::gen::request::{name, value, wrong_value, Request};
use crate::gen::unsound::{bad_name, good_name, sound};
use crate::settings::{Setting, Sort};

/// Numbers of editions; four are kept at most.
const NUMBERS: [u32; 16] = [
    0,
    1,
    1,
    1,
    2,
    2,
    2,
    3,
    3,
    4,
    4,
    5,
    6,
    257,
    65_537,
    4_294_967_295,
];

/// Fields that are no settings, and names that are almost one.
const FOREIGN: [(&str, &str); 14] = [
    ("Content-Type", "text/plain"),
    ("Content-Type", ""),
    ("Active-Request-Id-List", "1"),
    ("Active-Request-Id-List", ""),
    ("Cancel-If-Queue", "true"),
    ("Speech-Language", "en-US"),
    ("Voice-Gender", ""),
    ("X", "1"),
    ("Fetch-Timeouts", "5"),
    ("Fetch-Timeou", "5"),
    ("No-Input-Timeouts", "5"),
    ("Sensitivity-Levels", "0"),
    ("Kill-On-Barge-Ins", "true"),
    ("Confidence-Threshold-", "0"),
];

/// One conversation, or some messages that are read alone.
pub fn calls(batch: &mut Batch, random: &mut Random) {
    let kind = random.pick(&[Kind::Synthesizer, Kind::Recognizer]);
    let mut conversation = Conversation::new(batch, random, kind, 12);
    match conversation.random.weighted(&[40, 18, 30, 12, 14, 4]) {
        0 => conversation.about_settings(),
        1 => conversation.given_settings(true),
        2 => conversation.given_settings(false),
        3 => conversation.setting_of_the_moment(),
        4 => conversation.read_alone(),
        _ => {
            let name = bad_name(conversation.random, kind);
            conversation.open(&name);
            conversation.show_settings();
            conversation.some_about_settings(3);
        }
    }
}

/// All five.
fn all_settings() -> impl Iterator<Item = &'static Setting> {
    let kinds = [Kind::Synthesizer, Kind::Recognizer];
    kinds.into_iter().flat_map(Kind::settings)
}

fn any_setting(random: &mut Random) -> &'static Setting {
    let all: Vec<&Setting> = all_settings().collect();
    random.pick(&all)
}

/// A legal value, an illegal one, or none.
fn some_value(random: &mut Random, sort: Sort) -> String {
    match random.below(3) {
        0 => value(random, sort),
        1 => wrong_value(random, sort),
        _ => String::new(),
    }
}

impl Conversation<'_> {
    fn about_settings(&mut self) {
        let name = good_name(self.random, self.kind);
        self.open(&name);
        let count = match self.random.weighted(&[50, 40, 10]) {
            0 => self.random.between(4, 15),
            1 => self.random.between(20, 60),
            _ => self.random.between(80, 200),
        };
        for _ in 0..count {
            if self.random.chance(5) {
                self.habit = self.random.pick(habits(self.kind));
            }
            self.one_about_settings();
            if self.channel.last == Some(u32::MAX) && self.random.chance(15) {
                break;
            }
        }
        self.show_settings();
    }

    /// A channel with editions that the script sets, sound or not.
    fn given_settings(&mut self, is_sound: bool) {
        self.channel = sound(self.random, self.kind);
        self.channel.editions = editions(self.random, self.kind);
        let given = match is_sound {
            true => given(self.random, &self.channel),
            false => broken(self.random, &self.channel),
        };
        self.kept = given.kept;
        self.batch.channel(&given);
        self.show_settings();
        self.some_about_settings(if is_sound { 10 } else { 3 });
        self.show_settings();
    }

    fn some_about_settings(&mut self, most: usize) {
        for _ in 0..self.random.between(1, most) {
            self.one_about_settings();
        }
    }

    fn show_settings(&mut self) {
        self.batch.settings();
        if self.random.chance(50) {
            self.show();
        }
    }

    fn one_about_settings(&mut self) {
        match self.random.weighted(&[22, 14, 18, 4, 14, 14, 8, 8, 6]) {
            0 => self.params("SET-PARAMS"),
            1 => self.params("GET-PARAMS"),
            2 => self.spoiled_params(),
            3 => self.damaged_params(),
            4 => self.back(),
            5 => self.with_or_without_its_own(),
            6 => self.report(),
            7 => self.call(),
            _ => self.show_settings(),
        }
    }

    fn back(&mut self) {
        let number = self.random.pick(&NUMBERS);
        self.batch.back(number);
        self.kept.back(number);
        self.look();
        if self.random.chance(40) {
            self.show_settings();
        }
    }

    fn params(&mut self, method: &str) {
        let id = self.next_id();
        let request = Request::good(self.random, &self.channel, method, id);
        self.send_params(&request);
    }

    /// Names in any case and blanks at the ends of values, and at times folds.
    fn send_params(&mut self, request: &Request) {
        if self.random.chance(60) {
            return self.send_request(request);
        }
        let mut draft = request.draft(self.random);
        blanks_and_case(&mut draft, self.random);
        if self.random.chance(20) {
            fold_draft(&mut draft, self.random);
        }
        self.send(&draft.bytes());
        if self.random.chance(30) {
            self.show_settings();
        }
    }

    /// SPEAK or RECOGNIZE, and what brings out whether it took the setting of the moment.
    fn with_or_without_its_own(&mut self) {
        let id = self.next_id();
        let method = methods(self.kind)[0];
        let mut request = Request::good(self.random, &self.channel, method, id);
        if self.random.chance(50) {
            request.remove("Kill-On-Barge-In");
            request.remove("Confidence-Threshold");
        }
        if self.random.chance(15) {
            self.add_unknown_setting(&mut request);
        }
        self.send_request(&request);
        match self.kind {
            Kind::Synthesizer if self.random.chance(40) => self.request("BARGE-IN-OCCURRED"),
            Kind::Recognizer if self.random.chance(60) => self.report(),
            _ => {}
        }
    }

    /// Outside SET-PARAMS and GET-PARAMS three of the five are unknown: they may come twice.
    fn add_unknown_setting(&mut self, request: &mut Request) {
        let setting = any_setting(self.random);
        for _ in 0..self.random.between(1, 2) {
            let value = some_value(self.random, setting.sort);
            request.fields.push((name(setting), value.into_bytes()));
        }
    }

    /// One thing is wrong with a SET-PARAMS or GET-PARAMS, or two are.
    fn spoiled_params(&mut self) {
        let id = self.next_id();
        let method = self.random.pick(&SETTINGS_METHODS);
        let mut request = Request::good(self.random, &self.channel, method, id);
        for _ in 0..=self.random.weighted(&[70, 30]) {
            self.spoil_params(&mut request);
        }
        self.send_params(&request);
    }

    fn spoil_params(&mut self, request: &mut Request) {
        let random = &mut *self.random;
        match random.weighted(&[30, 18, 18, 18, 16]) {
            0 => {
                let setting = &random.pick(self.kind.settings());
                let value = wrong_value(random, setting.sort);
                request.set(&name(setting), value.as_bytes());
            }
            1 => {
                let (name, value) = random.pick(&FOREIGN);
                request.set(name, value.as_bytes());
            }
            2 => {
                let setting = any_setting(random);
                let value = some_value(random, setting.sort);
                request.set(&name(setting), value.as_bytes());
            }
            3 => self.double(request),
            _ => {
                let judgement = random.between(1, 5);
                request.spoil(random, &self.channel, judgement);
            }
        }
    }

    /// A name twice: one of the five, one that acts nowhere, or an unknown one.
    fn double(&mut self, request: &mut Request) {
        let random = &mut *self.random;
        let doubled = match random.below(6) {
            0 => "Logging-Tag".to_string(),
            1 => "Vendor-Specific".to_string(),
            _ => name(any_setting(random)),
        };
        let values = [
            some_value(random, Sort::Level),
            some_value(random, Sort::Millis),
        ];
        request.remove(&doubled);
        for value in values {
            let name = match random.below(3) {
                0 => doubled.to_ascii_uppercase(),
                1 => doubled.to_ascii_lowercase(),
                _ => doubled.clone(),
            };
            request.fields.push((name, value.into_bytes()));
        }
    }

    /// Cut, bent, or with another length than is stated.
    fn damaged_params(&mut self) {
        let id = self.next_id();
        let method = self.random.pick(&SETTINGS_METHODS);
        let request = Request::good(self.random, &self.channel, method, id);
        let mut draft = request.draft(self.random);
        match self.random.below(4) {
            0 => stated_length(&mut draft, self.random),
            1 => damage(&mut draft, self.random),
            _ => {}
        }
        let mut bytes = draft.bytes();
        if self.random.chance(30) {
            damage_bytes(&mut bytes, self.random);
        }
        self.send(&bytes);
    }

    /// Set, taken by a request that has none of its own, and brought out.
    fn setting_of_the_moment(&mut self) {
        let good = good_name(self.random, self.kind);
        self.open(&good);
        let (wanted, with_body) = match self.kind {
            Kind::Synthesizer => (Known::KillOnBargeIn, "SPEAK"),
            Kind::Recognizer => (Known::ConfidenceThreshold, "RECOGNIZE"),
        };
        let setting = all_settings().find(|setting| setting.field == wanted);
        let name = setting.map(name).unwrap_or_default();
        for id in 1..self.random.between(3, 9) as u64 {
            let mut set = Request::good(self.random, &self.channel, "SET-PARAMS", 10 * id);
            if let (Some(setting), true) = (setting, self.random.chance(80)) {
                set.set(&name, value(self.random, setting.sort).as_bytes());
            }
            self.send_request(&set);
            let mut request = Request::good(self.random, &self.channel, with_body, 10 * id + 1);
            request.remove(&name);
            self.send_request(&request);
            if self.random.chance(30) {
                self.back();
            }
            match self.kind {
                Kind::Synthesizer => self.request("BARGE-IN-OCCURRED"),
                Kind::Recognizer => self.report(),
            }
        }
        self.show_settings();
    }

    /// SET-PARAMS, GET-PARAMS and others with settings in them, some twice, read alone.
    fn read_alone(&mut self) {
        self.channel = sound(self.random, self.kind);
        for _ in 0..self.random.between(4, 12) {
            let method = match self.random.below(8) {
                0 => self.random.pick(methods(self.kind)),
                1 => other_method(self.random, self.kind),
                _ => self.random.pick(&SETTINGS_METHODS),
            };
            let mut request = Request::good(self.random, &self.channel, method, 7);
            match self.random.below(4) {
                0 => self.add_unknown_setting(&mut request),
                1 | 2 => self.double(&mut request),
                _ => self.spoil_params(&mut request),
            }
            let mut draft = request.draft(self.random);
            if self.random.chance(15) {
                // An event of that name is no request.
                draft.line = [method.as_bytes(), b" 7 COMPLETE"].concat();
            }
            if self.random.chance(30) {
                fold_draft(&mut draft, self.random);
            }
            self.batch.read(&draft.bytes());
        }
    }
}
