//! The library's structs and the model's, field by field from one to the other.

use luddrisa_model as model;

macro_rules! action {
    ($to:ident, $from:expr) => {{
        let from = $from;
        $to::Action {
            kind: from.kind,
            actor: from.actor,
            reference: from.reference,
            reqtype: from.reqtype,
            status: from.status,
            seller: from.seller,
            related: from.related,
            start: from.start,
            stop: from.stop,
            flags: from.flags,
            price: from.price,
            time: from.time,
            offset: from.offset,
            length: from.length,
            path: from.path,
        }
    }};
}

macro_rules! answer {
    ($to:ident, $from:expr) => {{
        let from = $from;
        $to::Answer {
            number: from.number,
            reference: from.reference,
            before: from.before,
            after: from.after,
            moved: from.moved,
        }
    }};
}

pub fn action_to_library(action: &model::Action) -> luddrisa::Action {
    action!(luddrisa, action)
}

pub fn action_to_model(action: &luddrisa::Action) -> model::Action {
    action!(model, action)
}

pub fn answer_to_library(answer: &model::Answer) -> luddrisa::Answer {
    answer!(luddrisa, answer)
}

pub fn answer_to_model(answer: &luddrisa::Answer) -> model::Answer {
    answer!(model, answer)
}

pub fn contest_to_library(contest: &model::Contest) -> luddrisa::Contest {
    let &model::Contest { actor, reference, challenger, holder } = contest;
    luddrisa::Contest { actor, reference, challenger, holder }
}
