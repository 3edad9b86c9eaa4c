//! What a script's steps ended in, and the locks that are held at its end.

use super::{Ended, Step};
use crate::block::component;
use crate::json::{Json, list};
use crate::paint::{Paint, Style};
use crate::table::{Cell, Table, number, text};
use crate::text::{count, hex};
use falgnust::locks::{Lock, Register};

/// For a person.
pub fn lines(done: &[(Step, Ended)], register: &Register, paint: Paint) -> String {
    let steps = done.iter().map(|(step, ended)| match ended {
        Ok(held) => {
            let accepted = paint.text(Style::Green, "accepted");
            format!(
                "{}: {accepted}, {} held\n",
                step.told(),
                count(*held, "lock")
            )
        }
        Err(refused) => format!("{}: {}", step.told(), refused.told(paint)),
    });
    let table = Table {
        title: "Locks held",
        names: [
            "number",
            "owner",
            "event",
            "root",
            "components",
            "source set",
        ],
        rows: register.locks().iter().enumerate().map(row).collect(),
    };
    steps.collect::<String>() + &table.lines(paint)
}

fn row((at, lock): (usize, &Lock)) -> [Cell; 6] {
    let components: Vec<String> = lock.components.iter().map(component).collect();
    [
        number(at),
        number(lock.owner),
        text(event(lock)),
        number(lock.root_symbol_id),
        text(components.join(", ")),
        text(hex(&lock.source)),
    ]
}

fn event(lock: &Lock) -> &'static str {
    match lock.write {
        true => "write",
        false => "borrow",
    }
}

/// For a script.
pub fn locks_json(register: &Register) -> Vec<Json> {
    let locks = register.locks().into_iter().enumerate();
    let json = |(at, lock): (usize, Lock)| {
        Json::Object(vec![
            ("number", at.into()),
            ("owner", lock.owner.into()),
            ("event", event(&lock).into()),
            ("root", lock.root_symbol_id.into()),
            ("source_set", hex(&lock.source).into()),
            ("components", list(lock.components.iter().map(component))),
        ])
    };
    locks.map(json).collect()
}
