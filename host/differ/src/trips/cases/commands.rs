//! Of commands.
use super::*;
use crate::trips::fields::{COMMAND, COMPONENT_SPLICE};

impl List {
    pub fn of_commands(&mut self) {
        // 31: "a view reaches outside the lent bytes"
        for (way, change) in VIEW_WAYS {
            self.command(31, format!("private bytes, {way}"), move |rng| {
                let mut x = private(rng);
                change(rng, &mut x.command.private_bytes, x.lent.len() as u64);
                x
            });
        }
        self.numbers();
        self.unfair();
        self.left_out();
        self.times();
    }

    /// 32: "a number or count handed in exceeds its field"
    fn numbers(&mut self) {
        for (k, (name, width)) in COMMAND.into_iter().enumerate().filter(|(_, f)| f.1 < 64) {
            self.command(32, format!("command: {name}"), move |rng| {
                let value = draw::command(rng, 60);
                let mut x = words::command(rng, &value);
                x.command.words_mut()[k] = over(rng, width);
                x
            });
        }
        for (k, (name, width)) in COMPONENT_SPLICE.into_iter().enumerate() {
            self.command(32, format!("insert: {name}"), move |rng| {
                let mut x = insert_where(rng, by_components);
                let place = rng.below(x.command.insert.mode.component_count as usize);
                x.components.components[place].words_mut()[k] = over(rng, width);
                x
            });
        }
    }

    /// 33
    fn unfair(&mut self) {
        self.command(33, "insert reserved other than 127", |rng| {
            let mut x = command_of(rng, &["insert by program", "insert cancelled", "insert by components"]);
            x.command.insert.reserved = rng.below(127) as u64;
            x
        });
        self.command(33, "mixed immediate and timed components", |rng| {
            let mut x = insert_where(rng, by_components);
            let places = &mut x.components.components[..x.command.insert.mode.component_count as usize];
            let place = rng.below(places.len());
            let other = match places[place].splice_time.kind {
                1 if rng.bit() => Time::Unspecified,
                1 => Time::At(rng.number(33)),
                _ => Time::Immediate,
            };
            places[place].splice_time = words::time(other);
            x
        });
        self.command(33, "an immediate time in a time signal", |rng| {
            let mut x = command_of(rng, &["time signal"]);
            x.command.splice_time = words::time(Time::Immediate);
            x
        });
        self.command(33, "a flag that contradicts its optional part: duration_flag", |rng| {
            let mut x = insert_where(rng, |i| i.duration.is_some_and(|d| d != (false, 0)));
            x.command.insert.break_duration.duration_flag = 0;
            x
        });
        self.command(33, "a reserved command", |rng| {
            let mut x = command_of(rng, &["null"]);
            x.command.splice_command_type = until(rng, |rng| rng.below(256), |n| ![0, 5, 6, 7, 255].contains(n)) as u64;
            x
        });
        self.command(33, "a command that is refused", |rng| {
            let value = draw::command(rng, 60);
            let mut x = words::command(rng, &value);
            x.command.refusal = rng.pick(&[1, 10, 11, u64::MAX]);
            x
        });
    }

    /// 33: "a part that kind, cancel bit or mode leaves out"
    fn left_out(&mut self) {
        self.command(33, "a part that the cancel bit leaves out, of an insert", |rng| {
            let mut x = command_of(rng, &["insert cancelled"]);
            let k = rng.between(5, 15);
            x.command.words_mut()[k] = nonzero(rng, COMMAND[k].1);
            x
        });
        self.command(33, "a part that the mode leaves out: components beside a program", |rng| {
            let mut x = command_of(rng, &["insert by program"]);
            x.command.insert.mode.component_count = nonzero(rng, 8);
            x
        });
        self.command(33, "a part that the mode leaves out: a time beside components", |rng| {
            let mut x = command_of(rng, &["insert by components"]);
            x.command.insert.mode.splice_time = words::time(rng.pick(&[Time::Immediate, Time::Unspecified, Time::At(0)]));
            x
        });
        let all = ["null", "bandwidth reservation", "private", "time signal", "insert cancelled", "insert by program", "insert by components"];
        let parts = [("an insert", 2..16, 4..7), ("a time", 16..18, 3..4), ("private bytes", 18..21, 2..3)];
        for (part, places, own) in parts {
            self.command(33, format!("a part that the command's kind leaves out: {part}"), move |rng| {
                let others: Vec<&str> = (0..all.len()).filter(|k| !own.contains(k)).map(|k| all[k]).collect();
                let mut x = command_of(rng, &others);
                let k = rng.between(places.start, places.end - 1);
                x.command.words_mut()[k] = nonzero(rng, COMMAND[k].1.min(33));
                // a view that lies in the lent bytes: one outside is 31
                if k > 18 {
                    x.lent = rng.bytes(9);
                    x.command.words_mut()[k] = 1 + rng.below(9) as u64;
                }
                x
            });
        }
    }

    /// 33, of times that no reader gives
    fn times(&mut self) {
        type Way = (&'static str, fn(&mut Rng, &mut raw::Time));
        const WAYS: [Way; 2] = [
            ("no time at all", |_, t| *t = raw::Time::ZERO),
            ("ticks of no time", |rng, t| *t = raw::Time { kind: rng.below(3) as u64, ticks: nonzero(rng, 33) }),
        ];
        for (way, change) in WAYS {
            self.command(33, format!("{way}, in a time signal"), move |rng| {
                let mut x = command_of(rng, &["time signal"]);
                change(rng, &mut x.command.splice_time);
                x
            });
            self.command(33, format!("{way}, in an insert by program"), move |rng| {
                let mut x = command_of(rng, &["insert by program"]);
                change(rng, &mut x.command.insert.mode.splice_time);
                x
            });
            self.command(33, format!("{way}, in a component"), move |rng| {
                let mut x = insert_where(rng, by_components);
                let place = rng.below(x.command.insert.mode.component_count as usize);
                change(rng, &mut x.components.components[place].splice_time);
                x
            });
        }
    }
}
