//! Random scripts of the calls that write: histories with power stops, and
//! single calls on damaged volumes and forged handles.
use crate::make::{BAD_DIRS, BAD_NAMES, DIRS, Maker, SIZES};

/// A history: calls with and without a stop, remounts, further formats, an unreadable sector.
pub fn history(m: &mut Maker) {
    m.small_volume();
    for _ in 0..10 + m.r.below(30) {
        m.turn();
    }
    m.look();
}

/// A history in which each call is stopped at each of its writes.
pub fn stopped(m: &mut Maker) {
    m.small_volume();
    for _ in 0..4 + m.r.below(8) {
        m.at_each_write();
    }
    m.look();
}

/// What is looked at or called after a stop, with the handles in hand or after a mount.
const AFTER: &[&str] = &[
    "mount ; list \"\"",
    "list \"\" ; mount ; list \"\" ; reader a ; next ; next",
    "sync ; show ; mount ; list \"\"",
    "create q - ; mount ; list \"\"",
    "create q \"\" ; sync ; list \"\"",
    "appendn 500 7 ; sync ; mount ; list \"\"",
    "delete_oldest \"\" ; list \"\" ; mount ; create q \"\"",
    "open_append a \"\" ; appendn 972 7 ; mount ; reader a ; next",
    "mount ; open_append a t/ ; appendn 486 7 ; reader a ; next",
    "format 1 9 ; mount ; list \"\"",
];

/// A short history, and then episodes that start from its state with something forged.
pub fn forged(m: &mut Maker) {
    m.small_volume();
    for _ in 0..3 + m.r.below(10) {
        m.turn();
    }
    m.say("setleft max".into());
    m.say("unreadable none".into());
    if m.r.one_in(5) {
        m.near_the_end();
    }
    m.say("save base".into());
    for _ in 0..6 {
        m.forge();
        if m.r.one_in(3) {
            m.at_the_brim();
        }
        for _ in 0..1 + m.r.below(4) {
            if m.r.one_in(12) {
                m.another_format();
            }
            m.write();
        }
        m.look();
        m.say("load base".into());
    }
}

impl Maker {
    /// Few chunks, so that the store is often full; now and then two or three table sectors.
    fn small_volume(&mut self) {
        let any = self.any_geometry();
        let r = &mut self.r;
        let (sectors, size) = any.unwrap_or_else(|| match r.below(16) {
            0 => (64 + r.pick(&[127, 128, 129, 200, 257]), 1),
            1 => (64 + 2 * r.pick(&[128, 129]), 2),
            2 => (64 + r.below(4), 1 + r.below(3)),
            3 => (64 + 512 + r.below(100), r.pick(&[512, 300, 100])),
            _ => {
                let size = 1 + r.below(4);
                (64 + size * (1 + r.below(9)) + r.below(size), size)
            }
        });
        let fill = r.pick(&["zero", "zero", "ff", "rand"]);
        let extra = r.pick(&[0, 0, 0, 1, 511]);
        let lines = [
            format!("volume {sectors} {fill} {} {extra}", r.below(1000)),
            format!("entropy {}", r.below(4)),
            format!("token {}", r.pick(&[0, 7, u32::MAX - 1, u32::MAX])),
        ];
        lines.into_iter().for_each(|l| self.say(l));
        if self.r.one_in(20) {
            self.say("mount".into());
        }
        self.format(size);
        if size == 2 && sectors > 256 {
            // up to the last chunks of the first table sector
            let records = 250 + self.r.below(6);
            self.say("create a -".into());
            self.say(format!("appendn {} 1", 486 * records));
        }
        if self.r.one_in(40) {
            // a full directory
            for k in 0..66 {
                self.say(format!("create m/{k} -"));
            }
        }
    }

    /// Often with the geometry that is there.
    fn another_format(&mut self) {
        let (_, held) = self.sizes();
        let size = self.r.pick(&[held, held, 1, 2, 3, 0, 513]);
        self.stopping();
        self.format(size);
    }

    /// The next record takes another chunk, and there are bytes for it.
    fn at_the_brim(&mut self) {
        if self.s.st.app.is_none() {
            return;
        }
        let (_, size) = self.sizes();
        if self.r.one_in(2) {
            self.say(format!("set appender at {size}"));
        } else {
            let n = 1 + self.r.below(size);
            self.say(format!("set appender reopened {n}"));
        }
        let fill = self.r.pick(&[1, 5, 485]);
        self.say(format!("set appender fill {fill}"));
    }

    fn format(&mut self, size: u64) {
        let seed = self.r.below(6);
        self.say(format!("format {size} {seed}"));
    }

    /// A call of a history, perhaps with a stop in it.
    fn turn(&mut self) {
        match self.r.below(30) {
            0 => self.say("mount".into()),
            1 => self.another_format(),
            2 => {
                let n = self.sector();
                self.say(format!("unreadable {n}"));
            }
            3 | 4 => self.say("unreadable none".into()),
            5 => self.look(),
            _ => self.write(),
        }
    }

    /// Writes left set anew: none refused, or a stop after some.
    fn stopping(&mut self) {
        let n = match self.r.below(12) {
            0 => 0,
            1 => 1 + self.r.below(3),
            2 => self.r.below(12),
            3 => self.r.below(30),
            _ => return self.say("setleft max".into()),
        };
        self.say(format!("setleft {n}"));
    }

    /// A call that writes, with 0, 1, 2, .. writes left.
    fn at_each_write(&mut self) {
        let (call, after) = (self.any_write(), self.r.pick(AFTER));
        let (_, held) = self.sizes();
        let call = match self.r.below(12) {
            0 => format!("format {} {}", self.r.pick(&[held, 1, 2]), self.r.below(6)),
            _ => call,
        };
        self.say_stops(call, after);
    }

    /// A call that writes, and after a stop perhaps a mount.
    fn write(&mut self) {
        self.stopping();
        let call = self.any_write();
        self.say(call);
        if self.s.st.m.refused_write {
            self.say("setleft max".into());
            if self.r.one_in(2) {
                self.say("mount".into());
            }
        }
    }

    fn any_write(&mut self) -> String {
        let (_, size) = self.sizes();
        let open = self.s.st.store.as_ref().is_some_and(|s| s.x_writer().is_some());
        let turn = if open || self.r.one_in(4) { self.r.below(20) } else { self.r.pick(&[0, 0, 14, 16, 18, 18]) };
        match turn {
            0..6 => {
                let (name, dir) = (self.to_create(), self.rollover());
                self.made.push(name);
                self.opening("create", name, dir)
            }
            6..11 => {
                let whole = 486 * self.r.below(3 * size.min(4) + 1);
                let (few, byte) = (self.r.pick(SIZES), self.r.below(256));
                let bytes = self.r.pick(&[few, few, whole]);
                match self.r.below(6) {
                    0 => format!("append {:08x}", self.r.0 as u32),
                    _ => format!("appendn {bytes} {byte}"),
                }
            }
            11..14 => "sync".into(),
            14 | 15 => format!("delete {}", self.held()),
            16 | 17 => format!("delete_oldest {}", self.dir()),
            _ => {
                let (name, dir) = (self.held(), self.rollover());
                self.opening("open_append", &name, dir)
            }
        }
    }

    /// Mostly a file that the store in hand has.
    fn held(&mut self) -> String {
        let mut names = vec![];
        if let (Some(s), true) = (&self.s.st.store, self.sectors() >= 64) {
            for k in 0..8 {
                for e in self.s.st.m.sector(32 * (s.x_copy() & 1) + 1 + k).chunks_exact(64) {
                    let name: Vec<u8> = e[..40].iter().copied().take_while(|b| *b != 0).collect();
                    names.extend(String::from_utf8(name).ok().filter(|n| !n.is_empty() && n.bytes().all(|b| b.is_ascii_graphic() && b != b'#')));
                }
            }
        }
        match self.r.below(5) {
            1.. if !names.is_empty() => names[self.r.below(names.len() as u64) as usize].clone(),
            _ => self.name().into(),
        }
    }

    fn to_create(&mut self) -> &'static str {
        if self.r.one_in(30) { self.r.pick(BAD_NAMES) } else { self.any_name() }
    }

    fn rollover(&mut self) -> &'static str {
        match self.r.below(12) {
            0 => self.r.pick(BAD_DIRS),
            1..6 => "-",
            _ => self.r.pick(DIRS),
        }
    }

    /// What a reader sees.
    fn look(&mut self) {
        if self.r.one_in(2) {
            self.say("mount".into());
        }
        self.say("list \"\"".into());
        let name = self.held();
        self.say(format!("reader {name}"));
        for _ in 0..self.r.below(4) {
            if self.s.st.reader.is_some() {
                self.say("next".into());
            }
        }
    }

    /// Something that no history makes, or that one makes rarely.
    fn forge(&mut self) {
        for _ in 0..1 + self.r.below(2) {
            match self.r.below(14) {
                0..3 => self.forge_appender(),
                3 => self.forge_store(),
                4 | 5 => {
                    let n = self.sector();
                    self.say(format!("unreadable {n}"));
                }
                6 => self.near_the_end(),
                7 => self.other_volume(),
                8 => self.wipe(),
                9 => self.noise(),
                _ => {
                    self.damage();
                    if self.r.one_in(2) {
                        self.remount();
                    }
                }
            }
        }
    }

    /// A mount with the open appender kept alive, as a forged writer can.
    fn remount(&mut self) {
        let writer = self.s.st.store.as_ref().and_then(|s| s.x_writer());
        self.say("mount".into());
        if let (Some((token, id)), true) = (writer, self.s.st.store.is_some()) {
            self.say(format!("set store wtoken {token}"));
            self.say(format!("set store wid {id}"));
        }
    }

    /// The last ids and generations, in headers that hold and in the store value.
    fn near_the_end(&mut self) {
        if self.sectors() < 64 || self.s.st.store.is_none() {
            return;
        }
        let (held, back) = (self.s.st.store.as_ref().unwrap().x_copy() & 1, self.r.below(4));
        let (next, id) = (u32::MAX - self.r.below(3) as u32, self.r.one_in(2));
        for copy in [held, 1 - held] {
            let generation = u64::MAX - back - u64::from(copy != held) * (1 - self.r.below(20) / 19);
            if id {
                self.poke(32 * copy, 40, &next.to_le_bytes());
            }
            if !id || self.r.one_in(2) {
                self.poke(32 * copy, 32, &generation.to_le_bytes());
            }
            self.say(format!("seal {}", 32 * copy));
        }
        self.remount();
    }

    /// Headers without the magic, zeros, or foreign ones.
    fn wipe(&mut self) {
        if self.sectors() < 64 {
            return;
        }
        let which = self.r.pick(&[0, 1, 2, 2, 2]);
        for copy in 0..2 {
            if which == 2 || which == copy {
                match self.r.below(4) {
                    0 => self.poke(32 * copy, 16, b"\x02"),
                    1 => self.poke(32 * copy, 508, b"\x02"),
                    _ => self.poke(32 * copy, 0, b"\0"),
                }
                if self.r.one_in(2) {
                    self.say(format!("seal {}", 32 * copy));
                }
            }
        }
    }

    fn forge_appender(&mut self) {
        if self.s.st.app.is_none() {
            return;
        }
        let (chunks, size) = self.sizes();
        let f = self.r.pick(&[
            "token", "slot", "id", "chunk", "chunk", "position", "position", "at", "reopened", "reopened", "closed", "fill", "buffer", "rollover", "rollover",
        ]);
        let v = match f {
            "rollover" => {
                let d = self.rollover();
                return self.say(format!("set appender rollover {d}"));
            }
            "slot" => self.r.edge(64),
            "chunk" => self.r.edge(chunks),
            "position" => {
                let any = self.r.below(4);
                self.r.pick(&[any, any, 2046, 2047, 2048, u32::MAX.into()])
            }
            "at" | "reopened" => self.r.edge(size),
            "fill" => self.r.edge(486),
            "token" => self.s.st.store.as_ref().and_then(|s| s.x_writer()).map_or(0, |w| w.0.into()),
            _ => self.r.below(4),
        };
        self.say(format!("set appender {f} {v}"));
    }
}
