//! Random texts of the written form, biased to several parts, nested tests and numbers at their limits.

use super::random::Random;

/// A random text of about this many nodes that names events below a bound.
pub fn text(r: &mut Random, nodes: usize, events: usize) -> String {
    Hand { r, events }.program(nodes)
}

/// A random configuration of at most this height.
pub fn config(r: &mut Random, events: usize, height: usize) -> String {
    Hand { r, events }.config(height)
}

/// A form with its parts, the way they all are written.
pub fn form(name: &str, parts: &[String]) -> String {
    format!("Jr.{name}({})", parts.join(", "))
}

struct Hand<'a> {
    r: &'a mut Random,
    events: usize,
}

impl Hand<'_> {
    fn event(&mut self) -> String {
        let limits =
            [0, 9, 10, 25, 26, 99, 100, 101, 102, 103, 255, 256, 511, 512, 767, 768, 999, 1_000, 1_019, 1_022, 1_023];
        match self.r.weigh(&[60, 20, 20]) {
            0 => self.r.below(self.events.min(4)),
            1 => self.r.below(self.events),
            _ => (*self.r.pick(&limits)).min(self.events - 1),
        }
        .to_string()
    }

    fn action(&mut self) -> String {
        let limits =
            [0, 9, 10, 99, 255, 256, 999, 6_553, 9_999, 10_000, 59_999, 60_000, 65_499, 65_529, 65_530, 65_535];
        if self.r.chance(50) { self.r.below(65_536) } else { *self.r.pick(&limits) }.to_string()
    }

    fn count(&mut self) -> String {
        match self.r.weigh(&[15, 70, 15]) {
            0 => 0,
            1 => self.r.between(1, 4),
            _ => return self.action(),
        }
        .to_string()
    }

    fn value(&mut self) -> String {
        self.r.below(16).to_string()
    }

    fn cap(&mut self) -> String {
        match self.r.weigh(&[15, 60, 25]) {
            0 => 0,
            1 => self.r.between(1, 4),
            _ => *self.r.pick(&[9, 10, 16, 25, 26, 99, 100, 199, 200, 249, 250, 255]),
        }
        .to_string()
    }

    fn config(&mut self, height: usize) -> String {
        if height <= 1 || self.r.chance(35) {
            return self.event();
        }
        let one = self.config(height - 1);
        match self.r.below(3) {
            0 => format!("(not {one})"),
            1 => format!("({one} and {})", self.config(height - 1)),
            _ => format!("({one} or {})", self.config(height - 1)),
        }
    }

    fn test(&mut self) -> String {
        let height = self.r.weigh(&[0, 50, 15, 20, 10, 5]);
        self.config(height)
    }

    fn leaf(&mut self) -> String {
        let (name, parts) = match self.r.weigh(&[10, 20, 25, 20, 25]) {
            0 => ("Nothing", vec![]),
            1 => ("Stop", vec![]),
            2 => ("Atom", vec![self.action()]),
            3 => ("Generate", vec![self.event()]),
            _ => ("Await", vec![self.test()]),
        };
        form(name, &parts)
    }

    fn program(&mut self, nodes: usize) -> String {
        if nodes <= 1 {
            return self.leaf();
        }
        let half = nodes.div_ceil(2);
        let (name, parts) = match self.r.weigh(&[25, 25, 6, 8, 9, 9, 9, 9, 8, 8, 8]) {
            0 => ("Seq", self.several(nodes)),
            1 => ("Par", self.several(nodes)),
            2 => ("Loop", vec![self.body(nodes - 1)]),
            3 => ("Repeat", vec![self.count(), self.program(nodes - 1)]),
            4 => ("When", vec![self.test(), self.program(half), self.program(nodes - half)]),
            5 => ("Until", vec![self.test(), self.program(half), self.program(nodes - half)]),
            6 => ("Control", vec![self.event(), self.program(nodes - 1)]),
            8 => ("If", vec![self.value(), self.program(half), self.program(nodes - half)]),
            9 => ("RepeatExt", vec![self.value(), self.cap(), self.program(nodes - 1)]),
            10 => ("Freezable", vec![self.event(), self.program(nodes - 1)]),
            _ => ("Local", vec![self.event(), self.program(nodes - 1)]),
        };
        form(name, &parts)
    }

    /// Two or more parts, some of them large.
    fn several(&mut self, nodes: usize) -> Vec<String> {
        let parts = match self.r.weigh(&[35, 30, 30, 5]) {
            2 => self.r.between(4, 7),
            3 => self.r.between(8, 20),
            few => few + 2,
        };
        let mut left = nodes.saturating_sub(parts);
        (0..parts)
            .map(|_| {
                let share = self.r.below(left + 1);
                left -= share;
                self.program(share)
            })
            .collect()
    }

    /// A Loop's body, which now and then doesn't stop.
    fn body(&mut self, nodes: usize) -> String {
        let body = self.program(nodes);
        if self.r.chance(15) {
            body
        } else {
            form("Seq", &[body, form("Stop", &[])])
        }
    }
}
