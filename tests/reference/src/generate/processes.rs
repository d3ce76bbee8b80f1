//! Processes with every kind of line, now and then nested as deep as is allowed.

use super::pieces::{split, token, Tokens};
use super::signals;
use super::well_formed::Builder;
use crate::sizes::SWITCH_DEPTH;
use crate::statements::Event;

impl Builder<'_> {
    pub fn process(&mut self) {
        self.open_process();
        self.assigns();
        if self.random.one_in(2) {
            self.switch(1);
            self.assigns();
        }
        for _ in 0..self.random.below(3) {
            self.sync();
        }
        self.end();
    }

    pub fn open_process(&mut self) {
        self.attributes();
        let name = self.new_object();
        self.line(&[token("process"), name]);
    }

    fn assigns(&mut self) {
        for _ in 0..self.random.below(3) {
            self.two_sides("assign");
        }
    }

    /// A switch that is `depth` deep, the root's is 1; none if the signal bits are spent.
    fn switch(&mut self, depth: usize) {
        let (signal, width) = signals::signal(self.random, self.size, &self.wires, 1);
        if !self.takes_bits(width) {
            return;
        }
        self.attributes();
        self.line(&[vec![token("switch")], signal].concat());
        if depth == 1 && self.random.one_in(12) {
            self.down_to_the_deepest();
        }
        for _ in 0..self.random.below(4) {
            self.case(width, depth);
        }
        self.end();
    }

    fn case(&mut self, width: usize, depth: usize) {
        let count = self.random.below(4);
        if !self.takes_bits(count * width) {
            return;
        }
        self.attributes();
        let value =
            |builder: &mut Self| signals::signal_of_width(builder.random, &builder.wires, width, 1);
        let values: Vec<Tokens> = (0..count).map(|_| value(self)).collect();
        let list = values.join(&token(","));
        self.line(&[vec![token("case")], list].concat());
        for _ in 0..self.random.below(3) {
            match self.random.one_in(3) && depth < SWITCH_DEPTH {
                true => self.switch(depth + 1),
                false => self.two_sides("assign"),
            }
        }
    }

    /// A case in the root switch, and in it a switch in a switch down to the deepest.
    fn down_to_the_deepest(&mut self) {
        self.line(&split("case"));
        for _ in 1..SWITCH_DEPTH {
            self.line(&split("switch { }"));
            self.line(&split("case"));
        }
        self.two_sides("assign");
        for _ in 1..SWITCH_DEPTH {
            self.end();
        }
    }

    fn sync(&mut self) {
        let event = *self.random.pick(&Event::ALL);
        let mut tokens = vec![token("sync"), token(event.word())];
        if event.of_signal() {
            if !self.takes_bits(1) {
                return;
            }
            tokens.extend(signals::signal_of_width(self.random, &self.wires, 1, 1));
        }
        self.line(&tokens);
        for _ in 0..self.random.below(3) {
            self.two_sides("update");
        }
    }
}
