//! A list that fills the table of names, to its limit and past it.

use crate::call::{Call, Given};
use crate::capability::PipelineInstructionClass as Class;
use crate::driver::Driver;
use crate::generate::Generator;
use crate::play::Plays;

impl Generator {
    pub fn names_list(mut self, player: &mut impl Plays) {
        player.shown(Call::Overlap(true));
        loop {
            self.to_an_invitation(player, false);
            let known = player
                .driver()
                .names_with(&self.fresh(player.driver(), 0, 0));
            if known + 12 > 255 {
                break;
            }
            let call = self.fetch_fresh(player.driver(), 8, 4);
            player.quiet(call);
        }
        self.around_the_limit(player);
        // All that is queued is looked at; then the names go with a reset.
        for _ in 0..4 {
            self.cycle(player, true);
        }
        let again = self.fetch_fresh(player.driver(), 1, 1);
        player.shown(again);
        for _ in 0..20 * self.scale {
            let call = self.any_call(player.driver());
            if !matches!(call, Call::Reset(..) | Call::Redirect(_)) {
                player.shown(call);
            }
        }
        if self.scale > 0 && self.rng.percent(50) {
            player.shown(Call::Reset(64, player.driver().machine.memory()));
        } else {
            player.shown(Call::Redirect(64));
        }
        self.to_an_invitation(player, true);
        let taken = self.fetch_fresh(player.driver(), 8, 4);
        player.shown(taken);
        self.to_an_invitation(player, true);
        player.rest();
    }

    /// 255 names, 256 and 257; and 257 beside each other refusal of a fetch. Behind a branch, so that
    /// some names are only queued.
    fn around_the_limit(&mut self, player: &mut impl Plays) {
        let mut branch = self.fresh(player.driver(), 0, 0);
        branch.class = Class::Branch;
        branch.branch = true;
        let memory = player.driver().machine.memory();
        player.shown(Call::Fetch(branch, memory));
        self.to_an_invitation(player, true);
        let known = player
            .driver()
            .names_with(&self.fresh(player.driver(), 0, 0));
        let new = 255 - known;
        let reads = new.min(8);
        let to_255 = self.fetch_fresh(player.driver(), reads, new - reads);
        player.shown(to_255);
        self.to_an_invitation(player, true);
        let two_many = self.fetch_fresh(player.driver(), 1, 1);
        player.shown(two_many);
        self.refused_twice(player);
        // One new name, read and written.
        let mut given = self.fresh(player.driver(), 1, 0);
        given.sources.push(given.sources[0].clone());
        given.writes = vec![given.sources[0].clone()];
        player.shown(Call::Fetch(given, memory));
        let uninvited = self.fetch_fresh(player.driver(), 1, 0);
        player.shown(uninvited);
        player.shown(Call::Start);
        let inside = self.fetch_fresh(player.driver(), 0, 1);
        player.shown(inside);
        self.to_an_invitation(player, true);
        let one_more = self.fetch_fresh(player.driver(), 0, 1);
        player.shown(one_more);
        let mut known = self.fresh(player.driver(), 0, 0);
        known.sources = player.driver().names.iter().take(8).cloned().collect();
        known.writes = player
            .driver()
            .names
            .iter()
            .rev()
            .take(4)
            .cloned()
            .collect();
        player.shown(Call::Fetch(known, memory));
        self.to_an_invitation(player, true);
    }

    /// Names full, and something else that refuses.
    fn refused_twice(&mut self, player: &mut impl Plays) {
        let memory = player.driver().machine.memory();
        let given = self.fresh(player.driver(), 1, 1);
        player.shown(Call::Fetch(given.clone(), memory - 1));
        let mut bad = given.clone();
        bad.text = self.bad_text(64);
        player.shown(Call::Fetch(bad, memory));
        let mut many = given;
        many.sources = (0..9).map(|_| self.fresh_name()).collect();
        player.shown(Call::Fetch(many, memory));
    }

    /// An operation with so many new names.
    fn fresh(&mut self, driver: &Driver, reads: usize, writes: usize) -> Given {
        let mut given = self.given(driver);
        given.class = *self.rng.pick(&[Class::Alu, Class::Unknown]);
        given.branch = false;
        given.sources = (0..reads).map(|_| self.fresh_name()).collect();
        given.writes = (0..writes).map(|_| self.fresh_name()).collect();
        given
    }

    fn fetch_fresh(&mut self, driver: &Driver, reads: usize, writes: usize) -> Call {
        let given = self.fresh(driver, reads, writes);
        Call::Fetch(given, driver.machine.memory())
    }

    /// Cycles until an advance invites.
    fn to_an_invitation(&mut self, player: &mut impl Plays, shown: bool) {
        while !player.driver().invited {
            self.cycle(player, shown);
        }
    }

    /// To the next advance, with an offer retired.
    fn cycle(&mut self, player: &mut impl Plays, shown: bool) {
        let memory = player.driver().machine.memory();
        loop {
            let call = if !player.driver().in_cycle {
                Call::Start
            } else if player.driver().offer.is_some() && !player.driver().retired {
                Call::Retire
            } else {
                Call::Advance(None, memory)
            };
            if shown {
                player.shown(call);
            } else {
                player.quiet(call);
            }
            if !player.driver().in_cycle {
                return;
            }
        }
    }
}
