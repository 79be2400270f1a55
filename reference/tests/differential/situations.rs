//! Deep states that a run must have met, each told by one call and what was
//! there before it.

use crate::calls::{Call, Outcome};
use crate::layout::{bank, next_address, MOST_DATA_PAGES, PAGE_BYTES, PAGE_WORDS, WORD_BYTES};
use crate::pages::{
    allows, closed, denier, deniers_of_read, holding, readable_words, right, rights, setting, span,
    CREATOR_PAGE, OWNER_PAGE,
};
use reference::interface::flat::{self, Controller, Operation, Progress};
use reference::model;

/// One call, with the state that it met and the one that it left.
pub struct Met<'a> {
    pub before: &'a Controller,
    pub after: &'a Controller,
    pub call: &'a Call,
    pub outcome: &'a Outcome,
    /// How many fields the bench had written just before.
    pub writes: usize,
    /// The words that the operation in progress has moved by steps since its start, if all of them so.
    pub stepped: Option<u32>,
}

type Situation = (&'static str, fn(&Met) -> bool);

pub const SITUATIONS: [Situation; 116] = [
    ("overlapping regions with other rights", |met| {
        let page = met.page();
        met.judged() && page.is_some_and(|page| overlap(met.before, page))
    }),
    ("read denied past its first page", |met| {
        let first = met.read_span().map(|(first, _)| first);
        met.answer(9) && first.is_some_and(|page| rights(met.before, page) & 1 == 1)
    }),
    ("read over the bank border", |met| {
        met.answer(0) && met.read_span().is_some_and(|span| met.over_border(span))
    }),
    ("information span over its bank's end", |met| {
        let read = met.operation(flat::READ).filter(|o| o.partition == 1);
        met.answer(7) && read.is_some_and(|o| met.over_border(span(&o)))
    }),
    ("program up to its window's end", |met| {
        let program = met.operation(flat::PROGRAM);
        met.answer(0) && program.is_some_and(|o| (o.address + 4 * o.count) % 64 == 0)
    }),
    ("whole read of 1,024 words", |met| {
        met.is_whole()
            && met.answer(0)
            && met.operation(flat::READ).is_some_and(|o| o.count == 1024)
    }),
    ("whole operation with a word queued", |met| {
        met.is_whole() && met.answer(4) && met.before.progress.running == 0
    }),
    ("start with words in the read queue", |met| {
        let start = matches!(met.call, Call::Start { .. });
        start && met.answer(0) && met.before.read_queue.length > 0
    }),
    ("image too short", |met| {
        met.answer(1) && met.writes == 0 && met.image_words().is_some_and(|n| n < met.right())
    }),
    ("image too long", |met| {
        met.answer(1) && met.writes == 0 && met.image_words().is_some_and(|n| n > met.right())
    }),
    ("one field broken", |met| met.broken() && met.writes == 1),
    ("several fields broken", |met| {
        met.broken() && met.writes > 1
    }),
    ("rights over 255 broken alone", |met| {
        let rights = rights_of(met.before).any(|rights| rights > 255);
        met.broken() && met.writes == 1 && rights
    }),
    ("type over 255 in progress broken alone", |met| {
        let progress = &met.before.progress;
        let large = progress.running == 1 && progress.operation.info_type > 255;
        met.broken() && met.writes == 1 && large
    }),
    ("kind over 255 asked", |met| {
        met.answer(5) && met.asked(|o| o.kind > 255)
    }),
    ("partition over 255 asked", |met| {
        met.answer(5) && met.asked(|o| o.partition > 255)
    }),
    ("unused type over 255 asked", |met| {
        met.answer(0) && met.asked(|o| o.info_type > 255)
    }),
    ("rights over 255 asked", |met| {
        let rights = match met.call {
            Call::SetRegion { region, .. } => region.rights,
            Call::SetInfoPage { setting, .. } => setting.rights,
            Call::SetDefaultRights { rights } => *rights,
            _ => 0,
        };
        met.answer(13) && rights > 255
    }),
    ("broken state reset", |met| {
        let reset = matches!(met.call, Call::Reset { .. });
        reset && met.answer(0) && met.before.phase > flat::PHASE_DISABLED
    }),
    ("operation in progress written by hand", |met| {
        // A round that nobody asks for is answered 0 in any state.
        let round = matches!(met.call, Call::Round { .. });
        met.answer(0) && !round && met.writes > 1 && met.before.progress.running == 1
    }),
    ("seeds handed out", |met| met.outcome.seeds.given == 1),
    ("host read during an operation", |met| {
        let read = matches!(met.call, Call::HostRead { .. });
        read && met.answer(0) && met.before.progress.running == 1
    }),
    ("view during an operation", |met| {
        let view = matches!(met.call, Call::View { .. });
        view && met.answer(0) && met.before.progress.running == 1
    }),
    ("data bank erased by all its steps", |met| {
        met.erased_by_steps(flat::DATA)
    }),
    ("whole bank erased by all its steps", |met| {
        met.erased_by_steps(flat::INFORMATION)
    }),
    ("lost count over 5 broken alone", |met| {
        let over = met.before.lost_turns.iter().any(|lost| *lost > 5);
        met.broken() && met.writes == 1 && over
    }),
    ("contest that the host wins", |met| met.step_waits()),
    ("sixth round, the controller's", |met| met.host_waits()),
    ("contest of an information operation", |met| {
        met.contest() && met.before.progress.operation.partition == flat::INFORMATION
    }),
    ("contest for a readable word of a denied read", |met| {
        met.contest() && met.denied_read().is_some_and(|p| p.moved < p.readable)
    }),
    ("contest for the ones of a denied read", |met| {
        met.contest() && met.denied_read().is_some_and(|p| p.moved >= p.readable)
    }),
    ("contest with a host past the end", |met| {
        let page = met.host_address() / PAGE_BYTES;
        met.contest() && page >= 2 * met.before.data_pages
    }),
    ("contest won by a host read refused 5", |met| {
        met.step_waits() && met.outcome.round.host_answer == 5
    }),
    ("contest won by a host read refused 7", |met| {
        met.step_waits() && met.outcome.round.host_answer == 7
    }),
    ("contest won by a host read refused 9", |met| {
        met.step_waits() && met.outcome.round.host_answer == 9
    }),
    ("host waits that would be refused", |met| {
        met.host_waits() && !met.host_allowed()
    }),
    ("step alone at a lost count of 5", |met| {
        let told = &met.outcome.round;
        told.host_turn == flat::TURN_UNASKED
            && met.moved_in_round()
            && met.lost_five(met.next_bank())
    }),
    ("host alone at a lost count of 5", |met| {
        let told = &met.outcome.round;
        told.step_turn == flat::TURN_UNASKED && met.host_served() && met.lost_five(met.host_bank())
    }),
    ("both banks served in a round", |met| {
        met.served_beside_a_step(0)
    }),
    ("both banks served, host read refused 5", |met| {
        met.served_beside_a_step(5)
    }),
    ("both banks served, host read refused 7", |met| {
        met.served_beside_a_step(7)
    }),
    ("both banks served, host read refused 9", |met| {
        met.served_beside_a_step(9)
    }),
    ("round of both in a broken state", |met| {
        met.both_asked() && met.broken() && met.image_words() == Some(met.right())
    }),
    ("round of both with a wrong image", |met| {
        let wrong = met.image_words() != Some(met.right());
        let running = met.before.progress.running == 1;
        met.both_asked() && met.broken() && met.writes == 0 && running && wrong
    }),
    ("round of both while disabled", |met| {
        met.both_asked() && met.answer(2)
    }),
    ("round of both while uninitialised", |met| {
        met.both_asked() && met.answer(3)
    }),
    ("stalled step beside a host in its bank", |met| {
        let stalled = met.outcome.round.movement == flat::MOVEMENT_STALLED;
        let same_bank = met.host_bank() == met.next_bank();
        met.host_served() && !met.step_waits() && stalled && same_bank
    }),
    ("refused step beside a host", |met| {
        met.host_served() && met.outcome.round.step_answer == 12
    }),
    ("lower region denies, a higher would allow", |met| {
        let page = met.page().filter(|_| met.answer(9));
        let mut others = page
            .iter()
            .flat_map(|&page| holding(met.before, page).skip(1));
        others.any(|(_, region)| region.rights & 1 == 1)
    }),
    ("read denied by two regions", |met| {
        let regions = met.deniers().into_iter().flatten().filter(|&d| d < 8);
        differ(regions)
    }),
    ("read denied by a region, then the default", |met| {
        let mut deniers = met.deniers().into_iter().flatten();
        let region = deniers.next().is_some_and(|first| first < 8);
        region && deniers.any(|later| later == flat::BY_DEFAULT)
    }),
    ("read denied by a setting, then the seed lock", |met| {
        let mut deniers = met.deniers().into_iter().flatten();
        let setting = deniers.next() == Some(flat::BY_PAGE_SETTING);
        setting && deniers.any(|later| later == flat::BY_SEED_LOCK)
    }),
    ("read denied by the seed lock, then a setting", |met| {
        let mut deniers = met.deniers().into_iter().flatten();
        let lock = deniers.next() == Some(flat::BY_SEED_LOCK);
        lock && deniers.any(|later| later == flat::BY_PAGE_SETTING)
    }),
    ("closed seed page that its setting allows", |met| {
        met.on_closed_page(|o, page| allows(page, right(o.kind)))
    }),
    ("closed seed page that is also off", |met| {
        met.on_closed_page(|_, page| page.on == 0)
    }),
    ("creator page closed by the lock alone", |met| {
        met.before.provision_enabled == 1 && met.on_closed_page(|_, _| true)
    }),
    ("owner page closed without provision", |met| {
        met.on_closed_page(|o, _| o.address / PAGE_BYTES == OWNER_PAGE)
    }),
    ("page off that has the right", |met| {
        met.on_open_page(|o, page| page.on == 0 && page.rights & right(o.kind) != 0)
    }),
    ("page on that lacks the right", |met| {
        met.on_open_page(|o, page| page.on == 1 && page.rights & right(o.kind) == 0)
    }),
    ("bank erase denied, its page erasable", |met| {
        let erase = met.operation(flat::BANK_ERASE).filter(|_| met.answer(9));
        let right = right(flat::PAGE_ERASE);
        erase.is_some_and(|o| rights(met.before, o.address / PAGE_BYTES) & right != 0)
    }),
    ("denied read started with readable words", |met| {
        let start = matches!(met.call, Call::Start { .. });
        start && met.cut(|cut| cut.readable > 0)
    }),
    ("whole read of readable words, then ones", |met| {
        met.is_whole() && met.cut(|cut| cut.readable > 0)
    }),
    ("read denied at its first of several pages", |met| {
        met.cut(|cut| cut.pages_before() == 0 && cut.over_pages())
    }),
    ("read denied at its second page", |met| {
        met.cut(|cut| cut.pages_before() == 1)
    }),
    ("read denied at its third page", |met| {
        met.cut(|cut| cut.pages_before() == 2)
    }),
    ("read denied at its fourth page", |met| {
        met.cut(|cut| cut.pages_before() == 3)
    }),
    ("read denied at its fifth page", |met| {
        met.cut(|cut| cut.pages_before() == 4)
    }),
    ("read denied at its second word", |met| {
        met.cut(|cut| cut.readable == 1)
    }),
    ("read denied at its last word", |met| {
        met.cut(|cut| cut.readable > 0 && cut.readable + 1 == cut.read.count)
    }),
    ("allowed page after the denied one", |met| {
        let mut after = met.deniers().into_iter().skip_while(Option::is_none);
        after.any(|denier| denier.is_none())
    }),
    ("allowed pages before and after the denied one", |met| {
        let deniers = met.deniers();
        let mut after = deniers.iter().skip_while(|denier| denier.is_none());
        deniers.first() == Some(&None) && after.any(Option::is_none)
    }),
    ("read cut at the bank border", |met| {
        met.cut_data_read(|cut| cut.readable > 0 && cut.page == met.before.data_pages)
    }),
    ("read cut before the bank border it runs over", |met| {
        let over = |cut: &Cut| met.over_border((cut.page, span(&cut.read).1));
        met.cut_data_read(|cut| cut.readable > 0 && over(cut))
    }),
    ("read cut past the bank border it runs over", |met| {
        let over = |cut: &Cut| met.over_border((span(&cut.read).0, cut.page - 1));
        met.cut_data_read(|cut| cut.readable > 0 && over(cut))
    }),
    ("type 0 read cut past its first page", |met| {
        met.cut_info_read(|cut| cut.readable > 0 && cut.read.info_type == 0)
    }),
    ("type 2 read cut past its first page", |met| {
        met.cut_info_read(|cut| cut.readable > 0 && cut.read.info_type == 2)
    }),
    ("read cut at the closed creator page", |met| {
        met.cut_at_creator_page(|_| true)
    }),
    ("read cut there, the owner page open behind it", |met| {
        let open = !closed(met.before, 0, OWNER_PAGE);
        open && met.cut_at_creator_page(|read| span(read).1 >= OWNER_PAGE)
    }),
    ("recorded address not the operation's own", |met| {
        met.asked(|o| met.after.last_address != o.address) && met.answer(9)
    }),
    ("one readable word too many broken alone", |met| {
        met.wrong_readable(|progress, right| progress.readable == right + 1)
    }),
    ("one readable word too few broken alone", |met| {
        met.wrong_readable(|progress, right| Some(progress.readable) == right.checked_sub(1))
    }),
    ("no readable word, wrongly, broken alone", |met| {
        met.wrong_readable(|progress, _| progress.readable == 0)
    }),
    ("all words readable, wrongly, broken alone", |met| {
        met.wrong_readable(|progress, _| progress.readable == progress.operation.count)
    }),
    ("step that moves a denied read's readable word", |met| {
        met.moves_of_denied_read(|progress| progress.moved < progress.readable)
    }),
    ("step that moves its first denied word", |met| {
        met.moves_of_denied_read(|p| p.moved > 0 && p.moved == p.readable)
    }),
    ("step that moves ones of an allowed page", |met| {
        met.moves_of_denied_read(|progress| {
            let page = next_address(progress) / PAGE_BYTES;
            let allowed = denier(met.before, &progress.operation, page).is_none();
            progress.moved >= progress.readable && allowed
        })
    }),
    ("denied read by all its steps", |met| {
        let finished = met.outcome.movement == flat::MOVEMENT_FINISHED;
        finished && met.moves_of_denied_read(|p| p.readable > 0 && met.stepped == Some(p.moved))
    }),
    ("whole read over the bank border", |met| {
        met.whole_read(0, |begin, end| begin < 0 && end > 0)
    }),
    ("whole read with one word before the border", |met| {
        met.whole_read(0, |begin, end| begin == -1 && end > 0)
    }),
    ("whole read with one word past the border", |met| {
        met.whole_read(0, |begin, end| begin < 0 && end == 1)
    }),
    ("whole read that ends at the bank border", |met| {
        met.whole_read(0, |_, end| end == 0)
    }),
    ("whole read that begins at the bank border", |met| {
        met.whole_read(0, |begin, _| begin == 0)
    }),
    ("whole read over the border, cut before it", |met| {
        met.whole_read_cut(|page, bank_1| page < bank_1)
    }),
    ("whole read over the border, cut at it", |met| {
        met.whole_read_cut(|page, bank_1| page == bank_1)
    }),
    ("whole read over the border, cut past it", |met| {
        met.whole_read_cut(|page, bank_1| page > bank_1)
    }),
    ("whole read in bank 1", |met| {
        met.whole(flat::READ, flat::DATA, 1)
    }),
    ("whole program in bank 1", |met| {
        met.whole(flat::PROGRAM, flat::DATA, 1)
    }),
    ("whole page erase in bank 1", |met| {
        met.whole(flat::PAGE_ERASE, flat::DATA, 1)
    }),
    ("whole information read in bank 1", |met| {
        met.whole(flat::READ, flat::INFORMATION, 1)
    }),
    ("whole information program in bank 1", |met| {
        met.whole(flat::PROGRAM, flat::INFORMATION, 1)
    }),
    ("whole information page erase in bank 1", |met| {
        met.whole(flat::PAGE_ERASE, flat::INFORMATION, 1)
    }),
    ("data of bank 0 erased whole", |met| {
        met.whole(flat::BANK_ERASE, flat::DATA, 0)
    }),
    ("data of bank 1 erased whole", |met| {
        met.whole(flat::BANK_ERASE, flat::DATA, 1)
    }),
    ("all of bank 0 erased whole", |met| {
        met.whole(flat::BANK_ERASE, flat::INFORMATION, 0)
    }),
    ("all of bank 1 erased whole", |met| {
        met.whole(flat::BANK_ERASE, flat::INFORMATION, 1)
    }),
    ("read with steps enough", |met| met.ran_for(flat::READ, 0)),
    ("read cut", |met| met.ran_for(flat::READ, 1)),
    ("program with steps enough", |met| {
        met.ran_for(flat::PROGRAM, 0)
    }),
    ("program cut", |met| met.ran_for(flat::PROGRAM, 1)),
    ("page erase with steps enough", |met| {
        met.ran_for(flat::PAGE_ERASE, 0)
    }),
    ("page erase cut", |met| met.ran_for(flat::PAGE_ERASE, 1)),
    ("bank erase with steps enough", |met| {
        met.ran_for(flat::BANK_ERASE, 0)
    }),
    ("bank erase cut", |met| met.ran_for(flat::BANK_ERASE, 1)),
    ("denied read cut past its readable words", |met| {
        let progress = &met.after.progress;
        met.ran_for(flat::READ, 1) && met.answer(9) && progress.moved > progress.readable
    }),
    ("write of a scan cut", |met| {
        matches!(met.call, Call::WriteScan { .. }) && met.outcome.cut == 1
    }),
    ("take of a scan cut", |met| {
        matches!(met.call, Call::TakeScan { .. }) && met.outcome.cut == 1
    }),
];

/// A read that is denied past 5 and 7.
struct Cut {
    read: Operation,
    readable: u32,
    /// The first denied one.
    page: u32,
}

impl Cut {
    fn pages_before(&self) -> u32 {
        self.page - span(&self.read).0
    }

    fn over_pages(&self) -> bool {
        let (first, last) = span(&self.read);
        first < last
    }
}

impl Met<'_> {
    fn answer(&self, number: u32) -> bool {
        self.outcome.answer == number
    }

    fn is_whole(&self) -> bool {
        matches!(self.call, Call::Run { .. })
    }

    /// The rights were looked at.
    fn judged(&self) -> bool {
        self.answer(0) || self.answer(9)
    }

    fn broken(&self) -> bool {
        self.answer(1) && !matches!(self.call, Call::Reset { .. })
    }

    fn operation(&self, kind: u32) -> Option<Operation> {
        self.call.operation().filter(|o| o.kind == kind)
    }

    fn asked(&self, is: impl Fn(&Operation) -> bool) -> bool {
        self.call.operation().as_ref().is_some_and(is)
    }

    /// A whole operation is accepted in a bank.
    fn whole(&self, kind: u32, partition: u32, number: usize) -> bool {
        let there = |o: &Operation| bank(self.before.data_pages, o.address) == number;
        let operation = self.operation(kind).filter(|o| o.partition == partition);
        self.is_whole() && self.answer(0) && operation.as_ref().is_some_and(there)
    }

    /// An operation of this kind is started with a number of steps, and cut or not.
    fn ran_for(&self, kind: u32, cut: u32) -> bool {
        let starts = self.answer(0) || kind == flat::READ && self.answer(9);
        matches!(self.call, Call::RunFor { .. })
            && starts
            && self.operation(kind).is_some()
            && self.outcome.cut == cut
    }

    /// Where a whole data read with this answer begins and ends, in words from the bank border.
    fn whole_read(&self, answer: u32, is: impl Fn(i64, i64) -> bool) -> bool {
        let read = self.operation(flat::READ);
        let read = read.filter(|o| self.is_whole() && o.partition == flat::DATA);
        self.answer(answer)
            && read.is_some_and(|read| {
                let border = i64::from(self.before.data_pages * PAGE_WORDS);
                let begin = i64::from(read.address / WORD_BYTES) - border;
                is(begin, begin + i64::from(read.count))
            })
    }

    /// A whole read over the bank border is cut at such a page; the other is bank 1's first.
    fn whole_read_cut(&self, is: impl Fn(u32, u32) -> bool) -> bool {
        let bank_1 = self.before.data_pages;
        let over = self.whole_read(9, |begin, end| begin < 0 && end > 0);
        over && self.cut(|cut| cut.readable > 0 && is(cut.page, bank_1))
    }

    /// The first and the last page of a data read.
    fn read_span(&self) -> Option<(u32, u32)> {
        let read = self.operation(flat::READ)?;
        (read.partition == flat::DATA).then(|| span(&read))
    }

    /// Of each page of a denied read, in order, who denies it.
    fn deniers(&self) -> Vec<Option<u32>> {
        let read = self.operation(flat::READ).filter(|_| self.answer(9));
        read.map_or(Vec::new(), |read| deniers_of_read(self.before, &read))
    }

    /// A read is denied and cut so.
    fn cut(&self, is: impl Fn(&Cut) -> bool) -> bool {
        let read = self.operation(flat::READ).filter(|_| self.answer(9));
        read.is_some_and(|read| {
            let readable = readable_words(self.before, &read).expect("it is denied");
            let page = (read.address + WORD_BYTES * readable) / PAGE_BYTES;
            is(&Cut {
                read,
                readable,
                page,
            })
        })
    }

    fn cut_data_read(&self, is: impl Fn(&Cut) -> bool) -> bool {
        self.cut(|cut| cut.read.partition == flat::DATA && is(cut))
    }

    fn cut_info_read(&self, is: impl Fn(&Cut) -> bool) -> bool {
        self.cut(|cut| cut.read.partition == flat::INFORMATION && is(cut))
    }

    /// The seed lock cuts a read that begins on the page before.
    fn cut_at_creator_page(&self, is: impl Fn(&Operation) -> bool) -> bool {
        let seed_lock = self.outcome.decider == Some(flat::BY_SEED_LOCK);
        let there = |cut: &Cut| cut.readable > 0 && cut.page == CREATOR_PAGE;
        seed_lock && self.cut_info_read(|cut| there(cut) && is(&cut.read))
    }

    /// The denied read that is in progress.
    fn denied_read(&self) -> Option<&Progress> {
        let progress = &self.before.progress;
        let read = progress.running == 1 && progress.operation.kind == flat::READ;
        (read && progress.readable < progress.operation.count).then_some(progress)
    }

    /// A step, alone or in a round, moves a word of a denied read.
    fn moves_of_denied_read(&self, is: impl Fn(&Progress) -> bool) -> bool {
        let movement = self.outcome.movement;
        let moves = [flat::MOVEMENT_MOVED, flat::MOVEMENT_FINISHED].contains(&movement);
        moves && self.denied_read().is_some_and(is)
    }

    /// The one field written leaves a read with another number of readable words than the right one.
    fn wrong_readable(&self, is: impl Fn(&Progress, u32) -> bool) -> bool {
        let progress = &self.before.progress;
        let wrong = |right| progress.readable != right && is(progress, right);
        self.broken()
            && self.writes == 1
            && progress.running == 1
            && readable_words(self.before, &progress.operation).is_some_and(wrong)
    }

    /// An information operation that is judged by its pages.
    fn info_operation(&self) -> Option<Operation> {
        let judged = |o: &Operation| o.partition == flat::INFORMATION && o.kind < flat::BANK_ERASE;
        self.call.operation().filter(judged)
    }

    /// An information operation that is denied, and the setting of its first page.
    fn denied_setting(&self) -> Option<(Operation, flat::PageSetting)> {
        let operation = self.info_operation().filter(|_| self.answer(9))?;
        let page = operation.address / PAGE_BYTES;
        Some((operation, setting(self.before, operation.info_type, page)))
    }

    /// It is denied at its first page, which the inputs close.
    fn on_closed_page(&self, is: impl Fn(Operation, flat::PageSetting) -> bool) -> bool {
        let seed_lock = self.outcome.decider == Some(flat::BY_SEED_LOCK);
        let first_closed = |o: &Operation| closed(self.before, o.info_type, o.address / PAGE_BYTES);
        let denied = self.denied_setting().filter(|(o, _)| first_closed(o));
        seed_lock && denied.is_some_and(|(operation, setting)| is(operation, setting))
    }

    /// It is denied by a setting.
    fn on_open_page(&self, is: impl Fn(Operation, flat::PageSetting) -> bool) -> bool {
        let by_setting = self.outcome.decider == Some(flat::BY_PAGE_SETTING);
        let denied = self.denied_setting();
        by_setting && denied.is_some_and(|(operation, setting)| is(operation, setting))
    }

    fn over_border(&self, (first, last): (u32, u32)) -> bool {
        first < self.before.data_pages && last >= self.before.data_pages
    }

    /// The data page that a host read or a view asks for.
    fn page(&self) -> Option<u32> {
        match self.call {
            Call::HostRead { address, .. } => Some(address / PAGE_BYTES),
            Call::View { page, .. } => Some(*page),
            _ => None,
        }
    }

    fn image_words(&self) -> Option<usize> {
        match self.call {
            Call::Initialise { image_words }
            | Call::Step { image_words }
            | Call::Run { image_words, .. }
            | Call::HostRead { image_words, .. }
            | Call::View { image_words, .. }
            | Call::Round { image_words, .. }
            | Call::Rma { image_words }
            | Call::RunFor { image_words, .. }
            | Call::WriteScan { image_words, .. }
            | Call::TakeScan { image_words, .. } => Some(*image_words),
            _ => None,
        }
    }

    fn right(&self) -> usize {
        model::image_words(self.before.data_pages.min(MOST_DATA_PAGES)) as usize
    }

    // -- rounds; in other calls both turns are unasked --

    fn host_waits(&self) -> bool {
        self.outcome.round.host_turn == flat::TURN_WAITING
    }

    fn step_waits(&self) -> bool {
        self.outcome.round.step_turn == flat::TURN_WAITING
    }

    fn contest(&self) -> bool {
        self.host_waits() || self.step_waits()
    }

    fn both_asked(&self) -> bool {
        let told = &self.outcome.round;
        ![told.host_turn, told.step_turn].contains(&flat::TURN_UNASKED)
    }

    /// The host was given its word.
    fn host_served(&self) -> bool {
        self.host_answered(0)
    }

    fn host_answered(&self, answer: u32) -> bool {
        let told = &self.outcome.round;
        told.host_turn == flat::TURN_SERVED && told.host_answer == answer
    }

    /// The host was answered so, and a word moved in the other bank.
    fn served_beside_a_step(&self, answer: u32) -> bool {
        self.host_answered(answer) && self.moved_in_round()
    }

    fn moved_in_round(&self) -> bool {
        let movement = self.outcome.round.movement;
        [flat::MOVEMENT_MOVED, flat::MOVEMENT_FINISHED].contains(&movement)
    }

    fn host_address(&self) -> u32 {
        match self.call {
            Call::Round { asked, .. } => asked.host_address,
            _ => 0,
        }
    }

    fn host_allowed(&self) -> bool {
        let page = self.host_address() / PAGE_BYTES;
        let inside = page < 2 * self.before.data_pages;
        self.host_address().is_multiple_of(4) && inside && rights(self.before, page) & 1 == 1
    }

    fn host_bank(&self) -> usize {
        bank(self.before.data_pages, self.host_address())
    }

    fn next_bank(&self) -> usize {
        bank(self.before.data_pages, next_address(&self.before.progress))
    }

    /// The controller goes next in a contest for the bank.
    fn lost_five(&self, bank: usize) -> bool {
        self.before.lost_turns[bank] == 5
    }

    fn erased_by_steps(&self, partition: u32) -> bool {
        let progress = &self.before.progress;
        let erase = progress.operation.kind == flat::BANK_ERASE
            && progress.operation.partition == partition;
        let finished = self.outcome.movement == flat::MOVEMENT_FINISHED;
        finished && erase && self.stepped == Some(progress.moved)
    }
}

/// All rights that stand in the state.
fn rights_of(c: &Controller) -> impl Iterator<Item = u32> + '_ {
    let regions = c.regions.iter().map(|r| r.rights);
    let info_pages = c.info_pages.iter().map(|s| s.rights);
    regions.chain(info_pages).chain([c.default_rights])
}

fn overlap(c: &Controller, page: u32) -> bool {
    differ(holding(c, page).map(|(_, region)| region.rights))
}

/// Not all are the first.
fn differ(mut numbers: impl Iterator<Item = u32>) -> bool {
    match numbers.next() {
        Some(first) => numbers.any(|other| other != first),
        None => false,
    }
}
