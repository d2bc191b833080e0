//! A run of demand 3 over lent memories: what is under way, the records, and the claim after each call.

use crate::balances::Book;
use crate::compare::{check_number, Call, Comparison};
use crate::hours::HourSoFar;
use crate::ledger::Ledger;
use crate::tally::Situation;
use crate::Wrong;
use interface::{AgreedTime, Answer, Opening};
use peer::frame::{self, Frame, Sense};
use peer::gateway::Setup;
use peer::model::{Done, Hour, Hours, Kind, NOTHING_DUE};
use peer::record::Stock;
use peer::round::least;
use peer::under_way::{check_agreed, Carried, UnderWay};
use peer::{queue, record};

pub struct World {
    pub memories: Vec<Vec<u8>>,
    under_way: UnderWay,
    ledgers: Vec<Ledger>,
    /// The bytes that the commits of each gateway wrote.
    records: Vec<Vec<u8>>,
    /// The records of the single queue.
    whole: Vec<Vec<u8>>,
    hours: Vec<HourSoFar>,
    books: Vec<Book>,
    agreed: Vec<Hour>,
}

impl World {
    /// The memories of a forecast just set up; its set-ups are not to be refused.
    pub fn new(setups: &[Setup], comparison: &mut Comparison) -> Result<World, Wrong> {
        let mut memories = Vec::new();
        let mut ledgers = Vec::new();
        let mut books = Vec::new();
        for setup in setups {
            let mut memory = vec![0x5a; setup.memory];
            check_number(comparison.set_up(&mut memory, &setup.opening, &opening(setup))?, 0)?;
            memories.push(memory);
            ledgers.push(opening_ledger(setup));
            let book = Book::new(setup.stock);
            book.hold(&[], comparison)?;
            books.push(book);
        }
        let bytes = |record: &Vec<_>| record.iter().flat_map(record::bytes).collect();
        Ok(World {
            under_way: UnderWay::new(memories.len()),
            records: vec![Vec::new(); memories.len()],
            whole: queue::records(setups).iter().map(bytes).collect(),
            hours: setups.iter().map(|setup| HourSoFar::new(setup.stock)).collect(),
            books,
            agreed: vec![0; memories.len()],
            memories,
            ledgers,
        })
    }

    pub fn gateways(&self) -> u8 {
        self.memories.len() as u8
    }

    pub fn frames_under_way(&self) -> usize {
        self.under_way.carried().len()
    }

    pub fn frame(&self, place: usize) -> Frame {
        self.under_way.carried()[place].frame
    }

    pub fn agreed(&self, own: u8) -> Hour {
        self.agreed[usize::from(own)]
    }

    /// Rounds that every gateway has taken the Update of.
    pub fn completed_rounds(&self) -> usize {
        self.under_way.completed_rounds()
    }

    /// What a run that goes on must change at last: the agreed times and the bytes committed.
    pub fn progress(&self) -> (Vec<Hour>, usize) {
        (self.agreed.clone(), self.records.iter().map(Vec::len).sum())
    }

    /// What the gateways have committed.
    pub fn into_records(self) -> Vec<Vec<u8>> {
        self.records
    }

    pub fn waiting_cancels(&self) -> usize {
        self.ledgers.iter().map(Ledger::cancels).sum()
    }

    pub fn work(
        &mut self,
        comparison: &mut Comparison,
        own: u8,
        budget: u32,
        room: usize,
    ) -> Result<(), Wrong> {
        let at = usize::from(own);
        let (answer, output) =
            comparison.call(Call::Work { budget }, &mut self.memories[at], room)?;
        let Answer { number, events, .. } = answer;
        if (events < budget) != (number != 0) || !matches!(number, 0 | 5 | 6) {
            return Err(format!("work of {own} did {events} of {budget} and answered {number}"));
        }
        if !self.ledgers[at].work(events) {
            return Err(format!("work of {own} did {events} events, more than waited"));
        }
        self.under_way.write(own, frames(own, &output)?)?;
        self.check(comparison)
    }

    /// Brings a frame under way to its gateway; a refused one goes to the end of the line.
    pub fn bring(
        &mut self,
        comparison: &mut Comparison,
        place: usize,
        room: usize,
    ) -> Result<(), Wrong> {
        let brought = self.under_way.take_out(place);
        let own = brought.frame.addressee();
        let memory = &mut self.memories[usize::from(own)];
        let bytes = frame::write(&brought.frame);
        let (answer, output) = comparison.call(Call::Take { frame: &bytes }, memory, room)?;
        match answer.number {
            0 => {
                self.count_late_request(own, &brought.frame, comparison);
                self.accept(own, brought, &output)?;
            }
            5 => self.under_way.put_back(brought),
            number => return Err(format!("{:?} under way refused with {number}", brought.frame)),
        }
        self.check(comparison)
    }

    /// The start call at any gateway.
    pub fn start(
        &mut self,
        comparison: &mut Comparison,
        own: u8,
        room: usize,
    ) -> Result<(), Wrong> {
        let in_turn = own == 0 && self.under_way.may_start();
        let memory = &mut self.memories[usize::from(own)];
        let (answer, output) = comparison.call(Call::Start, memory, room)?;
        match (answer.number, in_turn) {
            (0, true) => self.under_way.start(frames(own, &output)?)?,
            (5, true) | (4, false) => {}
            (number, _) => return Err(format!("start of {own} answered {number}")),
        }
        self.check(comparison)
    }

    /// Commits one event if there is one; whether there was.
    pub fn commit(
        &mut self,
        comparison: &mut Comparison,
        own: u8,
        room: usize,
    ) -> Result<bool, Wrong> {
        let at = usize::from(own);
        let (answer, output) = comparison.call(Call::Commit, &mut self.memories[at], room)?;
        match answer.number {
            0 => self.record(own, &output, comparison)?,
            5 | 6 => {}
            number => return Err(format!("commit of {own} answered {number}")),
        }
        self.check(comparison)?;
        Ok(answer.number == 0)
    }

    /// Every gateway has agreed on nothing due and has nothing left to commit: then each record must be whole.
    pub fn is_whole(&self, comparison: &mut Comparison) -> Result<bool, Wrong> {
        if self.agreed.iter().any(|&agreed| agreed != NOTHING_DUE) {
            return Ok(false);
        }
        for memory in &self.memories {
            if comparison.would_answer(Call::Commit, memory)? != 6 {
                return Ok(false);
            }
        }
        if self.records != self.whole {
            return Err("the records are not those of the single queue".into());
        }
        Ok(true)
    }

    /// Too few places stop the run: every work answers 5 or 6, every message, cancel and acknowledgment under way is
    /// refused with 5, and there is a 5 among these answers.
    pub fn is_blocked(&self, comparison: &mut Comparison) -> Result<bool, Wrong> {
        let mut answers = Vec::new();
        for memory in &self.memories {
            answers.push(comparison.would_answer(Call::Work { budget: 1 }, memory)?);
        }
        for Carried { frame, .. } in self.under_way.carried() {
            if let Frame::Event { .. } = frame {
                let memory = &self.memories[usize::from(frame.addressee())];
                let bytes = frame::write(frame);
                answers.push(comparison.would_answer(Call::Take { frame: &bytes }, memory)?);
            }
        }
        Ok(answers.contains(&5) && answers.iter().all(|number| matches!(number, 5 | 6)))
    }

    /// A commit of gateway `own` wrote these bytes.
    fn record(&mut self, own: u8, output: &[u8], comparison: &mut Comparison) -> Result<(), Wrong> {
        let at = usize::from(own);
        let done = committed(own, output)?;
        if self.ledgers[at].commit() != Some(done.message) {
            return Err(format!("{own} commits what was not done"));
        }
        self.records[at].extend(output);
        if !self.whole[at].starts_with(&self.records[at]) {
            return Err(format!("the record of {own} is no beginning of the single queue's"));
        }
        for situation in self.hours[at].add(&done.message, done.after.stock)? {
            comparison.tally.count_situation(situation);
        }
        self.books[at].add(&done);
        self.books[at].hold(&self.records[at], comparison)
    }

    /// Counts a Request that enters the queue of gateway `own` when a Restock or a Delivery of its hour is done there.
    fn count_late_request(&self, own: u8, frame: &Frame, comparison: &mut Comparison) {
        let &Frame::Event { sense: Sense::Plain, message } = frame else {
            return;
        };
        let ledger = &self.ledgers[usize::from(own)];
        if message.kind != Kind::Request || ledger.has_cancel(&message) {
            return;
        }
        if ledger.has_done(Kind::Restock, message.hour) {
            let situation = Situation::RequestsTakenBesideADoneRestockOfTheirHour;
            comparison.tally.count_situation(situation);
        }
        if ledger.has_done(Kind::Delivery, message.hour) {
            let situation = Situation::RequestsTakenBesideADoneDeliveryOfTheirHour;
            comparison.tally.count_situation(situation);
        }
    }

    fn accept(&mut self, own: u8, brought: Carried, output: &[u8]) -> Result<(), Wrong> {
        let ledger = &mut self.ledgers[usize::from(own)];
        match brought.frame {
            Frame::Event { sense: Sense::Plain, message } => ledger.enter(message),
            Frame::Event { sense: Sense::Cancel, message } => ledger.strike_out(message),
            _ => {}
        }
        self.under_way.accept(own, brought, frames(own, output)?)
    }

    /// Every memory is sound, no agreed time has fallen, and none is past an hour that waits or is under way.
    fn check(&mut self, comparison: &mut Comparison) -> Result<(), Wrong> {
        let under_way = self.under_way.least();
        let waiting = least(self.ledgers.iter().map(Ledger::least));
        for (own, memory) in self.memories.iter().enumerate() {
            let AgreedTime { number, hour } = comparison.agreed_time(memory)?;
            check_number(number, 0).map_err(|wrong| format!("agreed time of {own}: {wrong}"))?;
            check_agreed(own, self.agreed[own], hour, waiting, under_way)?;
            self.agreed[own] = hour;
        }
        Ok(())
    }
}

/// The event that a commit of gateway `own` wrote.
pub fn committed(own: u8, output: &[u8]) -> Result<Done, Wrong> {
    match record::read(output, Stock::New).as_deref() {
        Ok(&[done]) => Ok(done),
        _ => Err(format!("{own} commits {output:?}, which is no event")),
    }
}

/// The frames that gateway `own` put out.
fn frames(own: u8, output: &[u8]) -> Result<Vec<Frame>, Wrong> {
    let frames = frame::list(output).into_iter().collect::<Result<_, _>>();
    frames.map_err(|reason| format!("{own} puts out what is no frame: {reason}"))
}

/// The settings of a set-up.
pub fn opening(setup: &Setup) -> Opening {
    let Hours { request, delivery, life } = setup.hours;
    Opening {
        gateways: setup.nodes,
        own: setup.own,
        supplier: setup.supplier,
        stock: setup.stock,
        last_hour: setup.last_hour,
        queue_places: setup.queue_places,
        outstanding_places: setup.outstanding_places,
        request_hours: request,
        delivery_hours: delivery,
        life_hours: life,
    }
}

fn opening_ledger(setup: &Setup) -> Ledger {
    let mut ledger = Ledger::default();
    for frame in frame::list(&setup.opening).into_iter().flatten() {
        if let Frame::Event { message, .. } = frame {
            ledger.enter(message);
        }
    }
    ledger
}
