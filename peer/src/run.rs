//! A run: the gateways of a forecast, the frames under way, and what must hold after every call.

use crate::balance::Book;
use crate::frame::{self, Frame, Sense};
use crate::gateway::{Gateway, Setup};
use crate::model::{Done, Hour, NOTHING_DUE};
use crate::queue;
use crate::record;
use crate::refusal::Refusal;
use crate::round;
use crate::under_way::{check_agreed, Carried, UnderWay, Wrong};

/// An output length that is enough for every call.
pub const AMPLE: usize = 1 << 20;

pub struct Run {
    gateways: Vec<Gateway>,
    under_way: UnderWay,
    /// What the commits of each gateway wrote.
    records: Vec<Vec<Done>>,
    /// The whole records of the single queue.
    whole: Vec<Vec<Done>>,
    /// What came to each shelf and left it, by the events committed.
    books: Vec<Book>,
    /// Each gateway's agreed time after the last call.
    agreed: Vec<Hour>,
    tally: Tally,
}

/// What happened in a run.
#[derive(Clone, Copy, Debug, Default)]
pub struct Tally {
    pub calls: usize,
    /// Takes and commits that were refused with 5.
    pub refused: usize,
    pub cancels: usize,
    /// Calls after which some cancel waited for its message.
    pub cancels_waiting: usize,
}

impl Run {
    pub fn new(setups: &[Setup]) -> Result<Run, Wrong> {
        let set_up = |setup| Gateway::set_up(setup).map_err(|why| format!("set up: {why:?}"));
        let gateways = setups.iter().map(set_up).collect::<Result<Vec<_>, _>>()?;
        Ok(Run {
            under_way: UnderWay::new(gateways.len()),
            records: vec![Vec::new(); gateways.len()],
            whole: queue::records(setups),
            books: setups.iter().map(|setup| Book::new(setup.stock)).collect(),
            agreed: vec![0; gateways.len()],
            tally: Tally::default(),
            gateways,
        })
    }

    pub fn nodes(&self) -> u8 {
        self.gateways.len() as u8
    }

    pub fn frames_under_way(&self) -> usize {
        self.under_way.carried().len()
    }

    pub fn frame(&self, place: usize) -> Frame {
        self.under_way.carried()[place].frame
    }

    pub fn agreed(&self, own: u8) -> Hour {
        self.agreed[usize::from(own)]
    }

    pub fn records(&self) -> &[Vec<Done>] {
        &self.records
    }

    pub fn tally(&self) -> Tally {
        self.tally
    }

    /// Frames written in the run.
    pub fn written(&self) -> usize {
        self.under_way.written()
    }

    /// Rounds that every gateway has taken the Update of.
    pub fn completed_rounds(&self) -> usize {
        self.under_way.completed_rounds()
    }

    /// What a run that goes on must change at last: the agreed times and the events committed.
    pub fn progress(&self) -> (Vec<Hour>, usize) {
        (self.agreed.clone(), self.records.iter().map(Vec::len).sum())
    }

    /// All agreed times are nothing due, nothing is under way and nothing is left to commit.
    pub fn is_finished(&self) -> bool {
        let nothing_to_commit =
            |gateway: &Gateway| gateway.clone().commit(AMPLE) == Err(Refusal::Nothing);
        self.agreed.iter().all(|&agreed| agreed == NOTHING_DUE)
            && self.under_way.carried().is_empty()
            && self.gateways.iter().all(nothing_to_commit)
    }

    /// Too few places stop the run: every work answers 5 or 6, every message, cancel and
    /// acknowledgment under way is refused with 5, and there is a 5 among these answers.
    pub fn is_blocked(&self) -> bool {
        let mut answers = Vec::new();
        for gateway in &self.gateways {
            answers.push(gateway.clone().work(1, AMPLE).why);
        }
        for Carried { frame, .. } in self.under_way.carried() {
            if let Frame::Event { .. } = frame {
                let mut gateway = self.gateways[usize::from(frame.addressee())].clone();
                answers.push(gateway.take(&frame::write(frame), AMPLE).err());
            }
        }
        let no_room = Some(Refusal::NoRoom);
        let refused = |answer: &_| [no_room, Some(Refusal::Nothing)].contains(answer);
        answers.contains(&no_room) && answers.iter().all(refused)
    }

    pub fn work(&mut self, own: u8, budget: u32, room: usize) -> Result<(), Wrong> {
        let worked = self.gateways[usize::from(own)].work(budget, room);
        let stopped_early = worked.count < budget;
        if stopped_early != worked.why.is_some() {
            return Err(format!("work of {own} did {} of {budget}", worked.count));
        }
        self.write(own, worked.output)?;
        self.check()
    }

    /// Brings a frame under way to its gateway; a refused one goes to the end of the line.
    pub fn bring(&mut self, place: usize, room: usize) -> Result<(), Wrong> {
        let brought = self.under_way.take_out(place);
        let own = brought.frame.addressee();
        match self.gateways[usize::from(own)].take(&frame::write(&brought.frame), room) {
            Ok(output) => {
                self.count_cancels(&output);
                self.under_way.accept(own, brought, output)?;
            }
            Err(Refusal::NoRoom) => {
                self.tally.refused += 1;
                self.under_way.put_back(brought);
            }
            Err(why) => return Err(format!("{:?} refused with {why:?}", brought.frame)),
        }
        self.check()
    }

    /// The start call at any gateway.
    pub fn start(&mut self, own: u8, room: usize) -> Result<(), Wrong> {
        let in_turn = own == 0 && self.under_way.may_start();
        let answer = self.gateways[usize::from(own)].start(room);
        match answer {
            Ok(output) if in_turn => self.under_way.start(output)?,
            Err(Refusal::NoRoom) if in_turn => {}
            Err(Refusal::OutOfTurn) if !in_turn => {}
            _ => return Err(format!("start of {own} answered {answer:?}")),
        }
        self.check()
    }

    /// Commits one event if there is one; whether there was.
    pub fn commit(&mut self, own: u8, room: usize) -> Result<bool, Wrong> {
        let answer = self.gateways[usize::from(own)].commit(room);
        match answer {
            Ok(done) => self.record(own, done)?,
            Err(Refusal::NoRoom) => self.tally.refused += 1,
            Err(Refusal::Nothing) => {}
            Err(why) => return Err(format!("commit of {own} answered {why:?}")),
        }
        self.check()?;
        Ok(answer.is_ok())
    }

    /// A commit of gateway `own` wrote this event.
    fn record(&mut self, own: u8, done: Done) -> Result<(), Wrong> {
        let at = usize::from(own);
        let expected = self.whole[at].get(self.records[at].len());
        if expected.map(record::bytes) != Some(record::bytes(&done)) {
            return Err(format!("{own} commits {done:?}, the single queue {expected:?}"));
        }
        self.records[at].push(done);
        let book = &mut self.books[at];
        book.add(&done);
        if !book.balances() {
            return Err(format!("the record of {own} does not balance: {book:?}"));
        }
        Ok(())
    }

    /// The records are those of the single queue, byte for byte.
    pub fn agrees(&self) -> bool {
        let bytes = |records: &[Vec<Done>]| -> Vec<Vec<u8>> {
            records.iter().map(|record| record.iter().flat_map(record::bytes).collect()).collect()
        };
        bytes(&self.records) == bytes(&self.whole)
    }

    fn write(&mut self, own: u8, output: Vec<Frame>) -> Result<(), Wrong> {
        self.count_cancels(&output);
        self.under_way.write(own, output)
    }

    fn count_cancels(&mut self, output: &[Frame]) {
        let is_cancel = |frame: &&Frame| matches!(frame, Frame::Event { sense: Sense::Cancel, .. });
        self.tally.cancels += output.iter().filter(is_cancel).count();
    }

    /// No agreed time has fallen, and none is past an hour that waits or is under way.
    fn check(&mut self) -> Result<(), Wrong> {
        self.tally.calls += 1;
        let cancel_waits = self.gateways.iter().any(Gateway::has_waiting_cancel);
        self.tally.cancels_waiting += usize::from(cancel_waits);

        let under_way = self.under_way.least();
        let waiting = round::least(self.gateways.iter().map(Gateway::least_waiting));
        for (own, gateway) in self.gateways.iter().enumerate() {
            check_agreed(own, self.agreed[own], gateway.agreed(), waiting, under_way)?;
            self.agreed[own] = gateway.agreed();
        }
        Ok(())
    }
}

#[cfg(test)]
mod tests {
    use super::*;
    use crate::carrier::{self, End};
    use crate::forecast::{failure, setup};

    const LAMP_2: [u8; 18] = *b"L00000000000000002";
    const LAMP_3: [u8; 18] = *b"L00000000000000003";

    /// The given gateways work and all frames but the held ones are brought, until nothing is left.
    fn settle(run: &mut Run, working: &[u8], held: impl Fn(&Frame) -> bool) {
        let mut written = usize::MAX;
        while written != run.written() {
            written = run.written();
            for &own in working {
                run.work(own, 100, AMPLE).unwrap();
            }
            while let Some(place) =
                run.under_way.carried().iter().position(|carried| !held(&carried.frame))
            {
                run.bring(place, AMPLE).unwrap();
            }
        }
    }

    fn is_message(frame: &Frame) -> bool {
        matches!(frame, Frame::Event { .. })
    }

    /// Gateway 1 gives its one lamp to gateway 0, though an earlier Request of gateway 2 is still to
    /// come. The Failure that follows from it at 43,830 is then cancelled while gateway 0 notes, and
    /// that cancel is the earliest message under way when the round closes.
    #[test]
    fn a_cancel_sent_during_the_round_counts() {
        let setups = [
            setup(3, 0, 1, 0, 43_840, &[failure(0, 5, LAMP_2)]),
            setup(3, 1, 2, 1, 43_840, &[]),
            setup(3, 2, 1, 10, 43_840, &[failure(2, 3, LAMP_3)]),
        ];
        let own_cancel = |frame: &Frame| {
            let &Frame::Event { sense, message } = frame else { return false };
            sense == Sense::Cancel && (message.from, message.to) == (0, 0)
        };
        let mut run = Run::new(&setups).unwrap();
        settle(&mut run, &[0, 1], |_| false);
        run.start(0, AMPLE).unwrap();
        settle(&mut run, &[0, 1, 2], |frame| !is_message(frame) || own_cancel(frame));
        settle(&mut run, &[], is_message);
        assert_eq!(run.agreed, [43_830; 3]);
        assert!(run.under_way.carried().iter().any(|carried| own_cancel(&carried.frame)));

        assert_eq!(carrier::finish(&mut run), Ok(End::Finished));
        assert!(run.agrees());
    }

    /// Equal frames count as brought in the order in which they were written.
    #[test]
    fn of_equal_frames_the_oldest_is_brought() {
        let mut run = Run::new(&crate::forecast::example()).unwrap();
        for _ in 0..2 {
            run.start(0, AMPLE).unwrap();
            run.bring(run.frames_under_way() - 1, AMPLE).unwrap();
            run.bring(run.frames_under_way() - 1, AMPLE).unwrap();
        }
        let rounds =
            |run: &Run| -> Vec<_> { run.under_way.carried().iter().map(|at| at.round).collect() };
        assert_eq!(run.frame(0), run.frame(1), "two equal Updates");
        assert_eq!(rounds(&run), [Some(0), Some(1)]);
        run.bring(1, AMPLE).unwrap();
        assert_eq!((rounds(&run), run.completed_rounds()), (vec![Some(1)], 1));
    }

    /// Rounds over all forms of the graph, those that share the bottom row among them.
    #[test]
    fn forecasts_of_many_gateways() {
        for nodes in 1..=40 {
            let supplier = |own: u8| (own + 1) % nodes;
            let opening = |own: u8| match own % 3 {
                0 => vec![failure(own, own.into(), LAMP_2), failure(own, 3, LAMP_3)],
                _ => vec![],
            };
            let stock = |own: u8| u32::from(own % 4 == 1);
            let setup = |own| setup(nodes, own, supplier(own), stock(own), 60, &opening(own));
            let setups: Vec<_> = (0..nodes).map(setup).collect();
            let mut run = Run::new(&setups).unwrap();
            assert_eq!(carrier::finish(&mut run), Ok(End::Finished), "{nodes} gateways");
            assert!(run.agrees());
            assert!(run.completed_rounds() > 1 && run.under_way.may_start());
        }
    }
}
