//! One run of the tests: the subject and the model side by side.

use luddrisa_model::{ledger_words, posting_words, postings_fit, sound, HOURS, USED};

use crate::plays::{judged, Play, CONTESTING};
use crate::reached::Reached;
use crate::rules::{Action, Answer, Model, Rules};
use crate::unwound::{stopped, UNWINDING};

/// A difference between the subject and the model, told in words.
pub type Difference = String;

const GUARD: usize = 8;
const GUARD_WORD: u32 = 0xa5a5_5a5a;

/// Answer places before they are written.
pub const UNWRITTEN: Answer =
    Answer { number: 901, reference: 902, before: 903, after: 904, moved: 905 };

/// The same words twice: the model's, and the subject's between guard words.
#[derive(Clone)]
pub struct Twice {
    model: Vec<u32>,
    subject: Vec<u32>,
}

impl Twice {
    pub fn new(words: &[u32]) -> Twice {
        let mut subject = vec![GUARD_WORD; GUARD];
        subject.extend_from_slice(words);
        subject.resize(words.len() + 2 * GUARD, GUARD_WORD);
        Twice { model: words.to_vec(), subject }
    }

    /// The words, which both agree on after every call.
    pub fn words(&self) -> &[u32] {
        &self.model
    }

    fn subject(&self) -> &[u32] {
        &self.subject[GUARD..self.subject.len() - GUARD]
    }

    fn subject_mut(&mut self) -> &mut [u32] {
        let end = self.subject.len() - GUARD;
        &mut self.subject[GUARD..end]
    }

    /// Sets a word on both sides.
    pub fn set(&mut self, at: usize, word: u32) {
        self.model[at] = word;
        self.subject_mut()[at] = word;
    }

    fn compare(&self, name: &str, what: impl Fn() -> String) -> Result<(), Difference> {
        let (front, rest) = self.subject.split_at(GUARD);
        let (subject, back) = rest.split_at(rest.len() - GUARD);
        if front.iter().chain(back).any(|&word| word != GUARD_WORD) {
            return Err(format!("{}: a word outside the {name} was written", what()));
        }
        if subject != self.model {
            let at = (0..self.model.len()).find(|&at| subject[at] != self.model[at]).unwrap();
            return Err(format!(
                "{}: word {at} of the {name} is {}, by the model {}",
                what(),
                subject[at],
                self.model[at]
            ));
        }
        Ok(())
    }
}

/// A ledger and its postings.
#[derive(Clone)]
pub struct Desk {
    pub ledger: Twice,
    pub postings: Twice,
}

impl Desk {
    pub fn new(ledger: &[u32], postings: &[u32]) -> Desk {
        Desk { ledger: Twice::new(ledger), postings: Twice::new(postings) }
    }

    pub fn ledger(&self) -> &[u32] {
        self.ledger.words()
    }

    pub fn postings(&self) -> &[u32] {
        self.postings.words()
    }

    /// True where both are sound.
    pub fn is_sound(&self) -> bool {
        sound(self.ledger()) && postings_fit(self.postings(), self.ledger()[HOURS])
    }

    fn batch_by_model(&mut self, words: &[u32], actions: &[Action], answers: &mut [Answer]) -> u32 {
        Model.batch(&mut self.ledger.model, &mut self.postings.model, words, actions, answers)
    }

    fn batch_by(
        &mut self,
        subject: &dyn Rules,
        words: &[u32],
        actions: &[Action],
        answers: &mut [Answer],
    ) -> u32 {
        let Desk { ledger, postings } = self;
        subject.batch(ledger.subject_mut(), postings.subject_mut(), words, actions, answers)
    }

    fn compare(&self, what: impl Fn() -> String) -> Result<(), Difference> {
        self.ledger.compare("ledger", &what)?;
        self.postings.compare("postings", &what)
    }
}

/// A run of the generators over one subject.
pub struct Run<'a> {
    subject: &'a dyn Rules,
    pub reached: Reached,
    /// Actions answered, each by both.
    pub actions: u64,
    /// Contests answered, each by both.
    pub contests: u64,
    /// Lists of references to annul, each answered by both.
    pub orders: u64,
}

impl<'a> Run<'a> {
    pub fn new(subject: &'a dyn Rules) -> Run<'a> {
        Run { subject, reached: Reached::default(), actions: 0, contests: 0, orders: 0 }
    }

    pub fn subject(&self) -> &'a dyn Rules {
        self.subject
    }

    /// Creation over the words that stand in the slice.
    pub fn create(&mut self, old: &[u32], numbers: [u32; 5]) -> Result<(u32, Twice), Difference> {
        let mut ledger = Twice::new(old);
        let ours = Model.create(&mut ledger.model, numbers);
        let theirs = self.subject.create(ledger.subject_mut(), numbers);
        let what = || format!("create {numbers:?} over {} words", old.len());
        if ours != theirs {
            return Err(format!("{}: {theirs}, by the model {ours}", what()));
        }
        ledger.compare("ledger", what)?;
        self.reached.note_call("create", ours);
        Ok((ours, ledger))
    }

    /// Opening, which leaves every word as it is.
    pub fn open(&mut self, ledger: &Twice) -> Result<u32, Difference> {
        let ours = Model.open(&ledger.model);
        let theirs = self.subject.open(ledger.subject());
        if ours != theirs {
            return Err(format!("opening: {theirs}, by the model {ours}"));
        }
        ledger.compare("ledger", || format!("opening answered {ours}"))?;
        self.reached.note_opening(&ledger.model, ours);
        Ok(ours)
    }

    /// Opening of words.
    pub fn open_words(&mut self, words: &[u32]) -> Result<u32, Difference> {
        self.open(&Twice::new(words))
    }

    /// Opening of a ledger that must open.
    pub fn opens(&mut self, ledger: &Twice) -> Result<(), Difference> {
        match self.open(ledger)? {
            0 => Ok(()),
            number => Err(format!("does not open, but gives {number}")),
        }
    }

    /// A fresh ledger with nothing posted; the numbers must be good.
    pub fn fresh(&mut self, numbers: [u32; 5]) -> Result<Desk, Difference> {
        let old = vec![7; ledger_words(numbers[0], numbers[1])];
        let (number, ledger) = self.create(&old, numbers)?;
        assert_eq!(number, 0, "numbers of a fresh ledger");
        self.opens(&ledger)?;
        Ok(Desk { ledger, postings: Twice::new(&vec![0; posting_words(numbers[1])]) })
    }

    /// One action by itself.
    pub fn act(
        &mut self,
        desk: &mut Desk,
        words: &[u32],
        action: &Action,
    ) -> Result<Answer, Difference> {
        let mut ours = [UNWRITTEN];
        let mut theirs = [UNWRITTEN];
        let one = std::slice::from_ref(action);
        let ours_gave = desk.batch_by_model(words, one, &mut ours);
        let theirs_gave = desk.batch_by(self.subject, words, one, &mut theirs);
        self.actions += 1;
        if (ours, ours_gave) != (theirs, theirs_gave) {
            return Err(format!(
                "{action:?}: {:?} with {theirs_gave}, by the model {:?} with {ours_gave}",
                theirs[0], ours[0]
            ));
        }
        desk.compare(|| format!("{action:?} answered {:?}", ours[0]))?;
        // The model looks at soundness once in a batch, for no action ends it.
        if ours[0].number == 0 && !desk.is_sound() {
            return Err(format!("{action:?} left an unsound ledger or postings"));
        }
        self.reached.note(desk.ledger(), desk.postings(), words, action, &ours[0]);
        Ok(ours[0])
    }

    /// A list handed over together, with so many answer places.
    pub fn batch(
        &mut self,
        desk: &mut Desk,
        words: &[u32],
        actions: &[Action],
        places: usize,
    ) -> Result<(u32, Vec<Answer>), Difference> {
        let mut ours = vec![UNWRITTEN; places];
        let mut theirs = vec![UNWRITTEN; places];
        let ours_gave = desk.batch_by_model(words, actions, &mut ours);
        let theirs_gave = desk.batch_by(self.subject, words, actions, &mut theirs);
        self.actions += actions.len() as u64;
        let what = || format!("batch of {} with {places} places", actions.len());
        if ours_gave != theirs_gave {
            return Err(format!("{}: {theirs_gave}, by the model {ours_gave}", what()));
        }
        if let Some(at) = (0..places).find(|&at| ours[at] != theirs[at]) {
            return Err(format!(
                "{}, place {at}: {:?}, by the model {:?}",
                what(),
                theirs[at],
                ours[at]
            ));
        }
        desk.compare(what)?;
        self.reached.note_call("batch", ours_gave);
        Ok((ours_gave, ours))
    }

    /// A contest by itself. What it comes to is worked out a second time, from the ledger
    /// as it was.
    pub fn contest(&mut self, desk: &mut Desk, play: &Play) -> Result<Answer, Difference> {
        let Play { contest, moves, replies } = play;
        let ending = judged(&CONTESTING, desk.ledger(), desk.postings(), play);
        let lists = [Twice::new(moves), Twice::new(replies)];
        let Desk { ledger, postings } = &mut *desk;
        let ours = Model.contest(&mut ledger.model, &mut postings.model, contest, moves, replies);
        let theirs = self.subject.contest(
            ledger.subject_mut(),
            postings.subject_mut(),
            contest,
            lists[0].subject(),
            lists[1].subject(),
        );
        self.contests += 1;
        if ours != theirs {
            return Err(format!("{play:?}: {theirs:?}, by the model {ours:?}"));
        }
        if ours.number != ending.number() {
            return Err(format!("{play:?}: {ours:?}, worked out apart {ending:?}"));
        }
        let what = || format!("{play:?} answered {ours:?}");
        desk.compare(what)?;
        lists[0].compare("moves", what)?;
        lists[1].compare("replies", what)?;
        if ours.number == 0 && !desk.is_sound() {
            return Err(format!("{play:?} left an unsound ledger or postings"));
        }
        self.reached.note_contest(desk.ledger(), play, ending);
        Ok(ours)
    }

    /// Annulments in order, which leave every word as it is. What they come to is worked
    /// out a second time.
    pub fn annuls_in_order(
        &mut self,
        desk: &mut Desk,
        references: &[u32],
    ) -> Result<bool, Difference> {
        let stopped = stopped(&UNWINDING, desk.ledger(), desk.postings(), references);
        let list = Twice::new(references);
        let Desk { ledger, postings } = &mut *desk;
        let ours = Model.annuls_in_order(&mut ledger.model, &mut postings.model, references);
        let theirs = self.subject.annuls_in_order(
            ledger.subject_mut(),
            postings.subject_mut(),
            list.subject(),
        );
        self.orders += 1;
        let what = || format!("annulling {references:?}");
        if ours != theirs {
            return Err(format!("{}: {theirs}, by the model {ours}", what()));
        }
        if (ours == 1) != stopped.is_none() {
            return Err(format!("{}: {ours}, worked out apart {stopped:?}", what()));
        }
        desk.compare(what)?;
        list.compare("references", what)?;
        self.reached.note_order(desk.ledger(), desk.postings(), references, stopped);
        Ok(ours == 1)
    }

    /// The charge and the profile in force of one reference.
    pub fn read_out(&mut self, ledger: &Twice, reference: u32) -> Result<(), Difference> {
        let ours = Model.charge(&ledger.model, reference);
        let theirs = self.subject.charge(ledger.subject(), reference);
        if ours != theirs {
            return Err(format!("charge of {reference}: {theirs:?}, by the model {ours:?}"));
        }
        self.reached.note_call("charge", ours.0);

        let hours = ledger.model.get(HOURS).map_or(1, |&hours| hours.min(744)) as usize;
        let needed = Model.profile_in_force(&ledger.model, reference, &mut vec![0; hours]);
        // Too few places, just enough, and spare ones.
        for places in [needed.saturating_sub(1), needed, needed + 2] {
            let mut ours = vec![GUARD_WORD; places];
            let mut theirs = vec![GUARD_WORD; places];
            let ours_gave = Model.profile_in_force(&ledger.model, reference, &mut ours);
            let theirs_gave =
                self.subject.profile_in_force(ledger.subject(), reference, &mut theirs);
            if (&ours, ours_gave) != (&theirs, theirs_gave) {
                return Err(format!(
                    "profile in force of {reference} into {places} places: \
                     {theirs_gave} {theirs:?}, by the model {ours_gave} {ours:?}"
                ));
            }
        }
        ledger.compare("ledger", || format!("reading out {reference}"))
    }

    /// Every reference of a ledger, and those just outside.
    pub fn read_all_out(&mut self, ledger: &Twice) -> Result<(), Difference> {
        let used = ledger.model.get(USED).map_or(0, |&used| used.min(1_024));
        for reference in 0..=used + 1 {
            self.read_out(ledger, reference)?;
        }
        self.read_out(ledger, u32::MAX)
    }
}
