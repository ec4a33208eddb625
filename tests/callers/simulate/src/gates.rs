//! Gates of a simulated replica. A server's gate waits for an update's outcome; here a session's update is asked for at one step and answered at a later
//! one. A twin of the session, which hears the same octets, is one message ahead: its gate notes what is asked.

use dir_node::{Op, Standing};
use dir_seats::{
    Client, CompareRequest, Ended, Found, Gate, Look, LookError, Reply, Role, SearchAnswer,
    SearchRequest, Seat, Teller, Told, Update,
};
use std::alloc::Global;

/// Which node a seat is of.
pub struct Here;

/// The role of a standing. The URIs of replicas don't matter here.
fn role_of(alloc: Global, standing: Standing) -> Role {
    match standing {
        Standing::Primary => Role::Primary,
        Standing::Backup { primary } => match format!(in alloc; "ldap://replica{primary}") {
            Ok(uri) => Role::Backup { uri },
            Err(_) => Role::Changing,
        },
        Standing::Changing => Role::Changing,
        Standing::Recovering => Role::Recovering,
    }
}

/// What a session asked its gate for.
#[derive(Drop)]
pub struct Noted {
    pub client: Client,
    pub number: u64,
    pub op: Op,
}

/// The gate of a session's twin: it notes what is asked, and answers that nothing is known.
#[derive(Drop)]
pub struct AskingGate {
    pub standing: Standing,
    pub noted: Option<Noted>,
    /// Planted: what is asked becomes an update that changes nothing.
    pub is_noop: bool,
    pub asked: u64,
}

impl Gate<Option<Told<Here>>> for AskingGate {
    ghost use Rattle.std.specs.Prelude.{◌≡◌, ◌+◌, min};
    ghost use Rattle.ldap_session.specs.directory_api.Counting.{updates_of, greatest_count};

    ghost allows = { λ d x e. e.asked ≡ min (d.asked + updates_of x) greatest_count };

    ghost count = { λ d. d.asked };

    fn role(&mut self, alloc: Global) -> (Role, Option<Told<Here>>) {
        self.asked = self.asked.saturating_add(0);
        (role_of(alloc, self.standing), None)
    }

    fn update(&mut self, alloc: Global, client: Client, number: u64, update: Update) -> Ended {
        self.asked = self.asked.saturating_add(1);
        let asked = if self.is_noop { Update::Noop } else { update };
        match Op::new(alloc, asked) {
            Ok(op) => {
                self.noted = Some(Noted { client, number, op });
                Ended::Lost
            }
            Err(_) => Ended::NoMemory,
        }
    }

    fn asked(&self) -> u64 {
        self.asked
    }

    ghost counts = { λ _ _ _ p. p };
}

/// The gate of the session itself: the role as it was when the update was asked for, and how that has ended meanwhile.
#[derive(Drop)]
pub struct TurnGate<'a> {
    pub standing: Standing,
    /// None, where nothing is told.
    pub teller: Option<&'a Teller<Here>>,
    pub ended: Option<Ended>,
    pub asked: u64,
}

impl<'a> Gate<Option<Told<Here>>> for TurnGate<'a> {
    ghost use Rattle.std.specs.Prelude.{◌≡◌, ◌+◌, min};
    ghost use Rattle.ldap_session.specs.directory_api.Counting.{updates_of, greatest_count};

    ghost allows = { λ d x e. e.asked ≡ min (d.asked + updates_of x) greatest_count };

    ghost count = { λ d. d.asked };

    fn role(&mut self, alloc: Global) -> (Role, Option<Told<Here>>) {
        self.asked = self.asked.saturating_add(0);
        let told = match self.teller {
            Some(teller) => teller.tell(),
            None => None,
        };
        (role_of(alloc, self.standing), told)
    }

    fn update(&mut self, _alloc: Global, _client: Client, _number: u64, _update: Update) -> Ended {
        self.asked = self.asked.saturating_add(1);
        self.ended.take().unwrap_or(Ended::Lost)
    }

    fn asked(&self) -> u64 {
        self.asked
    }

    ghost counts = { λ _ _ _ p. p };
}

/// A look that finds nothing, for the twin.
#[derive(Drop)]
pub struct Blind {
    pub learned: u64,
}

impl Look for Blind {
    type Told = Option<Told<Here>>;

    ghost allows = { λ _ _ _. Unit {0} };

    fn search(
        &mut self,
        _alloc: Global,
        _named: u64,
        _request: &SearchRequest,
    ) -> Result<Found<SearchAnswer>, LookError> {
        Err(LookError::NoMemory)
    }

    fn compare(
        &mut self,
        _alloc: Global,
        _named: u64,
        _request: &CompareRequest,
    ) -> Result<Found<Reply>, LookError> {
        Err(LookError::NoMemory)
    }

    fn learn(&mut self, _told: Option<Told<Here>>) {
        self.learned += 1;
    }
}

/// The seat of a machine, lent to a session for one message.
#[derive(Drop)]
pub struct Lent<'a> {
    pub seat: &'a mut Seat<Here>,
}

impl<'a> Look for Lent<'a> {
    type Told = Option<Told<Here>>;

    ghost allows = { λ _ _ _. Unit {0} };

    fn search(
        &mut self,
        alloc: Global,
        named: u64,
        request: &SearchRequest,
    ) -> Result<Found<SearchAnswer>, LookError> {
        self.seat.search(alloc, named, request)
    }

    fn compare(
        &mut self,
        alloc: Global,
        named: u64,
        request: &CompareRequest,
    ) -> Result<Found<Reply>, LookError> {
        self.seat.compare(alloc, named, request)
    }

    fn learn(&mut self, told: Option<Told<Here>>) {
        if let Some(told) = told {
            self.seat.learn(told);
        }
    }
}
