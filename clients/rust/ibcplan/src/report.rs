//! Reports with types, as "The report as JSON" in docs/FORMATS.md has them. Heights, sequences and fees are numbers.
use crate::{Error, Fault, Json, Table, table};

/// The report of a script.
#[derive(Clone, Debug, PartialEq, Eq)]
pub struct Report {
    /// The format: 1, 3 or 4.
    pub format: u64,
    /// The turns, in order.
    pub turns: Vec<Turn>,
    /// The clients after the last turn.
    pub clients: Vec<Health>,
}

/// The report of a turn.
#[derive(Clone, Debug, PartialEq, Eq)]
pub struct Turn {
    /// Whether the window was refused, since it goes back.
    pub window_back: bool,
    /// The hosts whose windows were refused, in version 4.
    pub windows_back: Vec<String>,
    /// The events that were refused.
    pub refused: Vec<RefusedEvent>,
    /// The clients, in the script's order.
    pub clients: Vec<Client>,
    /// The settlements.
    pub settlements: Vec<Settlement>,
}

/// A number and a name, as 404 `Conflict`.
#[derive(Clone, Debug, PartialEq, Eq)]
pub struct Refusal {
    /// The number.
    pub number: u64,
    /// The name.
    pub name: String,
}

/// An event that was refused.
#[derive(Clone, Debug, PartialEq, Eq)]
pub struct RefusedEvent {
    /// The event's place in the turn, from 0.
    pub event: u64,
    /// Why it was refused.
    pub refusal: Refusal,
}

/// A settlement.
#[derive(Clone, Debug, PartialEq, Eq)]
pub struct Settlement {
    /// The client.
    pub client: String,
    /// The batch's number.
    pub batch: u64,
    /// How many of its transactions were taken.
    pub done: u64,
    /// Why it was refused, if it was.
    pub refusal: Option<Refusal>,
}

/// What a turn has for a client.
#[derive(Clone, Debug, PartialEq, Eq)]
pub struct Client {
    /// The client.
    pub id: String,
    /// What it has.
    pub outcome: Outcome,
    /// The packet messages that stay, since they are over the gas limit alone, in version 4.
    pub left_out: Vec<Message>,
}

/// What a turn has for a client.
#[derive(Clone, Debug, PartialEq, Eq)]
pub enum Outcome {
    /// A batch is open: settle it.
    Held {
        /// Its number.
        batch: u64,
    },
    /// There is nothing to send.
    Idle {
        /// When something is due.
        next: Option<String>,
    },
    /// The goal can't be reached with these headers.
    Unreachable {
        /// The goal.
        goal: Goal,
        /// What was asked for above it, and is out of reach, in version 4.
        beyond: Option<Goal>,
        /// What can be reached.
        labels: Vec<Label>,
    },
    /// The least list of updates, and what is to be sent.
    Plan(Plan),
}

/// A wanted height.
#[derive(Clone, Copy, Debug, PartialEq, Eq)]
pub enum Goal {
    /// This height or a higher one.
    AtLeast(u64),
    /// This height.
    Exactly(u64),
}

/// The least fee at which a height is reached.
#[derive(Clone, Copy, Debug, PartialEq, Eq)]
pub struct Label {
    /// The height.
    pub height: u64,
    /// The least fee.
    pub fee: u64,
    /// The least number of updates at this fee.
    pub count: u64,
}

/// A plan.
#[derive(Clone, Debug, PartialEq, Eq)]
pub struct Plan {
    /// The goal.
    pub goal: Goal,
    /// What was asked for above it, and is out of reach, in version 4.
    pub beyond: Option<Goal>,
    /// What can be reached.
    pub labels: Vec<Label>,
    /// The updates, in the order of submission.
    pub updates: Vec<Update>,
    /// What they cost.
    pub total: Total,
    /// The packet messages, which go behind the updates.
    pub messages: Vec<Message>,
    /// What is to be sent.
    pub sending: Sending,
    /// When something is due.
    pub next: Option<String>,
}

/// An update of a client.
#[derive(Clone, Debug, PartialEq, Eq)]
pub struct Update {
    /// The height of its header.
    pub height: u64,
    /// The height of the consensus state that it trusts.
    pub trusted: u64,
    /// What it costs.
    pub fee: u64,
    /// The votes that it carries, where it doesn't carry all.
    pub votes: Option<Votes>,
}

/// The votes of an update.
#[derive(Clone, Debug, PartialEq, Eq)]
pub struct Votes {
    /// How many the header has.
    pub commits: u64,
    /// The addresses of those that go, in upper-case digits. Mark all others absent.
    pub addresses: Vec<String>,
}

/// What all updates cost.
#[derive(Clone, Copy, Debug, PartialEq, Eq)]
pub struct Total {
    /// The fee.
    pub fee: u64,
    /// Their number.
    pub updates: u64,
}

/// A kind of packet message.
#[derive(Clone, Copy, Debug, PartialEq, Eq)]
pub enum Kind {
    /// A receive.
    Receive,
    /// An acknowledgement.
    Acknowledge,
    /// A timeout.
    Timeout,
}

/// A packet message.
#[derive(Clone, Debug, PartialEq, Eq)]
pub struct Message {
    /// Its kind.
    pub kind: Kind,
    /// The path.
    pub path: String,
    /// The packet's sequence.
    pub sequence: u64,
}

/// What is to be sent.
#[derive(Clone, Debug, PartialEq, Eq)]
pub enum Sending {
    /// Nothing.
    Nothing,
    /// Nothing, since this message alone is over the gas limit; updates are counted first, from 0.
    TooBig(u64),
    /// A batch, which is open until it is settled.
    Batch(Batch),
}

/// The transactions of a turn for a client.
#[derive(Clone, Debug, PartialEq, Eq)]
pub struct Batch {
    /// Its number among the client's.
    pub number: u64,
    /// The height at which packet messages are proved.
    pub proof: u64,
    /// The transactions, in the order of submission.
    pub transactions: Vec<Transaction>,
}

/// A transaction: updates first, then packet messages.
#[derive(Clone, Copy, Debug, PartialEq, Eq)]
pub struct Transaction {
    /// Its first message, from 0; updates are counted first.
    pub first: u64,
    /// How many it has.
    pub count: u64,
    /// Its gas.
    pub gas: u64,
}

/// A client after the last turn.
#[derive(Clone, Debug, PartialEq, Eq)]
pub struct Health {
    /// The client.
    pub id: String,
    /// When its newest stored consensus state expires, if anything is stored.
    pub expiry: Option<Expiry>,
}

/// When a client expires.
#[derive(Clone, Debug, PartialEq, Eq)]
pub struct Expiry {
    /// The moment.
    pub expires: String,
    /// Whether that is after the window.
    pub live: bool,
}

impl Batch {
    /// What to tell by `settle` when so many of the transactions were taken, from the first on.
    pub fn settlement(&self, client: &str, done: usize) -> Table {
        table! { client: client, batch: self.number, done: done as u64 }
    }
}

impl Turn {
    /// The batches to send, with their clients.
    pub fn batches(&self) -> impl Iterator<Item = (&str, &Batch)> {
        self.clients.iter().filter_map(|client| match &client.outcome {
            Outcome::Plan(Plan { sending: Sending::Batch(batch), .. }) => Some((client.id.as_str(), batch)),
            _ => None,
        })
    }
}

impl Report {
    pub(crate) fn read(text: &str) -> Result<Report, Error> {
        let value = Json::read(text)?;
        let format = format_of(&value)?;
        Ok(Report { format, turns: value.array("turns", Turn::of)?, clients: value.array("clients", Health::of)? })
    }
}

impl Turn {
    fn of(value: &Json) -> Result<Turn, Error> {
        Ok(Turn {
            window_back: value.boolean("window_back")?,
            windows_back: value
                .if_has("windows_back", |value| value.array("windows_back", identifier))?
                .unwrap_or_default(),
            refused: value.array("refused", |value| {
                Ok(RefusedEvent { event: value.number("event")?, refusal: Refusal::of(value)? })
            })?,
            clients: value.array("clients", Client::of)?,
            settlements: value.array("settlements", Settlement::of)?,
        })
    }

    /// The answer to a turn that `follow` was given, or its fault.
    pub(crate) fn answer(value: &Json) -> Result<Turn, Error> {
        match value.get("fault") {
            None => Turn::of(value),
            Some(_) => Err(Error::Fault(Fault::of(value)?)),
        }
    }
}

/// The format of a report, or of the answers that a greeting comes before.
pub(crate) fn format_of(value: &Json) -> Result<u64, Error> {
    match value.number("ibcplan")? {
        format @ (1 | 3 | 4) => Ok(format),
        format => Err(Error::Unreadable(format!("a report of format {format}"))),
    }
}

fn identifier(value: &Json) -> Result<String, Error> {
    match value {
        Json::Text(identifier) => Ok(identifier.clone()),
        _ => Err(Error::Unreadable("an identifier is no text".to_owned())),
    }
}

impl Refusal {
    fn of(value: &Json) -> Result<Refusal, Error> {
        Ok(Refusal { number: value.number("number")?, name: value.text("name")? })
    }
}

impl Settlement {
    fn of(value: &Json) -> Result<Settlement, Error> {
        Ok(Settlement {
            client: value.text("client")?,
            batch: value.number("batch")?,
            done: value.number("done")?,
            refusal: value.if_has("number", Refusal::of)?,
        })
    }
}

impl Client {
    fn of(value: &Json) -> Result<Client, Error> {
        let outcome = match value.text("outcome")?.as_str() {
            "held" => Outcome::Held { batch: value.number("batch")? },
            "idle" => Outcome::Idle { next: value.if_has("next", |value| value.text("next"))? },
            "unreachable" => Outcome::Unreachable {
                goal: Goal::of(value, "goal")?,
                beyond: value.if_has("beyond", |value| Goal::of(value, "beyond"))?,
                labels: value.array("labels", Label::of)?,
            },
            "plan" => Outcome::Plan(Plan::of(value)?),
            other => return Err(Error::Unreadable(format!("an outcome {other}"))),
        };
        let left_out = value.if_has("left_out", |value| value.array("left_out", Message::of))?.unwrap_or_default();
        Ok(Client { id: value.text("id")?, outcome, left_out })
    }
}

impl Goal {
    fn of(client: &Json, key: &str) -> Result<Goal, Error> {
        let goal = client.at(key)?;
        match goal.if_has("exactly", |goal| goal.number("exactly"))? {
            Some(height) => Ok(Goal::Exactly(height)),
            None => Ok(Goal::AtLeast(goal.number("at_least")?)),
        }
    }
}

impl Label {
    fn of(value: &Json) -> Result<Label, Error> {
        Ok(Label { height: value.number("height")?, fee: value.number("fee")?, count: value.number("count")? })
    }
}

impl Plan {
    fn of(value: &Json) -> Result<Plan, Error> {
        let total = value.at("total")?;
        Ok(Plan {
            goal: Goal::of(value, "goal")?,
            beyond: value.if_has("beyond", |value| Goal::of(value, "beyond"))?,
            labels: value.array("labels", Label::of)?,
            updates: value.array("updates", Update::of)?,
            total: Total { fee: total.number("fee")?, updates: total.number("updates")? },
            messages: value.array("messages", Message::of)?,
            sending: Sending::of(value)?,
            next: value.if_has("next", |value| value.text("next"))?,
        })
    }
}

impl Update {
    fn of(value: &Json) -> Result<Update, Error> {
        Ok(Update {
            height: value.number("height")?,
            trusted: value.number("trusted")?,
            fee: value.number("fee")?,
            votes: value.if_has("votes", Votes::of)?,
        })
    }
}

impl Votes {
    fn of(update: &Json) -> Result<Votes, Error> {
        let address = |value: &Json| match value {
            Json::Text(address) => Ok(address.clone()),
            _ => Err(Error::Unreadable("an address is no text".to_owned())),
        };
        Ok(Votes { commits: update.number("commits")?, addresses: update.array("votes", address)? })
    }
}

impl Message {
    fn of(value: &Json) -> Result<Message, Error> {
        let kind = match value.text("kind")?.as_str() {
            "recv" => Kind::Receive,
            "ack" => Kind::Acknowledge,
            "timeout" => Kind::Timeout,
            other => return Err(Error::Unreadable(format!("a message {other}"))),
        };
        Ok(Message { kind, path: value.text("path")?, sequence: value.number("sequence")? })
    }
}

impl Sending {
    fn of(plan: &Json) -> Result<Sending, Error> {
        if let Some(message) = plan.if_has("too_big", |plan| plan.number("too_big"))? {
            return Ok(Sending::TooBig(message));
        }
        Ok(plan.if_has("batch", Batch::of)?.map_or(Sending::Nothing, Sending::Batch))
    }
}

impl Batch {
    fn of(plan: &Json) -> Result<Batch, Error> {
        let transaction = |value: &Json| {
            Ok(Transaction { first: value.number("first")?, count: value.number("count")?, gas: value.number("gas")? })
        };
        let transactions = plan.array("transactions", transaction)?;
        Ok(Batch { number: plan.number("batch")?, proof: plan.number("proof")?, transactions })
    }
}

impl Health {
    fn of(value: &Json) -> Result<Health, Error> {
        let expiry = |value: &Json| Ok(Expiry { expires: value.text("expires")?, live: value.boolean("live")? });
        Ok(Health { id: value.text("id")?, expiry: value.if_has("expires", expiry)? })
    }
}
