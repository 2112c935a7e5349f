//! The floor: what plain Rust does with the same lines. No crates, checks or proofs.
//!
//! It keeps a list of versions for each key of the sample table, `emp (no INT, name TEXT)` with the
//! key `no`, and gives the replies that tsvd gives, byte for byte. It has no other tables, no SPLIT,
//! MIGRATE or ALTER, no loads and no exports.
//!
//!     rustc -O --edition 2021 floor.rs
//!     floor < SCRIPT
//!     floor --listen PORT --sessions NUMBER

use std::collections::BTreeMap;
use std::io::{self, BufRead, BufReader, BufWriter, Write};
use std::net::{TcpListener, TcpStream};
use std::sync::{Arc, Mutex};
use std::time::{SystemTime, UNIX_EPOCH};

const LAST_INSTANT: u64 = 999_999_999_999_999_999;
const LONGEST_LINE: usize = 8_192;
const LONGEST_NAME: usize = 64;
const LONGEST_TEXT: usize = 1_000;
const MOST_SESSIONS: u128 = 64;
const MOST_WRITES: usize = 1_000;

/// A value of the column `name`; `None` is NULL.
type Name = Option<Box<str>>;

/// A row without its key; `None` is a deletion.
type Row = Option<Name>;

enum Refusal {
    Syntax(usize),
    NoTable,
    BadRow(u8),
    NoTransaction,
    InTransaction,
    DuplicateKey(i64),
    Conflict(i64, u64),
    ClockEnd,
    TooManyWrites,
    NoSession,
}

type Read<T> = Result<T, Refusal>;

/// A closed range of keys; empty where `low` is above `high`.
#[derive(Clone, Copy)]
struct Keys {
    low: i128,
    high: i128,
}

const ALL_KEYS: Keys = Keys {
    low: i64::MIN as i128,
    high: i64::MAX as i128,
};

#[derive(Clone, Copy)]
enum Form {
    Plain,
    AsOf(u64),
    FromTo(u64, u64),
    Between(u64, u64),
}

enum Statement {
    Begin,
    Commit,
    Rollback,
    Insert(Vec<(i64, Name)>),
    Update(Name, Keys),
    Delete(Keys),
    Select(Form, Keys),
}

enum Line {
    Blank,
    Clock(u64),
    Step(usize, Statement),
}

// Lines are read from the left, and the first fault is reported.

enum Literal {
    Number(i64),
    Text(String),
    Truth,
    Null,
}

#[rustfmt::skip]
const RESERVED: &[&str] = &[
    "CREATE", "TABLE", "WITH", "SYSTEM", "VERSIONING", "NOT", "NULL", "PRIMARY", "KEY", "TIMESTAMP",
    "GENERATED", "ALWAYS", "AS", "ROW", "START", "END", "PERIOD", "FOR", "SYSTEM_TIME", "INT",
    "INTEGER", "BIGINT", "TEXT", "VARCHAR", "BOOLEAN", "CLOCK", "SPLIT", "TIME", "AT", "MIGRATE",
    "BEGIN", "TRANSACTION", "COMMIT", "WORK", "ROLLBACK", "INSERT", "INTO", "VALUES", "UPDATE",
    "SET", "DELETE", "FROM", "SELECT", "OF", "TO", "BETWEEN", "AND", "WHERE", "TRUE", "FALSE",
    "ALTER", "ADD", "COLUMN", "WITHOUT", "OVERLAPS", "PORTION",
];

/// What is left of a line.
struct Tokens<'a> {
    line: &'a [u8],
    at: usize,
}

fn is_word_byte(byte: u8) -> bool {
    byte.is_ascii_alphanumeric() || byte == b'_'
}

impl<'a> Tokens<'a> {
    fn unexpected<T>(&self) -> Read<T> {
        Err(Refusal::Syntax(self.at))
    }

    fn skip_blanks(&mut self) {
        while matches!(self.line.get(self.at), Some(b' ' | b'\t')) {
            self.at += 1;
        }
    }

    /// Returns the word that comes next, of no bytes where none does.
    fn peek(&mut self) -> &'a [u8] {
        self.skip_blanks();
        let rest = &self.line[self.at..];
        if rest.first().is_some_and(|byte| byte.is_ascii_digit()) {
            return &rest[..0];
        }
        let length = rest.iter().take_while(|byte| is_word_byte(**byte)).count();
        &rest[..length]
    }

    fn take(&mut self, word: &str) -> bool {
        let next = self.peek();
        let found = next.eq_ignore_ascii_case(word.as_bytes());
        if found {
            self.at += next.len();
        }
        found
    }

    fn expect(&mut self, word: &str) -> Read<()> {
        if self.take(word) {
            Ok(())
        } else {
            self.unexpected()
        }
    }

    fn take_sign(&mut self, sign: u8) -> bool {
        self.skip_blanks();
        let found = self.line.get(self.at) == Some(&sign);
        self.at += usize::from(found);
        found
    }

    fn expect_sign(&mut self, sign: u8) -> Read<()> {
        if self.take_sign(sign) {
            Ok(())
        } else {
            self.unexpected()
        }
    }

    fn name(&mut self) -> Read<&'a [u8]> {
        let word = self.peek();
        let reserved = RESERVED
            .iter()
            .any(|other| word.eq_ignore_ascii_case(other.as_bytes()));
        if word.is_empty() || word.len() > LONGEST_NAME || reserved {
            return self.unexpected();
        }
        self.at += word.len();
        Ok(word)
    }

    /// Reads digits up to `most`; leading zeros do not matter.
    fn digits(&mut self, most: u128) -> Read<u128> {
        self.skip_blanks();
        let start = self.at;
        let mut number: u128 = 0;
        while let Some(byte) = self.line.get(self.at).filter(|byte| byte.is_ascii_digit()) {
            number = number
                .saturating_mul(10)
                .saturating_add(u128::from(byte - b'0'));
            self.at += 1;
        }
        if self.at == start || number > most {
            self.at = start;
            return self.unexpected();
        }
        Ok(number)
    }

    fn instant(&mut self) -> Read<u64> {
        Ok(self.digits(u128::from(LAST_INSTANT))? as u64)
    }

    fn text(&mut self) -> Read<String> {
        let start = self.at;
        let mut bytes = Vec::new();
        self.at += 1;
        loop {
            match (self.line.get(self.at), self.line.get(self.at + 1)) {
                (Some(b'\''), Some(b'\'')) => {
                    bytes.push(b'\'');
                    self.at += 2;
                }
                (Some(b'\''), _) => break,
                (Some(byte), _) => {
                    bytes.push(*byte);
                    self.at += 1;
                }
                (None, _) => return Err(Refusal::Syntax(start)),
            }
        }
        self.at += 1;
        String::from_utf8(bytes).map_err(|_| Refusal::Syntax(start))
    }

    fn number(&mut self) -> Read<i64> {
        let start = self.at;
        let negative = self.take_sign(b'-');
        let follows = self
            .line
            .get(self.at)
            .is_some_and(|byte| byte.is_ascii_digit());
        let most = (1 << 63) - u128::from(!negative);
        match self.digits(most) {
            Ok(number) if follows && negative => Ok((number as i128).wrapping_neg() as i64),
            Ok(number) if follows => Ok(number as i64),
            _ => Err(Refusal::Syntax(start)),
        }
    }

    fn literal(&mut self) -> Read<Literal> {
        self.skip_blanks();
        match self.line.get(self.at) {
            Some(b'\'') => Ok(Literal::Text(self.text()?)),
            Some(b'-' | b'0'..=b'9') => Ok(Literal::Number(self.number()?)),
            _ if self.take("TRUE") || self.take("FALSE") => Ok(Literal::Truth),
            _ if self.take("NULL") => Ok(Literal::Null),
            _ => self.unexpected(),
        }
    }

    fn row(&mut self) -> Read<Vec<Literal>> {
        self.expect_sign(b'(')?;
        let mut row = vec![self.literal()?];
        while self.take_sign(b',') {
            row.push(self.literal()?);
        }
        self.expect_sign(b')')?;
        Ok(row)
    }

    fn columns(&mut self) -> Read<Option<Vec<&'a [u8]>>> {
        if !self.take_sign(b'(') {
            return Ok(None);
        }
        let mut columns = vec![self.name()?];
        while self.take_sign(b',') {
            columns.push(self.name()?);
        }
        self.expect_sign(b')')?;
        Ok(Some(columns))
    }

    /// Reads `=`, `<`, `<=`, `>` or `>=`.
    fn comparison(&mut self) -> Read<(u8, bool)> {
        self.skip_blanks();
        let start = self.at;
        let sign = match self.line.get(start) {
            Some(sign @ (b'=' | b'<' | b'>')) => *sign,
            _ => return self.unexpected(),
        };
        let next = self.line.get(start + 1);
        if sign == b'<' && next == Some(&b'>') {
            return self.unexpected();
        }
        let closed = sign == b'=' || next == Some(&b'=');
        self.at += 1 + usize::from(sign != b'=' && closed);
        Ok((sign, closed))
    }

    fn condition(&mut self) -> Read<Vec<(&'a [u8], (u8, bool), Literal)>> {
        let mut condition = Vec::new();
        let mut more = self.take("WHERE");
        while more {
            condition.push((self.name()?, self.comparison()?, self.literal()?));
            more = self.take("AND");
        }
        Ok(condition)
    }

    fn end(&mut self) -> Read<()> {
        self.skip_blanks();
        if self.at < self.line.len() {
            return self.unexpected();
        }
        Ok(())
    }

    fn form(&mut self) -> Read<Form> {
        if !self.take("FOR") {
            return Ok(Form::Plain);
        }
        self.expect("SYSTEM_TIME")?;
        if self.take("AS") {
            self.expect("OF")?;
            return Ok(Form::AsOf(self.instant()?));
        }
        if self.take("BETWEEN") {
            let from = self.instant()?;
            self.expect("AND")?;
            return Ok(Form::Between(from, self.instant()?));
        }
        self.expect("FROM")?;
        let from = self.instant()?;
        self.expect("TO")?;
        Ok(Form::FromTo(from, self.instant()?))
    }
}

// A statement that was read is fitted to the table.

fn column(name: &[u8]) -> u8 {
    if name.eq_ignore_ascii_case(b"no") {
        1
    } else if name.eq_ignore_ascii_case(b"name") {
        2
    } else {
        0
    }
}

fn fit_table(name: &[u8]) -> Read<()> {
    if name.eq_ignore_ascii_case(b"emp") {
        Ok(())
    } else {
        Err(Refusal::NoTable)
    }
}

fn fit_name(value: Literal) -> Read<Name> {
    match value {
        Literal::Null => Ok(None),
        Literal::Text(text) if text.len() <= LONGEST_TEXT && !text.contains(['\n', '\r']) => {
            Ok(Some(text.into_boxed_str()))
        }
        _ => Err(Refusal::BadRow(2)),
    }
}

fn fit_condition(condition: Vec<(&[u8], (u8, bool), Literal)>) -> Read<Keys> {
    let mut keys = ALL_KEYS;
    for (name, (sign, closed), value) in condition {
        let value = match (column(name), value) {
            (1, Literal::Number(value)) => i128::from(value),
            (other, _) => return Err(Refusal::BadRow(other)),
        };
        let open = i128::from(!closed);
        if sign != b'<' {
            keys.low = keys.low.max(value + open);
        }
        if sign != b'>' {
            keys.high = keys.high.min(value - open);
        }
    }
    Ok(keys)
}

/// Returns the place of each column in the rows of an INSERT.
fn fit_columns(columns: Option<Vec<&[u8]>>) -> Read<Vec<u8>> {
    let Some(names) = columns else {
        return Ok(vec![1, 2]);
    };
    let mut order = Vec::new();
    for name in names {
        let place = column(name);
        if place == 0 || order.contains(&place) {
            return Err(Refusal::BadRow(0));
        }
        order.push(place);
    }
    if !order.contains(&1) {
        return Err(Refusal::BadRow(1));
    }
    Ok(order)
}

fn fit_row(order: &[u8], values: Vec<Literal>) -> Read<(i64, Name)> {
    if values.len() != order.len() {
        return Err(Refusal::BadRow(0));
    }
    let (mut key, mut name) = (Literal::Null, Literal::Null);
    for (place, value) in order.iter().zip(values) {
        if *place == 1 {
            key = value;
        } else {
            name = value;
        }
    }
    match key {
        Literal::Number(key) => Ok((key, fit_name(name)?)),
        _ => Err(Refusal::BadRow(1)),
    }
}

fn fit_settings(settings: Vec<(&[u8], Literal)>) -> Read<Name> {
    let mut name = None;
    for (set, value) in settings {
        match column(set) {
            2 if name.is_none() => name = Some(fit_name(value)?),
            1 => return Err(Refusal::BadRow(1)),
            _ => return Err(Refusal::BadRow(0)),
        }
    }
    Ok(name.flatten())
}

/// Ends a statement: its end is looked at first, then the session's number.
fn ended(tokens: &mut Tokens, session: u128) -> Read<()> {
    tokens.take_sign(b';');
    tokens.end()?;
    if session == 0 || session > MOST_SESSIONS {
        return Err(Refusal::NoSession);
    }
    Ok(())
}

fn read_insert(tokens: &mut Tokens, session: u128) -> Read<Statement> {
    tokens.expect("INTO")?;
    let table = tokens.name()?;
    let columns = tokens.columns()?;
    tokens.expect("VALUES")?;
    let mut rows = vec![tokens.row()?];
    while tokens.take_sign(b',') {
        rows.push(tokens.row()?);
    }
    ended(tokens, session)?;
    fit_table(table)?;
    let order = fit_columns(columns)?;
    let rows: Read<Vec<_>> = rows.into_iter().map(|row| fit_row(&order, row)).collect();
    Ok(Statement::Insert(rows?))
}

fn read_update(tokens: &mut Tokens, session: u128) -> Read<Statement> {
    let table = tokens.name()?;
    tokens.expect("SET")?;
    let mut settings = Vec::new();
    loop {
        let name = tokens.name()?;
        tokens.expect_sign(b'=')?;
        settings.push((name, tokens.literal()?));
        if !tokens.take_sign(b',') {
            break;
        }
    }
    let condition = tokens.condition()?;
    ended(tokens, session)?;
    fit_table(table)?;
    Ok(Statement::Update(
        fit_settings(settings)?,
        fit_condition(condition)?,
    ))
}

fn read_delete(tokens: &mut Tokens, session: u128) -> Read<Statement> {
    tokens.expect("FROM")?;
    let table = tokens.name()?;
    let condition = tokens.condition()?;
    ended(tokens, session)?;
    fit_table(table)?;
    Ok(Statement::Delete(fit_condition(condition)?))
}

fn read_select(tokens: &mut Tokens, session: u128) -> Read<Statement> {
    tokens.expect_sign(b'*')?;
    tokens.expect("FROM")?;
    let table = tokens.name()?;
    let form = tokens.form()?;
    let condition = tokens.condition()?;
    ended(tokens, session)?;
    fit_table(table)?;
    Ok(Statement::Select(form, fit_condition(condition)?))
}

fn read_statement(tokens: &mut Tokens, session: u128) -> Read<Statement> {
    if tokens.take("BEGIN") {
        ended(tokens, session)?;
        return Ok(Statement::Begin);
    }
    if tokens.take("START") {
        tokens.expect("TRANSACTION")?;
        ended(tokens, session)?;
        return Ok(Statement::Begin);
    }
    if tokens.take("COMMIT") {
        tokens.take("WORK");
        ended(tokens, session)?;
        return Ok(Statement::Commit);
    }
    if tokens.take("ROLLBACK") {
        tokens.take("WORK");
        ended(tokens, session)?;
        return Ok(Statement::Rollback);
    }
    if tokens.take("INSERT") {
        return read_insert(tokens, session);
    }
    if tokens.take("UPDATE") {
        return read_update(tokens, session);
    }
    if tokens.take("DELETE") {
        return read_delete(tokens, session);
    }
    tokens.expect("SELECT")?;
    read_select(tokens, session)
}

/// Reads a line of a script, or of a session where one is given.
fn read_line(line: &[u8], session: Option<usize>) -> Read<Line> {
    let mut tokens = Tokens { line, at: 0 };
    tokens.skip_blanks();
    if tokens.at == line.len() || line[tokens.at..].starts_with(b"--") {
        return Ok(Line::Blank);
    }
    if let Some(number) = session {
        return Ok(Line::Step(
            number,
            read_statement(&mut tokens, number as u128)?,
        ));
    }
    if tokens.take("CLOCK") {
        tokens.expect_sign(b':')?;
        let reading = tokens.instant()?;
        tokens.end()?;
        return Ok(Line::Clock(reading));
    }
    let number = tokens.digits((1 << 63) - 1)?;
    tokens.expect_sign(b':')?;
    let statement = read_statement(&mut tokens, number)?;
    Ok(Line::Step(number as usize, statement))
}

// The store, and what a statement does to it.

/// The versions of each key, in the order of their instants; a deletion is one too.
#[derive(Default)]
struct Store {
    versions: BTreeMap<i64, Vec<(u64, Row)>>,
    last: u64,
    entries: u64,
}

#[derive(Default)]
struct Session {
    transaction: Option<Transaction>,
}

struct Transaction {
    start: u64,
    written: BTreeMap<i64, Row>,
}

/// Returns the name that a key's row has as of an instant, where it has a row then.
fn live(versions: &[(u64, Row)], instant: u64) -> Option<&Name> {
    let count = versions.partition_point(|(at, _)| *at <= instant);
    versions[..count].last().and_then(|(_, row)| row.as_ref())
}

impl Store {
    fn range(&self, keys: Keys) -> impl Iterator<Item = (i64, &Vec<(u64, Row)>)> {
        let empty = keys.low > keys.high;
        let (low, high) = if empty {
            (0, 0)
        } else {
            (keys.low as i64, keys.high as i64)
        };
        let found = self.versions.range(low..=high);
        found
            .take_while(move |_| !empty)
            .map(|(key, versions)| (*key, versions))
    }

    fn live(&self, key: i64, instant: u64) -> Option<&Name> {
        live(self.versions.get(&key)?, instant)
    }

    /// Returns the keys that have a row in the eyes of a transaction.
    fn seen(&self, transaction: &Transaction, keys: Keys) -> Vec<i64> {
        let Transaction { start, written } = transaction;
        let stored = self.range(keys).filter(|(key, versions)| {
            !written.contains_key(key) && live(versions, *start).is_some()
        });
        let mut seen: Vec<i64> = stored.map(|(key, _)| key).collect();
        if keys.low <= keys.high && !written.is_empty() {
            let own = written.range(keys.low as i64..=keys.high as i64);
            seen.extend(own.filter(|(_, row)| row.is_some()).map(|(key, _)| *key));
            seen.sort_unstable();
        }
        seen
    }

    fn insert(&self, transaction: &mut Transaction, rows: Vec<(i64, Name)>) -> Read<usize> {
        let mut new = BTreeMap::new();
        let count = rows.len();
        for (key, name) in rows {
            let taken = match transaction.written.get(&key) {
                Some(row) => row.is_some(),
                None => self.live(key, transaction.start).is_some(),
            };
            if taken || new.insert(key, Some(name)).is_some() {
                return Err(Refusal::DuplicateKey(key));
            }
        }
        let more = new
            .keys()
            .filter(|key| !transaction.written.contains_key(key))
            .count();
        if transaction.written.len() + more > MOST_WRITES {
            return Err(Refusal::TooManyWrites);
        }
        transaction.written.extend(new);
        Ok(count)
    }

    fn write(&self, transaction: &mut Transaction, keys: Keys, row: Row) -> Read<usize> {
        let seen = self.seen(transaction, keys);
        let more = seen
            .iter()
            .filter(|key| !transaction.written.contains_key(key))
            .count();
        if transaction.written.len() + more > MOST_WRITES {
            return Err(Refusal::TooManyWrites);
        }
        for key in &seen {
            transaction.written.insert(*key, row.clone());
        }
        Ok(seen.len())
    }

    /// Returns the instant of a commit, or none where nothing was changed.
    fn commit(&mut self, transaction: Transaction, reading: u64) -> Read<Option<u64>> {
        let Transaction { start, mut written } = transaction;
        written.retain(|key, row| row.is_some() || self.live(*key, start).is_some());
        if written.is_empty() {
            return Ok(None);
        }
        for key in written.keys() {
            match self.versions.get(key).and_then(|versions| versions.last()) {
                Some((at, _)) if *at > start => return Err(Refusal::Conflict(*key, *at)),
                _ => {}
            }
        }
        let at = reading.max(self.last + 1);
        if at > LAST_INSTANT {
            return Err(Refusal::ClockEnd);
        }
        for (key, row) in written {
            self.versions.entry(key).or_default().push((at, row));
        }
        self.last = at;
        Ok(Some(at))
    }
}

// Replies.

fn put_number(out: &mut Vec<u8>, number: u64) {
    let mut digits = [0; 20];
    let mut place = digits.len();
    let mut rest = number;
    loop {
        place -= 1;
        digits[place] = b'0' + (rest % 10) as u8;
        rest /= 10;
        if rest == 0 {
            break;
        }
    }
    out.extend_from_slice(&digits[place..]);
}

fn put_count(out: &mut Vec<u8>, word: &str, count: u64) {
    out.extend_from_slice(word.as_bytes());
    put_number(out, count);
}

fn put_row(out: &mut Vec<u8>, key: i64, name: &Name) {
    out.extend_from_slice(if key < 0 { b"\n(-" } else { b"\n(" });
    put_number(out, key.unsigned_abs());
    let Some(text) = name else {
        return out.extend_from_slice(b", null)");
    };
    out.extend_from_slice(b", '");
    for (place, piece) in text.split('\'').enumerate() {
        if place > 0 {
            out.extend_from_slice(b"''");
        }
        out.extend_from_slice(piece.as_bytes());
    }
    out.extend_from_slice(b"')");
}

/// Writes the rows as of an instant, and returns how many there are.
fn put_rows_as_of(store: &Store, out: &mut Vec<u8>, instant: u64, keys: Keys) -> u64 {
    let mut count = 0;
    let mut put = |key, name: Option<&Name>| {
        if let Some(name) = name {
            put_row(out, key, name);
            count += 1;
        }
    };
    if keys.low == keys.high {
        put(keys.low as i64, store.live(keys.low as i64, instant));
    } else {
        store
            .range(keys)
            .for_each(|(key, versions)| put(key, live(versions, instant)));
    }
    count
}

/// Writes the versions that were live at some instant of a span, closed at its start and open at
/// its end, as a snapshot knows them, and returns how many there are.
fn put_versions(store: &Store, out: &mut Vec<u8>, span: (u64, u64), start: u64, keys: Keys) -> u64 {
    let (from, to) = span;
    let mut count = 0;
    for (key, versions) in store.range(keys) {
        let known = &versions[..versions.partition_point(|(at, _)| *at <= start)];
        let first = known
            .partition_point(|(at, _)| *at <= from)
            .saturating_sub(1);
        for (place, (at, row)) in known.iter().enumerate().skip(first) {
            if *at >= to {
                break;
            }
            let end = known.get(place + 1).map(|(at, _)| *at);
            let (Some(name), true) = (row, end.is_none_or(|end| end > from)) else {
                continue;
            };
            put_row(out, key, name);
            put_count(out, " from ", *at);
            match end {
                Some(end) => put_count(out, " to ", end),
                None => out.extend_from_slice(b" to forever"),
            }
            count += 1;
        }
    }
    count
}

fn put_own(store: &Store, out: &mut Vec<u8>, transaction: &Transaction, keys: Keys) -> u64 {
    let seen = store.seen(transaction, keys);
    for key in &seen {
        let own = transaction.written.get(key).and_then(|row| row.as_ref());
        if let Some(name) = own.or_else(|| store.live(*key, transaction.start)) {
            put_row(out, *key, name);
        }
    }
    seen.len() as u64
}

fn select(store: &Store, session: &Session, form: Form, keys: Keys, out: &mut Vec<u8>) {
    let start = session
        .transaction
        .as_ref()
        .map_or(store.last, |open| open.start);
    let mut rows = Vec::new();
    let count = match (form, &session.transaction) {
        (Form::Plain, Some(open)) => put_own(store, &mut rows, open, keys),
        (Form::Plain, None) => put_rows_as_of(store, &mut rows, start, keys),
        (Form::AsOf(instant), _) => put_rows_as_of(store, &mut rows, instant.min(start), keys),
        (Form::FromTo(from, to), _) if from < to => {
            put_versions(store, &mut rows, (from, to), start, keys)
        }
        (Form::Between(from, to), _) if from <= to => {
            put_versions(store, &mut rows, (from, to + 1), start, keys)
        }
        _ => 0,
    };
    put_count(out, "rows ", count);
    out.append(&mut rows);
}

fn step(
    store: &mut Store,
    session: &mut Session,
    reading: u64,
    statement: Statement,
    out: &mut Vec<u8>,
) -> Read<()> {
    match statement {
        Statement::Begin if session.transaction.is_some() => return Err(Refusal::InTransaction),
        Statement::Begin => {
            store.entries += 1;
            let (start, written) = (store.last, BTreeMap::new());
            session.transaction = Some(Transaction { start, written });
            put_count(out, "begun ", start);
        }
        Statement::Select(form, keys) => select(store, session, form, keys, out),
        Statement::Commit => {
            let transaction = session.transaction.take().ok_or(Refusal::NoTransaction)?;
            store.entries += 1;
            match store.commit(transaction, reading)? {
                Some(at) => put_count(out, "committed ", at),
                None => out.extend_from_slice(b"committed nothing"),
            }
        }
        Statement::Rollback => {
            session.transaction.take().ok_or(Refusal::NoTransaction)?;
            out.extend_from_slice(b"rolled back");
        }
        Statement::Insert(rows) => {
            let open = session.transaction.as_mut().ok_or(Refusal::NoTransaction)?;
            put_count(out, "inserted ", store.insert(open, rows)? as u64);
        }
        Statement::Update(name, keys) => {
            let open = session.transaction.as_mut().ok_or(Refusal::NoTransaction)?;
            put_count(out, "updated ", store.write(open, keys, Some(name))? as u64);
        }
        Statement::Delete(keys) => {
            let open = session.transaction.as_mut().ok_or(Refusal::NoTransaction)?;
            put_count(out, "deleted ", store.write(open, keys, None)? as u64);
        }
    }
    Ok(())
}

fn put_refusal(refusal: Refusal, out: &mut Vec<u8>) {
    let text = match refusal {
        Refusal::Syntax(at) => format!("E1 syntax at {at}"),
        Refusal::NoTable => "E2 no table".into(),
        Refusal::BadRow(column) => format!("E3 bad row at column {column}"),
        Refusal::NoTransaction => "E4 no transaction".into(),
        Refusal::InTransaction => "E5 in transaction".into(),
        Refusal::DuplicateKey(key) => format!("E6 duplicate key ({key})"),
        Refusal::Conflict(key, at) => format!("E7 conflict ({key}) at {at}"),
        Refusal::ClockEnd => "E8 clock end".into(),
        Refusal::TooManyWrites => "E9 too many writes".into(),
        Refusal::NoSession => "E11 no session".into(),
    };
    out.extend_from_slice(text.as_bytes());
}

// Scripts and sessions.

/// Reads the next line with its end into `line`; false at the end of the input.
fn next_line(input: &mut impl BufRead, line: &mut Vec<u8>) -> io::Result<bool> {
    line.clear();
    Ok(input.read_until(b'\n', line)? > 0)
}

/// Writes the reply to a line and its line feed, nothing where it has none.
fn reply_to<'a>(
    line: &[u8],
    session: Option<usize>,
    out: &mut Vec<u8>,
    run: impl FnOnce(Line, &mut Vec<u8>) -> Read<()> + 'a,
) {
    out.clear();
    let text = line.strip_suffix(b"\n");
    if text.unwrap_or(line).len() > LONGEST_LINE {
        return out.extend_from_slice(b"E12 line too long\n");
    }
    let read = match text {
        Some(text) => read_line(text.strip_suffix(b"\r").unwrap_or(text), session),
        None => read_line(line, session),
    };
    let done = match read {
        Ok(Line::Blank) => return,
        Ok(line) => run(line, out),
        Err(refusal) => Err(refusal),
    };
    if let Err(refusal) = done {
        put_refusal(refusal, out);
    }
    out.push(b'\n');
}

fn run_script(mut input: impl BufRead, mut output: impl Write) -> io::Result<()> {
    let mut store = Store::default();
    let mut sessions: Vec<Session> = (0..=MOST_SESSIONS).map(|_| Session::default()).collect();
    let (mut reading, mut line, mut out) = (0, Vec::new(), Vec::new());
    while next_line(&mut input, &mut line)? {
        reply_to(&line, None, &mut out, |read, out| match read {
            Line::Step(number, statement) => {
                step(&mut store, &mut sessions[number], reading, statement, out)
            }
            Line::Clock(instant) => {
                reading = instant;
                out.extend_from_slice(b"ok");
                Ok(())
            }
            Line::Blank => Ok(()),
        });
        output.write_all(&out)?;
    }
    output.flush()
}

fn microseconds() -> u64 {
    SystemTime::now()
        .duration_since(UNIX_EPOCH)
        .map_or(0, |since| since.as_micros() as u64)
}

fn serve(store: &Mutex<Store>, number: usize, socket: TcpStream) -> io::Result<()> {
    socket.set_nodelay(true)?;
    let mut input = BufReader::with_capacity(1 << 16, socket.try_clone()?);
    let mut output = BufWriter::with_capacity(1 << 16, socket);
    let mut session = Session::default();
    let (mut line, mut out) = (Vec::new(), Vec::new());
    while next_line(&mut input, &mut line)? {
        reply_to(&line, Some(number), &mut out, |read, out| match read {
            Line::Step(_, statement) => {
                let mut held = store.lock().expect("a store that no thread left locked");
                step(&mut held, &mut session, microseconds(), statement, out)
            }
            _ => Ok(()),
        });
        output.write_all(&out)?;
        if !input.buffer().contains(&b'\n') {
            output.flush()?;
        }
    }
    output.flush()
}

fn listen(port: u16, sessions: usize) -> io::Result<()> {
    let listener = TcpListener::bind(("127.0.0.1", port))?;
    println!("listening {}", listener.local_addr()?.port());
    let store = Arc::new(Mutex::new(Store::default()));
    let mut threads = Vec::new();
    for number in 1..=sessions {
        let (socket, _) = listener.accept()?;
        let shared = store.clone();
        threads.push(std::thread::spawn(move || serve(&shared, number, socket)));
    }
    for thread in threads {
        let _ = thread.join();
    }
    println!(
        "closed {}",
        store
            .lock()
            .expect("a store that no thread left locked")
            .entries
    );
    Ok(())
}

fn main() -> io::Result<()> {
    let words: Vec<String> = std::env::args().skip(1).collect();
    let words: Vec<&str> = words.iter().map(String::as_str).collect();
    match words[..] {
        [] => run_script(
            BufReader::with_capacity(1 << 16, io::stdin()),
            BufWriter::with_capacity(1 << 16, io::stdout().lock()),
        ),
        ["--listen", port, "--sessions", sessions] => listen(
            port.parse().expect("a port"),
            sessions.parse().expect("a number of sessions"),
        ),
        _ => panic!("floor [--listen PORT --sessions NUMBER] < SCRIPT"),
    }
}
