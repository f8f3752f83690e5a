//! A lean storage server over SQLite in C, which `run` beside it measures `syncstore serve` against.
//!
//!     rustc -O server.rs
//!     ./server serve ADDRESS FOLDER UID .. [--workers N] [--batches-in-memory]
//!
//! It needs libsqlite3-dev and nothing else. It answers what the loads of `run` ask, byte for byte as `syncstore` does
//! but for the times: GET of `info/collections`, GET and PUT of a record, POST to a collection, batches and their commits
//! among them, and GET of a collection with `full`, `newer`, `limit`, `offset` and the orders `newest` and `index`; both
//! conditions, and expiries. What it lacks makes it faster: deletions, the quota and most other limits, the other
//! parameters, faults of single records, encoded paths, the bodies of refusals.
//!
//! A write is one transaction, synced before it is answered (`synchronous=FULL` in the write-ahead log), as that of
//! `syncstore` is. So is a begin and an append: the body of each POST to a batch is a row, which the batch's commit
//! deletes in the transaction that puts the records; beside that they are kept in memory, so that a commit reads none.
//! With `--batches-in-memory` they are in no file, and lost with the process; those of `syncstore` never are. Each account
//! is a file, which this process has alone (`locking_mode=EXCLUSIVE`), behind a mutex. Each worker serves one connection to
//! its end, and then the next.

use std::borrow::Cow;
use std::collections::HashMap;
use std::ffi::{c_char, c_int, c_void, CStr, CString};
use std::io::{self, IoSlice, Read, Write};
use std::net::{TcpListener, TcpStream};
use std::path::Path;
use std::sync::Mutex;
use std::time::{SystemTime, UNIX_EPOCH};
use std::{env, fs, process, ptr, slice, str, thread};

/// The tables. Rows are found by collection and id, and listed by time, downwards, and id.
const TABLES: &str = "
    PRAGMA locking_mode = EXCLUSIVE;
    PRAGMA journal_mode = WAL;
    PRAGMA synchronous = FULL;
    PRAGMA secure_delete = OFF;
    PRAGMA cache_size = -262144;
    CREATE TABLE IF NOT EXISTS collections (number INTEGER PRIMARY KEY, name TEXT NOT NULL UNIQUE,
        time INTEGER NOT NULL) STRICT;
    CREATE TABLE IF NOT EXISTS rows (collection INTEGER NOT NULL, id TEXT NOT NULL, modified INTEGER NOT NULL,
        sortindex INTEGER, expires INTEGER, payload TEXT NOT NULL, PRIMARY KEY (collection, id)) STRICT;
    CREATE INDEX IF NOT EXISTS rows_by_time ON rows (collection, modified DESC, id);
    CREATE TABLE IF NOT EXISTS batches (number INTEGER PRIMARY KEY, collection TEXT NOT NULL, begun INTEGER NOT NULL)
        STRICT;
    CREATE TABLE IF NOT EXISTS posts (batch INTEGER NOT NULL, place INTEGER NOT NULL, body TEXT NOT NULL,
        PRIMARY KEY (batch, place)) STRICT;
";

const GET: &str = "SELECT modified, sortindex, payload FROM rows
    WHERE collection = ?1 AND id = ?2 AND (expires IS NULL OR expires > ?3)";

const NEWEST: &str = "SELECT id, modified, sortindex, payload FROM rows
    WHERE collection = ?1 AND modified > ?2 AND (expires IS NULL OR expires > ?3)
    ORDER BY modified DESC, id LIMIT ?4 OFFSET ?5";

/// The keys alone are sorted, and the rows of the page fetched by them.
const BY_INDEX: &str = "SELECT rows.id, modified, rows.sortindex, payload FROM
    (SELECT id, ifnull(sortindex, 0) AS place FROM rows
        WHERE collection = ?1 AND modified > ?2 AND (expires IS NULL OR expires > ?3)
        ORDER BY place DESC, id LIMIT ?4 OFFSET ?5) AS page
    CROSS JOIN rows ON rows.collection = ?1 AND rows.id = page.id ORDER BY place DESC, page.id";

/// An absent member (`?5`, `?7` are 0; the payload is NULL) keeps what is there, unless the row has ended.
const PUT: &str = "INSERT INTO rows (collection, id, modified, payload, sortindex, expires)
    VALUES (?1, ?2, ?3, ifnull(?4, ''), ?6, ?8)
    ON CONFLICT (collection, id) DO UPDATE SET modified = ?3, payload = ifnull(?4, iif(expires <= ?3, '', payload)),
        sortindex = iif(?5, ?6, iif(expires <= ?3, NULL, sortindex)),
        expires = iif(?7, ?8, iif(expires <= ?3, NULL, expires))";

const ENTER: &str = "INSERT INTO collections VALUES (?1, ?2, ?3) ON CONFLICT (number) DO UPDATE SET time = ?3";

const BEGIN_BATCH: &str = "INSERT INTO batches VALUES (?1, ?2, ?3)";

const ADD_POST: &str = "INSERT INTO posts VALUES (?1, ?2, ?3)";

const END_BATCH: &str = "DELETE FROM batches WHERE number = ?1";

const END_POSTS: &str = "DELETE FROM posts WHERE batch = ?1";

/// How long a batch lives, in hundredths of a second.
const BATCH_LIFE: u64 = 720_000;

/// What SQLite in C offers, as far as it is used (sqlite3.h).
mod c {
    use super::{c_char, c_int, c_void};

    #[link(name = "sqlite3")]
    extern "C" {
        pub fn sqlite3_config(option: c_int, ...) -> c_int;
        pub fn sqlite3_open_v2(name: *const c_char, db: *mut *mut c_void, flags: c_int, vfs: *const c_char) -> c_int;
        pub fn sqlite3_errmsg(db: *mut c_void) -> *const c_char;
        pub fn sqlite3_exec(
            db: *mut c_void,
            sql: *const c_char,
            row: *const c_void,
            with: *mut c_void,
            message: *mut *mut c_char,
        ) -> c_int;
        pub fn sqlite3_prepare_v3(
            db: *mut c_void,
            sql: *const c_char,
            size: c_int,
            flags: u32,
            statement: *mut *mut c_void,
            rest: *mut *const c_char,
        ) -> c_int;
        pub fn sqlite3_bind_int64(statement: *mut c_void, at: c_int, value: i64) -> c_int;
        pub fn sqlite3_bind_null(statement: *mut c_void, at: c_int) -> c_int;
        pub fn sqlite3_bind_text(
            statement: *mut c_void,
            at: c_int,
            text: *const c_char,
            size: c_int,
            free: *const c_void,
        ) -> c_int;
        pub fn sqlite3_step(statement: *mut c_void) -> c_int;
        pub fn sqlite3_reset(statement: *mut c_void) -> c_int;
        pub fn sqlite3_column_type(statement: *mut c_void, at: c_int) -> c_int;
        pub fn sqlite3_column_int64(statement: *mut c_void, at: c_int) -> i64;
        pub fn sqlite3_column_text(statement: *mut c_void, at: c_int) -> *const u8;
        pub fn sqlite3_column_bytes(statement: *mut c_void, at: c_int) -> c_int;
    }

    pub const OK: c_int = 0;
    pub const ROW: c_int = 100;
    pub const DONE: c_int = 101;
    pub const NULL: c_int = 5;
    pub const PERSISTENT: u32 = 1;
    /// Whether SQLite counts the memory that it has, under a mutex.
    pub const MEMORY_COUNTED: c_int = 9;
    /// Read and write, create, and no mutex of SQLite's own, since a connection has one around it.
    pub const OPEN: c_int = 0x2 | 0x4 | 0x8000;
}

/// Why SQLite failed.
struct SqlFault(String);

/// A connection, which lives as long as the process.
struct Database(*mut c_void);

/// A prepared statement of a connection.
struct Statement(*mut c_void);

/// What is bound to a parameter.
#[derive(Clone, Copy)]
enum Value<'a> {
    Null,
    Whole(i64),
    Text(&'a str),
}

// A connection and its statements are used by whoever has the account's mutex.
unsafe impl Send for Database {}
unsafe impl Send for Statement {}

impl Database {
    fn open(path: &Path) -> Result<Database, SqlFault> {
        let name = CString::new(path.to_str().unwrap_or_default()).map_err(|_| SqlFault("no path".into()))?;
        let mut db = ptr::null_mut();
        let code = unsafe { c::sqlite3_open_v2(name.as_ptr(), &mut db, c::OPEN, ptr::null()) };
        let db = Database(db);
        if code == c::OK {
            Ok(db)
        } else {
            Err(db.fault())
        }
    }

    fn fault(&self) -> SqlFault {
        SqlFault(unsafe { CStr::from_ptr(c::sqlite3_errmsg(self.0)) }.to_string_lossy().into_owned())
    }

    fn execute(&self, sql: &str) -> Result<(), SqlFault> {
        let sql = CString::new(sql).map_err(|_| SqlFault("no SQL".into()))?;
        let code = unsafe { c::sqlite3_exec(self.0, sql.as_ptr(), ptr::null(), ptr::null_mut(), ptr::null_mut()) };
        if code == c::OK {
            Ok(())
        } else {
            Err(self.fault())
        }
    }

    fn prepare(&self, sql: &str) -> Result<Statement, SqlFault> {
        let mut statement = ptr::null_mut();
        let size = sql.len() as c_int;
        let code = unsafe {
            c::sqlite3_prepare_v3(self.0, sql.as_ptr().cast(), size, c::PERSISTENT, &mut statement, ptr::null_mut())
        };
        if code == c::OK {
            Ok(Statement(statement))
        } else {
            Err(self.fault())
        }
    }

    /// Runs a statement with these parameters, and hands each row to `take`.
    fn each(&self, statement: &Statement, values: &[Value], mut take: impl FnMut(&Statement)) -> Result<(), SqlFault> {
        statement.bind(values);
        let end = loop {
            match unsafe { c::sqlite3_step(statement.0) } {
                c::ROW => take(statement),
                c::DONE => break Ok(()),
                _ => break Err(self.fault()),
            }
        };
        unsafe { c::sqlite3_reset(statement.0) };
        end
    }

    /// Runs a statement that gives no rows.
    fn run(&self, statement: &Statement, values: &[Value]) -> Result<(), SqlFault> {
        self.each(statement, values, |_| ())
    }
}

impl Statement {
    /// A text is lent until the statement is run: `each` runs it, and resets it, before it gives the texts back.
    fn bind(&self, values: &[Value]) {
        for (value, at) in values.iter().zip(1..) {
            unsafe {
                match *value {
                    Value::Null => c::sqlite3_bind_null(self.0, at),
                    Value::Whole(number) => c::sqlite3_bind_int64(self.0, at, number),
                    Value::Text(text) => {
                        c::sqlite3_bind_text(self.0, at, text.as_ptr().cast(), text.len() as c_int, ptr::null())
                    }
                }
            };
        }
    }

    fn whole(&self, at: c_int) -> i64 {
        unsafe { c::sqlite3_column_int64(self.0, at) }
    }

    fn whole_or_null(&self, at: c_int) -> Option<i64> {
        (unsafe { c::sqlite3_column_type(self.0, at) } != c::NULL).then(|| self.whole(at))
    }

    /// A text of the row; it is good until the next step. All texts were written by this program, so they are UTF-8.
    fn text(&self, at: c_int) -> &str {
        unsafe {
            let start = c::sqlite3_column_text(self.0, at);
            let size = c::sqlite3_column_bytes(self.0, at) as usize;
            if start.is_null() {
                ""
            } else {
                str::from_utf8_unchecked(slice::from_raw_parts(start, size))
            }
        }
    }
}

/// What a record says of one of its members.
#[derive(Clone, Copy, PartialEq)]
enum Field<T> {
    Absent,
    Null,
    Given(T),
}

/// A record as it was sent.
struct Record<'a> {
    id: Cow<'a, str>,
    payload: Field<Cow<'a, str>>,
    sortindex: Field<i64>,
    /// In seconds.
    ttl: Field<i64>,
}

impl Record<'_> {
    fn into_owned(self) -> Record<'static> {
        let payload = match self.payload {
            Field::Absent => Field::Absent,
            Field::Null => Field::Null,
            Field::Given(text) => Field::Given(Cow::Owned(text.into_owned())),
        };
        Record { id: Cow::Owned(self.id.into_owned()), payload, sortindex: self.sortindex, ttl: self.ttl }
    }
}

/// Whether a JSON string can't have this byte as it is: a quote, a backslash or a control character.
fn is_special(byte: u8) -> bool {
    (byte == b'"') | (byte == b'\\') | (byte < 0x20)
}

/// Which of 16 bytes are such: a bit each, the lowest for the first.
#[cfg(target_arch = "x86_64")]
fn specials(part: &[u8; 16]) -> u32 {
    use std::arch::x86_64::{
        _mm_cmpeq_epi8, _mm_loadu_si128, _mm_min_epu8, _mm_movemask_epi8, _mm_or_si128, _mm_set1_epi8,
    };
    // (every x86-64 has SSE2)
    unsafe {
        let bytes = _mm_loadu_si128(part.as_ptr().cast());
        let quotes = _mm_cmpeq_epi8(bytes, _mm_set1_epi8(b'"' as i8));
        let slashes = _mm_cmpeq_epi8(bytes, _mm_set1_epi8(b'\\' as i8));
        let controls = _mm_cmpeq_epi8(bytes, _mm_min_epu8(bytes, _mm_set1_epi8(0x1f)));
        _mm_movemask_epi8(_mm_or_si128(controls, _mm_or_si128(quotes, slashes))) as u32
    }
}

#[cfg(not(target_arch = "x86_64"))]
fn specials(part: &[u8; 16]) -> u32 {
    part.iter().rev().fold(0, |bits, &byte| bits << 1 | u32::from(is_special(byte)))
}

/// The place of the first such byte at or behind `from`, or the end.
fn special(bytes: &[u8], from: usize) -> usize {
    let mut at = from;
    while let Some(part) = bytes[at..].first_chunk() {
        let found = specials(part);
        if found != 0 {
            return at + found.trailing_zeros() as usize;
        }
        at += 16;
    }
    at + bytes[at..].iter().take_while(|&&byte| !is_special(byte)).count()
}

/// Reads JSON (RFC 8259) from its front; None where it isn't in form.
struct Json<'a> {
    text: &'a str,
    at: usize,
}

impl<'a> Json<'a> {
    fn peek(&mut self) -> Option<u8> {
        let bytes = self.text.as_bytes();
        while let Some(b' ' | b'\n' | b'\r' | b'\t') = bytes.get(self.at) {
            self.at += 1;
        }
        bytes.get(self.at).copied()
    }

    /// Takes this byte, if it comes next.
    fn take(&mut self, byte: u8) -> bool {
        let found = self.peek() == Some(byte);
        self.at += usize::from(found);
        found
    }

    fn want(&mut self, byte: u8) -> Option<()> {
        self.take(byte).then_some(())
    }

    fn string(&mut self) -> Option<Cow<'a, str>> {
        self.want(b'"')?;
        let begin = self.at;
        self.at = special(self.text.as_bytes(), begin);
        let front = self.text.get(begin..self.at)?;
        if self.text.as_bytes().get(self.at) == Some(&b'"') {
            self.at += 1;
            return Some(Cow::Borrowed(front));
        }
        let mut whole = String::with_capacity(512);
        whole.push_str(front);
        loop {
            match self.text.as_bytes().get(self.at)? {
                b'"' => break,
                b'\\' => whole.push(self.escape()?),
                _ => return None,
            }
            let begin = self.at;
            self.at = special(self.text.as_bytes(), begin);
            whole.push_str(&self.text[begin..self.at]);
        }
        self.at += 1;
        Some(Cow::Owned(whole))
    }

    fn escape(&mut self) -> Option<char> {
        let letter = *self.text.as_bytes().get(self.at + 1)?;
        self.at += 2;
        Some(match letter {
            b'"' | b'\\' | b'/' => letter.into(),
            b'b' => '\u{8}',
            b'f' => '\u{c}',
            b'n' => '\n',
            b'r' => '\r',
            b't' => '\t',
            b'u' => return self.unicode(),
            _ => return None,
        })
    }

    fn unicode(&mut self) -> Option<char> {
        let first = self.hexadecimal()?;
        if !(0xd800..0xdc00).contains(&first) {
            return char::from_u32(first);
        }
        if self.text.get(self.at..self.at + 2)? != "\\u" {
            return None;
        }
        self.at += 2;
        let second = self.hexadecimal()?.checked_sub(0xdc00)?;
        char::from_u32(0x10000 + ((first - 0xd800) << 10) + second)
    }

    fn hexadecimal(&mut self) -> Option<u32> {
        let digits = self.text.get(self.at..self.at + 4)?;
        self.at += 4;
        u32::from_str_radix(digits, 16).ok()
    }

    /// A whole number or null.
    fn whole(&mut self) -> Option<Field<i64>> {
        self.peek()?;
        let rest = &self.text[self.at..];
        let end = rest.find([',', '}', ']', ' ', '\n', '\r', '\t']).unwrap_or(rest.len());
        self.at += end;
        if &rest[..end] == "null" {
            Some(Field::Null)
        } else {
            rest[..end].parse().ok().map(Field::Given)
        }
    }

    /// Passes over a value.
    fn skip(&mut self) -> Option<()> {
        match self.peek()? {
            b'"' => self.string().map(|_| ()),
            b'{' => self.each(b'{', b'}', |json| {
                json.string()?;
                json.want(b':')?;
                json.skip()
            }),
            b'[' => self.each(b'[', b']', Json::skip),
            _ => {
                let rest = &self.text[self.at..];
                let end = rest.find([',', '}', ']']).unwrap_or(rest.len());
                self.at += end;
                (end > 0).then_some(())
            }
        }
    }

    /// The elements of a list or the members of an object, one by one.
    fn each(&mut self, open: u8, close: u8, mut element: impl FnMut(&mut Json<'a>) -> Option<()>) -> Option<()> {
        self.want(open)?;
        if self.take(close) {
            return Some(());
        }
        loop {
            element(self)?;
            if self.take(close) {
                return Some(());
            }
            self.want(b',')?;
        }
    }

    /// A record; that of a PUT has no id of its own.
    fn record(&mut self, id: &'a str) -> Option<Record<'a>> {
        let mut record =
            Record { id: Cow::Borrowed(id), payload: Field::Absent, sortindex: Field::Absent, ttl: Field::Absent };
        self.each(b'{', b'}', |json| {
            let name = json.string()?;
            json.want(b':')?;
            match &*name {
                "id" if id.is_empty() => record.id = json.string()?,
                "payload" if json.peek() == Some(b'"') => record.payload = Field::Given(json.string()?),
                "payload" => record.payload = (json.whole()? == Field::Null).then_some(Field::Null)?,
                "sortindex" => record.sortindex = json.whole()?,
                "ttl" => record.ttl = json.whole()?,
                _ => json.skip()?,
            }
            Some(())
        })?;
        (!record.id.is_empty()).then_some(record)
    }

    fn records(&mut self) -> Option<Vec<Record<'a>>> {
        let mut records = Vec::with_capacity(100);
        self.each(b'[', b']', |json| {
            records.push(json.record("")?);
            Some(())
        })?;
        self.peek().is_none().then_some(records)
    }
}

fn push_number(out: &mut Vec<u8>, mut number: u64) {
    let mut digits = [0; 20];
    let mut at = digits.len();
    loop {
        at -= 1;
        digits[at] = b'0' + (number % 10) as u8;
        number /= 10;
        if number == 0 {
            break;
        }
    }
    out.extend_from_slice(&digits[at..]);
}

/// A time in hundredths of a second, as seconds with two decimals.
fn push_time(out: &mut Vec<u8>, time: u64) {
    push_number(out, time / 100);
    let rest = (time % 100) as u8;
    out.extend_from_slice(&[b'.', b'0' + rest / 10, b'0' + rest % 10]);
}

fn push_string(out: &mut Vec<u8>, text: &str) {
    let bytes = text.as_bytes();
    out.push(b'"');
    let mut at = 0;
    loop {
        let end = special(bytes, at);
        out.extend_from_slice(&bytes[at..end]);
        let Some(&byte) = bytes.get(end) else { break };
        match byte {
            b'"' | b'\\' => out.extend_from_slice(&[b'\\', byte]),
            8 => out.extend_from_slice(b"\\b"),
            9 => out.extend_from_slice(b"\\t"),
            10 => out.extend_from_slice(b"\\n"),
            12 => out.extend_from_slice(b"\\f"),
            13 => out.extend_from_slice(b"\\r"),
            _ => out.extend_from_slice(format!("\\u{byte:04x}").as_bytes()),
        }
        at = end + 1;
    }
    out.push(b'"');
}

fn push_row(out: &mut Vec<u8>, id: &str, modified: i64, sortindex: Option<i64>, payload: &str) {
    out.extend_from_slice(b"{\"id\":");
    push_string(out, id);
    out.extend_from_slice(b",\"modified\":");
    push_time(out, modified as u64);
    out.extend_from_slice(b",\"payload\":");
    push_string(out, payload);
    if let Some(index) = sortindex {
        out.extend_from_slice(if index < 0 { b",\"sortindex\":-" } else { b",\"sortindex\":" });
        push_number(out, index.unsigned_abs());
    }
    out.push(b'}');
}

fn push_records_told(out: &mut Vec<u8>, records: &[Record]) {
    out.extend_from_slice(b",\"success\":[");
    for (at, record) in records.iter().enumerate() {
        if at > 0 {
            out.push(b',');
        }
        push_string(out, &record.id);
    }
    out.extend_from_slice(b"],\"failed\":{}}");
}

/// A time that was sent, in hundredths of a second.
fn time_in(text: &str) -> Option<u64> {
    let (whole, rest) = text.split_once('.').unwrap_or((text, "0"));
    let two = rest
        .bytes()
        .chain(*b"0")
        .take(2)
        .try_fold(0, |sum, digit| digit.is_ascii_digit().then(|| sum * 10 + u64::from(digit - b'0')))?;
    Some(whole.parse::<u64>().ok().filter(|_| whole.len() <= 10)? * 100 + two)
}

/// Hundredths of a second since 1970.
fn clock() -> u64 {
    SystemTime::now().duration_since(UNIX_EPOCH).map_or(0, |since| since.as_millis() as u64 / 10)
}

/// The base64 for URLs, without padding, of a number's digits.
fn token_of(number: u64) -> String {
    const LETTERS: &[u8; 64] = b"ABCDEFGHIJKLMNOPQRSTUVWXYZabcdefghijklmnopqrstuvwxyz0123456789-_";
    let mut token = String::new();
    for three in number.to_string().as_bytes().chunks(3) {
        let bits = three.iter().zip([16, 8, 0]).map(|(&byte, by)| u32::from(byte) << by).sum::<u32>();
        token.extend([18, 12, 6, 0].iter().take(three.len() + 1).map(|by| LETTERS[(bits >> by) as usize % 64] as char));
    }
    token
}

/// Why a request isn't done: its status, and the time of its target with a 304 and a 412.
struct Refusal {
    status: u16,
    modified: Option<u64>,
}

impl Refusal {
    fn of(status: u16) -> Refusal {
        Refusal { status, modified: None }
    }
}

impl From<SqlFault> for Refusal {
    fn from(fault: SqlFault) -> Refusal {
        eprintln!("baseline: {}", fault.0);
        Refusal::of(503)
    }
}

/// What the head of a response says; the body is written elsewhere.
struct Reply {
    status: u16,
    modified: Option<u64>,
    records: Option<u64>,
    next: Option<u64>,
}

impl Reply {
    fn of(status: u16, modified: u64) -> Reply {
        Reply { status, modified: Some(modified), records: None, next: None }
    }
}

/// What is asked of an account.
struct Request<'a> {
    method: &'a str,
    query: &'a str,
    if_modified_since: Option<u64>,
    if_unmodified_since: Option<u64>,
    body: &'a [u8],
}

impl<'a> Request<'a> {
    fn text(&self) -> Result<&'a str, Refusal> {
        str::from_utf8(self.body).map_err(|_| Refusal::of(400))
    }

    /// Whether a condition stops a request to a target of this time.
    fn check(&self, modified: u64) -> Result<(), Refusal> {
        let stop = |status| Err(Refusal { status, modified: Some(modified) });
        match (self.if_modified_since, self.if_unmodified_since) {
            (Some(time), _) if self.method == "GET" && modified <= time => stop(304),
            (_, Some(time)) if modified > time => stop(412),
            _ => Ok(()),
        }
    }
}

/// What a query asks of a list.
struct Listing {
    full: bool,
    by_index: bool,
    newer: u64,
    limit: Option<u64>,
    offset: u64,
}

impl Listing {
    fn read(query: &str) -> Option<Listing> {
        let mut listing = Listing { full: false, by_index: false, newer: 0, limit: None, offset: 0 };
        for parameter in query.split('&').filter(|it| !it.is_empty()) {
            match parameter.split_once('=').unwrap_or((parameter, "")) {
                ("full", _) => listing.full = true,
                ("newer", time) => listing.newer = time_in(time)?,
                ("limit", number) => listing.limit = Some(u64::from(number.parse::<u32>().ok()?)),
                ("offset", number) => listing.offset = u64::from(number.parse::<u32>().ok()?),
                ("sort", "newest") => listing.by_index = false,
                ("sort", "index") => listing.by_index = true,
                _ => return None,
            }
        }
        Some(listing)
    }
}

/// What a query asks of a POST.
#[derive(Default)]
struct Posting<'a> {
    batch: Option<&'a str>,
    commits: bool,
}

impl<'a> Posting<'a> {
    fn read(query: &'a str) -> Option<Posting<'a>> {
        let mut posting = Posting::default();
        for parameter in query.split('&').filter(|it| !it.is_empty()) {
            match parameter.split_once('=')? {
                ("batch", batch) => posting.batch = Some(batch),
                ("commit", "true") => posting.commits = true,
                _ => return None,
            }
        }
        Some(posting)
    }
}

/// A collection by its number in the tables, and the time of its last write.
struct Collection {
    number: i64,
    time: u64,
}

/// Records that wait for their commit.
struct Batch {
    number: i64,
    collection: String,
    begun: u64,
    posts: i64,
    records: Vec<Record<'static>>,
}

impl Batch {
    fn new(number: i64, collection: &str, begun: u64) -> Batch {
        Batch { number, collection: collection.to_owned(), begun, posts: 0, records: Vec::new() }
    }

    /// Takes the records of a POST, and tells them.
    fn take(&mut self, records: Vec<Record>, token: &str, body: &mut Vec<u8>) {
        body.extend_from_slice(b"{\"batch\":");
        push_string(body, token);
        push_records_told(body, &records);
        self.posts += 1;
        self.records.extend(records.into_iter().map(Record::into_owned));
    }
}

/// The statements of a connection.
struct Statements {
    begin: Statement,
    commit: Statement,
    rollback: Statement,
    get: Statement,
    newest: Statement,
    by_index: Statement,
    put: Statement,
    enter: Statement,
    begin_batch: Statement,
    add_post: Statement,
    end_batch: Statement,
    end_posts: Statement,
}

struct Account {
    db: Database,
    statements: Statements,
    collections: HashMap<String, Collection>,
    batches: HashMap<String, Batch>,
    /// Whether batches are in the file.
    keeps_batches: bool,
    begun: i64,
    moment: u64,
    last_write: u64,
}

impl Account {
    fn open(path: &Path, keeps_batches: bool) -> Result<Account, SqlFault> {
        let db = Database::open(path)?;
        db.execute(TABLES)?;
        let statements = Statements {
            begin: db.prepare("BEGIN IMMEDIATE")?,
            commit: db.prepare("COMMIT")?,
            rollback: db.prepare("ROLLBACK")?,
            get: db.prepare(GET)?,
            newest: db.prepare(NEWEST)?,
            by_index: db.prepare(BY_INDEX)?,
            put: db.prepare(PUT)?,
            enter: db.prepare(ENTER)?,
            begin_batch: db.prepare(BEGIN_BATCH)?,
            add_post: db.prepare(ADD_POST)?,
            end_batch: db.prepare(END_BATCH)?,
            end_posts: db.prepare(END_POSTS)?,
        };
        let mut collections = HashMap::new();
        db.each(&db.prepare("SELECT number, name, time FROM collections")?, &[], |row| {
            collections.insert(row.text(1).to_owned(), Collection { number: row.whole(0), time: row.whole(2) as u64 });
        })?;
        let last_write = collections.values().map(|it| it.time).max().unwrap_or(0);
        let mut batches: HashMap<i64, Batch> = HashMap::new();
        db.each(&db.prepare("SELECT number, collection, begun FROM batches")?, &[], |row| {
            batches.insert(row.whole(0), Batch::new(row.whole(0), row.text(1), row.whole(2) as u64));
        })?;
        db.each(&db.prepare("SELECT batch, body FROM posts ORDER BY batch, place")?, &[], |row| {
            if let (Some(batch), Some(records)) =
                (batches.get_mut(&row.whole(0)), (Json { text: row.text(1), at: 0 }).records())
            {
                batch.posts += 1;
                batch.records.extend(records.into_iter().map(Record::into_owned));
            }
        })?;
        let begun = batches.keys().copied().max().unwrap_or(0);
        let batches = batches.into_iter().map(|(number, batch)| (token_of(number as u64), batch)).collect();
        Ok(Account { db, statements, collections, batches, keeps_batches, begun, moment: last_write, last_write })
    }

    /// Answers a request for what stands behind the account's number in the path, and writes the body.
    fn answer(&mut self, path: &str, request: &Request, body: &mut Vec<u8>) -> Result<Reply, Refusal> {
        self.moment = self.moment.max(clock());
        let mut names = path.split('/');
        let place = (names.next(), names.next(), names.next(), names.next());
        match (request.method, place) {
            ("GET", (Some("info"), Some("collections"), None, None)) => self.times(request, body),
            ("GET", (Some("storage"), Some(collection), None, None)) => self.list(collection, request, body),
            ("POST", (Some("storage"), Some(collection), None, None)) => self.post(collection, request, body),
            ("GET", (Some("storage"), Some(collection), Some(id), None)) => self.get(collection, id, request, body),
            ("PUT", (Some("storage"), Some(collection), Some(id), None)) => self.put(collection, id, request, body),
            _ => Err(Refusal::of(404)),
        }
    }

    fn times(&self, request: &Request, body: &mut Vec<u8>) -> Result<Reply, Refusal> {
        request.check(self.last_write)?;
        let mut names: Vec<_> = self.collections.iter().collect();
        names.sort_unstable_by_key(|(name, _)| name.as_str());
        body.push(b'{');
        for (at, (name, collection)) in names.into_iter().enumerate() {
            if at > 0 {
                body.push(b',');
            }
            push_string(body, name);
            body.push(b':');
            push_time(body, collection.time);
        }
        body.push(b'}');
        Ok(Reply::of(200, self.last_write))
    }

    fn time_of(&self, collection: &str) -> u64 {
        self.collections.get(collection).map_or(0, |it| it.time)
    }

    /// Finds a record, hands it to `take`, and tells its time.
    fn find(&self, collection: &str, id: &str, mut take: impl FnMut(&Statement)) -> Result<Option<u64>, SqlFault> {
        let Some(collection) = self.collections.get(collection) else {
            return Ok(None);
        };
        let mut modified = None;
        let key = [Value::Whole(collection.number), Value::Text(id), Value::Whole(self.moment as i64)];
        self.db.each(&self.statements.get, &key, |row| {
            modified = Some(row.whole(0) as u64);
            take(row);
        })?;
        Ok(modified)
    }

    fn get(&self, collection: &str, id: &str, request: &Request, body: &mut Vec<u8>) -> Result<Reply, Refusal> {
        let push = |row: &Statement| push_row(body, id, row.whole(0), row.whole_or_null(1), row.text(2));
        let modified = self.find(collection, id, push)?.ok_or(Refusal::of(404))?;
        request.check(modified)?;
        Ok(Reply::of(200, modified))
    }

    fn list(&self, name: &str, request: &Request, body: &mut Vec<u8>) -> Result<Reply, Refusal> {
        let asked = Listing::read(request.query).ok_or(Refusal::of(400))?;
        request.check(self.time_of(name))?;
        let mut reply = Reply { records: Some(0), ..Reply::of(200, self.time_of(name)) };
        body.push(b'[');
        if let Some(collection) = self.collections.get(name) {
            let statement = if asked.by_index { &self.statements.by_index } else { &self.statements.newest };
            // One more is asked for, to learn whether the list goes on.
            let most = asked.limit.map_or(-1, |limit| limit as i64 + 1);
            let values = [collection.number, asked.newer as i64, self.moment as i64, most, asked.offset as i64]
                .map(Value::Whole);
            let mut count = 0;
            self.db.each(statement, &values, |row| {
                if asked.limit == Some(count) {
                    reply.next = Some(asked.offset + count);
                    return;
                }
                if count > 0 {
                    body.push(b',');
                }
                count += 1;
                if asked.full {
                    push_row(body, row.text(0), row.whole(1), row.whole_or_null(2), row.text(3));
                } else {
                    push_string(body, row.text(0));
                }
            })?;
            reply.records = Some(count);
        }
        body.push(b']');
        Ok(reply)
    }

    fn put(&mut self, collection: &str, id: &str, request: &Request, body: &mut Vec<u8>) -> Result<Reply, Refusal> {
        let record = Json { text: request.text()?, at: 0 }.record(id).ok_or(Refusal::of(400))?;
        if request.if_unmodified_since.is_some() {
            request.check(self.find(collection, id, |_| ())?.unwrap_or(0))?;
        }
        let stamp = self.write(collection, None, &[record])?;
        push_time(body, stamp);
        Ok(Reply::of(200, stamp))
    }

    fn post(&mut self, collection: &str, request: &Request, body: &mut Vec<u8>) -> Result<Reply, Refusal> {
        let asked = Posting::read(request.query).ok_or(Refusal::of(400))?;
        let records = Json { text: request.text()?, at: 0 }.records().ok_or(Refusal::of(400))?;
        request.check(self.time_of(collection))?;
        self.end_late()?;
        match asked {
            Posting { batch: None, commits: false } | Posting { batch: Some("true"), commits: true } => {
                self.write_and_tell(collection, None, &records, body)
            }
            Posting { batch: Some("true"), .. } => self.begin(collection, records, request, body),
            Posting { batch: Some(token), commits: false } => self.append(collection, token, records, request, body),
            Posting { batch: Some(token), commits: true } => self.commit(collection, token, &records, body),
            Posting { batch: None, commits: true } => Err(Refusal::of(400)),
        }
    }

    /// Ends the batches whose time is up.
    fn end_late(&mut self) -> Result<(), SqlFault> {
        let moment = self.moment;
        let is_late = |it: &Batch| it.begun + BATCH_LIFE <= moment;
        if !self.batches.values().any(is_late) {
            return Ok(());
        }
        let numbers: Vec<_> = self.batches.values().filter(|it| is_late(it)).map(|it| it.number).collect();
        self.transact(|account| numbers.iter().try_for_each(|&number| account.drop_posts(number)))?;
        self.batches.retain(|_, it| !is_late(it));
        Ok(())
    }

    fn begin(
        &mut self,
        collection: &str,
        records: Vec<Record>,
        request: &Request,
        body: &mut Vec<u8>,
    ) -> Result<Reply, Refusal> {
        let number = self.begun + 1;
        let mut batch = Batch::new(number, collection, self.moment);
        let keys = [Value::Whole(number), Value::Text(collection), Value::Whole(self.moment as i64)];
        let text = request.text()?;
        self.transact(|account| {
            if account.keeps_batches {
                account.db.run(&account.statements.begin_batch, &keys)?;
            }
            account.add_post(&batch, text)
        })?;
        self.begun = number;
        batch.take(records, &token_of(number as u64), body);
        self.batches.insert(token_of(number as u64), batch);
        Ok(Reply::of(202, self.time_of(collection)))
    }

    fn append(
        &mut self,
        collection: &str,
        token: &str,
        records: Vec<Record>,
        request: &Request,
        body: &mut Vec<u8>,
    ) -> Result<Reply, Refusal> {
        let text = request.text()?;
        let batch = self.batches.get(token).filter(|it| it.collection == collection).ok_or(Refusal::of(400))?;
        // (one statement is a transaction by itself)
        self.add_post(batch, text)?;
        if let Some(batch) = self.batches.get_mut(token) {
            batch.take(records, token, body);
        }
        Ok(Reply::of(202, self.time_of(collection)))
    }

    /// Puts the body of a POST to a batch into the file, behind those that were put.
    fn add_post(&self, batch: &Batch, text: &str) -> Result<(), SqlFault> {
        if !self.keeps_batches {
            return Ok(());
        }
        let values = [Value::Whole(batch.number), Value::Whole(batch.posts), Value::Text(text)];
        self.db.run(&self.statements.add_post, &values)
    }

    fn drop_posts(&self, number: i64) -> Result<(), SqlFault> {
        if !self.keeps_batches {
            return Ok(());
        }
        self.db.run(&self.statements.end_posts, &[Value::Whole(number)])?;
        self.db.run(&self.statements.end_batch, &[Value::Whole(number)])
    }

    /// A batch whose commit fails goes on.
    fn commit(
        &mut self,
        collection: &str,
        token: &str,
        records: &[Record],
        body: &mut Vec<u8>,
    ) -> Result<Reply, Refusal> {
        let (token, batch) = self.batches.remove_entry(token).ok_or(Refusal::of(400))?;
        let told = if batch.collection == collection {
            self.write_and_tell(collection, Some(&batch), records, body)
        } else {
            Err(Refusal::of(400))
        };
        if told.is_err() {
            self.batches.insert(token, batch);
        }
        told
    }

    fn write_and_tell(
        &mut self,
        collection: &str,
        batch: Option<&Batch>,
        records: &[Record],
        body: &mut Vec<u8>,
    ) -> Result<Reply, Refusal> {
        let mut time = self.time_of(collection);
        if batch.is_some_and(|it| !it.records.is_empty()) || !records.is_empty() {
            time = self.write(collection, batch, records)?;
        } else if let Some(batch) = batch {
            self.transact(|account| account.drop_posts(batch.number))?;
        }
        body.extend_from_slice(b"{\"modified\":");
        push_time(body, time);
        push_records_told(body, records);
        Ok(Reply::of(200, time))
    }

    /// Makes one transaction of what `write` does.
    fn transact(&self, write: impl FnOnce(&Account) -> Result<(), SqlFault>) -> Result<(), SqlFault> {
        self.db.run(&self.statements.begin, &[])?;
        if let Err(fault) = write(self).and_then(|()| self.db.run(&self.statements.commit, &[])) {
            // (where the commit failed there may be nothing to roll back)
            let _ = self.db.run(&self.statements.rollback, &[]);
            return Err(fault);
        }
        Ok(())
    }

    /// Puts the records of a batch, which ends, and these with one stamp, which it tells, in one transaction.
    fn write(&mut self, name: &str, batch: Option<&Batch>, records: &[Record]) -> Result<u64, SqlFault> {
        let stamp = self.moment.max(self.last_write + 1);
        let number = self.collections.get(name).map_or(self.collections.len() as i64 + 1, |it| it.number);
        let staged = batch.map_or(&[][..], |it| &it.records);
        self.transact(|account| {
            account.write_rows(name, number, stamp, staged.iter().chain(records))?;
            batch.map_or(Ok(()), |it| account.drop_posts(it.number))
        })?;
        self.collections.entry(name.to_owned()).or_insert(Collection { number, time: stamp }).time = stamp;
        (self.moment, self.last_write) = (stamp, stamp);
        Ok(stamp)
    }

    fn write_rows<'a>(
        &self,
        name: &str,
        number: i64,
        stamp: u64,
        records: impl Iterator<Item = &'a Record<'a>>,
    ) -> Result<(), SqlFault> {
        let time = Value::Whole(stamp as i64);
        for record in records {
            let payload = match &record.payload {
                Field::Absent => Value::Null,
                Field::Null => Value::Text(""),
                Field::Given(text) => Value::Text(text),
            };
            let (has_index, index) = bound(record.sortindex, |index| index);
            let (has_end, end) = bound(record.ttl, |ttl| stamp as i64 + 100 * ttl);
            let values = [Value::Whole(number), Value::Text(&record.id), time, payload, has_index, index, has_end, end];
            self.db.run(&self.statements.put, &values)?;
        }
        self.db.run(&self.statements.enter, &[Value::Whole(number), Value::Text(name), time])
    }
}

/// Whether a member is there, and what it comes to.
fn bound<'a>(field: Field<i64>, value: impl Fn(i64) -> i64) -> (Value<'a>, Value<'a>) {
    match field {
        Field::Absent => (Value::Whole(0), Value::Null),
        Field::Null => (Value::Whole(1), Value::Null),
        Field::Given(number) => (Value::Whole(1), Value::Whole(value(number))),
    }
}

/// A message's head.
struct Head<'a> {
    method: &'a str,
    target: &'a str,
    length: usize,
    if_modified_since: Option<u64>,
    if_unmodified_since: Option<u64>,
    last: bool,
}

impl<'a> Head<'a> {
    fn read(text: &'a [u8]) -> Option<Head<'a>> {
        let mut lines = str::from_utf8(text).ok()?.split("\r\n");
        let mut start = lines.next()?.split(' ');
        let (method, target) = (start.next()?, start.next()?);
        let mut head = Head {
            method,
            target,
            length: 0,
            if_modified_since: None,
            if_unmodified_since: None,
            last: start.next()? == "HTTP/1.0",
        };
        for line in lines.filter(|it| !it.is_empty()) {
            let (name, value) = line.split_once(':')?;
            let value = value.trim_matches([' ', '\t']);
            if name.eq_ignore_ascii_case("content-length") {
                head.length = value.parse().ok().filter(|&length| length <= 2_101_248)?;
            } else if name.eq_ignore_ascii_case("connection") {
                head.last |= value.split(',').any(|word| word.trim().eq_ignore_ascii_case("close"));
            } else if name.eq_ignore_ascii_case("x-if-modified-since") {
                head.if_modified_since = Some(time_in(value)?);
            } else if name.eq_ignore_ascii_case("x-if-unmodified-since") {
                head.if_unmodified_since = Some(time_in(value)?);
            } else if name.eq_ignore_ascii_case("transfer-encoding") {
                return None;
            }
        }
        Some(head)
    }
}

/// A connection, with what was read of it and isn't answered yet.
struct Link {
    stream: TcpStream,
    input: Vec<u8>,
    filled: usize,
}

impl Link {
    /// Reads on; false at the end.
    fn read(&mut self) -> io::Result<bool> {
        if self.filled == self.input.len() {
            self.input.resize(2 * self.filled, 0);
        }
        let count = self.stream.read(&mut self.input[self.filled..])?;
        self.filled += count;
        Ok(count > 0)
    }

    /// Reads on until so many bytes are there; false where the end comes before.
    fn read_to(&mut self, size: usize) -> io::Result<bool> {
        while self.filled < size {
            if !self.read()? {
                return Ok(false);
            }
        }
        Ok(true)
    }

    /// The size of the next message's head; None at the end.
    fn head(&mut self) -> io::Result<Option<usize>> {
        let mut seen: usize = 0;
        loop {
            let from = seen.saturating_sub(3);
            if let Some(at) = self.input[from..self.filled].windows(4).position(|four| four == b"\r\n\r\n") {
                return Ok(Some(from + at + 4));
            }
            seen = self.filled;
            if seen > 16_384 || !self.read()? {
                return Ok(None);
            }
        }
    }

    /// Sends a head and a body by as few calls as can be.
    fn send(&mut self, head: &[u8], body: &[u8]) -> io::Result<()> {
        let sent = self.stream.write_vectored(&[IoSlice::new(head), IoSlice::new(body)])?;
        self.stream.write_all(&head[sent.min(head.len())..])?;
        self.stream.write_all(&body[sent.saturating_sub(head.len())..])
    }
}

fn reason(status: u16) -> &'static str {
    match status {
        200 => "OK",
        202 => "Accepted",
        304 => "Not Modified",
        400 => "Bad Request",
        401 => "Unauthorized",
        404 => "Not Found",
        412 => "Precondition Failed",
        _ => "Service Unavailable",
    }
}

fn push_field(out: &mut Vec<u8>, name: &str, value: Option<u64>, push: fn(&mut Vec<u8>, u64)) {
    if let Some(value) = value {
        out.extend_from_slice(name.as_bytes());
        out.extend_from_slice(b": ");
        push(out, value);
        out.extend_from_slice(b"\r\n");
    }
}

fn push_head(out: &mut Vec<u8>, reply: &Reply, moment: u64, size: usize, last: bool) {
    out.extend_from_slice(b"HTTP/1.1 ");
    push_number(out, reply.status.into());
    out.push(b' ');
    out.extend_from_slice(reason(reply.status).as_bytes());
    out.extend_from_slice(b"\r\n");
    push_field(out, "X-Weave-Timestamp", Some(moment), push_time);
    push_field(out, "X-Last-Modified", reply.modified, push_time);
    push_field(out, "X-Weave-Records", reply.records, push_number);
    push_field(out, "X-Weave-Next-Offset", reply.next, push_number);
    if reply.status != 304 {
        out.extend_from_slice(b"Content-Type: application/json\r\n");
        push_field(out, "Content-Length", Some(size as u64), push_number);
    }
    out.extend_from_slice(if last { b"Connection: close\r\n\r\n" } else { b"\r\n" });
}

type Accounts = HashMap<u32, Mutex<Account>>;

/// Answers a message, by its body and what is to be said in the head: the reply and the account's moment.
fn respond(accounts: &Accounts, head: &Head, content: &[u8], body: &mut Vec<u8>) -> (Reply, u64) {
    let (path, query) = head.target.split_once('?').unwrap_or((head.target, ""));
    let account = path.strip_prefix("/1.5/").and_then(|rest| rest.split_once('/'));
    let found = account.and_then(|(uid, rest)| Some((accounts.get(&uid.parse().ok()?)?, rest)));
    let Some((account, rest)) = found else {
        return (Reply { status: 401, modified: None, records: None, next: None }, clock());
    };
    let Head { method, if_modified_since, if_unmodified_since, .. } = *head;
    let request = Request { method, query, if_modified_since, if_unmodified_since, body: content };
    let mut account = account.lock().unwrap_or_else(|broken| broken.into_inner());
    let reply = account.answer(rest, &request, body).unwrap_or_else(|refusal| {
        body.clear();
        Reply { status: refusal.status, modified: refusal.modified, records: None, next: None }
    });
    (reply, account.moment)
}

/// Answers the messages of a connection until it ends, or a message isn't in form.
fn serve(accounts: &Accounts, stream: TcpStream) -> io::Result<()> {
    stream.set_nodelay(true)?;
    let mut link = Link { stream, input: vec![0; 65_536], filled: 0 };
    let (mut lines, mut body) = (Vec::with_capacity(512), Vec::with_capacity(65_536));
    while let Some(front) = link.head()? {
        let Some(head) = Head::read(&link.input[..front]) else {
            break;
        };
        let (end, last) = (front + head.length, head.last);
        if link.filled < end {
            if !link.read_to(end)? {
                break;
            }
            continue;
        }
        body.clear();
        let (reply, moment) = respond(accounts, &head, &link.input[front..end], &mut body);
        lines.clear();
        push_head(&mut lines, &reply, moment, body.len(), last);
        link.send(&lines, &body)?;
        if last {
            break;
        }
        link.input.copy_within(end..link.filled, 0);
        link.filled -= end;
    }
    Ok(())
}

/// What the words ask.
struct Words {
    address: String,
    folder: String,
    uids: Vec<u32>,
    workers: usize,
    keeps_batches: bool,
}

impl Words {
    fn read(mut words: impl Iterator<Item = String>) -> Option<Words> {
        words.next().filter(|word| word == "serve")?;
        let (address, folder) = (words.next()?, words.next()?);
        let (mut uids, mut workers, mut keeps_batches) = (Vec::new(), 4, true);
        while let Some(word) = words.next() {
            match word.as_str() {
                "--workers" => workers = words.next()?.parse().ok()?,
                "--batches-in-memory" => keeps_batches = false,
                // (terms are syncstore's)
                "--connections" => drop(words.next()?),
                uid => uids.push(uid.parse().ok()?),
            }
        }
        Some(Words { address, folder, uids, workers, keeps_batches })
    }
}

fn main() {
    let Some(words) = Words::read(env::args().skip(1)) else {
        eprintln!("usage: server serve ADDRESS FOLDER UID .. [--workers N] [--batches-in-memory]");
        process::exit(1);
    };
    let stop = |why: &dyn std::fmt::Display| -> ! {
        eprintln!("baseline: {why}");
        process::exit(2)
    };
    fs::create_dir_all(&words.folder).unwrap_or_else(|error| stop(&error));
    let open = |&uid: &u32| {
        let path = Path::new(&words.folder).join(format!("{uid}.db"));
        (uid, Mutex::new(Account::open(&path, words.keeps_batches).unwrap_or_else(|fault| stop(&fault.0))))
    };
    unsafe { c::sqlite3_config(c::MEMORY_COUNTED, 0 as c_int) };
    let accounts: Accounts = words.uids.iter().map(open).collect();
    let listener = TcpListener::bind(&words.address).unwrap_or_else(|error| stop(&error));
    eprintln!("baseline: listening at {}", words.address);
    thread::scope(|threads| {
        for _ in 0..words.workers {
            threads.spawn(|| loop {
                // (a connection that fails is over, and its client sees that)
                let _ = listener.accept().and_then(|(stream, _)| serve(&accounts, stream));
            });
        }
    });
}
