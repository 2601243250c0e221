//! A STUN server whose users are rows of a PostgreSQL database, on tokio (docs/USERS.md).
//!
//!     users_server CONNECTION REALM serve PORT
//!     users_server CONNECTION REALM set NAME PASSWORD
//!     users_server CONNECTION REALM remove NAME
//!
//! CONNECTION is what tokio-postgres takes, such as `host=localhost user=stun dbname=stun`; it
//! needs `host` and `user`. The table is that of docs/USERS.md. `serve` answers the users in the
//! table with the address that the request came from; its first line of output is `port N`, and
//! port 0 is any free one. `set` adds a user or changes the password of one, and `remove` removes
//! one: the next request is judged by it.

use seatcrane_stun::auth::NamedUser;
use seatcrane_stun::endpoint::{LongTerm, random_seed};
use std::error::Error;
use std::process::ExitCode;
use std::sync::Arc;
use std::time::Duration;
use tokio::net::UdpSocket;
use tokio::sync::{Mutex, Semaphore};
use tokio::time::timeout;
use tokio_postgres::{Client, NoTls, Statement};

// ---- What docs/USERS.md prints

use seatcrane_stun::types::attribute::Userhash;
use seatcrane_stun::types::message::{IntegrityAlgorithm, long_term_key};

pub struct Row {
    pub name: String,
    pub userhash: Vec<u8>,
    pub key_sha1: Option<Vec<u8>>,
    pub key_sha256: Option<Vec<u8>>,
}

impl Row {
    pub fn new(name: &str, realm: &str, password: &str) -> Row {
        let key = |algorithm| long_term_key(algorithm, name, realm, password);
        Row {
            name: name.to_string(),
            userhash: Userhash::compute(name, realm).to_vec(),
            key_sha1: Some(key(IntegrityAlgorithm::Sha1).as_bytes().to_vec()),
            key_sha256: Some(key(IntegrityAlgorithm::Sha256).as_bytes().to_vec()),
        }
    }
}

use seatcrane_stun::auth::StoredKeys;
use seatcrane_stun::endpoint::{Identified, Received, Server, UnixTime, User};
use std::net::SocketAddr;

/// A row as a user. A key of a wrong length counts as absent.
pub fn user_of(server: &Server, row: &Row) -> User {
    let keys = StoredKeys::new()
        .with_sha1(row.key_sha1.as_deref().and_then(|key| key.try_into().ok()))
        .with_sha256(row.key_sha256.as_deref().and_then(|key| key.try_into().ok()));
    server.user_with_keys(row.name.as_str(), keys)
}

/// Returns the response to send to `from`, if there is one.
pub async fn answer(
    server: &Server,
    database: &Database,
    bytes: &[u8],
    from: SocketAddr,
) -> Option<Vec<u8>> {
    let user;
    let received = match server.identify(bytes, from, UnixTime::now()) {
        Identified::Done(received) => received,
        Identified::Lookup(lookup) => match database.find(lookup.user_id()).await {
            Ok(row) => {
                user = row.map(|row| user_of(server, &row));
                server.resume(lookup, user.as_ref())
            }
            Err(_) => return None, // the database is away: the client sends its request again
        },
    };
    match received {
        Received::Answer(answer) => Some(answer.into_bytes()),
        Received::Request(request) => request.reply().error(400, "Bad Request").finish().ok(),
        _ => None,
    }
}

pub enum NoDatabase {
    Timeout,
    Closed,
}

pub async fn serve(
    server: Arc<Server>,
    database: Arc<Database>,
    socket: Arc<UdpSocket>,
) -> std::io::Result<()> {
    let (room, mut buffer) = (Arc::new(Semaphore::new(1000)), [0; 2048]);
    loop {
        let (length, from) = socket.recv_from(&mut buffer).await?;
        let Ok(place) = room.clone().try_acquire_owned() else {
            continue; // too busy: the client sends its request again
        };
        let (server, database, socket) = (server.clone(), database.clone(), socket.clone());
        let bytes = buffer[..length].to_vec();
        tokio::spawn(async move {
            if let Some(answer) = answer(&server, &database, &bytes, from).await {
                let _ = socket.send_to(&answer, from).await;
            }
            drop(place);
        });
    }
}

// ---- The database

/// How long a request waits for its user. After that the client has retransmitted it.
const LONGEST_QUERY: Duration = Duration::from_secs(1);
const SET: &str = "insert into stun_user (name, userhash, key_sha1, key_sha256) \
    values ($1, $2, $3, $4) on conflict (name) do update \
    set userhash = $2, key_sha1 = $3, key_sha256 = $4";
const REMOVE: &str = "delete from stun_user where name = $1";
const BY_NAME: &str = "select name, userhash, key_sha1, key_sha256 from stun_user where name = $1";
const BY_HASH: &str =
    "select name, userhash, key_sha1, key_sha256 from stun_user where userhash = $1";

/// A connection with the two queries, which the database has parsed once.
struct Connection {
    client: Client,
    by_name: Statement,
    by_hash: Statement,
}

impl Connection {
    async fn open(words: &str) -> Result<Connection, tokio_postgres::Error> {
        let (client, connection) = tokio_postgres::connect(words, NoTls).await?;
        // It ends when the connection does. The calls of the client return why.
        tokio::spawn(connection);
        Ok(Connection {
            by_name: client.prepare(BY_NAME).await?,
            by_hash: client.prepare(BY_HASH).await?,
            client,
        })
    }

    async fn find(&self, who: NamedUser<'_>) -> Result<Option<Row>, tokio_postgres::Error> {
        let found = match who {
            NamedUser::ByName(name) => self.client.query_opt(&self.by_name, &[&name]).await?,
            NamedUser::ByHash(hash) => self.client.query_opt(&self.by_hash, &[&&hash[..]]).await?,
        };
        Ok(found.map(|row| Row {
            name: row.get(0),
            userhash: row.get(1),
            key_sha1: row.get(2),
            key_sha256: row.get(3),
        }))
    }
}

/// The database, which is connected to again after a connection was lost.
pub struct Database {
    words: String,
    current: Mutex<Option<Arc<Connection>>>,
}

impl Database {
    fn new(words: String) -> Database {
        Database {
            words,
            current: Mutex::new(None),
        }
    }

    async fn connection(&self) -> Result<Arc<Connection>, tokio_postgres::Error> {
        let mut current = self.current.lock().await;
        if let Some(open) = current.as_ref().filter(|open| !open.client.is_closed()) {
            return Ok(open.clone());
        }
        let opened = Arc::new(Connection::open(&self.words).await?);
        *current = Some(opened.clone());
        Ok(opened)
    }

    async fn find(&self, who: NamedUser<'_>) -> Result<Option<Row>, NoDatabase> {
        // PostgreSQL stores no text with a zero byte, so no row has such a name.
        if matches!(who, NamedUser::ByName(name) if name.contains('\0')) {
            return Ok(None);
        }
        let query = async { self.connection().await?.find(who).await };
        match timeout(LONGEST_QUERY, query).await {
            Ok(found) => found.map_err(|_| NoDatabase::Closed),
            Err(_) => Err(NoDatabase::Timeout),
        }
    }

    async fn set(&self, row: &Row) -> Result<(), tokio_postgres::Error> {
        let Row {
            name,
            userhash,
            key_sha1,
            key_sha256,
        } = row;
        let open = self.connection().await?;
        let _ = open
            .client
            .execute(SET, &[name, userhash, key_sha1, key_sha256])
            .await?;
        Ok(())
    }

    async fn remove(&self, name: &str) -> Result<u64, tokio_postgres::Error> {
        self.connection()
            .await?
            .client
            .execute(REMOVE, &[&name])
            .await
    }
}

// ---- The commands

async fn run(words: &[String]) -> Result<(), Box<dyn Error>> {
    let words: Vec<&str> = words.iter().map(String::as_str).collect();
    let [connection, realm, command @ ..] = &words[..] else {
        return Err(USAGE.into());
    };
    let database = Database::new(connection.to_string());
    match command {
        ["serve", port] => {
            let server = Server::builder(LongTerm::new(*realm, random_seed()))
                .answer_binding(true)
                .build()?;
            database.connection().await?;
            let socket = UdpSocket::bind(("127.0.0.1", port.parse()?)).await?;
            println!("port {}", socket.local_addr()?.port());
            serve(Arc::new(server), Arc::new(database), Arc::new(socket)).await?;
        }
        ["set", name, password] => database.set(&Row::new(name, realm, password)).await?,
        ["remove", name] => match database.remove(name).await? {
            0 => return Err("there is no such user".into()),
            _ => (),
        },
        _ => return Err(USAGE.into()),
    }
    Ok(())
}

const USAGE: &str =
    "usage: users_server CONNECTION REALM (serve PORT | set NAME PASSWORD | remove NAME)";

#[tokio::main]
async fn main() -> ExitCode {
    let words: Vec<String> = std::env::args().skip(1).collect();
    match run(&words).await {
        Ok(()) => ExitCode::SUCCESS,
        Err(error) => {
            eprintln!("users_server: {error}");
            ExitCode::FAILURE
        }
    }
}
