//! A PostgreSQL server for one test program.

use std::io::{BufRead, BufReader, Write};
use std::path::{Path, PathBuf};
use std::process::{Child, ChildStdin, ChildStdout, Command, Stdio};
use std::sync::atomic::{AtomicUsize, Ordering};
use std::sync::OnceLock;

use crate::folder::fresh;

/// Makes a server in the folder `$1` and says `ready`. When standard input ends, as it does with the test program, however that ends, the server ends and the
/// folder goes. A server doesn't run as root: then the user that Debian makes for it does.
const SCRIPT: &str = r#"
trap '' HUP INT TERM
folder=$1
programs=/usr/lib/postgresql/15/bin
as=
mkdir "$folder" && chmod 700 "$folder" || exit 1
if [ "$(id -u)" = 0 ]; then
  chown postgres "$folder" || exit 1
  as='runuser -u postgres --'
fi
cd "$folder" || exit 1
$as "$programs/initdb" --pgdata="$folder/data" --username=postgres --auth=trust --encoding=UTF8 --locale=C.UTF-8 --no-sync > "$folder/log" 2>&1 &&
  $as "$programs/pg_ctl" --pgdata="$folder/data" --log="$folder/server" --wait --silent \
    --options="-c listen_addresses='' -c unix_socket_directories='$folder' -c fsync=off -c shared_buffers=16MB" start >> "$folder/log" 2>&1 ||
  { cat "$folder/log" "$folder/server" >&2; cd / ; rm -rf "$folder"; exit 1; }
chmod 711 "$folder"
echo ready
cat > /dev/null
$as "$programs/pg_ctl" --pgdata="$folder/data" --mode=immediate --wait --silent stop >> "$folder/log" 2>&1
cd /
rm -rf "$folder"
"#;

/// A server that runs as long as the test program.
pub struct Server {
    folder: PathBuf,
    databases: AtomicUsize,
    /// The shell that keeps it, as long as its standard input is open.
    _shell: Child,
}

static SERVER: OnceLock<Server> = OnceLock::new();

impl Server {
    /// The test program's server; the first call starts it.
    pub fn start() -> &'static Server {
        SERVER.get_or_init(Server::make)
    }

    fn make() -> Server {
        let folder = fresh();
        let mut shell = Command::new("sh")
            .args(["-c", SCRIPT, "sh"])
            .arg(&folder)
            .stdin(Stdio::piped())
            .stdout(Stdio::piped())
            .spawn()
            .expect("a shell");
        let output = shell.stdout.take().expect("its output");
        let mut line = String::new();
        let read = BufReader::new(output).read_line(&mut line);
        read.expect("a line of the server's shell");
        assert_eq!(line, "ready\n", "PostgreSQL 15 doesn't start");
        Server {
            folder,
            databases: AtomicUsize::new(0),
            _shell: shell,
        }
    }

    /// The folder of its socket.
    pub fn folder(&self) -> &Path {
        &self.folder
    }

    /// Makes an empty database, and gives its name.
    pub fn database(&self) -> String {
        let number = self.databases.fetch_add(1, Ordering::Relaxed);
        let name = format!("lab{number}");
        self.run("postgres", &format!("CREATE DATABASE {name}"));
        name
    }

    /// How to connect to a database of it.
    pub fn conninfo(&self, database: &str) -> String {
        let folder = self.folder.display();
        format!("host={folder} user=postgres dbname={database}")
    }

    /// Opens a connection that stays.
    pub fn session(&self, database: &str) -> Session {
        let mut psql = psql(&self.conninfo(database));
        Session {
            input: psql.stdin.take().expect("its input"),
            output: BufReader::new(psql.stdout.take().expect("its output")),
            psql,
        }
    }

    /// Runs statements on a connection of their own, and gives what they print: a row on a line, with `|` between its values.
    pub fn run(&self, database: &str, statements: &str) -> String {
        let mut psql = psql(&self.conninfo(database));
        let mut input = psql.stdin.take().expect("its input");
        input.write_all(statements.as_bytes()).expect("statements");
        drop(input);
        let ended = psql.wait_with_output().expect("its output");
        let errors = String::from_utf8_lossy(&ended.stderr);
        assert!(ended.status.success(), "{statements}\n{errors}");
        String::from_utf8_lossy(&ended.stdout).into_owned()
    }
}

/// PostgreSQL's shell, which reads statements from its standard input, and prints nothing but values.
fn psql(conninfo: &str) -> Child {
    Command::new("psql")
        .args(["--no-psqlrc", "--quiet", "--tuples-only", "--no-align"])
        .args(["--set=ON_ERROR_STOP=1", "--file=-"])
        .arg(conninfo)
        .stdin(Stdio::piped())
        .stdout(Stdio::piped())
        .stderr(Stdio::piped())
        .spawn()
        .expect("psql")
}

/// A connection that stays until it is dropped.
pub struct Session {
    input: ChildStdin,
    output: BufReader<ChildStdout>,
    psql: Child,
}

impl Session {
    /// Runs statements that print nothing, and waits until they are done.
    pub fn run(&mut self, statements: &str) {
        let written = writeln!(self.input, "{statements};\n\\echo done");
        written.expect("statements");
        let mut line = String::new();
        self.output.read_line(&mut line).expect("a line");
        assert_eq!(line, "done\n", "{statements}");
    }
}

impl Drop for Session {
    fn drop(&mut self) {
        // it ends itself when its input does; what it holds is the server's matter
        let _ = self.psql.kill();
        let _ = self.psql.wait();
    }
}
