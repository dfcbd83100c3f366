//! A laboratory gateway over UDP: it answers each request for a sampler from a file.

#![deny(unsafe_code)]

use kit::args::{Given, Switches};
use kit::program::Program;
use kit::{interrupt, say};
use link::book::Book;
use link::common::{self, Common};
use link::desk::Desk;
use link::keeper::Resumed;
use link::modem::Modem;
use link::post::{self, Post};
use link::state::Whose;
use rds::Side;
use std::process::ExitCode;

const HELP: &str = "\
Usage: gateway [SWITCHES] RESULTS.csv

Answers readers over UDP from a file, until Ctrl-C. The first line says which address it listens on; then comes a line
for each event, and a summary at the end. It sleeps while nothing comes and nothing is due.

RESULTS.csv has the header sampler,answer,detail. The answers, and what they do:
  value    the detail is the result, such as NO2 41.2 ug/m3
  empty    a result with no data: the laboratory has nothing to report
  abort    the transaction is aborted by the user; the detail is the reason, 0 to 255
  silent   the gateway's user never answers
  unheard  the Invoke is thrown away, as if it had never come
  damaged  the Result goes out malformed
A sampler that isn't in the file is aborted by the user with reason 10.
There are numbers for 256 readers (addresses) in one run, or in all runs with one state file; a further one is refused, with a
line that says so.

Switches, with their defaults:
  --listen ADDRESS     address and port; port 0 takes a free one (127.0.0.1:9201, or that of the state file)
  --patience MS        the engine's waiting limit, 1 to 86400000: so long may a transaction wait where the protocol has no timer,
                       for a TID that is verified or, after a hold-on, for a user; then the engine ends it (30000)
  --quiet              no line for an event";

const HELP_END: &str = "  --help               this text

Exit status: 0 stopped by Ctrl-C or SIGTERM, 2 wrong arguments, a wrong file or an address that can't be used; a state file that
can't be used stays as it was.

Example: gateway --listen 127.0.0.1:9201 --loss 10 --delay 50 host/examples/results.csv";

const RECORDS: u64 = 48;
const VALUED: [&str; 2] = ["--listen", "--patience"];

struct Gateway {
    post: Post,
    modem: Modem<Desk>,
    quiet: bool,
}

fn main() -> ExitCode {
    let help = format!("{HELP}\n{}\n{HELP_END}", common::HELP);
    let switches =
        Switches { valued: &[&common::VALUED[..], &VALUED].concat(), flags: &[&common::FLAGS[..], &["--quiet"]].concat() };
    Program { name: "gateway", help: &help, switches }.run(|given| prepare(given).map(Gateway::run))
}

fn prepare(given: &Given) -> Result<Gateway, String> {
    let common = Common::of(given, RECORDS)?;
    let patience = given.number("--patience", 30_000, 1..=86_400_000)?;
    let listen = given.text("--listen")?.map(post::address).transpose()?;
    let [file] = given.all_names(["RESULTS.csv"])?;
    let book = Book::read(file)?;
    let samplers = book.len();
    let (keeper, resumed) = common.state(given, Whose::Gateway)?;
    let desk = match &resumed {
        Some(resumed) => Desk::resumed(resumed, book)?,
        None => Desk::new(common.table(patience)?, book),
    };
    let address = match listen.or_else(|| resumed.as_ref().map(|resumed| resumed.own)) {
        Some(address) => address,
        None => post::address(common::DEFAULT_ADDRESS)?,
    };
    let modem = common.modem(desk, Side::Network);
    let mut post = Post::bind(address, common.line())?;
    interrupt::watch();
    say::out(&format!("gateway: listening on {} with {samplers} samplers", post.local()?));
    for line in resumed.map_or_else(Vec::new, |resumed| go_on(&mut post, resumed)) {
        say::out(&format!("gateway: {line}"));
    }
    post.keep_in(keeper, &modem)?;
    Ok(Gateway { post, modem, quiet: given.has("--quiet") })
}

/// Gives the post the time and the peers that were kept; what is to be said of them is given back.
fn go_on(post: &mut Post, resumed: Resumed) -> Vec<String> {
    let lines = resumed.lines();
    post.go_on_from(resumed.clock());
    post.peers = resumed.peers;
    lines
}

impl Gateway {
    fn run(mut self) -> u8 {
        while !interrupt::stopped() {
            let log = self.post.tick(&mut self.modem);
            self.log(&log);
            let log = self.post.listen(&mut self.modem, None);
            self.log(&log);
        }
        let now = self.post.now();
        // Like an Abort, a Release is sent once: a gateway that was stopped waits for nobody.
        for step in [self.modem.with(|desk| desk.interrupt(now)), self.modem.close(now)] {
            let log = self.post.keep_and_carry_out(&self.modem, step);
            self.log(&log);
        }
        let log = self.post.empty_line();
        self.log(&log);
        let tally = self.modem.end.tally().to_string().replace('\n', "\ngateway: ");
        say::out(&format!("gateway: {tally}"));
        self.modem.tally().into_iter().for_each(|frames| say::out(&format!("gateway: {frames}")));
        say::out(&format!("gateway: {}", self.post.summary()));
        0
    }

    fn log(&self, lines: &[String]) {
        if self.quiet {
            return;
        }
        let now = self.post.now();
        for line in lines {
            say::out(&format!("{:>7}.{:03}  {line}", now / 1_000, now % 1_000));
        }
    }
}
