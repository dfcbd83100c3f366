//! A reader over UDP: it asks for a concentration for each sampler of a file.

#![deny(unsafe_code)]

mod export;
mod progress;
mod report;
mod samplers;

use kit::args::{Given, Switches};
use kit::program::{Program, WRONG_ARGUMENTS};
use kit::{interrupt, say, Draft};
use link::common::{self, Common};
use link::keeper::Resumed;
use link::line::Line;
use link::modem::Modem;
use link::outcome::{Outcome, Why};
use link::post::{self, Post};
use link::round::{Manner, Round, GATEWAY};
use link::state::Whose;
use link::step::Step;
use progress::Progress;
use rds::Side;
use samplers::{Ended, Scanned};
use std::net::SocketAddr;
use std::process::ExitCode;

const HELP: &str = "\
Usage: reader [SWITCHES] SAMPLERS.csv

Asks a gateway over UDP for a concentration for each sampler of a file (header sampler,site), each in a class 2
transaction, several at a time, and prints a line for each, with what it cost and one of four outcomes:
  VALUE         a measured value
  EMPTY RESULT  the laboratory answered, with no data
  ABORT         the transaction was aborted, by the provider or by a user, and why
  NO ANSWER     none came: this reader's timer or patience ended it, or Ctrl-C, or it couldn't be asked, also for want of a port
OCTETS is what was sent for the sampler before its result or abort: its Invoke, TIDoks and their repeats, without the last Acks,
without an Abort, and without frames and UDP. Then comes a summary, with their sum. Ctrl-C ends the waiting: what has no outcome yet
is shown as NO ANSWER.

Switches, with their defaults:
  --gateway ADDRESS    the gateway's address and port (127.0.0.1:9201, or that of the state file)
  --from ADDRESS       the reader's own address and port: a gateway knows it by these again after a restart (a free port, or that of
                       the state file)
  --patience MS        how long a sampler may take, 1 to 86400000 (3 times (retries + 1) intervals)
  --csv FILE           write the outcomes to FILE too, whole or not at all, in place of an earlier one (no file); its columns
                       are sampler,site,outcome,value,detail,octets, and the value is filled for VALUE alone
  --no-user-ack        ask for no user acknowledgement: a gateway then holds on for a user who says nothing";

const HELP_END: &str = "  --help               this text

Exit status: 0 each sampler has a value or an empty result, 1 not so, also after Ctrl-C, 2 wrong arguments or a wrong file,
also where the CSV file can't be written; a state file that can't be used stays as it was.

Example: reader --gateway 127.0.0.1:9201 --loss 20 --duplicate 20 --delay 60 host/examples/samplers.csv";

const RECORDS: u64 = 8;
const VALUED: [&str; 4] = ["--gateway", "--from", "--patience", "--csv"];

struct Reader {
    post: Post,
    modem: Modem<Round>,
    samplers: Vec<Scanned>,
    progress: Progress,
    csv: Option<Draft>,
}

fn main() -> ExitCode {
    let help = format!("{HELP}\n{}\n{HELP_END}", common::HELP);
    let switches =
        Switches { valued: &[&common::VALUED[..], &VALUED].concat(), flags: &[&common::FLAGS[..], &["--no-user-ack"]].concat() };
    Program { name: "reader", help: &help, switches }.run(|given| prepare(given).map(Reader::run))
}

fn prepare(given: &Given) -> Result<Reader, String> {
    let common = Common::of(given, RECORDS)?;
    let linger = common.last_repeat();
    let patience = given.number("--patience", linger.saturating_mul(3), 1..=86_400_000)?;
    let [gateway, from] = [given.text("--gateway")?, given.text("--from")?].map(|text| text.map(post::address).transpose());
    let [file] = given.all_names(["SAMPLERS.csv"])?;
    let samplers = samplers::read(file)?;
    let manner = Manner { user_ack: !given.has("--no-user-ack"), patience, linger };
    let asked = samplers.iter().map(|scanned| scanned.sampler.clone()).collect();
    let (keeper, resumed) = common.state(given, Whose::Reader)?;
    let round = match &resumed {
        Some(resumed) => Round::resumed(resumed, asked, manner)?,
        None => Round::new(common.table(patience)?, asked, manner),
    };
    let modem = common.modem(round, Side::Ue);
    let mut post = connected(from?, gateway?, resumed.as_ref(), common.line())?;
    let csv = given.text("--csv")?.map(|csv| draft(csv, file)).transpose()?;
    for line in resumed.map_or_else(Vec::new, |resumed| go_on(&mut post, &resumed)) {
        say::err(&format!("reader: {line}"));
    }
    post.keep_in(keeper, &modem)?;
    Ok(Reader { post, modem, samplers, progress: Progress::new(), csv })
}

/// From the address that was given or kept, so that the gateway knows the reader again, to the gateway that was given or kept.
fn connected(from: Option<SocketAddr>, gateway: Option<SocketAddr>, kept: Option<&Resumed>, line: Line) -> Result<Post, String> {
    let gateway = match gateway.or_else(|| kept.and_then(|kept| kept.peers.address(GATEWAY))) {
        Some(address) => address,
        None => post::address(common::DEFAULT_ADDRESS)?,
    };
    match from.or_else(|| kept.map(|kept| kept.own)) {
        Some(own) => Post::between(own, gateway, line),
        None => Post::towards(gateway, line),
    }
}

/// Gives the post the time that was kept; what is to be said is given back.
fn go_on(post: &mut Post, resumed: &Resumed) -> Vec<String> {
    post.go_on_from(resumed.clock());
    resumed.lines()
}

/// The outcomes must not take the place of the samplers.
fn draft(csv: &str, samplers: &str) -> Result<Draft, String> {
    let place = |file| std::fs::canonicalize(file).ok();
    if place(csv).is_some() && place(csv) == place(samplers) {
        return Err(format!("{csv}: is the file of the samplers"));
    }
    Draft::of(csv)
}

impl Reader {
    fn run(mut self) -> u8 {
        interrupt::watch();
        while !self.round().is_finished() && !self.modem.has_failed() && !interrupt::stopped() {
            self.turn();
        }
        self.stop();
        let status = self.tell();
        // What was told needn't be remembered: the next start is another round.
        self.modem.end.told();
        self.carry_out(Step::default());
        while !self.round().is_over(self.post.now()) && !self.modem.has_failed() && !interrupt::stopped() {
            self.turn();
        }
        // After Ctrl-C the Release is sent once, and its answer isn't waited for.
        let step = self.modem.close(self.post.now());
        self.carry_out(step);
        while !self.modem.is_closed() && !interrupt::stopped() {
            self.turn();
        }
        let log = self.post.empty_line();
        self.log(&log);
        self.progress.clear();
        self.modem.tally().into_iter().for_each(|frames| say::err(&format!("reader: {frames}")));
        say::err(&format!("reader: {}", self.post.summary()));
        status
    }

    fn round(&self) -> &Round {
        &self.modem.end
    }

    /// What has no outcome gets none any more.
    fn stop(&mut self) {
        let why = if self.modem.has_failed() { Why::NoPort } else { Why::Interrupted };
        let now = self.post.now();
        let step = self.modem.with(|round| round.stop(now, why));
        self.carry_out(step);
    }

    fn carry_out(&mut self, step: Step) {
        let log = self.post.keep_and_carry_out(&self.modem, step);
        self.log(&log);
    }

    fn turn(&mut self) {
        let log = self.post.tick(&mut self.modem);
        self.log(&log);
        self.show_progress();
        let log = self.post.listen(&mut self.modem, self.progress.next());
        self.log(&log);
    }

    fn show_progress(&mut self) {
        let (round, all) = (self.round(), self.samplers.len());
        let text = match round.waiting() {
            0 if round.is_finished() => "reader: repeats of the last results are still answered".into(),
            waiting => format!("reader: {} of {all} samplers finished, {waiting} wait for an answer", round.finished()),
        };
        self.progress.show(self.post.now(), text);
    }

    fn log(&mut self, lines: &[String]) {
        for line in lines {
            self.progress.clear();
            say::err(&format!("reader: {line}"));
        }
    }

    /// Writes and prints the outcomes; the exit status says whether the laboratory answered each question.
    fn tell(&mut self) -> u8 {
        self.progress.clear();
        let all = self.ended();
        let written = self.csv.take().map_or(Ok(()), |csv| csv.keep(&export::text(&all)));
        say::out(&report::table(&all));
        say::out(&format!("\n{}", report::summary(&all)));
        if let Err(why) = written {
            say::err(&format!("reader: {why}"));
            return WRONG_ARGUMENTS;
        }
        u8::from(!all.iter().all(|ended| ended.outcome.is_answered()))
    }

    fn ended(&self) -> Vec<Ended> {
        let known = self.samplers.iter().zip(self.round().outcomes()).zip(self.round().costs());
        let ended = |((scanned, outcome), cost): ((&Scanned, &Option<Outcome>), &u32)| Ended {
            scanned: scanned.clone(),
            outcome: outcome.clone().unwrap_or(Outcome::NoAnswer(Why::Interrupted)),
            cost: *cost,
        };
        known.map(ended).collect()
    }
}
