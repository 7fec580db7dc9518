//! Runs the crate offset-allocator and writes down what it answers: a list for
//! each command, the same bytes on every run.

mod binary32;
mod classes;
mod damaged;
mod gauge;
mod gauge_rows;
mod gauges;
mod history;
mod journal;
mod journal_cases;
mod journal_long;
mod journal_room;
mod journal_runs;
mod long_runs;
mod packet_cases;
mod packet_day;
mod packet_rows;
mod packet_runs;
mod packet_speed;
mod packet_store;
mod packets;
mod panics;
mod regions;
mod replay;
mod runs;
mod sound;
mod spans;
mod speed;
mod splitmix;
mod spoil;

use std::io::{self, BufWriter, Write};
use std::process::ExitCode;

const USAGE: &str = "\
usage: oracle COMMAND
  classes        the size classes: every class with its value, and sizes with their classes
  runs           runs of calls, each with its answer and the report after it
  long-runs N    N calls in long runs with many records, for a pipe
  speed RUN SIZE RECORDS CALLS
                 a run of seeded takes and returns, to be timed
  setups SIZE RECORDS TIMES
                 so many setups, to be timed
  spoil          small stores word by word, each word spoiled, with what an audit must answer
  replay         a line for each call of the journal on standard input
  replay --bare FILE
                 the time of the calls of a journal, without the reading
  replay --decode FILE
                 the time of its reading
  journal-runs journal
                 the calls of the runs as one journal, and a record that is cut
  journal-runs lines
                 what a replay of it must print
  journal-cases  journals made by hand, in hexadecimal
  journal-cases lines
                 what a replay of each must print
  journal-room   records written at each place of short buffers
  damaged N      a digest of the replays of N damaged journals
  journal-long CALLS
                 a journal of so many seeded takes and returns, to be timed
  packets        a seeded day of packets in two stores: digests, counts and what differed
  packet-cases   single calls of packets in two small stores
  packet-cases lines
                 what a program must print for each
  packets-speed TURNS
                 the time of a packet's turns beside the bare calls and copies
  gauges         readings of a fill gauge, each with its answer and the gauge after it
  gauges N       N readings and more, for a pipe";

fn main() -> ExitCode {
    let arguments: Vec<String> = std::env::args().skip(1).collect();
    let arguments: Vec<&str> = arguments.iter().map(String::as_str).collect();
    let mut out = BufWriter::new(io::stdout().lock());

    let Some(written) = write(&mut out, &arguments) else {
        eprintln!("{USAGE}");
        return ExitCode::from(2);
    };
    match written.and_then(|()| out.flush()) {
        Ok(()) => ExitCode::SUCCESS,
        Err(error) => {
            eprintln!("oracle: {error}");
            ExitCode::FAILURE
        }
    }
}

/// What a command writes, unless the arguments are no command.
fn write(out: &mut impl Write, arguments: &[&str]) -> Option<io::Result<()>> {
    Some(match arguments {
        ["classes"] => classes::write(out),
        ["runs"] => runs::write(out),
        ["long-runs", calls] => long_runs::write(out, number(calls)?),
        ["speed", run, size, records, calls] => speed::write(
            out,
            number(run)?,
            number(size)?,
            number(records)?,
            number(calls)?,
        ),
        ["setups", size, records, times] => {
            speed::write_setups(out, number(size)?, number(records)?, number(times)?)
        }
        ["spoil"] => spoil::write(out),
        ["journal-room"] => journal_room::write(out),
        ["replay"] => replay::write(out),
        ["replay", "--bare", path] => replay::write_bare(out, path),
        ["replay", "--decode", path] => replay::write_decode(out, path),
        ["journal-runs", "journal"] => journal_runs::write_journal(out),
        ["journal-runs", "lines"] => journal_runs::write_lines(out),
        ["journal-cases"] => journal_cases::write(out),
        ["journal-cases", "lines"] => journal_cases::write_lines(out),
        ["damaged", journals] => damaged::write(out, number(journals)?),
        ["journal-long", calls] => journal_long::write(out, number(calls)?),
        ["packets"] => packet_day::write(out),
        ["packet-cases"] => packet_cases::write(out),
        ["packet-cases", "lines"] => packet_cases::write_lines(out),
        ["packets-speed", turns] => packet_speed::write(out, number(turns)?),
        ["gauges"] => gauges::write(out),
        ["gauges", readings] => gauges::write_long(out, number(readings)?),
        _ => return None,
    })
}

fn number(word: &str) -> Option<u32> {
    word.parse().ok()
}
