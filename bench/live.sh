#!/usr/bin/env bash
# A live run of 3,000 ticks over 32 universes that are all under way, or over as many as the first word says, beside `render` of the same script
# with a frame line after each tick, both in memory: a copy of the program is built whose `main` keeps output and outlets, and tells how long the
# job took. The live run is played with a pace of none, and with beats of a millisecond, so that the workers rest when a tick comes: then the
# engine's own time from beat to beat is told, in a fade of a minute, and in one of five seconds, in which each tick changes all slots. The copy
# stands on the proofs of the crates here (`rt all check` first); only its `main` is proved again.
# Run by hand on a quiet machine. `bench/live.sh files` instead plays 500 ticks by the program itself, into files, at its own pace.
# `bench/live.sh pace [PROGRAM]` plays 3,000 ticks, a minute of show, at the program's own pace, alone and then beside two busy processes for each
# processor, and says how late each moment of the show came by the machine's steady clock, beside the one that came earliest.
# `bench/live.sh pipes [PROGRAM]` plays over 32 named pipes whose readers wait, in a fade of all slots: 50 ticks a second, and 500 masters a second,
# since a tick keeps to its 20 ms. It says how long after a command's reply the whole line is at a reader (bench/outlets.c).
set -eu
top=$(cd "$(dirname "$0")/.." && pwd)
copy=$(mktemp -d)
trap 'rm -rf "$copy"' EXIT
universes=32
case "${1:-}" in [0-9]*) universes=$1 ;; esac
python3 - "$copy" "$universes" <<'PYTHON'
import sys
folder, slots = sys.argv[1], 512 * int(sys.argv[2])
def show(dimmers, up):
    rows = ['PATCH 1 ' + ' '.join('%d<%d@FL' % (1 + (d - 1) % 2048, d) for d in range(at, at + 64)) for at in range(1, dimmers + 1, 64)]
    moves = ['CHAN ' + ' '.join('%d@FL' % c for c in range(at, at + 64)) for at in range(1, 2049, 64)]
    return ['IDENT 3:0', 'SET CHANNELS 2048', *rows, 'CUE 1', 'UP ' + up, *moves, 'ENDDATA']
for name, dimmers, up, lines in (('live', slots, '1:00', ['go'] + ['tick'] * 3000), ('render', slots, '1:00', ['go'] + ['tick', 'frame'] * 3000),
                                 ('short', slots, '1:00', ['go'] + ['tick'] * 500), ('fast', slots, '5', ['go'] + ['tick'] * 250),
                                 ('wide', 16384, '1:00', [])):
    with open(folder + '/' + name, 'w') as out:
        out.write('\n'.join(show(dimmers, up) + lines) + '\n')
PYTHON
if [ "${1:-}" = files ]; then
    cd "$copy"
    TIMEFORMAT='500 ticks into 32 files: %R s, %U s of processor time and %S s in the system'
    time "$top/crates/cuedesk/out/cuedesk" run 32 < short > /dev/null
    wc -l universe-*.txt | tail -1
    exit
fi
if [ "${1:-}" = pace ]; then
    cd "$copy"
    python3 - "$(realpath "${2:-$top/crates/cuedesk/out/cuedesk}")" <<'PYTHON'
import os, subprocess, sys, time
def minute(words):
    """How long a minute of show took from its first frame to its last, and how late each of them came, in milliseconds."""
    os.mkfifo('universe-1.txt')
    with open('live') as script:
        desk = subprocess.Popen([sys.argv[1], 'run', '1'], stdin=script, stdout=subprocess.DEVNULL)
    with open('universe-1.txt', 'rb', 0) as outlet:
        came = [(time.monotonic(), int(line.split(b' ', 3)[2])) for line in outlet]
    assert desk.wait() == 0 and (came[0][1], came[-1][1]) == (0, 6000)
    took = came[-1][0] - came[0][0]
    os.remove('universe-1.txt')
    ahead = [1000 * at - 10 * moment for at, moment in came]
    late = sorted(each - min(ahead) for each in ahead)
    print('%s: 60 s of show took %.3f s; %d frames came, late by %.1f ms at the median, %.1f at the worst and %.1f at the end; load %.1f' % (
        words, took, len(came), late[len(late) // 2], late[-1], ahead[-1] - min(ahead), os.getloadavg()[0]), flush=True)
minute('alone')
busy = [subprocess.Popen([sys.executable, '-c', 'import os; os.sched_setscheduler(0, os.SCHED_OTHER, os.sched_param(0))\nwhile True: pass']) for _ in range(2 * (os.cpu_count() or 1))]
try:
    minute('beside busy processes')
finally:
    for process in busy:
        process.kill()
PYTHON
    exit
fi
if [ "${1:-}" = pipes ]; then
    program=$(realpath "${2:-$top/crates/cuedesk/out/cuedesk}")
    cc -std=c99 -O2 -Wall -Wextra -o "$copy/outlets" "$top/bench/outlets.c"
    echo 'ticks, 50 a second:'
    mkdir "$copy/ticks" && (cd "$copy/ticks" && "$copy/outlets" "$program" "$copy/wide" 32 1000 20000 tick > told && cat told)
    echo 'masters, 500 a second:'
    mkdir "$copy/masters" && (cd "$copy/masters" && "$copy/outlets" "$program" "$copy/wide" 32 5000 2000 'master at 100' 'master at 99' > told && cat told)
    exit
fi
cp -a "$top/crates.txt" "$top/HANDLES" "$top/crates" "$copy"
cd "$copy/crates/cuedesk"
rm -rf stdin stdout args status proofs
python3 - src/main.rt <<'PYTHON'
import sys
path = sys.argv[1]
text = open(path).read()
uses = '''use lx_desk::Status;
use lx_io::{Pace, PlainSink, StdSource};
use lx_program::{desk, desk_live, exit_of};
use std::alloc::Global;
use std::io::IsTerminal;
use std::process::ExitCode;
use std::sync::atomic::AtomicU64;
use std::sync::atomic::Ordering::SeqCst;
use std::thread;
use std::time::{Duration, Instant};
use std::{env, io};

'''
head = text[:text.index('use lx_crew')] + uses + text[text.index('/// The line that says'):text.index('fn main(rt')]
open(path, 'w').write(head + '''/// A pace whose beats take a number of microseconds, and which counts the engine's own time from beat to beat.
#[derive(Drop)]
struct Timed<'r> {
    rt: &'r HostRuntime,
    start: Instant,
    beat: u64,
    last: AtomicU64,
    spent: AtomicU64,
}

impl Timed<'_> {
    /// Microseconds since the start.
    fn now(&self) -> u64 {
        match self.start.elapsed(self.rt) {
            Ok(spent) => spent.as_secs().saturating_mul(1_000_000).saturating_add(spent.subsec_micros() as u64),
            Err(_) => 0,
        }
    }
}

impl Pace for Timed<'_> {
    fn beat(&self) {
        let last = self.last.load(SeqCst);
        if last > 0 {
            self.spent.fetch_add(self.now().saturating_sub(last), SeqCst);
        }
        if self.beat > 0 {
            thread::sleep(self.rt, Duration::from_micros(self.beat));
        }
        self.last.store(self.now(), SeqCst);
    }

    fn taken(&self, _universe: u8, _count: u64) {}
}

fn kept(alloc: Global) -> Option<PlainSink>
    ensures { IsSome result }
{
    Some(PlainSink::new(alloc))
}

/// Sinks for all universes that keep their lines.
fn outlets(alloc: Global) -> [Option<PlainSink>; 32]
    ensures count { length result ≡ 32 }
    ensures full { IsFull result }
{
    [
        kept(alloc), kept(alloc), kept(alloc), kept(alloc), kept(alloc), kept(alloc), kept(alloc), kept(alloc),
        kept(alloc), kept(alloc), kept(alloc), kept(alloc), kept(alloc), kept(alloc), kept(alloc), kept(alloc),
        kept(alloc), kept(alloc), kept(alloc), kept(alloc), kept(alloc), kept(alloc), kept(alloc), kept(alloc),
        kept(alloc), kept(alloc), kept(alloc), kept(alloc), kept(alloc), kept(alloc), kept(alloc), kept(alloc),
    ]
}

fn main(rt: HostRuntime) -> ExitCode {
    let alloc: Global = rt.alloc();
    let Ok(words) = words_given(&rt) else {
        return ExitCode::from(2);
    };
    let Ok(start) = Instant::now(&rt) else {
        return ExitCode::from(3);
    };
    let beat = match env::var(&rt, "BEAT") {
        Ok(_) => 1_000,
        Err(_) => 0,
    };
    let mut input = StdSource::new(rt.stdin());
    let mut output = PlainSink::new(alloc);
    let mut outlets = outlets(alloc);
    let pace = Timed { rt: &rt, start, beat, last: AtomicU64::new(0), spent: AtomicU64::new(0) };
    let begun = pace.now();
    let status = match desk(alloc, &words, &mut input, &mut output) {
        Status::Live => desk_live(&rt, alloc, &words, &mut input, &mut output, &mut outlets, &pace),
        done => done,
    };
    let micros = pace.now().saturating_sub(begun);
    let engine = pace.spent.load(SeqCst);
    let exit = exit_of(status);
    let mut bytes: usize = 0;
    for outlet in &outlets {
        if let Some(sink) = outlet {
            bytes = bytes.saturating_add(sink.bytes().len());
        }
    }
    let written = output.bytes().len();
    let _ = println!(rt; "status {exit}, {micros} microseconds, engine {engine} between beats, {written} bytes of output, {bytes} in outlets");
    ExitCode::from(exit)
}
''')
path = sys.argv[1]
text = open(path).read()
text = text.replace('use lx_desk::Status;', 'ghost use Rattle.std.specs.Prelude.{◌≡◌, length, IsSome};\nghost use Rattle.lx_workers.specs.Places.{IsFull};\n\nuse lx_desk::Status;')
open(path, 'w').write(text)
PYTHON
rt run < /dev/null > "$copy/log" 2>&1 || true
if [ ! -x out/cuedesk ]; then
    tail -n 20 "$copy/log" >&2
    exit 1
fi
for turn in 1 2 3; do
    echo "render, a frame a tick: $(out/cuedesk render < "$copy/render")"
    echo "live, a pace of none:   $(out/cuedesk run "$universes" < "$copy/live" || true)"
    echo "live, beats of 1 ms:    $(BEAT=1 out/cuedesk run "$universes" < "$copy/short" || true)"
    echo "the same, a fast fade:  $(BEAT=1 out/cuedesk run "$universes" < "$copy/fast" || true)"
done
