"""Drives the proved programs and the twin with the same random sessions and compares every reply, byte for byte.

    python3 twin/tools/compare.py sessions SEED COUNT     COUNT console sessions: crates/replay/out/replay against the twin's replay
    python3 twin/tools/compare.py images SEED COUNT       workbench sessions until COUNT stored plans were loaded:
                                                          crates/workbench/out/workbench against the twin's replay-workbench
    python3 twin/tools/compare.py selftest                errors planted in a copy of the twin must be found and cut short

It goes chunk by chunk, each with a seed of its own from SEED on, and prints a line a chunk; so a run that was stopped goes on with the
seed after the last one printed. A disagreement is cut down to the shortest session found and printed with both replies.
Status 1 if there was one. `--ours "COMMAND ARGS"` puts another program in the place of ours, `--chunk N` sets the sessions of a chunk.
First: rt run < /dev/null in crates/replay and in crates/workbench, and cargo build --offline --release -j1 in twin/."""
import argparse
import os
import shlex
import subprocess
import sys
import time

HERE = os.path.dirname(os.path.abspath(__file__))
TWIN = os.path.normpath(os.path.join(HERE, '../target/release'))
OURS = os.path.normpath(os.path.join(HERE, '../../crates'))
MARKER = b'----\n'
MOST_SHOWN = 3  # disagreements that are cut short and printed


class Side:
    """A program that answers a stream of sessions, all at once or, where it knows no marker, by a run for each session."""

    def __init__(self, command, takes_streams):
        self.command = command
        self.takes_streams = takes_streams

    def feed(self, data):
        done = subprocess.run(self.command, input=data, stdout=subprocess.PIPE, stderr=subprocess.PIPE, check=False)
        if done.returncode != 0:
            # a program that breaks off disagrees with every reply
            return done.stdout + b'\n(status %d) ' % done.returncode + done.stderr[-200:]
        return done.stdout

    def replies(self, sessions):
        if not self.takes_streams:
            return [self.feed(session) for session in sessions]
        out = self.feed(MARKER.join(sessions)).split(MARKER)
        if len(out) != len(sessions) + 1 or out[-1] != b'':
            # its markers cannot be trusted: session by session
            return [self.reply(session) for session in sessions]
        return out[:-1]

    def reply(self, session):
        out = self.feed(session)
        if self.takes_streams:
            return out[:-len(MARKER)] if out.endswith(MARKER) else out + b'(no marker)'
        return out


class Pair:
    def __init__(self, mode, ours=None):
        replay = 'replay' if mode == 'sessions' else 'replay-workbench'
        program = 'replay' if mode == 'sessions' else 'workbench'
        self.writer = os.path.join(TWIN, mode)
        self.twin = Side([os.path.join(TWIN, replay)], True)
        if ours is None:
            self.ours = Side([os.path.join(OURS, program, 'out', program)], mode == 'sessions')
        else:
            self.ours = Side(shlex.split(ours), mode == 'sessions' or 'replay' in ours)

    def sessions(self, seed, count):
        done = subprocess.run([self.writer, str(seed), str(count)], stdout=subprocess.PIPE, check=True)
        return split_stream(done.stdout)

    def differ(self, session):
        return session != b'' and self.twin.reply(session) != self.ours.reply(session)


def split_stream(stream):
    """The sessions of a stream: a line `----` stands between two."""
    sessions, lines = [], []
    for line in stream.splitlines(keepends=True) if b'\r' not in stream else stream_lines(stream):
        if line == MARKER:
            sessions.append(b''.join(lines))
            lines = []
        else:
            lines.append(line)
    sessions.append(b''.join(lines))
    return sessions


def stream_lines(data):
    """Lines that end with byte 10 alone."""
    lines = data.split(b'\n')
    return [line + b'\n' for line in lines[:-1]] + ([lines[-1]] if lines[-1] else [])


def without(parts, differs):
    """Drops as many parts as possible while it still differs: halves first, then ever shorter pieces, until no single part can go."""
    size = max(len(parts) // 2, 1)
    while True:
        at, dropped = 0, False
        while at < len(parts):
            fewer = parts[:at] + parts[at + size:]
            if fewer and differs(fewer):
                parts, dropped = fewer, True
            else:
                at += size
        if size == 1 and not dropped:
            return parts
        size = max(size // 2, 1)


def shrink(pair, session):
    """The shortest session found that still differs: fewer lines, then a smaller board, then shorter lists of rows in what is left."""
    def differs(lines):
        return pair.differ(b''.join(lines))
    if not pair.differ(session):
        return None  # only in its stream
    lines = without(stream_lines(session), differs)
    lines = without(on_fewer_processors(lines, differs), differs)
    for i, line in enumerate(lines):
        words = line.rstrip(b'\n').split(b' ')
        first = {b'judge': 1, b'allow': 3}.get(words[0])
        if first is None or (len(words) - first) % 3 != 0 or len(words) - first < 6:
            continue
        rows = [words[k:k + 3] for k in range(first, len(words), 3)]

        def with_rows(rows, i=i, front=words[:first]):
            line = b' '.join(front + [word for row in rows for word in row]) + b'\n'
            return lines[:i] + [line] + lines[i + 1:]
        lines = with_rows(without(rows, lambda rows: differs(with_rows(rows))))
    return b''.join(lines)


def on_fewer_processors(lines, differs):
    """The same lines on the smallest board on which they still differ."""
    words = lines[0].split(b' ')
    if words[0] != b'board' or len(words) < 6:
        return lines
    for count in range(1, 8):
        smaller = [b' '.join([words[0], b'%d' % count] + words[2:])] + lines[1:]
        if differs(smaller):
            return smaller
    return lines


def show(pair, session):
    def text(data):
        return ''.join('    ' + line + '\n' for line in data.decode('latin-1').encode('unicode_escape').decode().split('\\n') if line)
    sys.stdout.write('  lines:\n' + text(session) + '  twin:\n' + text(pair.twin.reply(session)) + '  ours:\n' + text(pair.ours.reply(session)))


def chunk_of(pair, seed, count):
    """The number of sessions, lines and loads, and the sessions that differ, the shortest first."""
    sessions = pair.sessions(seed, count)
    expected = pair.twin.replies(sessions)
    given = pair.ours.replies(sessions)
    lines = sum(session.count(b'\n') for session in sessions)
    loads = sum(session.count(b'\nload ') for session in sessions)
    wrong = sorted((session for session, e, g in zip(sessions, expected, given) if e != g), key=len)
    return len(sessions), lines, loads, wrong


def compare(mode, seed, count, chunk, ours):
    pair = Pair(mode, ours)
    begin, first = time.time(), seed
    total = {'sessions': 0, 'lines': 0, 'loads': 0, 'disagreements': 0}
    counted = 'sessions' if mode == 'sessions' else 'loads'
    while total[counted] < count:
        size = min(chunk, count - total['sessions']) if mode == 'sessions' else chunk
        sessions, lines, loads, wrong = chunk_of(pair, seed, size)
        for name, number in (('sessions', sessions), ('lines', lines), ('loads', loads), ('disagreements', len(wrong))):
            total[name] += number
        for session in wrong[:max(0, MOST_SHOWN - (total['disagreements'] - len(wrong)))]:
            short = shrink(pair, session)
            print('seed %d, a disagreement, %s' % (seed, 'only in its stream:' if short is None else 'cut from %d lines to %d:' % (session.count(b'\n'), short.count(b'\n'))))
            show(pair, short or session)
        print('seed %d: %d sessions, %d lines, %d loads, %d disagreements (%d s so far)' % (seed, sessions, lines, loads, len(wrong), time.time() - begin), flush=True)
        seed += 1
    print('%s, seeds %d to %d: %d sessions, %d lines, %d loads, %d disagreements, %.1f minutes'
          % (mode, first, seed - 1, total['sessions'], total['lines'], total['loads'], total['disagreements'], (time.time() - begin) / 60))
    return 1 if total['disagreements'] else 0


def selftest():
    """Each planted error is found; each disagreement is cut to a few lines, still differs, and no line of it can go."""
    failed = 0
    for mode, plant, longest in (('sessions', 'head-keeps-deadline', 8), ('sessions', 'tail-plus-one', 8), ('sessions', 'no-judge', 8), ('sessions', 'gather-unasked', 12),
                                 ('images', 'head-keeps-deadline', 8), ('images', 'no-judge', 8), ('images', 'load-unjudged', 2)):
        replay = 'replay' if mode == 'sessions' else 'replay-workbench'
        pair = Pair(mode, '%s --plant %s' % (os.path.join(TWIN, replay), plant))
        wrong = chunk_of(pair, 1, 200)[3]
        short = shrink(pair, wrong[0]) if wrong else None
        lines = stream_lines(short) if short else []
        needed = all(not pair.differ(b''.join(lines[:i] + lines[i + 1:])) for i in range(len(lines)))
        good = bool(wrong) and bool(short) and pair.differ(short) and needed and len(lines) <= longest
        failed += not good
        print('%s with %s: %d of 200 sessions differ; the shortest, of %d lines, cut to %d%s'
              % (mode, plant, len(wrong), wrong[0].count(b'\n') if wrong else 0, len(lines), '' if good else ' FAILED'))
        if short:
            show(pair, short)
    clean = Pair('sessions', os.path.join(TWIN, 'replay'))
    wrong = chunk_of(clean, 1, 200)[3]
    print('sessions with nothing planted: %d of 200 differ' % len(wrong))
    return 1 if failed or wrong else 0


def main():
    parser = argparse.ArgumentParser(usage='compare.py sessions|images SEED COUNT [--chunk N] [--ours COMMAND] | compare.py selftest')
    parser.add_argument('mode', choices=('sessions', 'images', 'selftest'))
    parser.add_argument('seed', type=int, nargs='?')
    parser.add_argument('count', type=int, nargs='?')
    parser.add_argument('--chunk', type=int, default=1000)
    parser.add_argument('--ours')
    args = parser.parse_args()
    if args.mode == 'selftest':
        return selftest()
    if args.seed is None or args.count is None:
        parser.error('SEED and COUNT are wanted')
    return compare(args.mode, args.seed, args.count, args.chunk, args.ours)


if __name__ == '__main__':
    sys.exit(main())
