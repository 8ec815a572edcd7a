"""Drives a workbench program with random sessions of `images`, and compares its replies with those of `replay-workbench`.
    python3 tools/compare_workbench.py PROGRAM SEED COUNT        (in twin/, after cargo build --release)"""
import subprocess
import sys

BIN = 'target/release/'


def out(command, data=b''):
    return subprocess.run(command, input=data, stdout=subprocess.PIPE, check=False).stdout


def main():
    program, seed, count = sys.argv[1:4]
    stream = out([BIN + 'images', seed, count])
    expected = out([BIN + 'replay-workbench'], stream).split(b'----\n')
    loads = differences = 0
    sessions = stream.split(b'\n----\n')
    for number, session in enumerate(sessions):
        if not session.endswith(b'\n'):
            session += b'\n'
        loads += session.count(b'\nload ')
        if out([program], session) != expected[number]:
            differences += 1
            if differences == 1:
                sys.stdout.write('the first session that differs:\n' + session.decode('latin-1'))
    print('seed', seed, 'sessions', len(sessions), 'loads', loads, 'differences', differences)
    return 1 if differences else 0


if __name__ == '__main__':
    sys.exit(main())
