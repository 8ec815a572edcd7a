"""Runs the benchmark and the tail experiment and writes their tables and plots into ../docs.

    python3 twin/tools/figures.py speed [SEED [SECONDS]]     docs/performance.md and its plots (by tools/bench.sh, on a quiet machine)
    python3 twin/tools/figures.py tails SEED COUNT           docs/tail-sizes.md and its plot (by target/release/tails)

Only what stands between the marks `<!-- NAME -->` and `<!-- end -->` of a page is replaced."""
import os
import re
import subprocess
import sys

HERE = os.path.dirname(os.path.abspath(__file__))
DOCS = os.path.normpath(os.path.join(HERE, '../../docs'))
COLORS = ['#1f5fa8', '#c2571a', '#2e7d4f', '#8a3f8f', '#a88a1f', '#555555']


def run(*command):
    return subprocess.run(command, stdout=subprocess.PIPE, check=True, text=True).stdout


def fill(page, name, text):
    path = os.path.join(DOCS, page)
    old = open(path).read()
    new = re.sub(r'(<!-- %s -->\n).*?(<!-- end -->)' % re.escape(name), lambda m: m.group(1) + text.rstrip('\n') + '\n' + m.group(2), old, flags=re.S)
    if '<!-- %s -->' % name not in old:
        raise SystemExit('%s has no mark %s' % (page, name))
    open(path, 'w').write(new)


def ticks_for(top):
    """A few round numbers from 0 up to at least the top."""
    step = 1e-9
    while top / step > 6:
        for factor in (2, 2.5, 2):
            if top / step > 6:
                step *= factor
    return [i * step for i in range(int(top / step) + 2) if (i - 1) * step < top]


def plot(name, title, x_label, y_label, series):
    """A line chart: series is a list of (label, [(x, y)])."""
    width, height, left, right, top, bottom = 640, 360, 60, 190, 40, 50
    xs = [x for _, points in series for x, _ in points]
    x0, x1 = min(xs), max(xs)
    marks = ticks_for(max(y for _, points in series for _, y in points))
    y1 = marks[-1]

    def at(x, y):
        return (left + (x - x0) / (x1 - x0) * (width - left - right), height - bottom - y / y1 * (height - top - bottom))
    out = ['<svg xmlns="http://www.w3.org/2000/svg" viewBox="0 0 %d %d" font-family="sans-serif" font-size="12">' % (width, height),
           '<rect width="%d" height="%d" fill="white"/>' % (width, height),
           '<text x="%d" y="22" font-size="14">%s</text>' % (left, title)]
    for mark in marks:
        _, y = at(x0, mark)
        out.append('<line x1="%d" y1="%.1f" x2="%d" y2="%.1f" stroke="#dddddd"/>' % (left, y, width - right, y))
        out.append('<text x="%d" y="%.1f" text-anchor="end">%g</text>' % (left - 6, y + 4, round(mark, 9)))
    whole = int(x1) - int(x0)
    for x in range(int(x0), int(x1) + 1, 1 if whole <= 12 else 5 if whole > 24 else 2):
        px, py = at(x, 0)
        out.append('<text x="%.1f" y="%.1f" text-anchor="middle">%d</text>' % (px, py + 18, x))
    out.append('<text x="%.1f" y="%d" text-anchor="middle">%s</text>' % ((left + width - right) / 2, height - 10, x_label))
    out.append('<text x="16" y="%.1f" text-anchor="middle" transform="rotate(-90 16 %.1f)">%s</text>' % (height / 2, height / 2, y_label))
    for i, (label, points) in enumerate(series):
        color = COLORS[i % len(COLORS)]
        dash = ' stroke-dasharray="5 4"' if label.startswith('twin') else ''
        out.append('<polyline fill="none" stroke="%s" stroke-width="2"%s points="%s"/>'
                   % (color, dash, ' '.join('%.1f,%.1f' % at(x, y) for x, y in points)))
        y = top + 20 * i + 10
        out.append('<line x1="%d" y1="%d" x2="%d" y2="%d" stroke="%s" stroke-width="2"%s/>' % (width - right + 12, y, width - right + 36, y, color, dash))
        out.append('<text x="%d" y="%d">%s</text>' % (width - right + 42, y + 4, label))
    out.append('</svg>')
    open(os.path.join(DOCS, name), 'w').write('\n'.join(out) + '\n')


def speed(seed, seconds):
    bench = os.path.join(HERE, 'bench.sh')
    fill('performance.md', 'cases', run(bench, 'cases', seed, seconds))
    rows = [line.split(',') for line in run(bench, 'growth', seed, seconds).splitlines()[1:]]
    data = {}
    for what, x, ours, twin in rows:
        data.setdefault(what, []).append((int(x), float(ours) / 1000, float(twin) / 1000))

    def pair(what, label):
        return [('library, ' + label, [(x, a) for x, a, _ in data[what]]), ('twin, ' + label, [(x, b) for x, _, b in data[what]])]
    plot('by-rows.svg', 'One call by the number of rows (2 steps, 2 refinements)', 'rows', 'microseconds',
         pair('judgement by rows', 'judgement') + pair('allowance by rows', 'allowance'))
    plot('by-steps.svg', 'One call by the retained steps (20 rows, 2 refinements)', 'steps', 'microseconds',
         pair('judgement by steps', 'judgement') + pair('allowance by steps', 'allowance'))
    plot('by-processors.svg', 'One admission by the processors (2 steps, 2 refinements)', 'processors', 'microseconds',
         pair('admission whole by processors', 'whole') + pair('admission without a place by processors', 'no place'))

    def table(first, columns, xs):
        lines = ['| %s | %s |' % (first, ' | '.join('%s, library | twin' % name for name, _ in columns)), '|---|' + '---|---|' * len(columns)]
        for x in xs:
            cells = []
            for _, what in columns:
                found = [(a, b) for y, a, b in data[what] if y == x]
                cells += ['%.3g' % n for n in found[0]] if found else ['', '']
            lines.append('| %d | %s |' % (x, ' | '.join(cells)))
        return '\n'.join(lines)
    fill('performance.md', 'rows', table('Rows', [('judgement', 'judgement by rows'), ('allowance', 'allowance by rows')], (2, 4, 8, 12, 16, 20, 24, 28, 31, 32)))
    fill('performance.md', 'steps', table('Steps', [('judgement', 'judgement by steps'), ('allowance', 'allowance by steps')], range(10)))
    fill('performance.md', 'processors', table('Processors', [('whole', 'admission whole by processors'), ('no place', 'admission without a place by processors')], range(1, 9)))


def tails(seed, count):
    rows = [line.split(',') for line in run(os.path.join(HERE, '../target/release/tails'), seed, count).splitlines()[1:]]

    def column(first):
        """Lists, mean, largest, share without loss, from that column on."""
        return {(float(r[0]), int(r[1]), int(r[2])): (int(r[first]),) + tuple(float(x) for x in r[first + 1:first + 4]) for r in rows}
    processor, of_tail, taken = column(3), column(7), column(11)
    betas = sorted({key[0] for key in processor})

    def grid(what, number, over):
        lines = ['| Steps | %s |' % ' | '.join('%d refinement%s' % (r, '' if r == 1 else 's') for r in range(6)), '|---|' + '---|' * 6]
        for n in range(6):
            cells = ['%.1f %%' % (100 * over(what[b, n, r][number] for b in betas)) for r in range(6)]
            lines.append('| %d | %s |' % (n, ' | '.join(cells)))
        return '\n'.join(lines)

    def mean(values):
        values = list(values)
        return sum(values) / len(values)
    fill('tail-sizes.md', 'seed', 'Seed %s, %s lists for each tightness.' % (seed, format(int(count), ',')))
    fill('tail-sizes.md', 'mean', grid(processor, 1, mean))
    fill('tail-sizes.md', 'largest', grid(processor, 2, max))
    fill('tail-sizes.md', 'of-tail', grid(of_tail, 1, mean))
    lines = ['| Tightness | 0 and 0 | 1 and 1 | 2 and 2 | 3 and 3 | 5 and 5 | 2 and 2, largest | 2 and 2, nothing lost | 2 and 2, lists that the judge takes |', '|---|' + '---|' * 8]
    for b in betas:
        cells = ['%.1f %%' % (100 * processor[b, n, n][1]) for n in (0, 1, 2, 3, 5)]
        cells += ['%.0f %%' % (100 * processor[b, 2, 2][2]), '%.0f %% of the lists' % (100 * processor[b, 2, 2][3]), '%.1f %%' % (100 * taken[b, 2, 2][1])]
        lines.append('| %g | %s |' % (b, ' | '.join(cells)))
    fill('tail-sizes.md', 'tightness', '\n'.join(lines))
    plot('tail-loss.svg', 'Mean loss of the allowance', 'retained steps', 'per cent of a processor',
         [('%d refinement%s' % (r, '' if r == 1 else 's'), [(n, 100 * mean(processor[b, n, r][1] for b in betas)) for n in range(6)]) for r in (0, 1, 2, 5)])


def main():
    args = sys.argv[1:]
    if args[:1] == ['speed'] and len(args) <= 3:
        speed(*(args[1:] + ['1', '0.5'][len(args) - 1:]))
    elif args[:1] == ['tails'] and len(args) == 3:
        tails(args[1], args[2])
    else:
        raise SystemExit(__doc__)


if __name__ == '__main__':
    main()
