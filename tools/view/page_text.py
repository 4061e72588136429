"""The page's texts, put together from page.html, page.css and the parts of the script, and cut where the map, the
verdicts and the traces stand."""
import pathlib

HERE = pathlib.Path(__file__).resolve().parent
# in this order: a part may use what is defined before it as soon as it is read
PARTS = [
    'read', 'graph', 'roomy', 'fault', 'changes', 'replay', 'turns', 'bound', 'colours', 'place', 'floor', 'heat', 'ground', 'arrows', 'draw', 'charts',
    'events', 'list', 'marks', 'time', 'address', 'state', 'input', 'placed', 'logs', 'runs', 'stamps', 'runs_view', 'runs_page', 'runs_input', 'start',
]


def script():
    return '\n'.join((HERE / 'script' / f'{part}.js').read_text() for part in PARTS)


def pieces():
    """The page up to the map, and what stands before the verdicts, before the traces and after them."""
    page = (HERE / 'page.html').read_text()
    page = page.replace('{{css}}', (HERE / 'page.css').read_text()).replace('{{script}}', script())
    head, rest = page.split('{{map}}')
    verdicts, rest = rest.split('{{verdicts}}')
    return [head, verdicts, *rest.split('{{traces}}')]


def page_of(rows, verdicts, texts):
    """The page of a map's rows, of a verdict for each trace, and of the texts of the traces."""
    lines = lambda items: ''.join(f'{item}\n' for item in items)
    head, before_verdicts, before_traces, tail = pieces()
    return head + lines(rows) + before_verdicts + lines(verdicts) + before_traces + lines(texts) + tail


def page_of_runs(rows, runs):
    """The page of a map's rows and of the texts of runs."""
    head, before_verdicts, before_traces, tail = pieces()
    return head + ''.join(f'{row}\n' for row in rows) + before_verdicts + before_traces + ''.join(runs) + tail
