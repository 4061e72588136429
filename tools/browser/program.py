"""What the program `fleet` prints for the cases: pages and pictures byte for byte, and refusals."""
import pathlib
import subprocess

from page_text import page_of
from picture import picture

CASES = pathlib.Path(__file__).resolve().parent / 'cases'


def compare_program(case, fleet):
    """The program prints the page and the pictures byte for byte."""
    folder = CASES / case.name
    files = [str(folder / 'map'), *map(str, sorted(folder.glob('*.trace')))]
    wanted = {
        (): page_of(case.rows, case.verdicts, case.texts),
        ('--svg',): picture(case.rows, case.texts),
        ('--tick', '7'): picture(case.rows, case.texts, 7),
        ('--tick', '4294967295'): picture(case.rows, case.texts, 4294967295),
    }
    for words, text in wanted.items():
        said = subprocess.run([fleet, 'view', *words, *files], capture_output=True)
        case.compared += 1
        if said.returncode != 0 or said.stdout != text.encode():
            case.fault(f'the program prints another text for {" ".join(words) or "no flag"} (status {said.returncode})')


def compare_refusals(fleet, folder):
    """Traces with a cell that the map does not have are refused, whatever is to be shown."""
    said = []
    map_path = CASES / 'illegal_wall' / 'map'
    good = (CASES / 'illegal_wall' / '0.trace').read_text()
    off = [('"robots":[[3,', '"robots":[[9,'), ('"tick",[4,8]', '"tick",[4,9]'), ('false,null,[]', 'false,0,[[0,1,9]]')]
    for old, new in off:
        path = pathlib.Path(folder) / 'off.trace'
        path.write_text(good.replace(old, new, 1))
        for words in ([], ['--svg'], ['--tick', '1']):
            answer = subprocess.run([fleet, 'view', *words, str(map_path), str(path)], capture_output=True)
            if (answer.returncode, answer.stdout, answer.stderr) != (6, b'', b'fleet: off-map 1\n'):
                said.append(f'off the map by {new}, {words}: status {answer.returncode}, {answer.stderr!r}')
    return said
