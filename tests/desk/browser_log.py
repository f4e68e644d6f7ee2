"""The part Log in a browser: what is counted, listed and saved of a log, held to the proved programs, and how long it takes."""
import os
import random
import re
import time

from programs import TOP, written

SAMPLES = ['cblist', 'cbtext', 'cbcheck']
ROWS = """
const rows = document.querySelectorAll('#log-rows tbody tr');
return Array.from(rows, (row) => Array.from(row.children, (cell) => cell.textContent));
"""
# Measures how long the page stands still.
WATCH = """
window.gap = 0;
let last = performance.now();
setInterval(() => {
    window.gap = Math.max(window.gap, performance.now() - last);
    last = performance.now();
}, 5);
"""


def sample(name):
    """The log that a program is shown with."""
    with open(os.path.join(TOP, 'crates', name, 'stdin'), 'rb') as file:
        return file.read()


def start(page):
    """The part, in a window that has room for some rows."""
    page.size(1280, 1200)
    page.wait(lambda: page.all('#tabs [aria-selected=true]'), 'the desk')
    page.click('#tab-log')


def take(page, name, octets, seconds=10):
    """Has a log taken in."""
    start(page)
    page.choose('#log-file', name, octets)
    page.wait(lambda: page.text('#log-name') == name and not page.find('#log-going').is_displayed(), f'{name}', seconds)


def listed(page, rows=None):
    """The rows in sight, and their cells; of so many if it is told."""
    if rows is not None:
        page.wait(lambda: len(page.run(ROWS)) == rows, f'{rows} rows')
    return page.run(ROWS)


def show(page, view):
    """Goes over to a view."""
    page.click(f'#log-views input[value={view}]')
    page.wait(lambda: listed(page) or '(0)' in page.text('#log-title'), f'the rows of {view}')


def chosen(page):
    """The first cell of the row that is chosen."""
    return page.run("return document.querySelector('#log-rows tr[aria-selected=true]')?.cells[0].textContent ?? ''")


def counts(page):
    """The answers that are counted, where there are any."""
    rows = page.run("return Array.from(document.querySelectorAll('#log-answers tr'), (row) => row.innerText)")
    cells = [row.split('\t') for row in rows]
    return {row[0].strip(): int(row[-1].replace(',', '')) for row in cells if row[-1] != '0'}


def saved(page, name, want):
    """A list as it is saved."""
    page.click(f'#log-save-{want}')
    return page.download(f'{name}.{want}.txt')


def hold(page, name, octets):
    """Takes a log in, and holds what is counted and saved to the programs."""
    take(page, name, octets)
    pieces = written('cblist', octets)
    assert saved(page, name, 'pieces') == pieces
    assert saved(page, name, 'pages') == written('cbtext', octets)
    answers = [line.split()[1] for line in pieces.decode().splitlines()[1:]]
    assert counts(page) == {'all': len(answers), **{answer: answers.count(answer) for answer in set(answers)}}


def block(kind, content):
    """A block of a type and some content, filled up."""
    return bytes([kind]) + content.ljust(22, b'+')


def page_blocks(numbers, serial, identifier, parameter, blocks):
    """The blocks of a page with random content: so many, the last of them marked."""
    header = serial.to_bytes(2, 'big') + identifier.to_bytes(2, 'big') + bytes([numbers.choice([0, 1, 15, 16, 72]), parameter])
    message = header + numbers.randbytes(22 * blocks - 6)
    types = [0x20 + place for place in range(blocks - 1)] + [0x30 + blocks - 1]
    return b''.join(block(kind, message[22 * place:22 * place + 22]) for place, kind in enumerate(types))


def mixed_log(octets, seed=1):
    """A log of at least so many octets: pages, messages of several pages, schedules, and blocks that are refused."""
    numbers = random.Random(seed)
    schedules = [sample('cbcheck')[start:start + 92] for start in range(0, 1104, 92)]
    log = []
    size = 0
    while size < octets:
        kind = numbers.randrange(10)
        if kind < 5:
            made = page_blocks(numbers, numbers.randrange(65536), numbers.randrange(65536), 0x11, numbers.randrange(1, 5))
        elif kind < 7:
            serial, identifier, total = numbers.randrange(65536), numbers.randrange(65536), numbers.randrange(2, 6)
            order = numbers.sample(range(1, total + 1), total)
            made = b''.join(page_blocks(numbers, serial, identifier, page * 16 + total, numbers.randrange(1, 5))
                            for page in order)
        elif kind < 8:
            made = numbers.choice(schedules)
        else:
            made = numbers.choice([block(0x2F, b''), block(0x24, b''), block(0x68, b''), block(0x32, b'x'), block(0x20, b'x')])
        log.append(made)
        size += len(made)
    return b''.join(log) + block(0x30, b'end')


def test_samples_are_listed_as_the_programs_list_them(page):
    for name in SAMPLES:
        hold(page, f'{name}.log', sample(name))


def test_one_octet_and_tails(page):
    hold(page, 'one', b'\x20')
    hold(page, 'tail', sample('cblist') + b'\x30' * 22)
    hold(page, 'whole', sample('cblist'))


def test_random_octets(page):
    numbers = random.Random(7)
    hold(page, 'random', numbers.randbytes(1_000_000))
    assert page.text('#log-summary').startswith('1,000,000 octets, 43,479 pieces, taken in within ')


def test_a_mixed_log_over_several_slices(page):
    hold(page, 'mixed', mixed_log(7_000_000))


def test_the_views_of_a_sample(page):
    take(page, 'cbtext.log', sample('cbtext'))
    rows = listed(page, 16)
    assert rows[0] == ['1', '24' + ' 00' * 22, '4', 'the block\'s sequence code is reserved']
    assert rows[15] == ['16', '20 01 02 03 04', '2', 'the piece is not 23 octets long']
    show(page, 'pages')
    assert [' '.join(row) for row in listed(page, 4)] == written('cbtext', sample('cbtext')).decode().splitlines()
    page.press('#log-rows', 'END')
    page.wait(lambda: 'piece 15' in page.text('#log-details'), 'the details')
    assert 'Ça va? ¡Mañana!\\nΩ-gate [7]: 5€\\r\\nover C:\\\\here ΔΦ ß' in page.text('#log-details')
    assert 'page 2 of 3; 66 octets received, in pieces 13 to 15' in page.text('#log-details')
    assert 'isn\'t whole' in page.text('#log-details')
    page.click('#log-details button')
    page.wait(lambda: page.text('#log-title') == 'Pieces (16)' and chosen(page) == '15', 'piece 15')


def test_schedules_and_their_slots(page):
    take(page, 'cbcheck.log', sample('cbcheck'))
    show(page, 'schedules')
    rows = listed(page, 10)
    assert rows[0] == ['1', '1', '5', '5 slots told, 3 of them new']
    assert rows[4] == ['21', '', '', 'Refused by 24: a repeat names no first transmission before it.']
    assert [row[0] for row in rows] == [line.split()[0] for line in written_schedules()]
    page.wait(lambda: page.all('#log-details table'), 'the slots')
    slots = page.run("return Array.from(document.querySelectorAll('#log-details tbody tr'), (row) => row.innerText)")
    assert [slot.split('\t') for slot in slots] == [['1', 'new', 'first transmission of 1111'], ['2', 'new', 'advised'],
                                                     ['3', '', 'first transmission of 2222'], ['4', 'new', 'repeat of slot 1'],
                                                     ['5', '', 'optional']]


def written_schedules():
    """The lines of cblist for schedule messages."""
    return [line for line in written('cblist', sample('cbcheck')).decode().splitlines() if line.split()[1] == '7']


def test_messages_of_several_pages(page):
    numbers = random.Random(3)
    pages = {place: page_blocks(numbers, 0x1234, 0x32, place * 16 + 3, 1) for place in (1, 2, 3)}
    other = page_blocks(numbers, 0x1235, 0x32, 0x12, 2)
    whole = pages[2] + pages[3] + pages[2] + pages[1]
    over = page_blocks(numbers, 0x1235, 0x32, 0x32, 1)
    take(page, 'messages', whole + other + whole + pages[3] + over + pages[1] + pages[2])
    assert '(3)' in page.text('#log-views label:nth-of-type(3)')
    show(page, 'messages')
    assert [row[:4] for row in listed(page, 3)] == [[piece, '1234', '0032', '3'] for piece in ('4', '10', '14')]
    texts = [line.split(' ', 5)[5] for line in written('cbtext', pages[1] + pages[2] + pages[3]).decode().splitlines()]
    page.wait(lambda: len(page.all('#log-details li')) == 3, 'its pages')
    assert page.run("return Array.from(document.querySelectorAll('#log-details li'), (item) => item.textContent)") == texts
    show(page, 'pages')
    for row, said in [(0, 'isn\'t whole'), (3, 'With it the message is whole'),
                      (10, 'Refused by 50: the page\'s number is over its total.')]:
        # Rows are laid out anew when one is chosen.
        page.wait(lambda: page.click(f'#log-rows tr[data-index="{row}"] td') or True, 'the row')
        page.wait(lambda: said in page.text('#log-details'), said)


def test_messages_are_put_together_again_behind_a_copy_of_the_collector(page):
    numbers = random.Random(5)
    first, second = (page_blocks(numbers, 1, 2, place * 16 + 2, 1) for place in (1, 2))
    take(page, 'copies', first + first * 3000 + second)
    show(page, 'messages')
    page.wait(lambda: len(page.all('#log-details li')) == 2, 'its pages')
    texts = [line.split(' ', 5)[5] for line in written('cbtext', first + second).decode().splitlines()]
    assert page.run("return Array.from(document.querySelectorAll('#log-details li'), (item) => item.textContent)") == texts


def test_pieces_of_one_answer(page):
    take(page, 'cbtext.log', sample('cbtext'))
    page.click('#log-answers input[value="1"]')
    assert [row[0] for row in listed(page, 6)] == ['2', '3', '4', '7', '13', '14']
    assert page.text('#log-title') == 'Pieces answered by 1 (6)'
    page.fill('#log-piece', '5')
    page.press('#log-piece', 'ENTER')
    page.wait(lambda: chosen(page) == '7', 'the next one')
    page.fill('#log-piece', '15')
    page.press('#log-piece', 'ENTER')
    page.wait(lambda: page.text('#status') == 'Nothing is listed from piece 15 on.', 'the sentence')
    for bad in ['0', '17', 'x', '']:
        page.fill('#log-piece', bad)
        page.press('#log-piece', 'ENTER')
        page.wait(lambda: page.text('#status') == 'The pieces are numbered 1 to 16.', 'the sentence')
    page.click('#log-answers input[value=all]')
    listed(page, 16)


def test_what_cannot_be_taken_leaves_what_was_there(page):
    start(page)
    page.choose('#log-file', 'empty', b'')
    page.wait(lambda: page.text('#log-said') == 'empty has no octets: it is empty, a folder, or gone.', 'the sentence')
    assert not page.find('#log-there').is_displayed()
    take(page, 'cblist.log', sample('cblist'))
    assert page.text('#log-said') == ''
    page.choose('#log-file', 'empty', b'')
    page.wait(lambda: 'cblist.log is still shown.' in page.text('#log-said'), 'the sentence')
    assert len(listed(page)) == 6 and page.text('#log-name') == 'cblist.log'


def test_a_file_that_is_cut_while_it_is_gone_through(page):
    take(page, 'cblist.log', sample('cblist'))
    path = page.path('cut.log', b'')
    os.truncate(path, 2_000_000_000)  # zeros that take no room on the disk
    page.find('#log-file').send_keys(path)
    page.wait(lambda: re.match('cut.log: [1-9]', page.text('#log-at')), 'the progress')
    os.truncate(path, 1000)
    page.wait(lambda: 'cut.log can\'t be gone through to its end' in page.text('#log-said'), 'the sentence')
    assert 'cblist.log is still shown.' in page.text('#log-said') and len(listed(page)) == 6
    assert not page.find('#log-going').is_displayed()


def test_a_file_that_vanishes_behind_its_list(page):
    path = page.path('later.log', mixed_log(3_000_000))
    start(page)
    page.find('#log-file').send_keys(path)
    page.wait(lambda: page.text('#log-name') == 'later.log', 'later.log')
    os.remove(path)
    page.press('#log-rows', 'END')
    page.wait(lambda: 'later.log can\'t be read any more' in page.text('#log-said'), 'the sentence')
    page.click('#log-save-pages')
    page.wait(lambda: re.search('can\'t be gone through|no octets', page.text('#log-said')), 'the sentence')
    assert page.text('#log-name') == 'later.log'


def test_a_folder(page):
    if page.browser != 'chromium':
        return
    take(page, 'cblist.log', sample('cblist'))
    box = page.run("const at = document.getElementById('log-drop').getBoundingClientRect(); return [at.x + 5, at.y + 5]")
    data = {'items': [], 'files': [page.folder], 'dragOperationsMask': 1}
    for kind in ['dragEnter', 'dragOver', 'drop']:
        page.driver.execute_cdp_cmd('Input.dispatchDragEvent', {'type': kind, 'x': box[0], 'y': box[1], 'data': data})
    page.wait(lambda: 'folder' in page.text('#log-said'), 'the sentence')
    assert 'cblist.log is still shown.' in page.text('#log-said')


def big_log(page, part, times):
    """A log of a hundred megabytes and more, one part many times over."""
    path = os.path.join(page.folder, 'big.log')
    with open(path, 'wb') as file:
        for _ in range(times):
            file.write(part)
    return path


def test_a_hundred_megabytes(page):
    part = mixed_log(1_000_000)
    times = 100_000_000 // len(part) + 1
    path = big_log(page, part, times)
    start(page)
    page.run(WATCH)
    idle = least_gap(page, lambda: time.sleep(2))
    gap = least_gap(page, lambda: take_big(page, path))
    seconds = float(re.search(r'within ([\d.]+) s', page.text('#log-summary')).group(1))
    print(f'tests/desk: {page.browser}: log: {os.path.getsize(path):,} octets in {seconds:.2f} s; the page stood still for '
          f'{gap:.0f} ms at most, and for {idle:.0f} ms with nothing to do')
    answers = [line.split()[1] for line in written('cblist', part).decode().splitlines()[1:]]
    pieces = len(answers) * times
    assert counts(page) == {'all': pieces, **{answer: answers.count(answer) * times for answer in set(answers)}}
    assert seconds < 12 and gap < 200, (seconds, gap)
    gap = least_gap(page, lambda: look_through_millions(page, pieces))
    print(f'tests/desk: {page.browser}: log: going about in {pieces:,} rows, the page stood still for {gap:.0f} ms at most')
    assert gap < 200, gap
    cancel(page, path)
    os.remove(path)


def least_gap(page, use):
    """The longest that the page stands still while it is used: a busy machine makes it longer, so the best of three counts."""
    gaps = []
    while len(gaps) < 3 and min(gaps, default=200) >= 200:
        page.run('window.gap = 0')
        use()
        gaps.append(page.run('return window.gap'))
    return min(gaps)


def take_big(page, path):
    """Has the log taken in, after another."""
    take(page, 'cblist.log', sample('cblist'))
    page.find('#log-file').send_keys(path)
    page.wait(lambda: page.text('#log-name') == 'big.log', 'big.log taken in', 60)


def look_through_millions(page, pieces):
    """Rows at the end and in the middle, by keys, by the scroll bar, by the wheel and by number."""
    page.click('#log-answers input[value=all]')
    page.press('#log-rows', 'END')
    page.wait(lambda: chosen(page) == f'{pieces:,}', 'the last row')
    page.press(None, 'PAGE_UP', 'ARROW_UP')
    page.wait(lambda: chosen(page) not in ('', f'{pieces:,}'), 'a row before it')
    page.press(None, 'HOME')
    page.wait(lambda: chosen(page) == '1', 'the first row')
    page.fill('#log-piece', '1,234,567')
    page.press('#log-piece', 'ENTER')
    page.wait(lambda: chosen(page) == '1,234,567', 'the row of a piece')
    page.press('#log-rows', 'ARROW_DOWN')
    page.wait(lambda: chosen(page) == '1,234,568', 'the next row')
    top = int(listed(page)[0][0].replace(',', ''))
    page.run("document.getElementById('log-rows').dispatchEvent("
             "new WheelEvent('wheel', { deltaY: 3, deltaMode: 1, cancelable: true }))")
    page.wait(lambda: int(listed(page)[0][0].replace(',', '')) == top + 3, 'three rows on')
    page.run("const box = document.getElementById('log-rows'); box.scrollTop = box.scrollHeight / 2")
    page.wait(lambda: abs(int(listed(page)[0][0].replace(',', '')) / pieces - 0.5) < 0.01, 'the rows in the middle')
    page.run("const box = document.getElementById('log-rows'); box.scrollTop = box.scrollHeight")
    page.wait(lambda: listed(page)[-1][0] == f'{pieces:,}', 'the last rows')
    for view in ['pages', 'messages', 'schedules']:
        show(page, view)
        page.press('#log-rows', 'END')
        page.wait(lambda: chosen(page) != '' and page.text('#log-details') != '', f'the last of {view}')
    page.click('#log-answers input[value="1"]')
    page.wait(lambda: listed(page), 'the rows of an answer')


def cancel(page, path):
    """A log that is cancelled leaves the one before it."""
    take(page, 'cblist.log', sample('cblist'))
    page.find('#log-file').send_keys(path)
    page.wait(lambda: page.find('#log-going').is_displayed(), 'the progress')
    page.run("document.getElementById('log-stop').click()")
    assert not page.find('#log-going').is_displayed() and page.text('#log-name') == 'cblist.log'
    time.sleep(0.3)
    assert page.text('#log-name') == 'cblist.log' and len(listed(page)) == 6


def test_nothing_is_lost_on_a_narrow_page(page):
    take(page, 'cbtext.log', sample('cbtext'))
    page.size(360, 800)
    for view in ['pieces', 'pages', 'schedules']:
        show(page, view)
        assert page.run('return document.documentElement.scrollWidth <= innerWidth'), view
