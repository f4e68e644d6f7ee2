"""The part Check in a browser: logs beside what cbcheck prints, a message for each rule of truth, and files that are none."""
import base64
import os
import random
import subprocess

TOP = os.path.dirname(os.path.dirname(os.path.dirname(os.path.abspath(__file__))))
SAMPLE = os.path.join(TOP, 'crates/cbcheck')
PROGRAM = os.path.join(TOP, 'target/bin/cbcheck')
ADVISED, OPTIONAL = 0x41, 0x40
LISTED = {
    1: 'no first transmission of its page, nor advised', 2: 'no repeat of its first slot, nor advised or optional',
    3: 'planned optional, but not told as optional', 4: 'planned advised, but not told as advised', 5: 'its new bit is wrong',
}
RULES = {
    1: 'the first slot of a page has to be told as its first transmission, or as advised',
    2: 'a later slot of a page has to be told as a repeat of its first slot, or as advised or optional',
    3: 'a slot planned as optional has to be told as optional',
    4: 'a slot planned as advised has to be told as advised',
    5: 'the mark new is wrong: advised has it, optional lacks it, and a first transmission or a repeat has it exactly if the '
       'previous plan lacks the page',
}
ROWS = """
return [...document.querySelectorAll('#check-rows tr')].map((row) => [...row.children].map((cell) => cell.textContent));
"""
SLOTS = """
return [...document.querySelectorAll('#check-told tr')].map((row) => [...row.children].map((cell) => cell.textContent));
"""
GAPS = """
window.longest = 0;
let last = performance.now();
setInterval(() => { const now = performance.now(); window.longest = Math.max(window.longest, now - last); last = now; }, 5);
"""


def read(*path):
    """The octets of a file of the sample."""
    with open(os.path.join(SAMPLE, *path), 'rb') as file:
        return file.read()


def plan(*entries):
    """A plan file."""
    return b'CBP\0\1' + bytes([len(entries)]) + b''.join(entries)


def sent(serial, identifier, parameter=0x11):
    """The entry of a page."""
    return bytes([2]) + serial.to_bytes(2, 'big') + identifier.to_bytes(2, 'big') + bytes([parameter])


def message(*told, begin=1):
    """A schedule message: of each slot what is told, an octet or the 16 bits of a first transmission, and its new bit."""
    bits = sum(1 << 47 - place for place, (_, new) in enumerate(told) if new)
    octets = bytes([begin, len(told)]) + bits.to_bytes(6, 'big')
    for group in (True, False):
        for code, new in told:
            if bool(new) == group:
                octets += code.to_bytes(2 if code >= 0x8000 else 1, 'big')
    return octets.ljust(88, b'\x2b')


def blocks(octets, used=88):
    """The blocks of a schedule message up to its last used one."""
    last = (used - 1) // 22
    types = [0x20 | 0x10 * (place == last) | (place or 8) for place in range(last + 1)]
    return b''.join(bytes([kind]) + octets[22 * place:22 * place + 22] for place, kind in enumerate(types))


FIVE, BEFORE = read('data', 'five.plan'), read('data', 'before.plan')
TRUE = [(0x9111, 1), (ADVISED, 1), (0xA222, 0), (1, 1), (OPTIONAL, 0)]


def address(current=FIVE, previous=BEFORE):
    """The address of Check beside two plans."""
    plans = [base64.urlsafe_b64encode(octets).decode().rstrip('=') for octets in (current, previous)]
    return '#part=check&current={}&previous={}'.format(*plans)


def start(page, *plans):
    """Opens Check beside two plans."""
    page.open(address(*plans))
    page.wait(lambda: page.find('#check-drop').is_displayed(), 'the part')


def take(page, name, octets, summary=''):
    """Drops a file, and waits until its schedules are checked."""
    page.run('document.querySelector("#check-summary").textContent = ""')
    page.drop('#check-drop', name, octets)
    page.wait(lambda: summary in page.text('#check-summary') and page.text('#check-summary') != '', f'{name} checked', 60)


def lines(page):
    """The list as cbcheck prints it: block, number, slot, words."""
    while page.find('#check-more').is_displayed():
        page.click('#check-more')
    return [(block, number, slot or '0', words[2:]) for block, _, number, slot, words in page.run(ROWS)]


def printed(current, previous, log, folder):
    """What cbcheck prints of a log, and nothing where it isn't built or can't be run."""
    paths = [os.path.join(folder, name) for name in ('current', 'previous', 'log')]
    for path, octets in zip(paths, (current, previous, log)):
        with open(path, 'wb') as file:
            file.write(octets)
    try:
        return subprocess.run([PROGRAM] + paths, stdout=subprocess.PIPE, check=True).stdout.decode()
    except OSError:
        return None


def same(shown, text):
    """Holds the list to lines of cbcheck, whose words begin with the slot where there is one."""
    expected = [tuple(line.split(' ', 3)) for line in text.splitlines()]
    assert [line[:3] for line in shown] == [line[:3] for line in expected], (shown, expected)
    for (_, _, slot, words), (_, _, _, other) in zip(shown, expected):
        assert (words if slot == '0' else f'slot {slot}: {words}') == other, (words, other)


def test_sample_log_as_cbcheck(page):
    start(page)
    take(page, 'sample.log', os.path.join(SAMPLE, 'stdin'), '10 schedules: 1 true, 9 not')
    shown = lines(page)
    same(shown, read('stdout').decode())
    text = printed(FIVE, BEFORE, read('stdin'), page.folder)
    if text is not None:
        same(shown, text)
    assert page.text('#status') == '10 schedules: 1 true, 9 not'
    # the first that isn't true is chosen
    assert page.text('#check-title') == 'The schedule that block 9 completes'
    assert 'not told as planned: 4.' in page.text('#check-words')
    page.click('#check-rows tr:nth-child(4) td:last-child')
    assert page.text('#check-title') == 'The schedule that block 17 completes'
    assert page.text('#check-words').endswith('not told as planned: 3.')


def test_other_logs_as_cbcheck(page):
    draw = random.Random(8)
    for _ in range(3):
        entries = [draw.choice([bytes(6), b'\1' + bytes(5), sent(draw.randrange(3), draw.randrange(2) * 0x8000 + 7,
                   draw.choice([0x11, 0x00, 0x12]))]) for _ in range(draw.randrange(1, 12))]
        current, previous = plan(*entries), plan(*draw.sample(entries, draw.randrange(len(entries))))
        log = b''
        for _ in range(150):
            told = [(draw.choice([0x8007, ADVISED, OPTIONAL, draw.randrange(1, 4)]), draw.randrange(2)) for _ in entries]
            octets = bytearray(message(*told[:draw.choice([len(told), len(told), draw.randrange(1, len(told) + 1)])]))
            if draw.randrange(4) == 0:
                octets[draw.randrange(20)] ^= 1 << draw.randrange(8)
            log += blocks(octets, draw.choice([22, 44, 88])) + draw.choice([b'', b'', b'\x2f' * 23])
        text = printed(current, previous, log, page.folder)
        if text is None:
            return
        start(page, current, previous)
        take(page, 'drawn.log', log, '150 schedules')
        same(lines(page), text)


def test_a_message_for_each_rule(page):
    untrue = {
        1: (3, [(0x9111, 1), (ADVISED, 1), (0xA223, 0), (1, 1), (OPTIONAL, 0)], 'first transmission of 2223, not new'),
        2: (4, [(0x9111, 1), (ADVISED, 1), (0xA222, 0), (3, 1), (OPTIONAL, 0)], 'repeat of slot 3, new'),
        3: (5, [(0x9111, 1), (ADVISED, 1), (0xA222, 0), (1, 1), (ADVISED, 1)], 'advised, new'),
        4: (2, [(0x9111, 1), (OPTIONAL, 0), (0xA222, 0), (1, 1), (OPTIONAL, 0)], 'optional, not new'),
        5: (1, [(0x9111, 0), (ADVISED, 1), (0xA222, 0), (1, 1), (OPTIONAL, 0)], 'first transmission of 1111, not new'),
    }
    planned = ['0010 1111 page 1 of 1', 'advised', '0020 2222 page 1 of 1', '0010 1111 page 1 of 1', 'optional']
    ours = ['first transmission of 1111, new', 'advised, new', 'first transmission of 2222, not new', 'repeat of slot 1, new',
            'optional, not new']
    start(page)
    for rule, (slot, told, words) in untrue.items():
        take(page, f'rule{rule}.msg', message(*told), '1 schedule: 0 true, 1 not')
        (row,) = page.run(ROWS)
        assert row == ['alone', '88', '40', str(slot), f'✗ {LISTED[rule]}'], row
        for place, cells in enumerate(page.run(SLOTS), 1):
            assert cells[:2] == [str(place), planned[place - 1]], cells
            if place == slot:
                assert cells[2:] == [words, ours[place - 1], f'✗ {RULES[rule]}'], cells
            else:
                assert cells[2:] == [ours[place - 1], 'the same', '✓ true'], cells
        page.click('#check-untrue')
        assert [cells[0] for cells in page.run(SLOTS)] == [str(slot)]
        page.click('#check-untrue')
    take(page, 'true.msg', message(*TRUE), '1 schedule: 1 true, 0 not')
    assert [cells[4] for cells in page.run(SLOTS)] == ['✓ true'] * 5
    assert 'Slots 6 to 48 are not part of it.' in page.text('#check-past')


def test_several_untrue_slots(page):
    start(page)
    take(page, 'two.msg', message((0x9111, 0), (ADVISED, 1), (0xA222, 0), (3, 1), (OPTIONAL, 0)), '0 true')
    assert page.text('#check-words').endswith('of its 5 slots these are not told as planned: 1, 4.')
    assert [cells[4][0] for cells in page.run(SLOTS)] == ['✗', '✓', '✓', '✗', '✓']


def test_what_is_told_without_verdicts(page):
    start(page)
    take(page, 'four.msg', message(*TRUE[:4]), '0 true')
    assert 'Refused by 40' in page.text('#check-words') and 'End is 4, and the plan has 5 slots.' in page.text('#check-words')
    told = page.run(SLOTS)
    assert [cells[4] for cells in told] == ['not judged'] * 5 and told[4][2] == 'not told', told
    take(page, 'broken.msg', message((0x9111, 1), (2, 1)), '0 true')
    assert 'Refused by 24' in page.text('#check-words') and not page.find('#check-slots').is_displayed()


def test_a_plan_that_our_writer_refuses(page):
    start(page, plan(*[sent(serial, 0x32) for serial in range(41)]), plan())
    take(page, 'advised.msg', message(*[(ADVISED, 1)] * 41), '1 schedule: 1 true, 0 not')
    assert 'Our writer does not write this plan. Refused by 34: ' in page.text('#check-past')
    assert all(cells[2:] == ['advised, new', '', '✓ true'] for cells in page.run(SLOTS))


def test_plans_that_are_refused(page):
    bad = FIVE[:18] + b'\x09' + FIVE[19:]
    for plans, words in [((bad, BEFORE), 'Refused by 36: the current plan: entry 3: '),
                         ((FIVE, plan(bytes(6), b'\1\0\0\0\0\x11')), 'Refused by 37: the previous plan: entry 2: '),
                         ((plan(), BEFORE), 'Refused by 35: ')]:
        start(page, *plans)
        take(page, 'sample.log', os.path.join(SAMPLE, 'stdin'), f'10 schedules, not checked. {words}')
        assert all(line[1] == words.split(':')[0][-2:] for line in lines(page))
        planned, _, _, verdict = page.run(SLOTS)[0][1:]
        assert verdict == 'not judged'
        assert planned == {'36': 'the plan is refused', '37': '0010 1111 page 1 of 1', '35': 'not in the plan'}[words[11:13]]


def test_verdicts_follow_the_plans(page):
    start(page)
    take(page, 'true.msg', message(*TRUE), '1 true')
    page.run('location.hash = arguments[0]', address(FIVE, plan()))
    page.wait(lambda: page.text('#check-summary') == '1 schedule: 0 true, 1 not', 'the verdict beside the other plan')
    assert page.run(ROWS)[0][2:4] == ['40', '3']
    page.run('location.hash = arguments[0]', address())
    page.wait(lambda: page.text('#check-summary') == '1 schedule: 1 true, 0 not', 'the verdict beside the first')


def test_files_that_have_no_schedule(page):
    start(page)
    take(page, 'sample.log', os.path.join(SAMPLE, 'stdin'), '10 schedules')
    before = page.run(ROWS), page.run(SLOTS), page.text('#check-name')
    noise = bytes(octet & 0x9F for octet in random.Random(3).randbytes(5000))
    for name, octets, words in [
            ('empty', b'', 'empty is empty.'), ('one', b'\0', 'one has no schedule message in its 1 piece. Refused: 1 by 2 ('),
            ('zeros', bytes(10_000_000), 'in its 434,783 pieces. Refused: 434,782 by 3 ('),
            ('noise', noise, 'in its 218 pieces. Refused: 217 by 3 ('), ('five.plan', FIVE, 'Refused: 1 by 3 (')]:
        page.drop('#check-drop', name, octets)
        page.wait(lambda: words in page.text('#check-said') and not page.find('#check-going').is_displayed(), words, 60)
        assert words in page.text('#status')
        assert (page.run(ROWS), page.run(SLOTS), page.text('#check-name')) == before
    take(page, 'true.msg', message(*TRUE), '1 true')
    assert page.text('#check-said') == ''


def test_a_file_taken_the_other_way(page):
    start(page)
    wide = message(*[(0x8000 + n, 1) for n in range(16)])
    take(page, 'wide.msg', wide, '1 schedule')
    assert page.run(ROWS)[0][1:4] == ['88', '40', '0']
    for received, number in [('22', '23'), ('44', '40'), ('66', '40')]:
        page.find(f'#check-received option:nth-child({int(received) // 22})').click()
        page.wait(lambda: page.run(ROWS)[0][1:3] == [received, number], f'{received} octets')
    page.click('#check-as-log')
    page.wait(lambda: 'wide.msg has no schedule message in its 4 pieces' in page.text('#check-said'), 'no log')
    assert page.find('#check-as-message').is_selected() and page.run(ROWS)[0][1] == '66'
    take(page, 'sample.log', os.path.join(SAMPLE, 'stdin'), '10 schedules')
    page.click('#check-as-message')
    page.wait(lambda: 'Refused by 16: sample.log: ' in page.text('#check-said'), 'no message')
    assert page.find('#check-as-log').is_selected() and len(page.run(ROWS)) == 10
    log = blocks(message(*TRUE), 22) + bytes(65)
    assert len(log) == 88
    take(page, 'log.88', log, '1 schedule: 0 true')
    page.click('#check-as-log')
    page.wait(lambda: page.text('#check-summary') == '1 schedule: 1 true, 0 not', 'a log of 88 octets')
    assert page.run(ROWS)[0][:2] == ['1', '22']


def test_by_keyboard(page):
    start(page)
    page.choose('#check-file', 'sample.log', os.path.join(SAMPLE, 'stdin'))
    page.wait(lambda: '10 schedules' in page.text('#check-summary'), 'the log')
    page.press('#check-rows input:checked', 'ARROW_DOWN')
    assert page.text('#check-title') == 'The schedule that block 13 completes'
    page.press(None, 'ARROW_UP', 'ARROW_UP')
    assert page.text('#check-title') == 'The schedule that block 1 completes'
    assert page.text('#check-words') == 'True at each of its 5 slots.'
    page.press('#check-untrue', ' ')
    assert len(page.run(ROWS)) == 9
    assert page.run(SLOTS) == []


def test_long_logs_leave_the_page_alive(page):
    start(page)
    page.run(GAPS)
    log = blocks(message(*TRUE), 22) * 20_000
    page.drop('#check-drop', 'long.log', log)
    page.wait(lambda: page.text('#check-summary') == '20,000 schedules: 20,000 true, 0 not', 'the log', 60)
    assert len(page.run(ROWS)) == 100
    page.click('#check-more')
    assert len(page.run(ROWS)) == 200
    assert page.run('return document.activeElement.value') == '100'
    page.click('#check-untrue')
    assert page.find('#check-none').is_displayed()
    assert page.run('return window.longest') < 1000
    page.drop('#check-drop', 'longer.log', bytes(20_000_000))
    page.wait(lambda: page.find('#check-stop').is_displayed(), 'a way to stop')
    page.click('#check-stop')
    assert page.text('#check-said') == 'Stopped. What was there stays.'
    assert page.text('#check-name') == 'long.log is taken for'


def test_nothing_is_lost_where_it_is_narrow(page):
    start(page)
    take(page, 'sample.log', os.path.join(SAMPLE, 'stdin'), '10 schedules')
    page.fits('check')
